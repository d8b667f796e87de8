"""Trials of what the kit tells of a run: what its region read, its output, and what was sent."""
import re
import sys

from firmware_trial import is_compiler_there
from lying_trial import toolchains
from sample_files import EXAMPLES, read, write
from trial import ROOT
from where_trial import ELF, WHERE, Run, run_of

# A region that reads pins, metadata, variables outside that it may believe, some of which it wrote
# before. The script of examples/sensor has three requests, the second of which is denied.
FIRMWARE = rb"""#include "foldgneiss.h"
#include <stdbool.h>
enum state { IDLE, GIVEN = 5, STOPPED = -1 };
struct part { int8_t low; uint32_t big; };
static volatile uint16_t outside = 4;
FOREIGN static volatile uint16_t limits[3] = {7, 9, 11};
FOREIGN static volatile uint16_t runs, scratch;
OUTPUT static struct {
    uint16_t pins;
    enum state state;
    bool stopped;
    char name[6];
    uint16_t table[2][3];
    struct part parts[2];
    union { uint16_t word; uint8_t bytes[2]; } both;
    struct { unsigned a : 3; unsigned b : 7; int c : 5; unsigned long long d : 40; } flags;
    int64_t wide;
} given;
OUTPUT uint8_t last;
REGION void region(void) {
    scratch = 2;
    given.pins = P1IN; // pins
    last = limits[1] + scratch; // limits
    runs++; // runs
    given.state = COUNTER == 1 ? STOPPED : GIVEN; // counter
    given.stopped = true;
    given.name[0] = 'h';
    given.name[1] = 'i';
    given.table[0][1] = 1;
    given.table[1][2] = 60000;
    given.parts[0].low = -3;
    given.parts[1].big = 70000;
    given.both.word = 0x1234;
    given.flags.a = 5;
    given.flags.b = 100;
    given.flags.c = -7;
    given.flags.d = 0x123456789a;
    given.wide = -5000000000;
}
static uint8_t request[REQUEST_BYTES];
int main(void) {
    for (;;) {
        for (uint8_t *next = request; next < request + sizeof request; next++) {
            while (!(SSTAT & 1)) {
            }
            *next = SRXD;
        }
        outside = attest(request);
    }
}
"""
# What it read in each run, with the mark of the line.
READ = {"P1IN": "pins", "COUNTER": "counter", "limits": "limits", "runs": "runs"}
REMEDY = ("give each variable a value before it is read; use no other variable but one with the "
          "word FOREIGN, which the region may believe whatever stands there")
DATA = """\
    given = {pins = %d, state = %s, stopped = true, name = "hi", \
table = {{0, 1, 0}, {0, 0, 60000}}, parts = {{low = -3, big = 0}, {low = 0, big = 70000}}, \
both = {word = 4660, bytes = {52, 18}}, flags = {a = 5, b = 100, c = -7, d = 78187493530}, \
wide = -5000000000}
    last = 11
"""
STEPS = "20000"
PUMP_READ = {"P1IN", "SSTAT", "SRXD", "vector of TIMER", "vector of SERIAL", "return address"}
# Sent bytes, in lines of text and others.
SENT = {b"ok\nat 21\tC\n": "ok\nat 21\tC\n", b"\1\2\3": "01 02 03\n", b"": "nothing was sent\n",
        "grün\n".encode(): "grün\n", b"a\n\xff\xfe\nb": "a\nff fe\nb\n",
        b"\x1b[2J\n\n": "1b 5b 32 4a\n\n"}


def line_of(mark):
    """The line of the firmware with this mark."""
    lines = FIRMWARE.decode().split("\n")
    return 1 + next(at for at, line in enumerate(lines) if line.endswith(f"// {mark}"))


class Told:
    """What `where attested` says of a trace: each run with its steps, what it read, and lines of
    standard error.
    """

    def __init__(self, run, trace, *words):
        self.answer = run.trial.call("attested", *words, ELF, trace, command=WHERE, cwd=run.folder)
        text = self.answer.output.decode()
        self.steps = [(int(first), int(last)) for first, last in re.findall(
            r": the region read in steps (\d+) to (\d+)$", text, re.M)]
        self.read = {name: where for name, where in re.findall(
            r"^    (\S.*?) +[0-9a-f]{4}[0-9a-f.]* +(\S.*)$", text, re.M)}
        self.same = int((re.findall(r"that read the same: (\d+)$", text, re.M) or ["1"])[0])


def changed(run, step, old, new):
    """A trace with another text in the first line from this step on that has the old one."""
    lines = read(run.trace).split(b"\n")
    at = next(at for at in range(step, len(lines)) if old in lines[at])
    lines[at] = lines[at].replace(old, new, 1)
    return write(f"{run.folder}/changed.txt", b"\n".join(lines))


def symbols(run):
    """The places of the ELF's symbols."""
    text = run.trial.expect(0, "", f"{run.folder}/{ELF}", command=["llvm-nm"]).decode()
    return {name: int(place, 16) for place, _, name in map(str.split, text.splitlines())}


def read_word(place):
    return b" r%04x " % place


def runs_are_told(trial, run):
    """Each run tells pins, metadata and FOREIGN variables, what an earlier run wrote among them,
    and the last step's read; nothing of what it wrote itself.
    """
    told = Told(run, run.trace)
    wanted = {name: f"region  main.c:{line_of(mark)}" for name, mark in READ.items()}
    back = told.read.pop("return address", "")
    if (told.answer.ending != (0, "") or told.read != wanted or told.same != 3
            or not back.startswith("er_max  ")):
        trial.fault(f"attested: {told.answer.line} {told.answer.output.decode()}")
    return told


def strays_are_told(trial, run, told):
    """A read of what is not FOREIGN is an error with its line; of the last FOREIGN byte it is none,
    and of the first one behind it is one. A register is told where it was written too.
    """
    places, (first, last) = symbols(run), told.steps[0]
    limit = read_word(places["limits"] + 2)
    behind = places["foreign_end"]
    if Told(run, changed(run, first, limit, read_word(behind - 2))).answer.ending != (0, ""):
        trial.fault("attested: a read of the last FOREIGN word is an error")
    register = changed(run, first, b" w%04x=0000 " % places["or_min"], b" w0020=0000 ")
    if Told(run, register).same != 3:
        trial.fault("attested: pins that were written are not told")
    for name, place in (("outside", places["outside"]), ("", behind), ("a place", 0x8000),
                        ("a place", 0x0100)):
        answer = Told(run, changed(run, first, limit, read_word(place))).answer
        line = f"main.c:{line_of('limits')}: error: the region read {name}"
        if answer.status != 1 or not (answer.line.startswith(line)
                                      and answer.line.endswith(REMEDY)):
            trial.fault(f"attested: a read of {name} at {place:04x}: {answer}")


def runs_that_do_not_count(trial, run, told):
    """A run is not that of a call where metadata were written or a step was refused in between, or
    where the DMA was active in it.
    """
    first, last = told.steps[0]
    lines = read(run.trace).split(b"\n")
    for at, field, word in ((last + 1, 4, b"w0240=0000"), (last + 1, 4, b"c028f=00"),
                            (last + 1, 5, b"w0240=0000"), (last + 1, 16, b"X0"),
                            (first + 3, 5, b"r0400")):
        words = lines[at].split(b" ")
        words[field] = word
        trace = b"\n".join([*lines[:at], b" ".join(words), *lines[at + 1:]])
        answer = Told(run, write(f"{run.folder}/changed.txt", trace))
        if answer.same != 2 or answer.steps == told.steps:
            trial.fault(f"attested: {word} in step {at}: {answer.answer}")


def none_is_told(trial, run):
    """A trace without such a call is an error, unless there may be none; so is one of another
    region.
    """
    none = write(f"{run.folder}/short.txt", b"\n".join(read(run.trace).split(b"\n")[:99]) + b"\n")
    line = "where: no call of the attestation ROM had EXEC 1 or AUX 1"
    for words, ending in (((), (1, line)), (("--if-any",), (0, ""))):
        answer = Told(run, none, *words).answer
        if answer.ending != ending or answer.output:
            trial.fault(f"attested: no call: {answer}")


def aux_is_told(trial):
    """A run with an interrupt tells what handler and guard read, and the entry."""
    run = run_of(trial, "pump/stop")
    told = Told(run, run.trace)
    if told.answer.ending != (0, "") or {*told.read} != PUMP_READ:
        trial.fault(f"attested: pump/stop: {told.answer.line} {told.answer.output.decode()}")
    is_quoted(trial, run.make("data"))
    sensor = run_of(trial, "sensor")
    is_quoted(trial, sensor.make("attested"))
    walk_is_true(trial, sensor)
    other = Told(sensor, run.trace).answer
    if other.ending != (1, "where: the trace is of another region than that of the ELF"):
        trial.fault(f"attested: a trace of another image: {other}")


def walk_is_true(trial, run):
    """docs/debug.md has the line before which EXEC rose, and what is printed up to the reset."""
    page = read(f"{ROOT}/docs/debug.md").decode()
    rise = int(re.search(rb"^t (\d+) (?:\S+ ){13}1 ", read(run.trace), re.M)[1])
    line = re.search(rf"^ +{rise + 1} .* crt0\.s:(\d+)$", run.where("lines", run.trace), re.M)[1]
    source = read(f"{ROOT}/firmware/crt0.s").decode().split("\n")[int(line) - 1]
    printed = re.search(r"(.*\n)+?reset .*\n", run.play())[0]
    for text in (f"crt0.s:{line}\n{line}\t{source}\n", re.sub(" chal .*", " ..", printed)):
        if text not in re.sub("^    ", "", page, flags=re.M):
            trial.fault(f"docs/debug.md has not: {text}")


def is_quoted(trial, text):
    """firmware/README.md has a block of lines with this text."""
    page = re.sub("^    ", "", read(f"{ROOT}/firmware/README.md").decode(), flags=re.M)
    if f"\n\n{text}\n" not in page:
        trial.fault(f"firmware/README.md has not: {text}")


def made(trial, run):
    """`make attested`, `make check` and `make data` say it of a run."""
    text = run.make("attested")
    if text not in run.make("check") or not text:
        trial.fault("attested: make check does not say it")
    for tools in toolchains():  # (LLVM 14 counts a bit-field from the other end)
        values = re.sub(r"^report2 .*\n", "", run.make("clean", "data", *tools), flags=re.M)
        if values != DATA % (23, "STOPPED") + DATA % (24, "GIVEN"):
            trial.fault(f"data: {tools}: {values}")


def data_of_others(trial, run):
    """Without types the bytes are told; and a report of other regions is refused."""
    words = [sys.executable, "-B", f"{ROOT}/firmware/data.py"]
    report = trial.expect(0, "", "play", *run.files, STEPS)
    trial.expect(0, "", "-g", "-o", f"{run.folder}/bare.elf", f"{run.folder}/{ELF}",
                 command=["llvm-strip"])
    text = trial.expect(0, "", f"{run.folder}/bare.elf", input=report, command=words).decode()
    if "    last = 0b" not in text or "    given = 17 00 ff ff 01 68 69" not in text:
        trial.fault(f"data: {text}")
    bounds = re.search(rb" er (\w+) (\w+) or (\w+) (\w+) data ", report)
    for at in map(bounds.start, (1, 2, 3, 4)):
        other = trial.call(f"{run.folder}/{ELF}", input=report[:at] + b"f" + report[at + 1:],
                           command=words)
        if other.status != 1 or not re.fullmatch(
                r"data\.py: report2 \d+ .*: its regions are not those of .*", other.line):
            trial.fault(f"data: a report of other regions: {other}")
    trial.prints(b"there is no report\n", f"{run.folder}/{ELF}", input=b"end 5 pc c006 exec 0\n",
                 command=words)


def sent(trial):
    for data, text in SENT.items():
        lines = "".join(f"tx {step} {byte:02x}\n" for step, byte in enumerate(data))
        trial.prints(text.encode(), input=f"{lines}end 99 pc c006 exec 0\n".encode(),
                     command=[sys.executable, "-B", f"{ROOT}/firmware/sent.py"])


def told(trial, files):
    sent(trial)
    if is_compiler_there(trial):
        script, key = (read(f"{EXAMPLES}/sensor/{name}.txt") for name in ("script", "key"))
        run = Run(trial, {"main.c": FIRMWARE}, script, key, STEPS)
        first = runs_are_told(trial, run)
        strays_are_told(trial, run, first)
        runs_that_do_not_count(trial, run, first)
        none_is_told(trial, run)
        aux_is_told(trial)
        made(trial, run)
        data_of_others(trial, run)
