#!/usr/bin/env python3
"""Trials of firmware/where, over traces of examples and beside other tools, where those are.

Run as a program it writes what `where` is expected to print of the examples, examples/NAME/where,
with the proved program or the one that is named.
"""
import contextlib
import glob
import html
import itertools
import os
import pty
import re
import resource
import shutil
import subprocess
import sys
import tempfile

from firmware_trial import MAKE, PLACE, PUMPS
from sample_files import EXAMPLES, read, write
from trial import ROOT, Trial, limiting

sys.path.append(f"{ROOT}/firmware")
from where_elf import Firmware  # noqa: E402
from where_trace import Walk  # noqa: E402

BUILT_WITH = ("make", "clang", "ld.lld", "llvm-objcopy", "llvm-symbolizer")
WHERE = [sys.executable, f"{ROOT}/firmware/where"]
ELF = "build/firmware.elf"
VIEWS = {"lines": ("lines",), "calls": ("lines", "--calls"), "profile": ("profile",),
         "resets": ("lines", "--before-reset", "4"), "coverage": ("coverage",),
         "stack": ("stack",)}
# The examples with the names of their sources, the views whose text is kept, and the steps.
SHOWN = {"echo": (("echo.c",), ("lines", "profile", "coverage", "stack"), "150"),
         "sensor": (("sensor.c",), ("resets", "profile", "coverage", "stack"), "18000"),
         "pump/stop": (PUMPS["stop"], ("calls", "profile", "coverage", "stack"), "4000"),
         "meter": (("main.c", "samples.c", "filter.c", "meter.h"),
                   ("resets", "profile", "coverage", "stack"), "100000")}
# A program that only computes, for any simulator of the processor; where HOST is set it ends, for
# the computer that it is tried on. The lines marked `counted` are one statement each, of which any
# compiler makes code that runs as often as the statement.
COMPUTES = b"""
#include <stdint.h>
static uint16_t numbers[5];
static volatile uint16_t sum, few = 3;
static __attribute__((noinline)) void fill(uint16_t seed) {
    for (uint16_t i = 0; i < few + 2; i++) {
        seed = seed * 5 + 3;
        numbers[i] = seed & 63; // counted
    }
}
#ifndef HOST
inline __attribute__((always_inline))
#endif
static uint16_t weigh(uint16_t from, uint16_t n) {
    uint16_t weight = 0;
    for (uint16_t i = 0; i < n; i++) {
        sum = weight += numbers[i] ^ from; // counted
    }
    return weight;
}
static __attribute__((noinline)) uint16_t sum_to(uint16_t n) {
    volatile uint16_t kept[3] = {n, n};
    if (n == 0) {
        sum = 5; // counted
        return 0;
    }
    kept[2] = sum_to(n - 1) + numbers[n]; // counted
    return kept[0] + kept[2];
}
static __attribute__((noinline)) uint16_t spread(uint16_t a, uint16_t b, uint16_t c, uint16_t d,
                                                 uint16_t e, uint16_t f, uint16_t g) {
    return sum_to(a & 1) + b * c + d + e + f + g; // counted
}
int main(void) {
    fill(7); // counted
    sum = sum_to(4); // counted
    sum = weigh(1, few) + weigh(2, few + 1);
    sum = spread(1, 2, 3, 4, 5, 6, few); // counted
#ifdef HOST
    return 0;
#endif
    for (;;) {
    }
}
"""
COMPUTED = 2000  # instructions of it, with some of its last loop


# Of 13,000 steps the first three are before the loop, which has three.
GROWN = (13000 - 3) // 3
GROWS = b"""
        .section .start, "ax"
        .globl start
start:  mov     #0x2200, r1
again:  push    r5
        jmp     again
"""
REGISTERS = b"""
        .section .start, "ax"
        .globl start, other
        .type other, @function
start:  mov     #0x2200, r1
        mov     #0x2100, r12
        mov     r12, r1
        nop
        br      #other
other:  push    r5
        nop
ended:  jmp     ended
"""


def skips(tool, what):
    """Whether a tool is missing, with a line that says what is not tried without it."""
    if shutil.which(tool):
        return False
    print(f"check-program: no {tool}: {what} is not tried", file=sys.stderr)
    return True


class Run:
    """A folder with sources, what the kit makes of them, and the trace of a run."""

    def __init__(self, trial, sources, script, key, steps, *options):
        self.trial, self.holder = trial, tempfile.TemporaryDirectory(prefix="where-trial-")
        self.folder = os.path.realpath(self.holder.name)
        for name, text in sources.items():
            write(f"{self.folder}/{name}", text)
        write(f"{self.folder}/script.txt", script)
        write(f"{self.folder}/key.txt", key)
        self.options = (*options, f"FOLDGNEISS={trial.program}", f"STEPS={steps}")
        self.make("image.hex")
        self.files = [f"{self.folder}/{name}" for name in ("image.hex", "script.txt", "key.txt")]
        self.steps = steps
        self.trace = write(f"{self.folder}/trace.txt",
                           trial.expect(0, "", "trace", *self.files, steps))
        self.texts = {}  # what was printed of it, by view

    def make(self, *targets):
        """What targets of the kit print."""
        return self.trial.expect(0, "", self.folder, *self.options, *targets,
                                 command=MAKE).decode()

    def play(self):
        return self.trial.expect(0, "", "play", *self.files, self.steps).decode()

    def where(self, view, *traces, **options):
        """What a view of traces prints."""
        return self.trial.expect(0, "", *VIEWS[view], ELF, *traces, command=WHERE,
                                 cwd=self.folder, **options).decode()

    def text(self, view):
        """What a view of its trace prints."""
        if view not in self.texts:
            self.texts[view] = self.where(view, self.trace)
        return self.texts[view]

    def told(self, view):
        """Likewise, without the names of folders."""
        text = self.text(view)
        return text.replace(f"{self.folder}/", "").replace(f"{ROOT}/", "").encode()


def run_of(trial, name):
    """The run of an example."""
    sources, _, steps = SHOWN[name]
    home = f"{EXAMPLES}/{os.path.dirname(name) or name}"
    script, key = (read(f"{EXAMPLES}/{name}/{file}.txt") for file in ("script", "key"))
    options = [PLACE] if name.startswith("pump") else []
    return Run(trial, {source: read(f"{home}/{source}") for source in sources}, script, key, steps,
               *options)


def expected_name(name, view):
    return f"{EXAMPLES}/{name}/where/{view}.txt"


def prints_expected(trial, runs):
    """Each view of an example is the text that is kept of it."""
    for name, run in runs.items():
        for view in SHOWN[name][1]:
            text = run.told(view)
            if text != read(expected_name(name, view)):
                trial.fault(f"where: {view} of {name} is not the expected text")


def functions_of(folder):
    """First and last place of each function of C, as llvm-nm has them."""
    text = subprocess.run(["llvm-nm", "-S", f"{folder}/{ELF}"], stdout=subprocess.PIPE,
                          check=True).stdout.decode()
    found = re.findall(r"^(\w+) (\w+) [tT] (\S+)$", text, re.M)
    return {name: (int(first, 16), int(first, 16) + int(size, 16) - 1)
            for first, size, name in found if int(size, 16)}


def by_function(folder, places):
    """How many of these places are in each function."""
    counts = {}
    for name, (first, last) in functions_of(folder).items():
        count = sum(first <= place <= last for place in places)
        if count:
            counts[name] = count
    return counts


def fetched(run):
    """Where the instructions of a trace stand, but for those of which a step was refused."""
    places = []
    for kind, place, access, rule in re.findall(
            rb"^t \d+ (\w+) (\w+) (\S+) .* (\S+)$", read(run.trace), re.M):
        is_opcode = kind == b"cpu" and access == b"f" + place
        if is_opcode and rule == b"-":
            places.append(int(place, 16))
        elif kind == b"cpu" and rule != b"-" and not is_opcode:
            places.pop()
    return places


def summed(rows):
    """Numbers by name, of rows that may have a name more than once."""
    counts = {}
    for name, number in rows:
        counts[name] = counts.get(name, 0) + int(number.replace(",", ""))
    return counts


def annotates(trial, runs):
    """callgrind_annotate reads of each profile the instructions of each function that were
    fetched, and all steps.
    """
    if skips("callgrind_annotate", "the profile of firmware/where"):
        return
    for name, run in runs.items():
        write(f"{run.folder}/callgrind.out", run.text("profile").encode())
        text = trial.expect(0, "", "--threshold=100", "--auto=no", "--show-percs=no",
                            "callgrind.out", command=["callgrind_annotate"],
                            cwd=run.folder).decode()
        counts = summed((function, number) for number, function in re.findall(
            r"^ *[\d,]+ +([\d,]+) +[\d,]+ +[^:\n]*:(\w+)", text, re.M))
        wanted = by_function(run.folder, fetched(run))
        if not wanted or {function: counts.get(function) for function in wanted} != wanted:
            trial.fault(f"profile of {name}: {counts}, where the trace has {wanted}")
        total = re.search(r"^ *([\d,]+) +[\d,]+ +([\d,]+) +PROGRAM TOTALS", text, re.M)
        steps = sum(int(number.replace(",", "")) for number in total.groups())
        if steps != int(SHOWN[name][2]):
            trial.fault(f"profile of {name}: {steps} steps")


def covers(trial, runs):
    """genhtml takes a coverage, and two runs that lcov adds are two traces that are given."""
    if skips("genhtml", "the coverage of firmware/where"):
        return
    run = runs["sensor"]
    info = write(f"{run.folder}/one.info", run.text("coverage").encode())
    both = f"{run.folder}/both.info"
    trial.expect(0, "", "-q", "-a", info, "-a", info, "-o", both, command=["lcov"])
    twice = run.where("coverage", run.trace, run.trace)
    for word in ("SF:", "FNDA:", "DA:"):
        found = [sorted(line for line in text.split("\n") if line.startswith(word))
                 for text in (read(both).decode(), twice)]
        if not found[0] or found[0] != found[1]:
            trial.fault(f"coverage: lcov adds {found[0]}, where {found[1]}")
    text = trial.expect(0, "", "-o", f"{run.folder}/html", info, command=["genhtml"]).decode()
    found = re.findall(r"^ *(?:lines|functions)\.*: [\d.]+% \((\d+) of (\d+) ", text, re.M)
    counts = [tuple(str(sum(map(int, re.findall(f"^{word}:(\\d+)", read(info).decode(), re.M))))
                    for word in words) for words in (("LH", "LF"), ("FNH", "FNF"))]
    if found != counts:
        trial.fault(f"coverage: genhtml counts {found}, not {counts}")


def simulated(run):
    """PC and SP before each instruction in mspdebug's simulator, from the first one on."""
    commands = ["prog build/firmware.elf", "reset", "regs", *["step"] * COMPUTED]
    write(f"{run.folder}/commands.txt", "\n".join(commands).encode())
    text = run.trial.call("-n", "-q", "sim", "read commands.txt", command=["mspdebug"],
                          cwd=run.folder).output.decode()
    return [(int(place, 16), int(stack, 16)) for place, stack in re.findall(
        r"\( PC: 0(\w+)\).*\n *\( SP: 0(\w+)\)", text)]


def simulates(trial, run):
    """mspdebug's simulator has the same PC and SP before each instruction, the same lowest SP, and
    as many instructions of each function.
    """
    if skips("mspdebug", "firmware/where beside a simulator"):
        return
    wanted = simulated(run)
    cut = write(f"{run.folder}/cut.txt", first_lines(run, COMPUTED))
    walk = Walk(Firmware(f"{run.folder}/{ELF}"))
    with open(run.trace, "rb") as file:
        own = [(place.address, walk.sp) for unit, place in walk.go(file) if unit.kind == b"cpu"]
    if len(wanted) != COMPUTED + 1 or own[:COMPUTED + 1] != wanted:
        trial.fault("where: other instructions or another SP than mspdebug's simulator has")
    lowest = min(stack for _, stack in wanted if stack)
    if not re.search(f"^stack_top +2200 +{lowest:x} ", run.where("stack", cut), re.M):
        trial.fault(f"stack: the lowest SP of mspdebug's simulator is {lowest:x}")
    parts = re.findall(r"^fn=(\w+)\n((?:.+\n)*)", without_calls(run.where("profile", cut)), re.M)
    counts = summed((name, number) for name, part in parts
                    for number in re.findall(r"^\d+ \d+ (\d+) \d+$", part, re.M))
    wanted = by_function(run.folder, [place for place, _ in wanted[:-1]])
    if "sum_to" not in wanted or {name: counts.get(name) for name in wanted} != wanted:
        trial.fault(f"profile: {counts}, where mspdebug's simulator has {wanted}")


def counts_as_gcov(trial, run):
    """gcov, of the same program on this computer, counts its lines and functions as often."""
    if skips("gcc", "firmware/where beside gcov") or skips("gcov", "firmware/where beside gcov"):
        return
    text = trial.expect(0, "", "gcc --coverage -DHOST -c computes.c && gcc --coverage computes.o "
                        "-o host && ./host && gcov -t -b computes.gcda", command=["bash", "-c"],
                        cwd=run.folder).decode()
    lines = re.findall(r"^ *(\d+): +(\d+):.*// counted$", text, re.M)
    wanted = {*(f"DA:{line},{count}" for count, line in lines)}
    wanted |= {f"FNDA:{count},{name}" for name, count in re.findall(
        r"^function (\w+) called (\d+)", text, re.M)}
    missing = wanted - {*run.text("coverage").split("\n")}
    if len(lines) != 8 or len(wanted) != 13 or missing:
        trial.fault(f"coverage: nothing of {missing}, which gcov counts")


def first_lines(run, instructions):
    """The trace's lines of the boot and of so many instructions."""
    text = read(run.trace)
    starts = re.finditer(rb"^t \d+ cpu (\w{4}) f\1 ", text, re.M)
    return text[:next(itertools.islice(starts, instructions, None)).start()]


def without_calls(profile):
    return re.sub(r"^calls=.*\n.*\n", "", profile, flags=re.M)


def page(name):
    """The text of a page of genhtml."""
    return html.unescape(re.sub("<[^>]*>", "", read(name).decode()))


def debugging(trial, run):
    """What docs/debugging.md quotes of examples/meter is what the kit prints, and with the two
    changes that it names 16 values are told.
    """
    if skips("callgrind_annotate", "docs/debugging.md") or skips("genhtml", "docs/debugging.md"):
        return
    told = read(f"{ROOT}/docs/debugging.md").decode().split("## A fault and a slow function")[1]
    printed = run.play() + run.make("LAST=4", "resets", "profile", "coverage")
    for name in glob.glob(f"{run.folder}/build/coverage/**/*.c.gcov.html", recursive=True):
        printed += page(name)
    printed = {re.sub(r"^\d+ (?=\d+ :)", "", " ".join(line.split()))
               for line in printed.split("\n")}
    quoted = [" ".join(line.split()) for line in
              re.findall(r"^    +((?:tx|reset|end|\d).*)", told, re.M)]
    missing = [line for line in quoted if line not in printed]
    if len(quoted) != 19 or missing:
        trial.fault(f"docs/debugging.md: not printed: {missing}")
    for name, old, new in (("samples.c", b"sizeof meter)", b"sizeof meter.samples)"),
                           ("filter.c", b"[i] / count", b"[i]"),
                           ("filter.c", b"return value", b"return value / count")):
        text = read(f"{run.folder}/{name}")
        write(f"{run.folder}/{name}", text.replace(old, new))
    run.make("image.hex")
    if run.play().count("tx ") != 16 or "reset" in run.play():
        trial.fault(f"docs/debugging.md: mended, it prints {run.play()}")


def odd_stacks(trial):
    """SP is not known from where it is set from a register to the next access by it; and a stack
    that grows over the data, or out of RAM, is told.
    """
    run = Run(trial, {"registers.s": REGISTERS}, b"", b"0" * 128, "40")
    told = "SP was not known in 3 instructions, most of them in start.\n"
    if told not in run.text("stack"):
        trial.fault(f"stack: {run.text('stack')}")
    run = Run(trial, {"grows.s": GROWS}, b"", b"0" * 128, "13000")
    found = re.search(r"2200 +(\w+) .* (\w{4}), .*\n.*\n +OVER THE DATA by (\d+) bytes\n",
                      run.text("stack"))
    lowest, end = (int(place, 16) for place in found.groups()[:2]) if found else (0, 0)
    if lowest != 0x2200 - 2 * GROWN or int(found[3]) != end - lowest:
        trial.fault(f"stack: {run.text('stack')}")


def streams(trial, run):
    """A trace of 300,000 steps takes no more memory than a short one, and a terminal shows how far
    it is.
    """
    limit_memory = limiting(resource.RLIMIT_DATA, 24_000_000)
    lines = write(f"{run.folder}/long.txt", read(run.trace) * 3)
    run.where("profile", lines, preexec_fn=limit_memory)
    shown, (reader, terminal) = b"", pty.openpty()
    trial.call(*VIEWS["lines"], ELF, lines, command=WHERE, cwd=run.folder, stderr=terminal,
               preexec_fn=limit_memory)
    os.set_blocking(reader, False)
    with contextlib.suppress(BlockingIOError):
        shown = os.read(reader, 4096)
    os.close(reader)
    os.close(terminal)
    if not re.fullmatch(rb"(\rwhere: [\d,]+ steps)+\r\x1b\[K", shown):
        trial.fault(f"where: its progress is {shown}")


def refusals(trial, runs):
    """What is no trace, no ELF, or of another image."""
    echo, sensor = runs["echo"], runs["sensor"]
    for words, text, line in (
            (("stack", ELF), b"", "where: there is no step in the trace"),
            (("stack", ELF), b"hello\n", "where: no line of a trace: b'hello\\n'"),
            (("stack", "none"), b"", "where: there is no none"),
            (("stack", ELF, "none"), b"", "where: none: No such file or directory")):
        trial.expect(1, line, *words, input=text, command=WHERE, cwd=echo.folder)
    other = trial.call("stack", ELF, sensor.trace, command=WHERE, cwd=echo.folder)
    if not re.fullmatch(r"where: \d+ of \d+ instructions are not those of the ELF", other.line):
        trial.fault(f"where: a trace of another image: {other}")


def damaged(trial, run):
    """A damaged trace, an ELF of another machine and a tool that has no answer end with a line."""
    lines = read(run.trace).split(b"\n")
    broken = [lines[9][:at] for at in range(1, len(lines[9]), 7)]
    broken += [lines[9].replace(*words, 1) for words in (
        (b"cpu", b"cpq"), (b" f", b" g"), (b" - ", b"   "), (b"0000", b"000g"), (b"t ", b"t x"),
        (b" -", b" Z9"), (b"t ", b"t\0"))]
    for at, line in enumerate(broken):
        text = b"\n".join([*lines[:9], line, *lines[10:]])
        trial.expect(1, f"where: no line of a trace: {(line + bytes([10]))[:60]!r}",
                     *list(VIEWS.values())[at % len(VIEWS)], ELF, command=WHERE, cwd=run.folder,
                     input=text)
    host = os.path.realpath(shutil.which("true"))
    trial.expect(1, f"where: {host} is damaged, or no firmware of the kit", "stack", host,
                 run.trace, command=WHERE)
    os.mkdir(f"{run.folder}/tools")
    tool = write(f"{run.folder}/tools/llvm-symbolizer",
                 b'#!/bin/sh\nsed \'s/.*/{"Error":{"Message":"Invalid data"}}/\'\n')
    os.chmod(tool, 0o755)
    trial.expect(1, f"where: {ELF} is damaged, or no firmware of the kit", "stack", ELF, run.trace,
                 command=WHERE, cwd=run.folder,
                 env={**os.environ, "PATH": f"{run.folder}/tools:{os.environ['PATH']}"})


def absent_sources(trial, run):
    """Coverage leaves out the lines of files that are not there, and says so."""
    os.rename(f"{run.folder}/echo.c", f"{run.folder}/other.c")
    found = trial.expect(0, "where: there is no echo.c: its lines are left out", "coverage", ELF,
                         run.trace, command=WHERE, cwd=run.folder).decode()
    os.rename(f"{run.folder}/other.c", f"{run.folder}/echo.c")
    whole = run.text("coverage")
    if not found or found not in whole or "echo.c" in found:
        trial.fault(f"coverage: without echo.c: {found}")
    trial.expect(0, "", "-g", "-o", "bare.elf", ELF, command=["llvm-strip"], cwd=run.folder)
    trial.expect(1, "where: no line of the ELF lies in a file that is there", "coverage",
                 "bare.elf", run.trace, command=WHERE, cwd=run.folder)


def where(trial, files):
    if any(skips(tool, "firmware/where") for tool in BUILT_WITH):
        return
    runs = {name: run_of(trial, name) for name in SHOWN}
    prints_expected(trial, runs)
    annotates(trial, runs)
    covers(trial, runs)
    computes = Run(trial, {"computes.c": COMPUTES}, b"", b"0" * 128, str(4 * COMPUTED))
    simulates(trial, computes)
    counts_as_gcov(trial, computes)
    odd_stacks(trial)
    streams(trial, runs["meter"])
    refusals(trial, runs)
    damaged(trial, runs["echo"])
    absent_sources(trial, runs["echo"])
    if runs["echo"].text("resets") != "no reset in 150 steps\n":
        trial.fault(f"where: without a reset: {runs['echo'].text('resets')}")
    debugging(trial, runs["meter"])


def write_expected(arguments):
    trial = Trial("where-trial", arguments)
    for name, (_, views, _) in SHOWN.items():
        run = run_of(trial, name)
        os.makedirs(f"{EXAMPLES}/{name}/where", exist_ok=True)
        for view in views:
            write(expected_name(name, view), run.told(view))
    return trial.end()


if __name__ == "__main__":
    sys.exit(write_expected(sys.argv[1:]))
