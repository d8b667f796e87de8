"""Trials of the device outside of its programs: of the shared library, in this process, and of the
module for WebAssembly, in node, each beside the program of the device.
"""
import json
import os
import shutil
import subprocess
import sys
import tempfile
from concurrent.futures import ThreadPoolExecutor
from typing import Dict, List, NamedTuple, Optional, Sequence

from conformance_cases import TRIED, all_cases
from reference import COMMANDS
from sample_files import EXAMPLES, FIRST_FAULTS, Example
from trial import ROOT

sys.path.insert(0, f"{EXAMPLES}/library")
from device import NAMES, Device  # noqa: E402

MADE = f"{ROOT}/crates/device_library/out"
LIBRARY, MODULE = f"{MADE}/libfoldgneiss_device.so", f"{MADE}/device.wasm"
OWN = [name for name, command in COMMANDS.items() if command.program == "device_main"]
SEEDS = range(1, 26)  # of workloads
PLAYS = 3000  # in one instance
WARM = 100  # plays, after which the memory is to stay
GROWTH = 1 << 20  # bytes that the process may grow by for other reasons


class Call(NamedTuple):
    """A command line for the program, and the same for a call: its words, its files by their names,
    and the room of its piece, or none for one that suffices.
    """
    arguments: Sequence[str]
    words: List[str]
    names: Dict[str, str]
    room: Optional[int] = None


class Told(NamedTuple):
    """What a call gives back, and the bytes of memory behind it."""
    status: int
    count: int
    piece: bytes
    memory: int


def call_of(arguments, room=None):
    """Each argument that names a file is a file of the call."""
    names: Dict[str, str] = {}
    words = []
    for word in map(str, arguments):
        if os.path.isfile(word):
            name = NAMES[len(names)]
            names[name], word = word, name
        words.append(word)
    return Call(arguments, words, names, room)


def resident() -> int:
    """The bytes of this process in memory."""
    with open("/proc/self/statm", encoding="ascii") as file:
        return int(file.read().split()[1]) * os.sysconf("SC_PAGE_SIZE")


def called(device, call):
    """A call of the library."""
    files = {}
    for name, path in call.names.items():
        with open(path, "rb") as file:
            files[name] = file.read()
    if call.room is None:
        status, text = device.run(call.words, files)
        return Told(status, len(text), text, resident())
    return Told(*device.call(call.words, files, call.room), resident())


class Library:
    """The shared library, in this process."""
    name = "library"

    def __init__(self):
        self.device = Device(LIBRARY)

    def answers(self, calls):
        return (called(self.device, call) for call in calls)


class Module:
    """The module, in one instance in node."""
    name = "module"

    def answers(self, calls):
        lines = "".join(json.dumps({"words": call.words, "names": call.names, **(
            {} if call.room is None else {"room": call.room})}) + "\n" for call in calls)
        ran = subprocess.run(["node", f"{ROOT}/tools/module_calls.mjs", MODULE], check=True,
                             input=lines.encode(), stdout=subprocess.PIPE)
        rows = (line.split(" ") for line in ran.stdout.decode().splitlines())
        return (Told(int(status), int(count), bytes.fromhex(piece), int(memory))
                for status, count, memory, piece in rows)


def same_as_program(trial, device, calls):
    """Each call gives what the program gives: exit code, text, or its line on standard error."""
    for call, told in zip(calls, device.answers(calls)):
        answer = trial.call(*call.arguments)
        text = answer.output if answer.status in (0, 1) else answer.line.encode()
        if (told.status, told.piece) != (answer.status, text):
            trial.fault(f"{device.name}: {' '.join(map(str, call.arguments))}: status "
                        f"{told.status}, {told.piece[:80]!r}, and the program {answer}")


def conformance_calls():
    return [call_of(case.words(command)) for case in all_cases()
            for command in TRIED if command in OWN and case.is_of(command)]


def refused_calls(files):
    """Words that are no command, absent files, and the first fault of each kind of file."""
    image, script, key = files.letter
    lines = [(), ("play",), ("play", image, script, key), ("Play", image, script, key, "5"),
             ("play", image, script, key, "0"), ("play", image, script, key, "5", "5"),
             ("play", "none", script, key, "5"), ("play", image, script, "none", "5"),
             ("list", "none"), ("work", "4294967296"), ("request", key, "00", "1")]
    lines += [files.words_of_round(name, **{kind: files[f"{kind}-{end}"]})
              for kind, faults in FIRST_FAULTS.items() for end in faults
              for name in OWN if kind in COMMANDS[name].files]
    return [call_of(line) for line in lines]


def example_calls():
    return [call_of(Example(name).words(command)) for name in ("sensor", "attest", "echo")
            for command in ("play", "dump", "trace", "wave")]


def pieces(trial, device, files):
    """A piece that is too small has the first bytes, and the count is that of the whole text; of a
    line what it has room for, and nothing behind it.
    """
    text, line = files.texts["letter"], b"file is absent"
    arguments = ("play", *files.letter, "5")
    absent = ("play", "none", *files.letter[1:], "5")
    wanted = [(arguments, room, 5 if room < len(text) else 0, len(text), text)
              for room in (0, 1, len(text) - 1, len(text), len(text) + 1)]
    wanted += [(absent, room, 3, min(room, len(line)), line)
               for room in (0, 1, len(line) - 1, len(line), len(line) + 1)]
    tolds = device.answers([call_of(words, room) for words, room, *_ in wanted])
    for (words, room, status, count, whole), told in zip(wanted, tolds):
        trial.tries += 1
        piece = whole[:room].ljust(room, b"\0") if device.name == "library" else whole[:room]
        if told[:2] != (status, count) or told.piece[:len(piece)] != piece:
            trial.fault(f"{device.name}: {told} with a piece of {room} bytes")


def line_ends(trial, device):
    """A last line end is no word, and words that are no UTF-8 are no command."""
    for words, status in ((["list", "none", ""], 3), (["list", "none", "", ""], 2),
                          (["list", "none", "\udcff"], 2), (["list", "\udcff"], 2)):
        trial.tries += 1
        told = device.device.call(words, {}, 64)
        if told[0] != status:
            trial.fault(f"{device.name}: status {told[0]} of {words}")


def steady(trial, device, files):
    """Thousands of plays in one instance take no more memory than the first."""
    call = call_of(Example("sensor").words("play", steps="2000"), 4096)
    first, warm, last = None, 0, 0
    for number, told in enumerate(device.answers(PLAYS * [call])):
        trial.tries += 1
        first = first or told[:3]
        if told.status != 0 or told[:3] != first:
            trial.fault(f"{device.name}: play {number} of the same files differs: {told}")
        warm, last = told.memory if number == WARM else warm, told.memory
    if last - warm > (GROWTH if device.name == "library" else 0):
        trial.fault(f"{device.name}: {PLAYS - WARM} plays took {last - warm:,} bytes of memory")


def at_once(trial, device, calls):
    """Calls of several threads give what they give one after the other."""
    wanted = [told[:3] for told in device.answers(calls)]
    with ThreadPoolExecutor(4) as threads:
        tolds = [told[:3] for told in threads.map(lambda call: called(device.device, call), calls)]
    trial.tries += len(calls)
    if tolds != wanted:
        trial.fault(f"{device.name}: threads get other answers")


def c_example(trial, files):
    """examples/library/play.c prints what the program prints."""
    if not shutil.which("cc"):
        print(f"{trial.name}: {trial.part}, its caller in C, is not tried: no cc")
        return
    with tempfile.TemporaryDirectory() as folder:
        trial.expect(0, "", "-Wall", "-Wextra", "-Werror", "-O1",
                     f"-I{ROOT}/crates/device_library/include", f"{EXAMPLES}/library/play.c",
                     LIBRARY, f"-Wl,-rpath,{MADE}", "-o", f"{folder}/play", command=["cc"])
        for name in ("letter-a", "sensor", "attest"):
            words = Example(name).words("play")[1:]
            trial.prints(trial.call("play", *words).output, *words, command=[f"{folder}/play"])
        image, script, key = files.letter
        trial.expect(8, "bad image: line 1: NoColon", key, script, key, "5",
                     command=[f"{folder}/play"])


def tried(trial, device, files):
    work = [call_of(("work", str(seed))) for seed in SEEDS]
    conformance, refused = conformance_calls(), refused_calls(files)
    for calls in (conformance, refused, example_calls(), work):
        same_as_program(trial, device, calls)
    pieces(trial, device, files)
    steady(trial, device, files)


def missing(trial, what, *tools):
    """Whether a tool is not there; a line says so."""
    lacking = [tool for tool in tools if not shutil.which(tool)]
    if lacking:
        print(f"{trial.name}: {trial.part}, {what}, is not tried: no {', '.join(lacking)}")
    return lacking


def library(trial, files):
    if missing(trial, "all of it", "rt"):
        return
    parts = ["--only", "library"]
    has_module = not missing(trial, "the module", "node", "wasm-opt")
    if has_module:
        parts += ["--only", "module"]
    trial.expect(0, "", *parts, command=[f"{ROOT}/tools/make-page"], seconds=3600)
    shared = Library()
    tried(trial, shared, files)
    line_ends(trial, shared)
    at_once(trial, shared, conformance_calls()[:100])
    c_example(trial, files)
    if has_module:
        tried(trial, Module(), files)
