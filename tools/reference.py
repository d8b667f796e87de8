"""The one table of commands, files, faults and exit codes, with the rules, verdicts, limits and
places of the package in python/, which this has on its path.

The program's --help, the messages of ./foldgneiss, the tables of README.md, docs/foldgneiss.1 and
docs/foldgneiss.bash are written from it by tools/write-reference; tools/check-program compares them
with it, and tries the commands that are named here.
"""
import os
import re
import sys
from typing import NamedTuple

ROOT = os.path.dirname(os.path.dirname(os.path.realpath(__file__)))
sys.path.append(f"{ROOT}/python")
from foldgneiss.limits import (IMAGE_BYTES, KEY_BYTES, MOST_COUNTER, MOST_STEPS,  # noqa: E402
                               POLICY_BYTES, REPORTS_BYTES, SCRIPT_BYTES, TRACE_BYTES)
from foldgneiss.memory_map import (IMAGE_PLACES, KEY, MAC, METADATA,  # noqa: E402, F401
                                   PERIPHERALS, PROGRAM, RAM, REGIONS, RESET_VECTOR, ROM,
                                   SERIAL_VECTOR, STACK, TIMER_VECTOR, UPPER, VECTORS, Region)
from foldgneiss.names import FLAGS, RULES, VERDICTS  # noqa: E402, F401

VERSION = "0.2.0"  # its one place: what repeats it is written from here


class Command(NamedTuple):
    name: str
    words: tuple  # what its arguments are, in order
    prints: str
    about: str
    example: str
    program: str = "device_main"
    last: tuple = ()  # an argument behind all others that may be left out
    option: str = ""  # a word in front of all arguments that may be left out

    @property
    def usage(self):
        may = [f"[{word.upper()}]" for word in self.last]
        option = [f"[{self.option}]"] if self.option else []
        return " ".join([self.name, *option, *map(str.upper, self.words), *may])

    @property
    def all_words(self):
        return self.words + self.last

    @property
    def files(self):
        return [word for word in self.all_words if word in FILES]

    def behind_option(self, arguments):
        """The arguments without the option in front of them."""
        return arguments[1:] if self.option and arguments[:1] == [self.option] else arguments


class File(NamedTuple):
    status: int  # the exit status of its first fault
    limit: int  # bytes
    about: str


class Decimal(NamedTuple):
    """An argument that is a number."""
    least: int
    most: int

    @property
    def about(self):
        return f"a decimal, {self.least} to {self.most}"

    def __str__(self):
        return f"{self.least:,}..{self.most:,}"

    def takes(self, word):
        return bool(re.fullmatch("[0-9]{1,10}", word)) and self.least <= int(word) <= self.most


class Digits(NamedTuple):
    """An argument that is bytes, in hexadecimal digits of either case."""
    count: int

    @property
    def about(self):
        return f"{self.count} hexadecimal digits"

    def takes(self, word):
        return bool(re.fullmatch(f"[0-9A-Fa-f]{{{self.count}}}", word))


class Name(NamedTuple):
    """An argument that is a word, as the names of devices and desks are."""
    about: str

    @staticmethod
    def takes(word):
        return bool(re.fullmatch("[0-9A-Za-z_]{1,32}", word))


class Memory(NamedTuple):
    """An argument that is the file of a desk's memory."""
    about: str

    @staticmethod
    def takes(word):
        return True


ALL = "--all"  # each request of the policy has to be answered
COMMANDS = {command.name: command for command in (
    Command("play", ("image", "script", "key", "steps"),
            "the bytes sent, resets, reports and denials of a run of the firmware, and its end, a "
            "line each",
            "Runs the firmware for STEPS bus steps. Prints `tx S HH` for a byte sent in step S, "
            "`reset S R` where step S broke the rule R, `report2 S ..` where step S finished an "
            "attestation, `denied S D` where it denied a request (D is 2 for a counter that is not "
            "new, 3 for another token), and `end N pc H4 exec E` after the last step.",
            "play image.hex script.txt key.txt 5000"),
    Command("dump", ("image", "script", "key", "steps"),
            "what `play` prints, and then RAM, program and vectors as Intel HEX",
            "Prints what play prints, and then RAM, program and vectors as Intel HEX.",
            "dump image.hex script.txt key.txt 5000"),
    Command("trace", ("image", "script", "key", "steps"),
            "a line for each bus step of a run: what was proposed, read and written, which rule it "
            "broke, and EXEC",
            "Runs the firmware for STEPS bus steps and prints a trace file: a line for each step, "
            "in which what lies in the key or in the exclusive stack stands as 0.",
            "trace image.hex script.txt key.txt 5000 > trace.txt"),
    Command("debug", ("image", "script", "key"),
            "the answers to GDB, which drives the device by packets on standard input, forwards "
            "and backwards",
            "Answers the packets of GDB's remote protocol on standard input, each at once: GDB "
            "drives the run that `play` prints, by instructions and source lines, breakpoints and "
            "watches, forwards and backwards, and stops before the instruction that would reset "
            "the device. Nothing that it asks changes the run. In GDB its command is `target "
            "remote | foldgneiss debug image.hex script.txt key.txt`.",
            "debug image.hex script.txt key.txt", "debug_main"),
    Command("live", ("image", "key"),
            "the answers of a device that lives to lines on standard input: what happens to it, how "
            "far it goes on, and what stands in it",
            "Powers the firmware on, and answers each line of standard input before it reads more. "
            "`at N ..`, as in a script, happens in step N; `run N` goes on to N steps, and prints "
            "what play prints of them, and `at N pc H4 exec E`; `registers` and `memory H4 C` show "
            "what stands in it; `refused L K` answers line L where it has the fault K. `end N pc H4 "
            "exec E` comes at the end of the input.",
            "live image.hex key.txt", "debug_main"),
    Command("wave", ("image", "script", "key", "steps"),
            "what `trace` prints, with registers, flags and ports, as a waveform for GTKWave",
            "Prints what trace says of a run, and registers, AUX, the timer's flag, pins, and the "
            "bytes sent and received, as a value change dump (IEEE 1364), in which one unit of "
            "time is one bus step.",
            "wave image.hex script.txt key.txt 5000 > wave.vcd"),
    Command("list", ("image",),
            "the instructions, words and bytes of an image, one a line",
            "Prints the instructions, words and bytes of IMAGE, one a line.",
            "list image.hex"),
    Command("request", ("key", "chal", "counter"),
            "a request to attest: challenge, counter and token",
            "Prints a request to attest, `request H64 N token H64`: the challenge CHAL, the "
            "counter COUNTER, and the token of both under KEY. The device attests it where the "
            "counter is greater than the one that it keeps.",
            "request key.txt $(openssl rand -hex 32) 1"),
    Command("verify", ("image", "policy", "key", "reports"),
            "a verdict for each report",
            "Prints `verdict I V` for each report line in REPORTS, the I-th of which has to answer "
            "the I-th request of POLICY. With `--all` each request has to get an `accept`, else "
            "the last line is `unanswered N`, the first that has none; without it fewer reports "
            "than requests are no fault.",
            "verify --all image.hex policy.txt key.txt reports.txt", option=ALL),
    Command("round", ("image", "script", "key", "policy", "steps"),
            "what `play` prints, with a verdict after each report",
            "Prints what play prints, and after each report its verdict by POLICY. After an "
            "`accept` where the device's own memory is not what was expected though the MACs "
            "agree, `collision HH.. HH..` with two inputs of one SHA-256 digest. `--all` is as in "
            "verify.",
            "round image.hex script.txt key.txt policy.txt 5000", option=ALL),
    Command("desk", ("keys", "image", "policy"),
            "a reply to each line of standard input: requests for many devices, and verdicts on "
            "their reports",
            "Answers each line of standard input with one line, at once. `ask NAME R`, in which R "
            "numbers the line, is answered by a request, `request NAME R H64 N token H64`, and "
            "`give NAME R report2 ..` by a verdict on the report, `verdict NAME R V`. What it must "
            "not forget is in MEMORY before a reply is out, and a desk that is started anew with "
            "it goes on; without MEMORY it is forgotten at the end.",
            "desk keys.txt image.hex policy.txt desk.db", "desk_main", ("memory",)),
    Command("found", ("memory", "desk"),
            "nothing: a new memory is made, of the desk of this name",
            "Makes the new MEMORY of the desk of the name DESK, without a device. No other command "
            "but remember makes one.",
            "found desk.db north", "desk_main"),
    Command("states", ("memory",),
            "the state of each device in a desk's memory, one a line",
            "Prints a line for each device in MEMORY, the oldest first, `state2 NAME moves M key "
            "H32 count N outstanding N last R ANSWER`: how often it moved, the mark of its key, "
            "how many requests were made, the counter of the outstanding one, and the last line's "
            "number and answer; `none` where there is none. Of a device that is gone the line "
            "begins with `moved NAME to DESK`. No desk may run over MEMORY meanwhile.",
            "states desk.db > states.txt", "desk_main"),
    Command("remember", ("states", "memory", "desk"),
            "nothing: a new memory of the desk of this name is made of such lines",
            "Makes the new MEMORY of the desk of the name DESK, of lines as states prints them.",
            "remember states.txt desk.db north", "desk_main"),
    Command("move", ("memory", "name", "desk"),
            "the lines of a device that is gone to another desk, for `adopt`",
            "Notes in MEMORY that the device NAME is gone to the desk of the name DESK, and then "
            "prints a line for each key that it had, `moved NAME to DESK moves M key ..`, as "
            "states does. Once more it prints the same.",
            "move desk.db pump_1 south > moved.txt", "desk_main"),
    Command("adopt", ("moved", "memory"),
            "nothing: a memory gets the devices of such lines",
            "Takes the devices of lines that move printed into MEMORY, which is that of the desk "
            "that they name: all of them, or none. Once more it changes nothing.",
            "adopt moved.txt desk.db", "desk_main"),
    Command("audit", ("trace",),
            "whether each line of a trace file names the right rule and EXEC",
            "Prints `clean N` where each of the N lines of TRACE names the first rule that its "
            "step breaks and EXEC after it; else, of the first line that does not, `offence S rule "
            "R` or `offence S exec E` with the right rule or value. TRACE may be of any device.",
            "audit trace.txt"),
    Command("asm", ("source",),
            "the image of an assembler source, as Intel HEX",
            "Prints the image of an assembler source as Intel HEX.",
            "asm firmware.asm > image.hex"),
    Command("work", ("seed",),
            "one line on a generated workload: how many bytes sent, resets, reports and denials "
            "`play` would print, and the SHA-256 of its text",
            "Runs a workload that is generated from SEED, 1000000 steps of requests and of "
            "disturbance. Prints one line: how many `tx`, `reset`, `report2` and `denied` lines "
            "`play` would print, how many of its reports have EXEC 1, and the SHA-256 of that "
            "text.",
            "work 7"),
)}

# The commands of the script ./foldgneiss alone, which calls other commands for them.
PICTURE = Command(
    "picture", ("image", "script", "key", "steps"),
    "a page for a browser that shows this run over its steps, with the policy as `round` judges it",
    "Prints a page for a browser, one file, that shows what play or, with POLICY, round prints of "
    "this run, and over its steps the signals, registers and instructions. It ends as they do.",
    "picture image.hex script.txt key.txt 5000 > run.html", "", ("policy",))
CONSOLE = Command(
    "console", ("image",),
    "what a device that lives sends, which is typed to: a terminal at its serial port",
    "Powers the firmware on, by live: what is typed arrives at its serial port, what it sends is "
    "shown, and resets and reports are told in words, until Ctrl-] or the end of the input. After "
    "`--pty` it is a pseudo-terminal, whose name is printed, after `--speed N` it makes N steps a "
    "second, and after `--record SCRIPT` this file gets the script from which play makes the same "
    "run.", "console image.hex", "", ("key",))
SCRIPT_COMMANDS = {**COMMANDS, PICTURE.name: PICTURE, CONSOLE.name: CONSOLE}  # ./foldgneiss's

PROGRAMS = ("device_main", "desk_main", "debug_main")


def named_by_program():
    """The names of the commands of each program."""
    return {program: [name for name, command in COMMANDS.items() if command.program == program]
            for program in PROGRAMS}


# In the order in which they are read.
FILES = {
    "key": File(7, KEY_BYTES, "the device's key: 128 hexadecimal digits"),
    "keys": File(14, 262144, "a desk's devices, each by its name and its key"),
    "image": File(8, IMAGE_BYTES, "firmware, as Intel HEX"),
    "script": File(9, SCRIPT_BYTES, "events from outside, each with its step; may be empty"),
    "policy": File(10, POLICY_BYTES, "the regions, flag and requests that reports have to answer"),
    "reports": File(11, REPORTS_BYTES, "lines as play prints them, and reports of version 1"),
    "source": File(12, 1048576, "an assembler source"),
    "trace": File(13, TRACE_BYTES, "lines as trace prints them"),
    "states": File(19, 4194304, "lines as states prints them"),
    "moved": File(19, 4194304, "lines as move prints them, of any number of devices"),
}

# The arguments that are no files.
VALUES = {
    "chal": Digits(64),
    "counter": Decimal(1, MOST_COUNTER),
    "steps": Decimal(1, MOST_STEPS),
    "seed": Decimal(0, 4294967295),
    "memory": Memory("a file that keeps the states of a desk's devices, made by found"),
    "name": Name("a device, by its name: 1 to 32 letters, digits and _"),
    "desk": Name("the name of a desk, 1 to 32 letters, digits and _; no two have the same"),
}


EDGES = sorted({place for region in REGIONS.values() for place in region.edges})


class Part(NamedTuple):
    """A part of a text that is said of this command, or of one that has this argument, alone."""
    word: str
    text: str

    def said_of(self, words):
        return self.text if words is None or not self.word or self.word in words else ""


class PartOfSome(NamedTuple):
    """A part of a text that is said of some commands, which it names in the place of `{}`."""
    commands: tuple
    text: str

    def said_of(self, words):
        named = [f"`{name}`" for name in self.commands if words is None or name in words]
        *most, last = named or [""]
        names = f"{', '.join(most)} or {last}" if most else last
        return self.text.format(names) if named else ""


OR = "; or "  # what a part begins with that may stand first


def said_of(words, text):
    """The text, which may be a tuple with parts in it, as it is said of these commands and
    arguments; of none that are named, the whole text.
    """
    parts = [Part("", text)] if isinstance(text, str) else [
        Part("", part) if isinstance(part, str) else part for part in text]
    said = "".join(part.said_of(words) for part in parts)
    return said[len(OR):] if said.startswith(OR) else said


class Status(NamedTuple):
    line: str  # on standard error; L is a fault's line, K its kind
    cause: str
    remedy: str
    commands: tuple = ()  # those that end so, where not all do


WITH_MEMORY = tuple(name for name, command in COMMANDS.items() if "memory" in command.all_words)
WITH_ALL = tuple(name for name, command in COMMANDS.items() if command.option == ALL)
WITH_INPUT = ("desk", "debug", "live")  # those that read standard input

STATUSES = {
    0: Status("", "all of the text was printed", ""),
    1: Status("rejected",
              "all of the text was printed, and a verdict in it is not `accept`, a request is "
              "unanswered (`--all`), or `audit` found an offence",
              "`docs/verifier.md` says what each verdict means, `docs/formats.md` what an offence "
              "is", ("verify", "round", "audit")),
    2: Status("words are no command",
              ("the arguments are no command",
               Part("steps", f", STEPS is no decimal in {VALUES['steps']}"),
               Part("seed", f", SEED none in {VALUES['seed']}"),
               Part("counter", f", COUNTER none in {VALUES['counter']}"),
               Part("chal", f", CHAL is not {VALUES['chal'].about}"),
               Part("name", ", DESK or NAME is not 1 to 32 letters, digits and `_`"),
               ", or an argument is not UTF-8"), "compare with `--help`"),
    3: Status("file is absent", "one of the files is not there", "look for them in this order"),
    4: Status("reading failed",
              ("a file is there and cannot be read: a folder, a path through a file, a lack of "
               "rights, a broken disk",
               PartOfSome(WITH_INPUT, "; or standard input of {} cannot be read")), "likewise"),
    5: Status("writing failed", "standard output took only a prefix of the text",
              "free space, or keep the pipe open"),
    6: Status("no memory",
              ("the system refused memory; nothing was printed",
               Part("round", ", or in `round` a prefix that ends before a `collision` line"),
               Part("desk", ", or in `desk` the replies to all lines before a report, or to some "
                            "lines where it was refused for MEMORY"),
               Part("debug", ", or in `debug` a prefix of the answers"),
               Part("live", ", or in `live` the answers to all lines before one")),
              "the program needs a few MiB, and for the largest sources some 40, the largest "
              "trace files some 70"),
    7: Status("bad key: line L: K", "the key is not 128 hexadecimal digits in one line",
              "`--help` says what K means"),
    8: Status("bad image: line L: K", "the image's first fault", "likewise"),
    9: Status("bad script: line L: K", "the script's first fault", "likewise"),
    10: Status("bad policy: line L: K", "the policy's first fault", "likewise"),
    11: Status("bad reports: line L: K", "the first fault of the reports", "likewise"),
    12: Status("bad source: line L: K", "the source's first fault", "likewise"),
    13: Status("bad trace: line L: K", "the first fault of the trace file", "likewise"),
    14: Status("bad keys: line L: K", "the first fault of a desk's keys", "likewise"),
    15: Status("input is too long",
               (PartOfSome(WITH_INPUT, "{} took 1,073,741,824 bytes of standard input"),),
               (Part("desk", "start the desk anew with its memory: `docs/desk.md`"),
                Part("debug", "; or connect GDB anew"),
                Part("live", "; or begin anew")), WITH_INPUT),
    16: Status("bad memory: M",
               "M says it: there is no MEMORY, or none yet; it is no memory of a desk, or is "
               "damaged; the log beside it is not its own; it was to be made, and is there; a key "
               "of KEYS stands under another name in it; a device has gone to another desk, or "
               "cannot go", "`docs/desk.md` says what to do", WITH_MEMORY),
    17: Status("memory is in use", "another desk, another of these commands or sqlite3 has MEMORY "
               "open", "end it first", WITH_MEMORY),
    18: Status("the memory could not be written",
               "MEMORY cannot be opened, made, read or written: no such folder, a lack of rights, "
               "a full or broken disk; no reply was put that it does not keep",
               "mend that, and start the desk anew", WITH_MEMORY),
    19: Status("bad states: line L: K", "the first fault of a text of states or of moves",
               "`--help` says what K means"),
}


def ending(status):
    """An exit status, and its line."""
    return status, STATUSES[status].line


def fault_ending(kind, fault):
    """The exit status and the line where this is the first fault of a file of this kind, as
    `1: Missing`.
    """
    status, line = ending(FILES[kind].status)
    return status, line.replace("L: K", fault)


# What M says of a memory.
ABSENT = "bad memory: there is none: found it first"
UNFOUNDED = "bad memory: it was not founded: found it first"
DAMAGED = "bad memory: no memory of a desk, or damaged"
OTHER_LOG = "bad memory: the log beside it is not its own"
FOUNDED = "bad memory: it is there already"
TAKEN = "bad memory: the key of device {} stands under another name"
GONE = "bad memory: device {} has gone to another desk"
NO_DEVICE = "bad memory: it has no such device"
ELSEWHERE = "bad memory: the device has gone to another desk"
OWN_DESK = "bad memory: that is its own desk"
AS_OFTEN = "bad memory: the device has moved as often as can be"
# What a fault's kind means, of each file.
TOO_LONG = {"TooLong": "the file is longer than its limit (line 0)"}
IN_WORDS = {
    **TOO_LONG,
    "Utf8": "the line is not UTF-8",
    "Missing": "a word is not there",
    "Word": "not the keyword that is wanted here",
    "Digit": "a character is no digit",
    "Count": "a wrong number of hexadecimal digits",
    "Range": "a number is out of range",
    "Extra": "a word too many",
}
OF_STATES = {
    **IN_WORDS,
    "Word": "not the keyword that is wanted here, or no answer",
    "Digit": "a character of a name is no letter, digit or `_`, or one of a key or a number no "
             "digit",
    "Count": "a name has more than 32 characters, or the mark of a key not 32 digits",
    "Range": "a number is out of range, or a counter is greater than the count, or the count is at "
             "its end",
    "Twice": "the line before it of this device has this key, or the key stands under another name",
    "Order": "the count, the number of the last line or the moves are less than in the line before "
             "it of this device",
}
FAULTS = {
    "key": {
        **TOO_LONG,
        "Missing": "fewer than 128 characters",
        "Extra": "more than 128 characters",
        "Digit": "a character is no hexadecimal digit",
    },
    "keys": {
        **TOO_LONG,
        "Utf8": "the line is not UTF-8",
        "Missing": "a word is not there",
        "Word": "not the keyword that is wanted here",
        "Digit": "a character of a name is no letter, digit or `_`, or one of a key no digit",
        "Count": "a name has more than 32 characters, or a key not 128 digits",
        "Extra": "a word too many",
        "Twice": "the name or the key was given before",
    },
    "image": {
        **TOO_LONG,
        "NoColon": "the line does not begin with a colon",
        "Digit": "a character is no hexadecimal digit",
        "Count": "the record has not as many digits as its count or its type says",
        "Check": "the bytes of the record do not sum to 0",
        "RecordType": "the type is past 05",
        "Place": f"a byte's address is not in {RAM} or {UPPER}",
        "AfterEnd": "a record after the end record",
        "NoEnd": "there is no end record",
    },
    "script": {**IN_WORDS, "Order": "the step is less than that of an earlier line"},
    "policy": {
        **IN_WORDS,
        "Missing": "a word is not there, or the file ends before `flag`, in version 1 before `or`",
        "Word": ("not the keyword that is wanted here",
                 Part("desk", "; or the policy of a `desk` is of version 1 (line 0)")),
        "Order": "the lines are not `version`, `er`, `or`, `flag`, then `ask` lines, in version 1 "
                 "`er`, `or`, then `chal` lines",
        "Twice": "an earlier `ask` line has this challenge and this counter",
        "Bounds": "a region is at odd places, ends before it begins, is not wholly in RAM or "
                  "program, or lies on another, the MAC or the metadata",
    },
    "reports": {**IN_WORDS, "Output": "`data` has not the size of the output region"},
    "source": {
        **TOO_LONG,
        "Utf8": "the line is not UTF-8",
        "Syntax": "the line has no reading",
        "Mnemonic": "there is no such instruction or directive, or not with this suffix",
        "Operand": "another number or form of operands is wanted",
        "Twice": "the name was given before",
        "Undefined": "a name has no value here",
        "Range": "a value is out of range, or a jump is odd or goes too far",
        "Place": f"a byte outside {RAM} and {UPPER}, or a word at an odd address",
        "Overlap": "there is a byte at this address already",
    },
    "trace": {
        **TOO_LONG,
        "Missing": "a word is not there",
        "Word": "no `t`, or no kind of step, access or rule",
        "Digit": "a character is no digit",
        "Count": "a wrong number of hexadecimal digits",
        "Range": "a number is out of range, or a word is at an odd address",
        "Extra": "a word too many",
        "Order": "the number of the step is not that of the lines before it",
    },
    "states": OF_STATES,
    "moved": {
        **OF_STATES,
        "Twice": "the line before it of this device has this key, or the key stands under another "
                 "name, in the text or in MEMORY",
        "Order": "the line falls behind the one before it of its device, or the device is in "
                 "MEMORY, or has moved on since",
        "Place": "the line is of no move to the desk of MEMORY",
    },
}
