"""The files that tools/check-program gives to the program."""
import contextlib
import os
import re
import shutil
import tempfile
from string import ascii_letters
from typing import NamedTuple

import attestation_model
import desk_model
import verifier_model
from desk_model import Desk
from file_readers import (Policy, SentByte, hex_record, image_text, policy_text, read_lines,
                          read_reports)
from readers import READERS, first_fault
from reference import ALL, COMMANDS, FILES, IMAGE_PLACES, PROGRAM, RESET_VECTOR
from sqlite_rows import sqlite3
from trial import ROOT

EXAMPLES = f"{ROOT}/examples"
# The first fault of files in SampleFiles, each by its kind and the end of its name.
FIRST_FAULTS = {
    "key": {"empty": "1: Missing", "short": "1: Missing", "digit": "1: Digit", "extra": "1: Extra",
            "256": "1: Extra", "257": "0: TooLong"},
    "keys": {"twice": "2: Twice", "twice-last": "5: Twice", "twice-key": "3: Twice",
             "name": "1: Digit", "name-long": "1: Count", "short": "1: Count", "digit": "2: Digit",
             "word": "1: Word", "extra": "1: Extra", "missing": "1: Missing", "utf8": "1: Utf8"},
    "image": {"empty": "0: NoEnd", "no-end": "2: NoEnd", "check": "1: Check",
              "no-colon": "1: NoColon", "after-end": "4: AfterEnd", "place": "1: Place",
              "type": "1: RecordType"},
    "script": {"order": "2: Order", "count": "1: Count", "range": "1: Range", "utf8": "1: Utf8"},
    "policy": {"short": "3: Missing", "short-one": "1: Missing", "version": "1: Range",
               "ask": "3: Word", "chal": "6: Order", "flag": "4: Word", "counter": "5: Range",
               "twice": "7: Twice", "utf8": "1: Utf8", "bounds": "3: Bounds",
               "bounds-one": "2: Bounds"},
    "reports": {"cut": "1: Count", "decision": "2: Range", "word": "1: Word"},
    "source": {"mvo": "1: Mnemonic"},
    "trace": {"last": "1: Order", "cut": "1: Missing", "blank": "2: Missing", "comment": "1: Word",
              "place": "2: Range"},
    "states": {"twice": "2: Twice", "taken": "2: Twice", "word": "1: Word", "name": "1: Digit",
               "mark": "1: Count", "digit": "1: Digit", "range": "1: Range", "answer": "1: Word",
               "extra": "1: Extra", "missing": "1: Missing", "utf8": "1: Utf8",
               "moves": "1: Digit", "request": "1: Range", "spent": "1: Range",
               "count": "2: Order", "number": "2: Order", "fewer": "2: Order",
               "first": "4: Order", "spent-again": "2: Range", "behind-again": "2: Twice"},
    "moved": {"twice": "2: Twice", "taken": "2: Twice", "word": "1: Word", "to": "1: Word",
              "name": "1: Digit", "desk": "1: Digit", "desk-long": "1: Count",
              "moves": "1: Range", "extra": "1: Extra", "missing": "1: Missing",
              "utf8": "1: Utf8", "fewer": "2: Order", "first": "4: Order"},
}
MOST_DEVICES = 1886  # of a file of keys, with names of one character and of two


def read(name):
    with open(name, "rb") as file:
        return file.read()


def write(name, text):
    with open(name, "wb") as file:
        file.write(text)
    return name


def database(name, *lines):
    """A file that another program made; None where Python has no SQLite."""
    if not sqlite3:
        return None
    with contextlib.closing(sqlite3.connect(name)) as made:
        for line in lines:
            made.execute(line)
        made.commit()
    return name


def remove_memory(name):
    """Removes a desk's memory with its log, as far as they are there."""
    for each in (name, f"{name}-wal"):
        if os.path.exists(each):
            os.remove(each)


class Call(NamedTuple):
    """A call of the desk's program or of the debugger, and what it prints."""
    words: tuple
    text: bytes
    input: bytes = None
    begun: tuple = ()  # what may be out before memory runs out
    made: str = None  # the memory that it is on, as it was before each call
    start: str = None  # the memory of which that is a copy; of none it is not there

    def begin(self):
        if self.made:
            remove_memory(self.made)
        if self.start:
            shutil.copy(self.start, self.made)


def steps_of(text):
    """The steps of the play that printed this text, as its end line has them."""
    return re.search(rb"^end (\d+) ", text, re.M)[1].decode()


def sent_bytes(text):
    """The bytes that were sent in the play that printed this text."""
    return bytes(line.byte for line in read_lines(text) if isinstance(line, SentByte))


class Example:
    """A folder of examples/ with an image, and what a run of it prints."""

    def __init__(self, name):
        self.folder = f"{EXAMPLES}/{name}"
        self.text = read(f"{self.folder}/expected.txt")
        self.steps = steps_of(self.text)

    def file(self, kind):
        return f"{self.folder}/{kind}.{'hex' if kind == 'image' else 'txt'}"

    def value(self, kind):
        """What the example's file of this kind says."""
        return READERS[kind](read(self.file(kind)))

    def words(self, command, *option, **others):
        """A command with the example's files, some of them others, and the steps that it has."""
        files = {kind: self.file(kind) for kind in COMMANDS[command].files}
        words = {**files, "steps": self.steps, **others}
        return command, *option, *(words[word] for word in COMMANDS[command].words)


def lengthened(text, length):
    """The text, and line ends after it up to the length."""
    return text.ljust(length, b"\n")


class SampleFiles:
    """A folder of files by their names, that is removed at the end."""

    def __init__(self):
        self.holder = tempfile.TemporaryDirectory(prefix="check-program-")
        self.folder = self.holder.name
        self.image = self.add("image.hex", self.letter_image())
        self.script = f"{EXAMPLES}/letter-a/script.txt"
        self.key = f"{EXAMPLES}/letter-a/key.txt"
        self.letter = [self.image, self.script, self.key]
        self.round = Example("round")
        self.texts = {
            "letter": read(f"{EXAMPLES}/letter-a/expected.txt"),
            "memory": self.letter_memory(),
            "trace": b"t 0 boot 0000 rfffe - 0 0 0000 c000 0000 0000 0000 0000 0000 0 -\n"
                     b"t 1 cpu c000 fc000 - 0 0 40b2 40b2 0000 0000 0000 0000 0000 0 -\n",
            "listing": b"c000: mov #0x0041,&0x0076\nc006: jmp 0xc006\nfffe: .word 0xc000\n",
            "image": b":08C00000B24041007600FF3F51\n:02FFFE0000C041\n:00000001FF\n",
            # The lines of two workloads. The texts that they are of were computed with AUX 0 by a
            # program in another language, which drew the scripts and played the firmware. Into
            # these texts AUX was put, which is EXEC as no interrupt comes, and the MACs with it by
            # Python's hmac.
            "work": b"work 7 steps 1000000 tx 0 resets 154 reports 404 denied 0 exec 403 text "
                    b"5937bd3f5d554b9f2cf65cad1a11fbe2070160fe6e51deb217fec34a436dae66\n",
            "work-last": b"work 4294967295 steps 1000000 tx 0 resets 132 reports 430 denied 0 exec "
                         b"430 text "
                         b"54e1a94b42d2e1d96e564785412fb97ada18aa3c9ae64b3320f0d5d87afdb915\n",
        }
        self.texts["dump"] = self.texts["letter"] + self.texts["memory"]
        self.add_sources()
        self.add_traces()
        self.add_verifier_files()
        self.add_faulty_files()
        self.add_states()
        self.add_moved()
        self.add_cut_files()

    def add(self, name, text):
        return write(os.path.join(self.folder, name), text)

    def __getitem__(self, name):
        return os.path.join(self.folder, name)

    def words_of_round(self, command, *option, **others):
        """A command with the files of the example `round` and what belongs to its report, some of
        it other.
        """
        return self.round.words(command, *option, **{
            "chal": self.report.challenge.hex(), "counter": str(self.report.count),
            "policy": self["policy"], "reports": self["reports"], "keys": self["keys"],
            "states": self["states"], "moved": self["moved"], "memory": self["desk.db"],
            "name": "a", "desk": "north", **others})

    def desk_of_round(self):
        """The model of a desk whose device `a` has the key of the example `round`."""
        return Desk({b"a": self.round.value("key")}, self.round.value("image"), self.policy)

    def desk_call(self):
        """A desk, its input, which is a request and its report, and the replies to both."""
        desk, report = self.desk_of_round(), self.desk_report(1)
        lines = b"ask a 1\ngive a 2 " + report
        return self.words_of_round("desk"), lines, desk.replies(lines).splitlines(keepends=True)

    def desk_report(self, count, **changes):
        """The report on the desk's request with this counter, some of it other."""
        key = self.round.value("key")
        return self.report_with(challenge=desk_model.challenge(key, count), count=count, **changes)

    def each_command(self):
        """Each command with files that it takes, and what it prints."""
        return {
            ("play", *self.letter, "5"): self.texts["letter"],
            ("dump", *self.letter, "5"): self.texts["dump"],
            ("trace", *self.letter, "2"): self.texts["trace"],
            ("wave", *self.letter, "5"): read(f"{EXAMPLES}/wave/letter-a.vcd"),
            ("list", self.image): self.texts["listing"],
            self.words_of_round("request"): self.request_line(),
            self.words_of_round("verify"): b"verdict 1 accept\n",
            self.words_of_round("verify", ALL): b"verdict 1 accept\n",
            self.round.words("round"): self.round.text,
            self.round.words("round", ALL): self.round.text,
            ("audit", self["trace"]): b"clean 2\n",
            ("asm", self["letter.asm"]): self.texts["image"],
            ("work", "7"): self.texts["work"],
        }

    def each_desk_call(self):
        """Each command of the desk with files that it takes; each has the memory that an earlier
        one made, or a copy of it.
        """
        words, lines, replies = self.desk_call()
        text, new, full = b"".join(replies), self["memory-new"], self["memory-full"]
        memory, states = self["memory"], read(self["states"])
        gone = desk_model.moved(self.entries, b"north", b"a", b"south")[1]
        return [
            Call(words, text, lines, replies[:1]),
            Call(("found", new, "north"), b"", made=new),
            Call((*words, memory), text, lines, replies[:1], memory, new),
            Call(("remember", self["states"], full, "north"), b"", made=full),
            Call(("states", full), states),
            Call(("move", memory, "a", "south"), gone, made=memory, start=full),
            Call(("adopt", self["moved"], memory), b"", made=memory, start=new),
        ]

    @staticmethod
    def debug_call():
        """A debugger that goes forwards and backwards and asks for texts."""
        stem = f"{ROOT}/conformance/cases/debug-monitors"
        text = read(f"{stem}.debug")
        return Call(("debug", f"{stem}.hex", f"{stem}.script", f"{stem}.key"), text,
                    read(f"{stem}.packets"), tuple(text[:at] for at in range(len(text))))

    @staticmethod
    def live_call():
        """A device that is told what happens, goes on, and shows what stands in it."""
        echo = f"{EXAMPLES}/echo"
        lines = (b"at 3 rx 41\n", b"run 10\n", b"memory 6a00 4\n", b"run 5\n", b"run 2000\n")
        told = (b"", b"at 10 pc c032 exec 0\n", b"memory 6a00 -\n", b"refused 4 Order\n",
                b"tx 28 41\nat 2000 pc c032 exec 0\n", b"end 2000 pc c032 exec 0\n")
        begun = tuple(b"".join(told[:at]) for at in range(len(told)))
        return Call(("live", f"{echo}/image.hex", f"{echo}/key.txt"), b"".join(told),
                    b"".join(lines), begun)

    @staticmethod
    def letter_image():
        """The example's image in three lines: LF at their ends, no start address."""
        lines = read(f"{EXAMPLES}/letter-a/image.hex").replace(b"\r", b"").split(b"\n")
        return b"\n".join(line for line in lines if not line.startswith(b":04000003"))

    @staticmethod
    def letter_memory():
        """The memory after the letter A as Intel HEX: that of its image, and 0 elsewhere."""
        memory = dict.fromkeys(IMAGE_PLACES, 0)
        memory.update(enumerate(bytes.fromhex("B24041007600FF3F"), PROGRAM.first))
        memory[RESET_VECTOR + 1] = 0xC0
        return image_text(memory)

    def add_sources(self):
        self.add("letter.asm", b".org 0xC000\nstart: mov #0x41,&0x76\nstop: jmp stop\n"
                               b".org 0xFFFE\n.word start\n")
        self.add("source-mvo", b"mvo r4,r5\n")

    def add_traces(self):
        """The trace of the letter's first steps, with an offence or a fault in its last line, and
        in part.
        """
        trace = self.texts["trace"]
        first, last = trace.splitlines(keepends=True)
        self.add("trace", trace)
        self.add("trace-crlf", b"\n" + trace.replace(b"\n", b"\r\n")[:-2])
        self.add("trace-rule", trace[:-2] + b"K1\n")
        self.add("trace-exec", trace[:-4] + b"1 -\n")
        self.add("trace-last", last)
        self.add("trace-cut", first[:35])
        self.add("trace-blank", first + b" \n")
        self.add("trace-comment", b"# a trace\n" + trace)
        self.add("trace-place", trace.replace(b"fc000", b"fc001"))

    def request_line(self):
        return attestation_model.request_line(self.round.value("key"), self.report.challenge,
                                              self.report.count)

    def policy_with(self, **changes):
        """A file with the policy that the example's report meets, in some of its values another."""
        return self.add("policy-with", policy_text(self.policy._replace(**changes)))

    def report_with(self, **changes):
        """A report line that says what the example's report says, but for some of its values, and
        that has the MAC for what it says, where it has no other.
        """
        report = self.report._replace(**changes)
        if "mac" not in changes:
            report = verifier_model.with_right_mac(
                self.round.value("image"), self.round.value("key"), report)
        return attestation_model.report_line(report)

    def add_verifier_files(self):
        """The report of the example `round`, the policy that it meets, and files with a fault."""
        self.report = read_reports(self.round.text)[0]
        self.policy = Policy(self.report.version, self.report.bounds, "exec",
                             [(self.report.challenge, self.report.count)])
        reports, policy = self.report_with(), policy_text(self.policy)
        self.add("reports", reports)
        self.add("reports-among", b"tx 4 41\nreset 5 K4\ndenied 84 3\nverdict 1 aux-zero\n"
                                  b"collision 00 0102\n" + reports + b"end 6 pc c000 exec 0\n")
        self.add("reports-cut", re.sub(rb" mac (.{10}).*", rb" mac \1", reports))
        self.add("reports-decision", reports + b"denied 84 1\n")
        self.add("reports-word", reports.replace(b" aux ", b" uax "))
        self.add("policy", policy)
        self.add("policy-utf8", b"# \xff\n" + policy)
        lines = policy.splitlines(keepends=True)
        self.add("policy-short", b"".join(lines[:3]))
        self.add("policy-short-one", lines[1])
        self.add("policy-version", b"version 3\n")
        self.add("policy-ask", lines[1] + lines[2] + lines[4])
        self.add("policy-chal", policy + b"chal " + b"f" * 64 + b"\n")
        self.add("policy-flag", policy.replace(b"flag exec", b"flag exe"))
        self.add("policy-counter", policy_text(
            self.policy._replace(requests=[(self.report.challenge, 0)])))
        self.add("policy-twice", policy + b"ask " + b"f" * 64 + b" 1\n" + lines[4].upper().replace(
            b"ASK", b"ask"))
        self.add("policy-bounds", lines[0] + lines[1] + b"or 0270 0270\n")
        self.add("policy-bounds-one", lines[1] + b"or 0268 0268\n")

    def add_faulty_files(self):
        """Files with one fault each, and keys that are in order."""
        key, image = read(self.key), read(self.image)
        lines = image.splitlines(keepends=True)
        for name in ("empty", "key-empty", "image-empty"):
            self.add(name, b"")
        self.add("key-short", key[:127])
        self.add("key-bare", key[:128])
        self.add("key-crlf", key[:128] + b"\r\n")
        self.add("key-upper", key.upper())
        self.add("key-digit", key.replace(b"f", b"g"))
        self.add("key-extra", key[:128] + b"0\n")
        device, others = b"device a " + key, [key[at:128] + key[:at] + b"\n" for at in (1, 3, 5)]
        self.add("keys", device)
        self.add("keys-among", b"# keys\n\ndevice A_9 " + others[0].upper() + b"\tdevice  a\t"
                 + key[:128] + b"\r\ndevice " + b"Z" * 32 + b" " + others[1])
        self.add("keys-twice", device + b"device a " + others[0])
        self.add("keys-twice-last", device + b"# a\ndevice b " + others[0] + b"device c "
                 + others[1] + b"device c " + others[2])
        self.add("keys-twice-key", device + b"device b " + others[0] + b"device c " + key.upper())
        self.add("keys-name", device.replace(b" a ", b" a-b "))
        self.add("keys-name-long", device.replace(b" a ", b" %s " % (b"a" * 33)))
        self.add("keys-short", device[:-2])
        self.add("keys-digit", device + b"device b " + key.replace(b"f", b"g"))
        self.add("keys-word", b"devices" + device[6:])
        self.add("keys-extra", device[:-1] + b" b\n")
        self.add("keys-missing", b"device a\n")
        self.add("keys-utf8", b"# \xff\n")
        self.add("key-256", b"0" * 256)
        self.add("key-257", b"0" * 257)
        self.add("image-no-end", b"".join(lines[:2]))
        self.add("image-check", image.replace(b"51\n", b"50\n"))
        self.add("image-no-colon", image[1:])
        self.add("image-after-end", image + b":00000001FF\n")
        self.add("image-place", b":0100000041BE\n:00000001FF\n")
        self.add("image-type", b":00000006FA\n:00000001FF\n")
        self.add("script-order", b"at 5 reset\nat 4 reset\n")
        self.add("script-count", b"at 5 rx 0\n")
        self.add("script-range", b"at 10000000 reset\n")
        self.add("script-utf8", b"# \xff\n")

    def add_states(self):
        """States as a memory of the desk has them, and files with one fault each."""
        desk = self.desk_of_round()
        desk.replies(b"ask a 1\ngive a 2 " + self.desk_report(1) + b"ask a 3\nask a 4 x\n")
        self.entries = desk.entries
        line = desk_model.states_text(desk.entries)
        other = re.sub(b"key ..", b"key 00", line)
        spent = line.replace(b"count 2", b"count 4294967295")
        behind = other.replace(b"count 2 outstanding 2", b"count 1 outstanding none")
        self.add("states", line)
        for name, text in {
                "word": line.replace(b"state2 ", b"states "),
                "name": line.replace(b" a ", b" a-b "), "mark": line.replace(b"key ", b"key 0"),
                "moves": line.replace(b"moves 0", b"moves x"),
                "digit": line.replace(b"count ", b"count x"),
                "range": line.replace(b"outstanding 2", b"outstanding 3"),
                "answer": line.replace(b"Extra", b"Extras"), "extra": line.replace(b"\n", b" b\n"),
                "missing": line.replace(b" Extra", b""), "utf8": b"# \xff\n" + line,
                "request": line.replace(b"bad Extra", b"request 3"),
                "spent": spent, "twice": line + line,
                "taken": line + line.replace(b" a ", b" b "), "count": line + behind,
                "number": line + other.replace(b"last 4", b"last 3"),
                "fewer": line.replace(b"moves 0", b"moves 1") + other,
                "first": line + b"# a comment\n\n" + behind + line, "spent-again": line + spent,
                "behind-again": line + line.replace(b"last 4", b"last 3")}.items():
            self.add(f"states-{name}", text)

    def add_moved(self):
        """The lines of a move to the desk `north`, and files with one fault each."""
        line = desk_model.moved(self.entries, b"south", b"a", b"north")[1]
        other = re.sub(b"key ..", b"key 00", line)
        self.add("moved", line)
        for name, text in {
                "word": line.replace(b"moved ", b"move "), "to": line.replace(b" to ", b" two "),
                "name": line.replace(b" a ", b" a-b "),
                "desk": line.replace(b"north", b"no-rth"),
                "desk-long": line.replace(b"north", b"n" * 33),
                "moves": line.replace(b"moves 1", b"moves 4294967296"),
                "extra": line.replace(b"\n", b" b\n"), "missing": line[:line.index(b" last")],
                "utf8": b"# \xff\n" + line, "twice": line + line,
                "taken": line + line.replace(b" a ", b" b "),
                "fewer": line.replace(b"moves 1", b"moves 2") + other,
                "first": line + b"\n# north\n" + other.replace(b"last 4", b"last 3") + line,
                }.items():
            self.add(f"moved-{name}", text)

    def add_cut_files(self):
        """Real files cut in the middle, where that is a fault; the faults by their kinds."""
        own = {"policy": self["policy"], "reports": self["reports"], "source": self["letter.asm"],
               "trace": self["trace"], "keys": self["keys"], "states": self["states"],
               "moved": self["moved"]}
        self.cut_faults = {}
        for kind in FILES:
            text = read(own.get(kind) or self.round.file(kind))
            text = text[:len(text) // 2]
            while not first_fault(kind, text):
                text = text[:-1]
            self.add(f"{kind}-middle", text)
            self.cut_faults[kind] = first_fault(kind, text)

    def add_long_files(self):
        """Images of some 19,000 bytes, in which no record is like another: the firmware of letter
        A, but with the letter from the record at its end; and faults far down. The number of
        lines.
        """
        lines = read(self.image).splitlines()[:2]
        lines += [hex_record(place, [place // 256, place // 16 % 256, *range(1, 15)])
                  for place in range(0xC010, 0xC010 + 6400, 16)]
        lines += [hex_record(0xC002, b"\x5A\0"), b":00000001FF"]

        def joined(lines):
            return b"\n".join([*lines, b""])
        self.add("image-long", joined(lines))
        self.add("image-long-check", joined([*lines[:-2], lines[-2][:-2] + b"00", lines[-1]]))
        self.add("image-long-colon",
                 joined([*lines[:199], lines[199].replace(b":", b";"), *lines[200:]]))
        self.add("image-long-cut", joined(lines)[:-13])
        comments = [b"# the comment of line %d" % number for number in range(1, 1000)]
        self.add("script-long", joined([*comments, b"at 7 rest"]))
        return len(lines)

    def add_largest_files(self):
        """Files of each kind up to their limits, full of lines that change nothing: records that
        are written again, bytes that nobody reads, names that nobody uses, requests with one
        challenge, with the reports on them again and again, and devices that send nothing. The
        numbers of requests and of reports.
        """
        lines = read(self.image).splitlines(keepends=True)
        counts = range(1, FILES["policy"].limit // (len("ask  9999\n") + 64))
        reports = b"".join(self.report_with(count=count) for count in counts)
        policy = policy_text(self.policy._replace(
            requests=[(self.report.challenge, count) for count in counts]))
        names = [letter + other for other in ("", *ascii_letters) for letter in ascii_letters]
        self.add("states-many", b"".join(
            b"state2 d%d moves 0 key %032d count 7 outstanding 7 last 9 request 7\n"
            % (number, number)
            for number in range(2000)))
        many = {
            "keys": b"".join(b"device %s %0128d\n" % (name.encode(), number)
                             for number, name in enumerate(names[:MOST_DEVICES])),
            "states": read(self["states-many"]) + b"# a comment\n" * 200000,
            "moved": read(self["states-many"]).replace(b"state2", b"moved").replace(
                b" moves 0", b" to north moves 1") + b"# a comment\n" * 200000,
            "image": lines[0] * 37447 + b"".join(lines[-2:]),
            "script": b"at 4 rx 000000 \n" * 65536,
            "source": b"".join(b".equ n%05d,1\n" % number for number in range(1, 74891))
                      + read(self["letter.asm"]),
            "policy": policy,
            "reports": reports * (FILES["reports"].limit // len(reports)),
        }
        for kind, text in many.items():
            self.add(f"{kind}-most", lengthened(text, FILES[kind].limit))
            self.add(f"{kind}-more", lengthened(text, FILES[kind].limit + 1))
        return many["policy"].count(b"ask"), many["reports"].count(b"report")

    def add_largest_traces(self):
        """A trace file up to its limit, and a longer one: after a boot a device that sleeps. The
        number of lines.
        """
        line = b"t %d idle c000 - - 0 0 0000 0000 0000 0000 0000 0000 0000 0 -\n"
        lines, length, limit = [], 0, FILES["trace"].limit
        while length + len(line) + 6 < limit:
            lines.append(line % len(lines) if lines else self.texts["trace"].splitlines(True)[0])
            length += len(lines[-1])
        text = b"".join(lines)
        self.add("trace-most", lengthened(text, limit))
        self.add("trace-more", lengthened(text, limit + 1))
        return len(lines)

    def add_scattered_image(self):
        """A byte at each odd place, so that each stands alone."""
        places = [place for place in IMAGE_PLACES if place % 2]
        self.add("image-odd", image_text(dict.fromkeys(places, 90)))
        return len(places)
