"""What a run of the region read that neither lies in it nor was written by it: of that an accept
says nothing.
"""
import os
import re
import sys
from typing import NamedTuple

from memory_map import METADATA, PERIPHERALS, VECTORS
from where_elf import fail, position
from where_trace import RETURN, ROM_PC, action_of, chunks

BYTES = {b"r": 2, b"w": 2, b"b": 1, b"c": 1}  # of an access with this letter
WRITES = (b"w", b"c")
ROM_LAST = b"bffe"
DECISIONS = {1: "report", 2: "denial", 3: "denial"}
HEADER = f"{os.path.dirname(os.path.realpath(__file__))}/foldgneiss.h"


class Run:
    """A run of the region, and the bytes that it read and had not written, each with the
    instruction that did so first.
    """

    def __init__(self, step, er_min, er_max):
        self.first, self.er_min, self.er_max = step, er_min, er_max
        self.code = range(int(er_min, 16), int(er_max, 16) + 2)
        self.written, self.read = set(), {}

    def has(self, pc):
        return int(pc, 16) in self.code

    def see(self, step, pc, access):
        """A step of it. (What is written to a peripheral is not what is read there.)"""
        self.last, self.last_pc = step, pc
        first = int(access[1:5] or b"0", 16)
        places = range(first, first + BYTES.get(access[:1], 0))
        if access[:1] in WRITES:
            self.written.update(place for place in places if place not in PERIPHERALS)
        else:
            for place in places:
                if place not in self.code and place not in self.written:
                    self.read.setdefault(place, pc)

    def is_at_end(self):
        return self.last_pc == self.er_max


class Call:
    """A call of the attestation ROM, with the runs that it proves."""

    def __init__(self, runs):
        self.runs = runs
        self.step = self.exec = self.aux = self.decision = None

    def see(self, step, access, rest):
        self.step = step
        if access == b"r0268":
            self.exec = value(rest)
        elif access == b"r026a":
            self.aux = value(rest)
        elif access[:6] == b"w0200=" and self.decision is None:
            self.decision = int(access[6:], 16)

    def proves(self):
        return self.exec == 1 or self.aux == 1

    def told(self):
        return (f"{DECISIONS.get(self.decision, 'call')} in step {self.step.decode()}, "
                f"exec {self.exec} aux {self.aux}")


def value(rest):
    """What was read, of a line from the access of the DMA on."""
    return int(rest.split()[4], 16)


def touches_metadata(access):
    return access[:1] in WRITES and int(access[1:5], 16) | 1 in METADATA


def steps_of(file):
    """Step, kind, pc, access and what is behind it, of each line."""
    for lines in chunks(file):
        for line in lines:
            if not line.isspace():
                yield line.rstrip().split(b" ", 5)[1:]


def calls_of(file):
    """The calls of the ROM that came to their end, each with the runs that its flags can rest on:
    those that ended at the last instruction and since which nothing cleared both flags by itself.
    So do a reset, a write to the metadata, a way into the region or out of it elsewhere, and an
    access of the DMA in a run.
    """
    runs, run, call = [], None, None
    for step, kind, pc, access, rest in steps_of(file):
        if rest[-1:] != b"-" or touches_metadata(access) or touches_metadata(rest):
            runs, run, call = [], None, None
            continue
        er_min, er_max = rest[-23:-19], rest[-18:-14]
        begins = pc == er_min and access == b"f" + pc
        if run and (not run.has(pc) or begins and run.is_at_end()):
            runs, run = [*runs, run] if run.is_at_end() else [], None
        if kind == b"rom":
            call = Call(runs) if pc == ROM_PC else call
            if call:
                call.see(step, access, rest)
                if pc == ROM_LAST:
                    yield call
        elif run or er_min <= pc <= er_max:
            if begins and not run:
                run = Run(step, er_min, er_max)
            if run and rest[:1] == b"-":
                run.see(step, pc, access)
            else:
                runs, run = [], None


class Told(NamedTuple):
    """Neighbouring bytes that a run read at one line, with their name."""
    name: str
    is_right: bool
    first: int
    last: int
    reader: str  # function and line
    line: str

    def text(self):
        places = f"{self.first:04x}" + f"..{self.last:04x}" * (self.last != self.first)
        return f"    {self.name:<20} {places:<10}  {self.reader}".rstrip() + "\n"

    def fault(self):
        return (f"{self.line}: error: the region read {self.name} at {self.first:04x}, "
                f"which it had not written: {REMEDY}")


REMEDY = ("give each variable a value before it is read; use no other variable but one with the "
          "word FOREIGN, which the region may believe whatever stands there")


class Names:
    """What the places are that a region reads, by the header and the symbols of its ELF."""

    def __init__(self, firmware):
        with open(HEADER, encoding="utf-8") as file:
            header = file.read()
        self.firmware = firmware
        places = {symbol.name: symbol.place for symbol in firmware.symbols}
        self.words = {METADATA.start: "metadata"}
        self.words.update((int(place, 16), name) for name, place in
                          re.findall(r"^#define (\w+) .*?(0x[0-9A-F]{4})\b", header, re.M))
        self.words.update((places[symbol], name) for name, symbol in
                          re.findall(r"^#define (\w+) (\w+)\b", header, re.M) if symbol in places)
        self.vectors = {VECTORS.start + 2 * int(number): f"vector of {name}" for name, number in
                        re.findall(r"^#define (\w+)_VECTOR (\d+)", header, re.M)}
        self.er_min = places.get("er_min")
        self.foreign = range(places.get("data_start", 0), places.get("foreign_end", 0))

    def right(self, place):
        """The name of a byte that a region may read though it did not write it, None where it may
        not.
        """
        if place in PERIPHERALS:
            return self.words.get(place & ~1)
        if place in METADATA:
            return self.words[max(at for at in self.words if at <= place)]
        return self.symbol(place) if place in self.foreign else self.vectors.get(place & ~1)

    def symbol(self, place):
        """The name of the variable that has this byte, or of its section."""
        section, start = next(((section.name, section.place) for section in self.firmware.sections
                               if section.place <= place < section.place + section.size),
                              ("a place", place))
        # (A label of assembler code has no size. Those of the linker script are global.)
        found = [(bool(symbol.size), symbol.place, symbol.binding == "LOCAL", symbol.name)
                 for symbol in self.firmware.symbols if symbol.section != "ABS"
                 and start <= symbol.place <= place < symbol.place + (symbol.size or place)]
        return max(found)[-1] if found else section


def told_of(run, names):
    """What a run read."""
    told = []
    for place, pc in sorted(run.read.items()):
        reader = names.firmware.places.get(pc) or names.firmware.place_of(int(pc, 16), b"0000", "")
        name = names.right(place)
        if pc == run.er_max and action_of(reader.word) == (RETURN, None):
            name = "return address"
        one = Told(name or names.symbol(place), name is not None, place, place, reader.shown(),
                   position(reader) or pc.decode())
        before = told[-1] if told else None
        if before and before._replace(first=place, last=place) == one and before.last == place - 1:
            one = told.pop()._replace(last=place)
        told.append(one)
    return told


def attested_of(firmware, files, may_have_none):
    """The text of `where attested`. Ends with the status 1 where a region read what it may not,
    and where no call proves a run, unless there may be none.
    """
    names, texts, faults = Names(firmware), {}, {}
    for call in (call for file in files for call in calls_of(file) if call.proves()):
        for run in call.runs:
            if run.code.start != names.er_min:
                fail("the trace is of another region than that of the ELF")
            told = told_of(run, names)
            text = texts.setdefault("".join(one.text() for one in told), [])
            text.append(f"{call.told()}: the region read in steps {run.first.decode()} to "
                        f"{run.last.decode()}\n")
            faults.update((one.fault(), None) for one in told if not one.is_right)
    for lines, (heading, *others) in texts.items():
        yield heading + lines
        if others:
            yield f"    runs that read the same: {1 + len(others)}\n"
    if not texts and not may_have_none:
        fail("no call of the attestation ROM had EXEC 1 or AUX 1")
    if faults:
        sys.stdout.flush()
        sys.exit("\n".join(faults))
