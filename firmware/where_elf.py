"""What the ELF of a firmware says of its addresses, asked of LLVM's tools: the instruction there,
the function, and the lines of the sources behind it.
"""
import bisect
import functools
import json
import os
import re
import subprocess
import sys
from collections import namedtuple

from elf_file import ElfFault, named_symbols, read_elf
from memory_map import RAM, VECTORS

# What llvm-symbolizer says of an address: a function with its first line, and the line in it.
Frame = namedtuple("Frame", "name first_file first_line file line column")
# A function that was inlined, with its first line, and where it was called.
Inlined = namedtuple("Inlined", "name file line call_file call_line call_column")
NO_FRAME = Frame("", "", 0, "", 0, 0)
CALL_IMMEDIATE = b"\xb0\x12"


class Function:
    """A function, or a label of assembler code that has the place of one."""

    def __init__(self, name, file="", line=0):
        self.name, self.file, self.line = name, file, line
        self.entries = 0


class Place:
    """An address of the program: what stands there, and what was done there."""
    __slots__ = ("address", "word", "text", "function", "file", "line", "inlined", "action",
                 "count", "steps", "idle")

    def __init__(self, address, word, text, function, file="", line=0, inlined=()):
        self.address, self.word, self.text, self.function = address, word, text, function
        self.file, self.line, self.inlined = file, line, inlined
        self.action = None  # what it does to the stack
        self.count = self.steps = self.idle = 0

    def shown(self):
        """Function, file and line as a reader wants them."""
        names = [call.name for call in self.inlined] + [self.function.name]
        return f"{' in '.join(names)}  {position(self)}".rstrip()


def position(what):
    """The file, by its path where it lies below this folder, and the line."""
    path = relative(what.file)
    short = os.path.basename(path) if os.path.isabs(path) else path
    return f"{short}:{what.line or '?'}" if what.file else ""


def relative(path):
    """The path from this folder, where it lies below it."""
    here = os.getcwd() + "/"
    return path[len(here):] if path.startswith(here) else path


def answer(*command, check=True, **options):
    """What a tool prints; options are those of subprocess.run."""
    try:
        done = subprocess.run(command, stdout=subprocess.PIPE, check=check, **options)
    except FileNotFoundError:
        fail(f"there is no {command[0]} (Debian's package llvm)")
    except subprocess.CalledProcessError as failed:
        fail(f"{command[0]} ended with the status {failed.returncode}")
    return done.stdout.decode("utf-8", "replace")


def fail(text):
    """Ends the tool with this line."""
    sys.exit(f"{os.path.basename(sys.argv[0])}: {text}")


def refuse(elf):
    fail(f"{elf} is damaged, or no firmware of the kit")


def instructions_of(elf):
    """Bytes and text of the instruction at each address."""
    form = re.compile(r"^ *([0-9a-f]+): ((?:[0-9a-f]{2} )+)\s*(.*)")
    found = map(form.match, answer("llvm-objdump", "-d", elf).split("\n"))
    return {int(match[1], 16): (bytes.fromhex(match[2]).ljust(2, b"\0"),
                                match[3].replace("\t", " ")) for match in found if match}


def frames_of(elf, addresses):
    """The frames of each address, the innermost inlined function first."""
    given = "".join(f"{address:#x}\n" for address in addresses).encode()
    told = answer("llvm-symbolizer", "--output-style=JSON", "-i", "-e", elf, input=given)
    try:
        return {address: [Frame(frame["FunctionName"], real(frame["StartFileName"]),
                                frame["StartLine"], real(frame["FileName"]), frame["Line"],
                                frame["Column"]) for frame in json.loads(line)["Symbol"]]
                for address, line in zip(addresses, told.split("\n"))}
    except (ValueError, KeyError):  # (it tells an error in place of frames)
        return refuse(elf)


@functools.lru_cache(maxsize=None)
def real(path):
    """The path of a file without links, which the kit's files are reached by."""
    return os.path.realpath(path) if path else ""


class Firmware:
    """The ELF: its places, functions and data."""

    def __init__(self, elf):
        try:
            told = read_elf(elf)
        except ElfFault:
            refuse(elf)
        self.sections = [section for section in told.sections if "A" in section.flags]
        self.symbols = named_symbols(told)
        if any(section.place + section.size > 0x10000 for section in self.sections):
            refuse(elf)
        self.nowhere = Function("(no function)")
        self.text = [range(section.place, section.place + section.size)
                     for section in self.sections
                     if "X" in section.flags and section.place not in VECTORS]
        code = instructions_of(elf)
        self.frames = frames_of(elf, [address for part in self.text for address in part[::2]])
        starts = self.find_starts(code)
        self.functions = [self.function_at(start, name) for start, name in starts]
        self.first = [start for start, _ in starts]
        self.ends = {symbol.place: symbol.place + symbol.size for symbol in self.symbols
                     if symbol.kind == "FUNC" and symbol.size}
        self.places = {b"%04x" % address: self.place_of(address, b"%02x%02x" % (word[1], word[0]),
                                                        text)
                       for address, (word, text) in code.items() if address not in VECTORS}

    def find_starts(self, code):
        """Where functions start: each of C; and of the labels of assembler code those that are
        called or a vector names, and the first one of a section or behind a function of C.
        """
        called = {int.from_bytes(word[2:4], "little") for word, _ in code.values()
                  if word[:2] == CALL_IMMEDIATE}
        called |= {int.from_bytes(word[:2], "little") for address, (word, _) in code.items()
                   if address in VECTORS}
        starts, ends = {}, [part.start for part in self.text]
        for symbol in sorted(self.symbols, key=lambda symbol: (
                symbol.place, symbol.kind != "FUNC", symbol.binding != "GLOBAL", symbol.name)):
            place, is_function = symbol.place, symbol.kind == "FUNC"
            if place in starts or symbol.section == "ABS" or not self.has_code(place):
                continue
            behind = any(end <= place for end in ends)
            if is_function or place in called or behind:
                starts[place] = symbol.name
                ends = [end for end in ends if end > place]
            if is_function and symbol.size:
                ends.append(place + symbol.size)
        return sorted(starts.items())

    def has_code(self, address):
        return any(address in part for part in self.text)

    def function_at(self, start, name):
        """With the line on which it begins."""
        frame = self.frames.get(start, [NO_FRAME])[-1]
        return Function(name, frame.first_file or frame.file, frame.first_line or frame.line)

    def function_of(self, address):
        found = bisect.bisect_right(self.first, address) - 1
        if (found < 0 or not self.has_code(address)
                or address >= self.ends.get(self.first[found], 0x10000)):
            return self.nowhere
        return self.functions[found]

    def place_of(self, address, word, text):
        """An address with the first word of an instruction."""
        frames = self.frames.get(address, [NO_FRAME])
        inlined = tuple(Inlined(*frame[:3], *outer[3:])
                        for frame, outer in zip(frames, frames[1:]))
        return Place(address, word, text, self.function_of(address), frames[0].file,
                     frames[0].line, inlined)

    def end_of_data_below(self, top):
        """Where a stack that begins there has to end, and why: data, the word that guards it, or
        the beginning of its section.
        """
        ends = [(RAM.start, "where RAM begins")]
        for section in self.sections:
            first, end = section.place, section.place + section.size
            if section.size and first in RAM and first < top:
                ends.append((end, f"the end of {section.name}") if end <= top
                            else (first, f"where {section.name} begins"))
        for symbol in self.symbols:
            first = symbol.place
            end = first + (2 if symbol.name.endswith("_guard") else symbol.size)
            if first in RAM and symbol.section != "ABS" and first < end <= top:
                ends.append((end, f"the end of {symbol.name}"))
        return max(ends)
