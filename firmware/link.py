"""link.py JOINED ELF LD [ARGUMENT..]

Links JOINED, the joined object files of a firmware, to ELF by the linker LD, with its region
closed: the constants and the functions of the kit that the region refers to are laid into it, in
the sections .er.own.*. What it then still refers to outside itself but output, its stack and
FOREIGN variables is an error, with the line that does so and a remedy. So are an output with an
initializer and interrupts that do not do what their author means.
"""
import os
import re
import subprocess
import sys

from elf_file import read_elf
from region_code import Place
from region_flow import Flow
from region_rules import (ENTRY, FOREIGN, GUARD, KIT, OUTPUT, OWN, REGION, STACK, is_region,
                          stray_number)
from region_stack import Stack, nested_handlers

LINKER_NAMES = ("er_min", "er_max", "or_min", "or_max", "foldgneiss_token")
ENTRIES = ("attest", "region", "er_min", "er_entry")
VECTORS = ("__interrupt_vector_9", ".timer_vector", "__interrupt_vector_10", ".serial_vector")
HEADER = "/firmware/foldgneiss.h"
HINTS = (
    (r"undefined symbol: __mspabi_mpy\w*hw",
     "the device has no multiplier: leave -mhwmult, and -mmcu, out of CFLAGS"),
    (r"undefined symbol: (__mspabi_(?!mpy\w*hw)|__\w+[sd]f)",
     "floating point is not in the kit: count in integers (firmware/README.md)"),
    (r"undefined symbol: region$",
     "attest runs a function of the firmware: write REGION void region(void) { .. }"),
)

# That clang gives outputs a first value, 0, which link.py sees: told by LLVM 16.
NO_FAULT = re.compile(r"^ld\.lld: warning: section type mismatch for \.or\n(?:>>> .*\n)*\n?", re.M)

MAP_ROW = re.compile(r"^ *([0-9a-f]+) +[0-9a-f]+ +[0-9a-f]+ +\d+ +(\S.*):\((\S+)\)$", re.M)
DECLARED = re.compile(r'decl_file\s+\("(.*)"\)\s+DW_AT_decl_line\s+\((\d+)\)')


def tool(*words):
    """What a tool prints."""
    return subprocess.run(words, check=True, stdout=subprocess.PIPE, text=True).stdout


def rows(form, text, count):
    """The rows of a form in a text: so many, lest one is passed over."""
    found = form.findall(text)
    if len(found) != count:
        sys.exit("link.py: LLVM's tools print other tables than those of LLVM 14")
    return found


class Program:
    """An object file: its sections, symbols, and the relocations of what is in memory."""

    def __init__(self, path):
        elf = read_elf(path)
        self.sections, self.doubled = {}, []
        for section in elf.sections:
            self.doubled += [section.name] * (section.name in self.sections)
            # (Two of one name can differ in their flags.)
            flags = section.flags + self.flags(section.name)
            self.sections[section.name] = section._replace(flags=flags)
        self.symbols, self.relocations = elf.symbols[1:], elf.relocations
        self.bytes = elf.content

    def flags(self, section):
        return self.sections[section].flags if section in self.sections else ""

    def is_constant(self, section):
        flags = set(self.flags(section))
        return section not in (OUTPUT, FOREIGN) and "A" in flags and not flags & set("WX")

    def at(self, section, place):
        """The symbol that a place of a section belongs to, None where it has none."""
        before = [symbol for symbol in self.symbols if symbol.section == section
                  and symbol.kind != "SECTION" and symbol.place <= max(place, 0)]
        return max(before, key=lambda symbol: symbol.place, default=None)

    def named(self, relocation):
        """The symbol that a relocation refers to: of a section the one at its place."""
        symbol = relocation.symbol
        found = symbol.kind == "SECTION" and self.at(symbol.section, relocation.addend)
        return found or symbol

    def of_function(self, function):
        """The relocations of a function, up to the next one."""
        end = min((symbol.place for symbol in self.symbols
                   if symbol.section == function.section and symbol.place > function.place
                   and (symbol.binding != "LOCAL" or symbol.kind == "FUNC")),
                  default=self.sections[function.section].size)
        return [relocation for relocation in self.relocations
                if relocation.section == function.section
                and function.place <= relocation.place < end]

    def content(self, section):
        """The bytes of a section."""
        found = self.sections[section]
        return (self.bytes[found.at:found.at + found.size] if found.has_bytes
                else bytes(found.size))


class Lines:
    """The source lines of a linked program."""

    def __init__(self, elf, map_file):
        self.elf = elf
        with open(map_file, encoding="utf-8") as file:
            text = file.read()
        self.places = {name: int(place, 16)
                       for place, path, name in rows(MAP_ROW, text, text.count(":("))
                       if path != "<internal>"}  # (texts of several sections, merged)
        self.numbers = {symbol.name: symbol.place for symbol in Program(elf).symbols}

    def of_code(self, section, place):
        """The line of a place in a section, "" where it is unknown; where that is of a header of
        the kit the line that has it.
        """
        text = tool("llvm-symbolizer", f"--obj={self.elf}", "--functions=none", "--inlines",
                    hex(self.places[section] + place))
        lines = [line.rsplit(":", 2)[:2] for line in text.split()]
        path, line = next((line for line in lines if not line[0].endswith(HEADER)), lines[0])
        return f"{shown(path)}:{line}" if line != "0" else ""

    def of_name(self, name):
        """The line of a variable or function, its name where that is unknown."""
        text = tool("llvm-dwarfdump", f"--name={name.split('.')[-1]}", self.elf)
        found = DECLARED.search(text)
        return f"{shown(found[1])}:{found[2]}" if found else name

    def of(self, program, relocation):
        symbol = program.at(relocation.section, relocation.place)
        return ("X" in program.flags(relocation.section)
                and self.of_code(relocation.section, relocation.place)
                or self.of_name(symbol.name if symbol else relocation.section))


def shown(path):
    """A path as short as it can be named from here."""
    return min(path, os.path.relpath(path), key=len)


def own_sections(program):
    """The constants and the functions of the kit that the region refers to."""
    reached = [section for section in program.sections if is_region(section)]
    for section in reached:
        for relocation in program.relocations:
            found = relocation.symbol.section
            if (relocation.section == section and found not in reached
                    and (found.startswith(KIT) or program.is_constant(found))):
                reached.append(found)
    return [section for section in reached if not is_region(section)]


def stray(program, relocation):
    """What is wrong with a reference of the region, "" where nothing is."""
    symbol, name = relocation.symbol, program.named(relocation).name
    section = symbol.section
    if (is_region(section) or section in (OUTPUT, FOREIGN, STACK)
            or not section and name in LINKER_NAMES):
        return ""
    if section == "ABS":
        return stray_number(symbol.place + relocation.addend)
    if name == "attest":
        return "the region calls attest, which runs the region: call it from main"
    if "X" in program.flags(section):
        return (f"the region calls or names the function '{name}', which lies outside it: "
                "say REGION before its definition")
    return (f"the region refers to '{name}', which lies outside it: make it a local variable of a "
            "function, or OUTPUT if it is a result, or say FOREIGN before its definition if the "
            "region may believe whatever stands there")


def doubled_faults(program, _):
    """Sections of a region that are two, since sources have them with different flags."""
    for section in filter(is_region, program.doubled):
        yield section, (f"there are two sections {section}: functions have the word REGION, or in "
                        f'assembler .section {section}, "ax"')


def region_faults(program, lines):
    for relocation in program.relocations:
        section = relocation.section
        text = is_region(section) and section in lines.places and stray(program, relocation)
        if text:
            yield lines.of(program, relocation), text
    for symbol in program.symbols:
        if symbol.kind == "OBJECT" and symbol.section in REGION:
            yield lines.of_name(symbol.name), (
                f"the variable '{symbol.name}' has the word REGION, which is for functions: "
                "a static const table needs no word; say OUTPUT or FOREIGN before another one")


def code_faults(program, lines):
    """What is wrong with what a region's code does."""
    if ENTRY not in lines.places:
        return
    symbols = {symbol.name: symbol for symbol in program.symbols}
    handlers = {handler.name: handler for handler in (
        program.named(relocation) for relocation in program.relocations
        if relocation.section in VECTORS) if is_region(handler.section)}
    entry, *handlers = [Place(symbol.section, symbol.place)
                        for symbol in (symbols["er_min"], *handlers.values())]
    inside = range(lines.numbers["er_min"], lines.numbers["er_max"] + 2)
    flow = Flow(program, inside, entry, handlers)
    faults = [*flow.faults.values()] or [*Stack(flow).faults(flow.stack_bytes)]
    if flow.enables and GUARD not in lines.places:
        faults.append((min(flow.enables.values()), (
            "the region allows interrupts, and has no guard, which looks at the vectors: put one "
            "into .er.guard, as examples/pump does (docs/monitors.md says why)")))
    faults += [(flow.enables[function], (
        f"'{flow.name(function)}' allows interrupts in a handler, which may then nest without end: "
        "leave them off until it ends")) for function in nested_handlers(flow)]
    for place, text in faults:
        yield lines.of_code(*place) or flow.name(place), text


def output_faults(program, lines):
    """Outputs that have a first value, which nothing lays there."""
    if OUTPUT not in program.sections or not program.sections[OUTPUT].has_bytes:
        return
    places = [place for place, byte in enumerate(program.content(OUTPUT)) if byte]
    places += [relocation.place for relocation in program.relocations
               if relocation.section == OUTPUT]
    for place in places:
        name = program.at(OUTPUT, place).name
        yield lines.of_name(name), (
            f"the output '{name}' has an initializer, and nothing lays it there: "
            "have the region write it")


def handler_faults(program, lines):
    for relocation in program.relocations:
        section, handler = relocation.section, program.named(relocation)
        if section in VECTORS:
            yield from entry_faults(program, lines, handler)
        elif section.startswith("__interrupt_vector_"):
            yield lines.of_name(handler.name), (
                f"the interrupt {section[19:]} of '{handler.name}' has no vector: "
                "INTERRUPT(TIMER) and INTERRUPT(SERIAL) have")


def entry_faults(program, lines, handler):
    """Ways from a handler to the entries of the region."""
    if handler.name in ENTRIES:
        yield lines.of_name(handler.name), (
            f"'{handler.name}' is called by an interrupt, and attest alone runs the region: "
            "take another function for the handler")
        return
    reached = [handler]
    for function in reached:
        for relocation in program.of_function(function):
            symbol = program.named(relocation)
            if symbol.name in ENTRIES:
                yield lines.of(program, relocation), (
                    f"the interrupt handler '{handler.name}' leads to '{symbol.name}': "
                    "have it set a variable, and main call attest where that is set")
            elif symbol not in reached and "X" in program.flags(symbol.section):
                reached.append(symbol)


def faults_of(program, lines):
    """The lines with what is wrong there, each text once."""
    faults = {}
    for kind in (doubled_faults,) if any(doubled_faults(program, lines)) else (
            region_faults, code_faults, output_faults, handler_faults):
        for line, text in kind(program, lines):
            faults.setdefault(text, line)
    return [f"{line}: error: {text}" for text, line in faults.items()]


def main():
    joined, elf, *linker = sys.argv[1:]
    closed, map_file = f"{joined}.closed", f"{elf}.map"
    renamed = [f"--rename-section={section}={OWN}{section}"
               for section in own_sections(Program(joined))]
    tool("llvm-objcopy", *renamed, joined, closed)
    linked = subprocess.run([*linker, f"-Map={map_file}", "-o", elf, closed],
                            stderr=subprocess.PIPE, text=True, check=False)
    told = NO_FAULT.sub("", linked.stderr).rstrip("\n")
    errors = [told] if told else []
    errors += [f"error: {hint}" for form, hint in HINTS if re.search(form, told, re.M)]
    status = linked.returncode
    if not status:
        faults = faults_of(Program(closed), Lines(elf, map_file))
        errors, status = errors + faults, 1 if faults else 0
    if errors:
        print(*errors, sep="\n", file=sys.stderr)
    return status


if __name__ == "__main__":
    sys.exit(main())
