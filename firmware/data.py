"""data.py ELF <REPORTS

Tells the output in each report of REPORTS, which may be what `foldgneiss play` printed, by the
names and types of the variables of ELF with the word OUTPUT.
"""
import re
import subprocess
import sys

from dwarf import Dwarf
from elf_file import named_symbols, read_elf
from where_elf import answer, fail, refuse

REPORT = re.compile(r"^(report2 \d+ exec \d aux \d count \d+) .* er (\w{4}) (\w{4}) "
                    r"or (\w{4}) (\w{4}) data (\w+) mac ", re.M)
BOUNDS = ("er_min", "er_max", "or_min", "or_max")


class Output:
    """The output of an ELF: its variables in order, each with its address, name and type, which is
    None where the ELF has none.
    """

    def __init__(self, elf):
        symbols = named_symbols(read_elf(elf))
        places = {symbol.name: symbol.place for symbol in symbols}
        if not all(name in places for name in BOUNDS) or places["or_max"] < places["or_min"]:
            fail(f"{elf} has no region that attest runs, or no OUTPUT variable")
        self.bounds = [places[name] for name in BOUNDS]
        # (It tells errors of places in .debug_loc, which no variable with one address has.)
        self.dwarf = Dwarf(answer("llvm-dwarfdump", "--debug-info", elf, check=False,
                                  stderr=subprocess.DEVNULL))
        found = {symbol.place: (symbol.name, None) for symbol in symbols
                 if symbol.section != "ABS" and symbol.name not in BOUNDS}
        found.update((address, (name, kind)) for address, name, kind in self.dwarf.variables())
        first, last = self.bounds[2:]
        self.variables = [(address, *found[address]) for address in sorted(found)
                          if first <= address < last + 2]

    def lines(self, data):
        """A line for each variable in these bytes."""
        first, ends = self.bounds[2], [address for address, _, _ in self.variables[1:]]
        for (address, name, kind), end in zip(self.variables, [*ends, self.bounds[3] + 2]):
            part = data[address - first:end - first]
            yield (f"    {name} = {self.dwarf.told(kind, part[:self.dwarf.size(kind)])}" if kind
                   else f"    {name} = {part.hex(' ')}")


def main():
    elf = sys.argv[1]
    try:
        output, reports = Output(elf), REPORT.findall(sys.stdin.read())
        for heading, *bounds, data in reports:
            if [int(place, 16) for place in bounds] != output.bounds:
                fail(f"{heading}: its regions are not those of {elf}")
            print(heading, *output.lines(bytes.fromhex(data)), sep="\n")
    except (LookupError, ValueError):  # (a type that is not told as it should be, or no ELF)
        refuse(elf)
    if not reports:
        print("there is no report")


if __name__ == "__main__":
    main()
