"""The ELF files of a firmware, by the reader of the package in python/."""
import os
import sys

sys.path.append(os.path.join(os.path.dirname(os.path.realpath(__file__)), "../python"))
from foldgneiss.elf import Elf, ElfFault  # noqa: E402, F401


def read_elf(path):
    with open(path, "rb") as file:
        return Elf(file.read())


def named_symbols(elf):
    """The symbols of functions, variables, labels and numbers."""
    return [symbol for symbol in elf.symbols
            if symbol.name and symbol.kind in ("NOTYPE", "OBJECT", "FUNC")]
