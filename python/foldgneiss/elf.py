"""ELF files of firmware: sections, symbols and relocations, and the image that is loaded of one."""
import struct
from typing import Iterator, List, NamedTuple, Tuple

from .image import Image

MAGIC = b"\x7fELF\x01\x01\x01"  # of 32 bits, the low byte first
MACHINE = 105  # an MSP430
HEADER = struct.Struct("<16xHHIIIIIHHHHHH")
SEGMENT = struct.Struct("<IIIIIIII")
ROW = struct.Struct("<IIIIIIIIII")
SYMBOL = struct.Struct("<IIIBBH")
RELOCATION = struct.Struct("<IIi")
LOAD = 1  # the type of a segment
SYMBOLS, RELOCATIONS, NOBITS = 2, 4, 8  # types of sections
FLAGS = ((2, "A"), (1, "W"), (4, "X"))  # in memory, writable, code
RESERVED, ABSOLUTE = 0xFF00, 0xFFF1  # from there on no sections; the symbol is a number
BINDINGS = ("LOCAL", "GLOBAL", "WEAK")
KINDS = ("NOTYPE", "OBJECT", "FUNC", "SECTION", "FILE", "COMMON")


class ElfFault(ValueError):
    """No ELF of an MSP430, or a damaged one."""


class Section(NamedTuple):
    name: str
    place: int
    size: int
    flags: str  # the letters of FLAGS
    at: int  # where its bytes begin in the file
    has_bytes: bool


class Symbol(NamedTuple):
    name: str  # of a section its own
    place: int  # of an object file, in the section
    size: int
    kind: str  # one of KINDS
    binding: str  # one of BINDINGS
    section: str  # "" where it is defined nowhere, "ABS" where it is a number


class Relocation(NamedTuple):
    section: str
    place: int  # in the section
    symbol: Symbol
    addend: int


class Row(NamedTuple):
    """A section's row in the table of sections."""
    name_at: int
    kind: int
    flags: int
    place: int
    at: int
    size: int
    link: int
    info: int
    align: int
    entry_size: int


class Elf:
    """What the bytes of an ELF say."""

    def __init__(self, content: bytes) -> None:
        self.content = content
        if not content.startswith(MAGIC):
            raise ElfFault("no ELF of 32 bits")
        try:
            (_, machine, _, _, segments_at, rows_at, _, _, _, segments, _, rows,
             names) = HEADER.unpack_from(content)
            if machine != MACHINE:
                raise ElfFault("an ELF of another machine")
            self._rows = [Row(*ROW.unpack_from(content, rows_at + ROW.size * row))
                          for row in range(rows)]
            self._names = [self._name(self._rows[names], row.name_at) for row in self._rows]
            self.sections = [self._section(name, row)
                             for name, row in zip(self._names, self._rows)][1:]
            self.symbols = [*self._read_symbols()]
            self.relocations = [*self._read_relocations()]
            self.image = self._read_image([
                SEGMENT.unpack_from(content, segments_at + SEGMENT.size * segment)
                for segment in range(segments)])
        except (struct.error, LookupError, UnicodeDecodeError) as error:
            raise ElfFault("a damaged ELF") from error

    def _part(self, at: int, size: int) -> bytes:
        part = self.content[at:at + size]
        if len(part) != size:
            raise ElfFault("an ELF that is cut off")
        return part

    def _name(self, names: Row, at: int) -> str:
        """The name that begins there in a table of names."""
        return self._part(names.at, names.size)[at:].split(b"\0", 1)[0].decode()

    @staticmethod
    def _section(name: str, row: Row) -> Section:
        flags = "".join(letter for flag, letter in FLAGS if row.flags & flag)
        return Section(name, row.place, row.size, flags, row.at, row.kind != NOBITS)

    def _read_symbols(self) -> Iterator[Symbol]:
        """All, of which the first is none."""
        for row in self._rows:
            if row.kind == SYMBOLS:
                for fields in SYMBOL.iter_unpack(self._part(row.at, row.size)):
                    name_at, place, size, info, _, number = fields
                    kind, section = KINDS[info & 15], "ABS" if number == ABSOLUTE else ""
                    if 0 < number < RESERVED:
                        section = self._names[number]
                    name = self._name(self._rows[row.link], name_at)
                    yield Symbol(section if kind == "SECTION" else name, place, size, kind,
                                 BINDINGS[info >> 4], section)

    def _read_relocations(self) -> Iterator[Relocation]:
        """Those of sections in memory."""
        for row in self._rows:
            if row.kind == RELOCATIONS and "A" in self.sections[row.info - 1].flags:
                for place, info, addend in RELOCATION.iter_unpack(self._part(row.at, row.size)):
                    yield Relocation(self._names[row.info], place, self.symbols[info >> 8], addend)

    def _read_image(self, segments: List[Tuple[int, ...]]) -> Image:
        """The bytes that are loaded, where they stand before the firmware runs."""
        image: Image = {}
        for section in self.sections:
            if "A" in section.flags and section.has_bytes:
                loaded = [place + section.at - at for kind, at, _, place, size, *_ in segments
                          if kind == LOAD and at <= section.at < at + size]
                image.update(enumerate(self._part(section.at, section.size),
                                       loaded[0] if loaded else section.place))
        return image

    def place_of(self, name: str) -> int:
        """That of a symbol; KeyError where there is none of this name."""
        return {symbol.name: symbol.place for symbol in self.symbols}[name]
