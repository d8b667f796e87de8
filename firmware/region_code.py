"""The instructions of a region's machine code, as objects have them before the link: where an
instruction names a place, a relocation says of which symbol.
"""
from typing import NamedTuple, Optional

from region_values import Address, Code, Source, signed

PC, SP, SR, CONSTANTS = range(4)
TWO_OPERANDS = ("mov", "add", "addc", "subc", "sub", "cmp", "dadd", "bit", "bic", "bis", "xor",
                "and")
ONE_OPERAND = ("rrc", "swpb", "rra", "sxt", "push", "call", "reti")
JUMPS = ("jne", "jeq", "jnc", "jc", "jn", "jge", "jl", "jmp")
# The numbers that the modes of R2 and R3 mean.
GENERATED = {(SR, 2): 4, (SR, 3): 8, (CONSTANTS, 0): 0, (CONSTANTS, 1): 1, (CONSTANTS, 2): 2,
             (CONSTANTS, 3): -1}
REGISTER, INDEXED, INDIRECT, INCREMENT = range(4)


class Place(NamedTuple):
    """Where an instruction stands."""
    section: str
    offset: int

    def later(self, count):
        return Place(self.section, self.offset + count)


class Operand(NamedTuple):
    """A register; or a number; or what is in memory at an address, to which a register is added
    where one is named. The register then grows by `step`.
    """
    register: Optional[int] = None
    address: Optional[Address] = None
    is_memory: bool = False
    step: int = 0


class Instruction(NamedTuple):
    """What it reads is in `source`, what it changes in `target`; a jump goes to `goal`."""
    place: Place
    end: Place
    name: str
    is_byte: bool = False
    source: Optional[Operand] = None
    target: Optional[Operand] = None
    goal: Optional[Place] = None


class Unreadable(Exception):
    """There is no instruction."""


class MachineCode:
    """The instructions and constants in the sections of a program, with its relocations."""

    def __init__(self, program):
        self.program = program
        self.relocations = {(relocation.section, relocation.place): relocation
                            for relocation in program.relocations}
        self.bytes = {}
        self.read_places = {}

    def content(self, section):
        if section not in self.bytes:
            self.bytes[section] = self.program.content(section)
        return self.bytes[section]

    def word(self, place):
        """The word there, Unreadable where the section has none."""
        content = self.content(place.section)
        if place.offset % 2 or not 0 <= place.offset <= len(content) - 2:
            raise Unreadable
        return int.from_bytes(content[place.offset:place.offset + 2], "little")

    def address(self, place):
        """What the word there means: what its relocation says, else a number."""
        word, relocation = self.word(place), self.relocations.get(place)
        return self.named(relocation) if relocation else Address(Source.NUMBER, signed(word))

    def named(self, relocation):
        symbol, addend = relocation.symbol, signed(relocation.addend)
        if symbol.section == "ABS":
            return Address(Source.NUMBER, signed(symbol.place + addend))
        if not symbol.section:
            return Address(symbol.name, addend)
        is_code = "X" in self.program.flags(symbol.section)
        return Address(Code(symbol.section) if is_code else symbol.section,
                       signed(symbol.place + addend))

    def at(self, place):
        """The instruction there."""
        if place not in self.read_places:
            self.read_places[place] = self.read(place)
        return self.read_places[place]

    def read(self, place):
        word, after = self.word(place), place.later(2)
        if word >> 13 == 1:
            return self.jump(place, word, after)
        is_byte, register, mode = bool(word & 0x40), word & 15, word >> 4 & 3
        if word >> 12 == 1 and word >> 7 & 7 < 7 and not word & 0xC00:
            name = ONE_OPERAND[word >> 7 & 7]
            if name == "reti":
                return Instruction(place, after, name)
            operand, after = self.operand(register, mode, is_byte, after)
            return Instruction(place, after, name, is_byte, operand, operand)
        if word >> 12 < 4:
            raise Unreadable
        source, after = self.operand(word >> 8 & 15, mode, is_byte, after)
        target, after = self.operand(register, word >> 7 & 1, is_byte, after, is_target=True)
        return Instruction(place, after, TWO_OPERANDS[(word >> 12) - 4], is_byte, source, target)

    def jump(self, place, word, after):
        relocation = self.relocations.get(place)
        if relocation:
            goal = self.named(relocation)
            if not isinstance(goal.base, Code):
                raise Unreadable
            goal = Place(goal.base.section, goal.offset)
        else:
            goal = after.later(2 * ((word & 0x3FF ^ 0x200) - 0x200))
        return Instruction(place, after, JUMPS[word >> 10 & 7], goal=goal)

    def operand(self, register, mode, is_byte, after, is_target=False):
        """The operand and where the next word stands; `after` is where its own would."""
        if (register, mode) in GENERATED and not (is_target and register == CONSTANTS):
            return Operand(address=Address(Source.NUMBER, GENERATED[register, mode])), after
        if mode == REGISTER:
            return Operand(register), after
        if mode == INDEXED:
            address = self.address(after)
            if register == PC and not self.relocations.get(after):
                address = Address(Code(after.section), after.offset + address.offset)
            base = None if register in (PC, SR) else register
            return Operand(base, address, True), after.later(2)
        if mode == INCREMENT and register == PC:
            return Operand(address=self.address(after)), after.later(2)
        step = 0 if mode == INDIRECT else 1 if is_byte and register != SP else 2
        return Operand(register, Address(Source.NUMBER), True, step), after
