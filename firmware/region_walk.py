"""Goes through the instructions of one function of a region, along each way, with what registers
and its stack hold.
"""
from typing import NamedTuple, Optional

from region_code import PC, SP, SR, Operand, Place, Unreadable
from region_memory import byte_of
from region_rules import ENTRY, KIT, OWN, STACK, is_region, stray_number
from region_values import (ANY_NUMBER, LOST, STATUS, UNSET, Address, Code, Frame, Given, Source,
                           joined, minus, mixed, near, number, plus, times)

PRODUCT = f"{OWN}{KIT}__mspabi_mpyi"  # of which the product is known to be one
KEPT = range(4, 16)  # the registers that a call hands over
TO_PC = Operand(PC)
RETURN = Operand(SP, Address(Source.NUMBER), True, 2)
GIE, ARGUMENT_BYTES, IN_ARRAY, FEW = 8, 32, 512, 16
UNKNOWN = {Source.NUMBER: "it was computed or read", Source.UNSET: "nothing set it",
           Source.STATUS: "it was computed", Source.LOST: "it is not made of a name and an index"}


class State:
    """What registers and the words of a function's stack hold before an instruction, and down to
    where the stack is known to have room, where the code looked.
    """
    __slots__ = ("registers", "slots", "floor")

    def __init__(self, registers, slots, floor=None):
        self.registers, self.slots, self.floor = registers, slots, floor

    def copy(self):
        return State(list(self.registers), dict(self.slots), self.floor)

    def join(self, other):
        """Becomes what is either; whether that is another than before."""
        before = self.registers, self.slots, self.floor
        self.registers = [either(*both) for both in zip(self.registers, other.registers)]
        self.slots = {offset: either(self.slots.get(offset, UNSET), other.slots.get(offset, UNSET))
                      for offset in self.slots.keys() | other.slots.keys()}
        floors = self.floor, other.floor
        self.floor = None if None in floors else max(floors)
        return before != (self.registers, self.slots, self.floor)


def either(one, other):
    return one if other <= one else joined(one, other)


class Call(NamedTuple):
    """A call: how far the stack then reaches below where the function's return address stands, and
    down to where it is known to have room.
    """
    function: Place
    place: Place
    called: Place
    depth: int
    floor: Optional[int]


class Fault(NamedTuple):
    place: Place
    text: str


class Stop(Exception):
    """The way can't be followed further."""


class Walk:
    """The ways through a function. What it finds of calls, memory and faults goes to the flow."""

    def __init__(self, flow, function):
        self.flow, self.function, self.frame = flow, function, Frame(function)
        self.is_entry = function == flow.entry
        self.state = self.instruction = self.place = None
        self.is_judged = False

    def run(self):
        states, waiting = {self.function: self.beginning()}, [self.function]
        while waiting:
            self.place = waiting.pop()
            self.state = states[self.place].copy()
            for following in self.following():
                if following not in states:
                    states[following] = self.state.copy()
                elif not states[following].join(self.state):
                    continue
                if following not in waiting:
                    waiting.append(following)
        self.is_judged = True  # now that each state is whole
        for self.place, state in states.items():
            self.state = state.copy()
            self.following()

    def beginning(self):
        """The state in which the function begins."""
        if self.is_entry:
            return State([LOST, LOST, STATUS, number(0)] + [LOST] * len(KEPT), {})
        given = [frozenset({Address(Given(self.function, register))}) for register in KEPT]
        words = self.flow.memory.words.get(self.frame, {})
        return State([LOST, frozenset({Address(self.frame)}), STATUS, number(0)] + given,
                     {offset: value for offset, value in words.items() if offset > 0})

    def following(self):
        """Where the way goes on behind the instruction at its place."""
        if self.place == self.flow.exit:
            return []
        try:
            self.instruction = self.flow.code.at(self.place)
            return self.step()
        except Unreadable:
            self.fault(f"can't follow {self.name()}: it leads to where no instruction is")
        except Stop:
            pass
        return []

    def name(self):
        return f"'{self.flow.name(self.function)}'"

    def fault(self, text):
        if self.is_judged:
            self.flow.faults.setdefault(self.place, Fault(self.place, text))

    def step(self):
        """Does the instruction; where the way goes on."""
        instruction, name = self.instruction, self.instruction.name
        if instruction.goal:
            return [instruction.goal] + [instruction.end] * (name != "jmp")
        if name == "reti":
            return self.end_handler()
        value = self.read(instruction.source)
        if name == "call":
            return self.call(value)
        if instruction.target == TO_PC and name not in ("cmp", "bit"):
            return self.branch(value)
        if name == "push":
            self.push(value)
        elif name in ("cmp", "bit"):
            self.read(instruction.target)
            self.look_for_room()
        else:
            if instruction.target == Operand(SR) and name not in ("and", "bic"):
                self.note_interrupts(value)
            before = self.read(instruction.target) if name != "mov" else ANY_NUMBER
            self.write(instruction.target, self.result(before, value))
        return [instruction.end]

    def result(self, before, value):
        """What the instruction makes of what was in its target and of what it read."""
        instruction, name = self.instruction, self.instruction.name
        if name == "mov":
            return value
        if not is_followed(name, before, value):
            before, value = self.flow.resolved(before), self.flow.resolved(value)
        if name == "add" and instruction.source == instruction.target:
            made = times(value, number(2))
        elif name == "add":
            made = plus(before, value)
        elif name == "sub":
            made = minus(before, value)
        elif name == "bis" and is_within(value, range(FEW)) or (
                name == "and" and is_within(value, range(-FEW, 0))):
            made = near(before)
        elif name == "and" and is_within(value, range(IN_ARRAY)):
            made = ANY_NUMBER
        else:
            made = mixed(before, value)
        return byte_of(made) if instruction.is_byte else made

    # Operands

    def read(self, operand):
        """What the instruction reads of an operand."""
        registers, register = self.state.registers, operand.register
        if operand.is_memory:
            value = joined(*(self.flow.memory.read(self.state, self.function, address,
                                                   self.instruction.is_byte)
                             for address in self.reached(operand, "reads")))
            if operand.step:
                self.set(register, plus(registers[register], number(operand.step)))
        elif register is None:
            value = frozenset({operand.address})
        else:
            value = STATUS if register == SR else registers[register]
        return byte_of(value) if self.instruction.is_byte else value

    def write(self, operand, value):
        if not operand.is_memory:
            if operand.register is not None:
                self.set(operand.register, value)
            return
        if self.instruction.is_byte:
            value = mixed(value, value)
        places = self.reached(operand, "writes")
        for address in places:
            either = value if len(places) == 1 else joined(
                value, self.flow.memory.read(self.state, self.function, address, False))
            self.flow.memory.write(self.state, self.function, address, either,
                                   self.flow.resolved(either))

    def reached(self, operand, done):
        """The addresses that an operand in memory may have, each in the region's reach."""
        base = operand.register is not None and self.state.registers[operand.register]
        own = frozenset({operand.address})
        addresses = plus(base, own) if base else own
        found = {(address, one) for address in addresses
                 for one in self.flow.resolved(frozenset({address}))}
        places = []
        for address, one in sorted(found, key=repr):
            text = self.wrong(one, operand, done, len(found) == 1)
            if not text:
                places.append(one)
            elif self.is_judged:
                self.flow.blame(self.place, address, one, text)
        return places

    def wrong(self, found, operand, done, is_only):
        """What is wrong with an address, "" where nothing is. That one of several lies past an end
        may be of a loop that stops before it.
        """
        base = found.base
        if found.number is not None:
            return stray_number(found.number)
        if isinstance(base, Source):
            named = operand.address.number
            is_place = named is not None and IN_ARRAY <= named < 0x10000 - IN_ARRAY
            return is_place and stray_number(named) or (
                f"can't follow the address that {self.name()} {done}: {UNKNOWN[base]}: take that "
                "of a variable, or of an element of a table")
        if isinstance(base, Frame):
            return self.wrong_in_frame(found, done) if is_only and not found.stride else ""
        if base == STACK:
            return "" if self.is_entry and self.place.section == ENTRY else (
                f"{self.name()} names the region's stack: use a local variable of a function")
        name = base.section if isinstance(base, Code) else base
        if found.stride or not is_only or 0 <= found.offset < self.flow.size(name):
            return ""
        return (f"{self.name()} {done} at the distance {found.offset} from the beginning of "
                f"{name}, which lies outside it: keep to the variable or table that is named")

    def wrong_in_frame(self, found, done):
        """What is wrong with a place on the stack: below what the function has of it, a return
        address, or above the arguments.
        """
        function, offset = found.base.function, found.offset
        end = self.depth() if function == self.function else self.flow.depths.get(function, 0)
        is_return = offset in (0, 1) and done == "writes"
        if not end <= offset < self.flow.arguments_end(function) or is_return:
            return (f"can't follow the stack: what {self.name()} {done} is no local variable and "
                    "no argument")
        return ""

    # Registers and the stack

    def set(self, register, value):
        if register == SP:
            self.set_stack(value)
        elif register in KEPT:
            self.state.registers[register] = value

    def set_stack(self, value):
        """Moves the stack pointer."""
        if self.is_entry and self.place.section == ENTRY:
            own = value == {Address(STACK, self.flow.stack_bytes)}
            value = frozenset({Address(self.frame)}) if own else LOST
        self.state.registers[SP] = value
        if value != LOST or not self.is_entry:
            self.keep_slots(self.depth())

    def depth(self):
        """How far the stack reaches, as a distance in the function's frame."""
        value = self.state.registers[SP]
        place = next(iter(value))
        if self.is_entry and value == LOST:
            self.lost("the stack: it is the caller's before er_entry sets the stack pointer")
        if len(value) > 1 or place.base != self.frame or place.stride:
            self.lost(f"the stack of {self.name()}: a variable moves it: give each array a fixed "
                      "size")
        self.flow.note_depth(self.function, self.place, place.offset, self.state.floor)
        return place.offset

    def keep_slots(self, offset):
        """What lies below the stack pointer may be overwritten at any time."""
        slots = self.state.slots
        self.state.slots = {place: slots[place] for place in slots if place >= offset}

    def push(self, value):
        self.set_stack(plus(self.state.registers[SP], number(-2)))
        offset = self.depth()
        self.flow.memory.write(self.state, self.function, Address(self.frame, offset), value,
                               self.flow.resolved(value))

    def note_interrupts(self, value):
        """Notes where the status register gets GIE."""
        if any(address.base is not Source.STATUS
               and (address.number is None or address.number & GIE) for address in value):
            self.flow.enables.setdefault(self.function, self.place)

    def look_for_room(self):
        """Sees `cmp #region_stack_end + N, r1; jhs ahead; br #er_refuse; ahead:`, behind which N
        bytes of the stack are free.
        """
        compare = self.instruction
        least = compare.source.address
        if compare.name != "cmp" or compare.target != Operand(SP) or not least or (
                least.base != STACK):
            return
        jump = self.flow.code.at(compare.end)
        away = self.flow.code.at(jump.end)
        if jump.name == "jc" and jump.goal == away.end and away.target == TO_PC and (
                away.source == Operand(address=self.flow.refuse)):
            self.state.floor = self.depth() - least.offset

    # Calls, jumps and ends

    def goals(self, value, way):
        """Where a call or a jump goes within the region; a number outside of it leaves it."""
        goals = []
        for address in self.flow.resolved(value):
            base = address.base
            is_one = isinstance(base, Code) and not address.stride
            if is_one and is_region(base.section):
                goals.append(Place(base.section, address.offset))
            elif not is_one and (address.number is None or address.number in self.flow.inside):
                self.lost(f"a {way} of {self.name()}, which may lead anywhere: call functions by "
                          "their name, or from a static const table")
        return goals

    def branch(self, value):
        if self.instruction.source != RETURN:
            return self.goals(value, "jump")
        if self.function in self.flow.handlers or self.depth() != 2:
            self.lost(f"the return of {self.name()}: the stack is not as it was at its beginning")
        self.flow.leave(self.function, self.state.registers)
        return []

    def end_handler(self):
        registers = self.state.registers
        if self.function not in self.flow.handlers or self.depth() or any(
                registers[register] != {Address(Given(self.function, register))}
                for register in KEPT):
            self.lost(f"the end of {self.name()}: an interrupt has to leave stack and registers as "
                      "they were")
        return []

    def call(self, value):
        offset = self.depth()
        self.flow.note_depth(self.function, self.place, offset - 2, self.state.floor)
        self.keep_slots(offset)
        ends = []
        for goal in self.goals(value, "call"):
            self.give(goal, offset)
            self.flow.enter(Call(self.function, self.place, goal, offset - 2, self.state.floor),
                            self.state.registers)
            if goal in self.flow.left:
                ends.append(self.returned(goal))
        if not ends:
            return []
        self.state.registers = [joined(*values) for values in zip(*ends)]
        return [self.instruction.end]

    def give(self, goal, offset):
        """The words of the stack from here on are the called function's arguments."""
        memory = self.flow.memory
        words = memory.words.setdefault(Frame(goal), {})
        for place, value in self.state.slots.items():
            if place < min(offset + ARGUMENT_BYTES, 0):
                memory.add(words, place - offset + 2, self.flow.resolved(value))

    def returned(self, goal):
        """What registers hold behind a call."""
        registers = list(self.state.registers)
        for register, value in self.flow.left[goal].items():
            registers[register] = joined(*(self.told(goal, address) for address in value))
        if goal.section == PRODUCT:
            registers[12] = times(self.state.registers[12], self.state.registers[13])
        return registers

    def told(self, goal, address):
        """What a called function leaves, in terms of this one."""
        base = address.base
        if base == Frame(goal):
            return LOST
        if not isinstance(base, Given):
            return frozenset({address})
        return plus(self.state.registers[base.register],
                    frozenset({address._replace(base=Source.NUMBER)}))

    def lost(self, what):
        self.fault(f"can't follow {what}")
        raise Stop


def is_followed(name, before, value):
    """Whether a sum or difference is one from what the function was given, whatever that is."""
    given, other = ([address.base for address in both if isinstance(address.base, Given)]
                    for both in (before, value))
    if name == "add":
        return not given or not other
    return name == "sub" and (not other or len({*given, *other}) == 1 and len(given) == len(before))


def is_within(value, numbers):
    """Whether it is but numbers of these."""
    return all(address.base is Source.NUMBER and not address.stride and address.offset in numbers
               for address in value)
