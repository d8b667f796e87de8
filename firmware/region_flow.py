"""Follows what registers and memory hold through a region's machine code: which places it may
reach, which functions it calls, how far its stack grows, and where it allows interrupts.

Values are followed through registers, the words of each function's stack, arguments, results and
the region's constants, until nothing new comes.
"""
from region_code import MachineCode, Place
from region_memory import Memory
from region_rules import EXIT, STACK
from region_values import LOST, NOTHING, Address, Code, Given, Source, joined, plus, sum_of
from region_walk import KEPT, Fault, Walk


class Flow:
    """What is found of a region, which lies at the numbers of `inside` and is entered at a place,
    and of its handlers.
    """

    def __init__(self, program, inside, entry, handlers):
        self.program, self.inside = program, inside
        self.code = MachineCode(program)
        self.memory = Memory(self.code)
        self.entry, self.handlers, self.exit = entry, handlers, Place(EXIT, 0)
        self.stack_bytes = program.sections[STACK].size - 2  # behind it stands the caller's SP
        self.refuse = self.symbol("er_refuse")
        self.given, self.passed, self.left = {}, {}, {}
        self.calls, self.depths, self.rooms, self.limits = {}, {}, {}, {}
        self.faults, self.enables = {}, {}
        self.functions = dict.fromkeys([entry, *handlers])
        for handler in handlers:
            self.given.update({(handler, register): LOST for register in KEPT})
        self.memory.has_changed = True
        while self.memory.has_changed:
            self.memory.has_changed = False
            self.faults = {}
            for function in list(self.functions):
                Walk(self, function).run()

    def symbol(self, name):
        """What a symbol of the kit's code means, None where there is none."""
        return next((Address(Code(symbol.section), symbol.place)
                     for symbol in self.program.symbols if symbol.name == name), None)

    def name(self, place):
        """The function that begins there, or that the place belongs to."""
        symbol = self.program.at(place.section, place.offset)
        return symbol.name if symbol else place.section

    def size(self, section):
        """Its bytes, or so many as any place may have where it is no section."""
        known = self.program.sections.get(section)
        return known.size if known else 0x10000

    def resolved(self, value):
        """With what a function was given in the place of its name."""
        if not any(isinstance(address.base, Given) for address in value):
            return value
        return joined(*(
            plus(self.given.get(tuple(address.base), NOTHING),
                 frozenset({address._replace(base=Source.NUMBER)}))
            if isinstance(address.base, Given) else frozenset({address}) for address in value))

    def blame(self, place, address, found, text):
        """A fault of an address that is `found`: told where the function was given it, at last."""
        seen = set()
        while isinstance(address.base, Given) and address not in seen:
            seen.add(address)
            far = address._replace(base=Source.NUMBER)
            origins = [origin for (function, register, given), origin in self.passed.items()
                       if (function, register) == address.base and sum_of(given, far) == found]
            if not origins:
                break
            place, address, found = origins[0]
        self.faults.setdefault(place, Fault(place, text))

    def note_depth(self, function, place, offset, floor):
        """How far the stack reaches at a place of a function, and down to where it has room."""
        if floor is None:
            self.depths[function] = min(offset, self.depths.get(function, 0))
        else:
            self.rooms[function, place] = offset, floor

    def arguments_end(self, function):
        """Where a function's arguments on the stack end at the latest, in its frame."""
        return self.limits.get(function, 4 if function in self.handlers else 0)

    def enter(self, call, registers):
        """What a call gives to a function."""
        called = call.called
        self.calls[call.place, call.function, called] = call
        self.limits[called] = min(-call.depth, self.limits.get(called, -call.depth))
        if called not in self.functions:
            self.functions[called] = None
            self.memory.has_changed = True
        for register in KEPT:
            for address in registers[register]:
                for found in self.resolved(frozenset({address})):
                    self.passed.setdefault((called, register, found),
                                           (call.place, address, found))
            self.memory.add(self.given, (called, register), self.resolved(registers[register]))

    def leave(self, function, registers):
        """What a function leaves in registers."""
        for register in KEPT:
            self.memory.add(self.left.setdefault(function, {}), register, registers[register])
