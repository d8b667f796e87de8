"""How many bytes of its stack a region needs at most, by what region_flow found of its code."""
from typing import NamedTuple

INTERRUPT_BYTES = 4  # an entry pushes PC and SR


class Nest(Exception):
    """Functions that call each other without an end."""

    def __init__(self, functions):
        super().__init__()
        self.functions = functions


class Need(NamedTuple):
    """Bytes below where a function's return address stands, and the functions of the deepest chain
    with what each has of them.
    """
    count: int
    chain: tuple


class Stack:
    """The needs of a region's functions."""

    def __init__(self, flow):
        self.flow, self.needs, self.above = flow, {}, []

    def need(self, function):
        """What a function needs where nothing looked for room, with all that it calls."""
        if function in self.above:
            raise Nest(self.above[self.above.index(function):])
        if function not in self.needs:
            self.above.append(function)
            own = -self.flow.depths.get(function, 0)
            needs = [Need(own, ((function, own),))]
            for call in self.flow.calls.values():
                if call.function == function and call.floor is None:
                    called = self.need(call.called)
                    needs.append(Need(called.count - call.depth,
                                      ((function, -call.depth), *called.chain)))
            self.above.pop()
            self.needs[function] = max(needs, key=lambda need: need.count)
        return self.needs[function]

    def of_handlers(self):
        """What an interrupt needs at most, where the region allows it."""
        needs = [self.need(handler) for handler in self.flow.handlers if self.flow.enables]
        return max((Need(need.count + INTERRUPT_BYTES, need.chain) for need in needs),
                   key=lambda need: need.count, default=Need(0, ()))

    def faults(self, size):
        """What is wrong, with the place; `size` is what the stack has."""
        try:
            whole, handler = self.need(self.flow.entry), self.of_handlers()
            count = whole.count + handler.count
            if count > size:
                place = max(whole.chain, key=lambda link: link[1])[0]
                yield place, (f"the region's stack has {size} bytes, and needs {count}: "
                              f"{self.told(whole.chain, handler)}: smaller arrays, fewer nested "
                              f"calls, or REGION_STACK={count}")
            yield from self.narrow_rooms(handler.count)
        except Nest as nest:
            first = self.flow.name(nest.functions[0])
            names = " calls ".join([*map(self.flow.name, nest.functions), first])
            yield nest.functions[0], (
                f"the region's stack has no bound: {names}: make it a loop, or begin {first} with "
                "NEEDS_STACK(bytes), by which the region is left where they are not free")

    def told(self, chain, handler):
        links = [f"{self.flow.name(function)} {count}" for function, count in chain]
        if handler.chain:
            links.append(f"an interrupt {INTERRUPT_BYTES}")
        links += [f"{self.flow.name(function)} {count}" for function, count in handler.chain]
        return ", ".join(links)

    def narrow_rooms(self, interrupt):
        """Where the code looked for fewer bytes than are needed behind."""
        reaches = [(function, place, depth, floor)
                   for (function, place), (depth, floor) in self.flow.rooms.items()]
        reaches += [(call.function, call.place, call.depth - self.need(call.called).count,
                     call.floor) for call in self.flow.calls.values() if call.floor is not None]
        for function, place, depth, floor in reaches:
            missing = floor - (depth - interrupt)
            if missing > 0:
                yield place, (f"NEEDS_STACK of '{self.flow.name(function)}' names too few bytes: "
                              f"at least {missing} more")


def nested_handlers(flow):
    """Functions in which handlers allow interrupts."""
    reached = list(flow.handlers)
    for function in reached:
        if function in flow.enables:
            yield function
        reached += [call.called for call in flow.calls.values()
                    if call.function == function and call.called not in reached]
