"""What memory holds while a region's code runs: its constants, its output, and the stacks of its
functions, word by word.
"""
from region_code import Place
from region_rules import OUTPUT, STACK
from region_values import (ANY_NUMBER, LOST, NOTHING, UNSET, Code, Frame, joined, number)

UNSET_ADDRESS, LOST_ADDRESS = next(iter(UNSET)), next(iter(LOST))


def byte_of(value, offset=0):
    """What a byte of it is."""
    if len(value) == 1:
        whole = next(iter(value)).number
        if whole is not None:
            return number(whole >> 8 * (offset % 2) & 0xFF)
    return LOST if LOST_ADDRESS in value else ANY_NUMBER if value else NOTHING


class Memory:
    """Values by base and distance. A write of which the distance is not known counts for all words
    of its base that no other write sets: that an index stays in its array is C's promise.
    """

    def __init__(self, code):
        self.code = code
        self.words, self.anywhere = {}, {}
        self.by_others = {}  # of these words those that another function than the stack's set
        self.has_changed = False

    def add(self, table, key, value):
        before = table.get(key, NOTHING)
        after = joined(before, value)
        if after != before:
            table[key] = after
            self.has_changed = True

    def constants(self, section, address, is_byte):
        """What the words of a section are that the address may be of."""
        size = len(self.code.content(section))
        if not address.stride:
            offsets = [address.offset // 2 * 2]
        elif is_byte:
            return ANY_NUMBER
        else:
            step = address.stride * (1 + address.stride % 2)
            offsets = range(address.offset // 2 * 2 % step, size - 1, step)
        words = joined(*(frozenset({self.code.address(Place(section, offset))})
                         for offset in offsets if 0 <= offset < size - 1))
        return byte_of(words, address.offset) if is_byte else words

    def shared(self, base, address):
        """What all functions may have stored there."""
        words, anywhere = self.words.get(base, {}), self.anywhere.get(base, NOTHING)
        if not address.stride:
            return words.get(address.offset // 2 * 2, anywhere)
        return joined(anywhere, *words.values())

    def read(self, state, function, address, is_byte):
        """What is read at an address in this function."""
        base = address.base
        if isinstance(base, Code) or self.code.program.is_constant(str(base)):
            section = base.section if isinstance(base, Code) else base
            return self.constants(section, address, is_byte)
        if base == OUTPUT:
            value = joined(number(0), self.shared(base, address))
        elif base == Frame(function) and not address.stride:
            value = self.own(state, base, address.offset // 2 * 2)
        elif isinstance(base, Frame):
            value = self.shared(base, address) or UNSET
        else:
            value = LOST if base == STACK else ANY_NUMBER
        return byte_of(value, address.offset) if is_byte else value

    def own(self, state, frame, offset):
        """What a word of the function's own stack holds."""
        value = state.slots.get(offset, UNSET)
        others = self.by_others.get(frame, {}).get(offset, NOTHING)
        if UNSET_ADDRESS in value:
            others = others or self.anywhere.get(frame, NOTHING)
        return joined(value - UNSET, others) if others else value

    def write(self, state, function, address, value, stored):
        """A write in this function of a value, which is `stored` where other functions see it."""
        base, offset = address.base, address.offset // 2 * 2
        is_own = base == Frame(function)
        if not is_own and base != OUTPUT and not isinstance(base, Frame):
            return
        if address.stride:
            self.add(self.anywhere, base, stored)
            return
        self.add(self.words.setdefault(base, {}), offset, stored)
        if is_own:
            state.slots[offset] = value
        elif base != OUTPUT:
            self.add(self.by_others.setdefault(base, {}), offset, stored)
