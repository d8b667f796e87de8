"""What is known of a value in a region's code: it is one of some addresses, each of a base with a
distance from it.
"""
import enum
import functools
import math
from typing import NamedTuple, Union

MOST = 4  # so many distances from a base are told apart


class Source(enum.Enum):
    """Bases that are no place: of a number, of what nothing set, of the bits that SR had, and of
    what can't be followed.
    """
    NUMBER, UNSET, STATUS, LOST = range(4)


class Code(NamedTuple):
    """A section with instructions."""
    section: str


class Frame(NamedTuple):
    """The stack of a function from where its return address stands: up its arguments, down its own.
    """
    function: NamedTuple


class Given(NamedTuple):
    """What a function was given in a register."""
    function: NamedTuple
    register: int


class Address(NamedTuple):
    """A base, here also the name of a section, and the distance; with a stride one of offset,
    offset + stride, ..
    """
    base: Union[str, Source, Code, Frame, Given]
    offset: int = 0
    stride: int = 0

    @property
    def number(self):
        """The number that it is, None where it is none, or more than one."""
        is_one = self.base is Source.NUMBER and not self.stride
        return self.offset & 0xFFFF if is_one else None


NOTHING = frozenset()
ANY_NUMBER = frozenset({Address(Source.NUMBER, 0, 1)})
UNSET = frozenset({Address(Source.UNSET)})
STATUS = frozenset({Address(Source.STATUS)})
LOST = frozenset({Address(Source.LOST)})


def number(value):
    return frozenset({Address(Source.NUMBER, signed(value))})


def signed(value):
    return (value + 0x8000) % 0x10000 - 0x8000


def distance(base, offset, stride):
    """An address in the one form that it has."""
    return Address(base, offset % stride if stride else signed(offset), stride)


@functools.lru_cache(maxsize=None)
def joined(*values):
    """A value that is any of these."""
    groups = {}
    for address in frozenset().union(*values):
        groups.setdefault(address.base, set()).add(address)
    found = set()
    for base, group in groups.items():
        is_told = len(group) <= MOST or isinstance(base, Code)
        if len(group) > 1 and (not is_told or any(address.stride for address in group)):
            first = min(group)[1]
            stride = functools.reduce(math.gcd, (
                part for address in group for part in (address.stride, address.offset - first)))
            group = {distance(base, first, stride)}
        found |= group
    return frozenset(found)


def of_pairs(combine, left, right):
    return joined(frozenset(combine(one, other) for one in left for other in right))


def is_plain(address):
    """Whether it counts as a number: no address, and nothing that can't be followed."""
    return address.base in (Source.NUMBER, Source.UNSET, Source.STATUS)


def counted(address):
    """As a number, where it counts as one."""
    is_any = is_plain(address) and address.base is not Source.NUMBER
    return Address(Source.NUMBER, 0, 1) if is_any else address


def sum_of(left, right):
    left, right = counted(left), counted(right)
    if is_plain(right):
        left, right = right, left
    if not is_plain(left) or right.base is Source.LOST:
        return Address(Source.LOST)
    return distance(right.base, left.offset + right.offset, math.gcd(left.stride, right.stride))


def difference_of(left, right):
    left, right = counted(left), counted(right)
    if Source.LOST in (left.base, right.base) or (
            not is_plain(right) and left.base != right.base):
        return Address(Source.LOST)
    base = left.base if is_plain(right) else Source.NUMBER
    return distance(base, left.offset - right.offset, math.gcd(left.stride, right.stride))


def product_of(left, right):
    left, right = counted(left), counted(right)
    if not is_plain(left) or not is_plain(right):
        return Address(Source.LOST)
    if left.stride:
        left, right = right, left
    if left.stride:
        return Address(Source.NUMBER, 0, 1)
    return distance(Source.NUMBER, left.offset * right.offset, abs(left.offset) * right.stride)


@functools.lru_cache(maxsize=None)
def plus(left, right):
    return of_pairs(sum_of, left, right)


@functools.lru_cache(maxsize=None)
def minus(left, right):
    return of_pairs(difference_of, left, right)


def times(left, right):
    return of_pairs(product_of, left, right)


def near(value):
    """What lies a few bytes from it."""
    return plus(value, ANY_NUMBER)


def mixed(left, right):
    """What instructions make that follow no address."""
    return ANY_NUMBER if all(map(is_plain, left | right)) else LOST
