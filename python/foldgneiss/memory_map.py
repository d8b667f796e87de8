"""The regions of memory and the interrupts' vectors, as docs/memory-map.md has them."""
from typing import NamedTuple, Tuple


class Region(NamedTuple):
    """Its first and its last place."""
    first: int
    last: int

    @property
    def places(self) -> range:
        return range(self.first, self.last + 1)

    @property
    def edges(self) -> Tuple[int, int, int, int]:
        """The first and the last place, and those beside them."""
        return self.first - 1 & 0xFFFF, self.first, self.last, self.last + 1 & 0xFFFF

    def has(self, place: int) -> bool:
        return self.first <= place <= self.last

    def __str__(self) -> str:
        return f"{self.first:04X}..{self.last:04X}"


# By the names of docs/memory-map.md.
REGIONS = {
    "peripherals": Region(0x0000, 0x01FF),
    "RAM": Region(0x0200, 0x21FF),
    "MR": Region(0x0200, 0x021F),
    "META": Region(0x0240, 0x028F),
    "XS": Region(0x4000, 0x43FF),
    "KR": Region(0x6A00, 0x6A3F),
    "CR": Region(0xA000, 0xBFFF),
    "program": Region(0xC000, 0xFFDF),
    "vectors": Region(0xFFE0, 0xFFFF),
}
PERIPHERALS, RAM, MAC, METADATA, STACK, KEY, ROM, PROGRAM, VECTORS = REGIONS.values()
METADATA_ONE = Region(METADATA.first, 0x0269)  # those of version 1
TIMER_VECTOR, SERIAL_VECTOR, RESET_VECTOR = 0xFFF2, 0xFFF4, 0xFFFE
UPPER = Region(PROGRAM.first, VECTORS.last)
IMAGE_PLACES = frozenset((*RAM.places, *UPPER.places))
