"""Lists of lines that no device makes, near the edges of all regions, drawn at random."""
import os
import random
import sys

sys.path.insert(0, os.path.join(os.path.dirname(os.path.realpath(__file__)), "../tools"))
from file_readers import Access, TraceLine  # noqa: E402
from reference import KEY, MAC, METADATA, PROGRAM, RAM, ROM, STACK, VECTORS  # noqa: E402
from replay import moves_bounds  # noqa: E402

EDGES = [place for region in (KEY, MAC, METADATA, PROGRAM, RAM, ROM, STACK, VECTORS)
         for place in region.edges] + [ROM.last - 1, ROM.first + 2]
BOUNDS = ([0xC040, 0xC048, 0x0300, 0x0310], [0x0400, 0x0408, 0xD000, 0xD000],
          [0x0290, 0x0294, 0xC000, 0xC010], [0xFFD8, 0xFFDE, 0x0220, 0x023E])
KINDS = ["cpu"] * 5 + ["boot", "idle", "irq", "rom"]


class Draw:
    """One list; `steady` are lines whose bounds move only behind a write to META, and `dma` is how
    likely an access of the DMA is.
    """

    def __init__(self, seed, steady, dma):
        self.rng, self.steady, self.dma = random.Random(seed), steady, dma
        self.bounds = BOUNDS[0]

    def place(self, even):
        draw = self.rng.random()
        if draw < 0.55:
            place = self.rng.choice(self.bounds) + self.rng.choice((-2, -1, 0, 1, 2, 4))
        elif draw < 0.93:
            place = self.rng.choice(EDGES) + self.rng.choice((-2, -1, 0, 1, 2))
        else:
            place = self.rng.randrange(65536)
        return place & (0xFFFE if even else 0xFFFF)

    def access(self, likely):
        if self.rng.random() > likely:
            return None
        letter = self.rng.choice(("f", "r", "b", "w", "c"))
        number = 0 if letter in "wc" else None
        return Access(letter, self.place(letter in "frw"), number)

    def move_bounds(self):
        if self.rng.random() < 0.7:
            self.bounds = self.rng.choice(BOUNDS)
        else:
            self.bounds = [self.place(self.rng.random() < 0.6) for _ in range(4)]

    def line(self, last):
        if last and moves_bounds(last):
            likely = 0.7
        else:
            likely = 0 if self.steady else 0.02
        if self.rng.random() < likely:
            self.move_bounds()
        kind, pc = self.rng.choice(KINDS), self.place(self.rng.random() < 0.9)
        if self.rng.random() < 0.5:
            first, end = self.bounds[:2]
            pc = self.rng.choice((first, first, first + 2, end, end, end + 2)) & 0xFFFF
        cpu, dma = self.access(0.8), self.access(self.dma)
        if kind == "cpu" and self.rng.random() < 0.6:
            cpu = Access("f", pc & 0xFFFE, None)
        word = self.rng.choice((0x4303, 0x4303, 0x1300, self.rng.randrange(0x2400)))
        value = self.rng.choice((self.place(False), *self.bounds[:2]))
        return TraceLine(kind, pc, cpu, dma, int(self.rng.random() < 0.08),
                         int(self.rng.random() < 0.02), word, value, 0, self.bounds, 0, "-")


def foreign_trace(seed, steady, lines=1000, dma=0.1):
    """Its lines name neither rules nor flags yet."""
    draw, trace = Draw(seed, steady, dma), []
    for _ in range(lines):
        trace.append(draw.line(trace[-1] if trace else None))
    return trace
