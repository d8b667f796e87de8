"""Trace files: a line for each step of a run."""
import re
from typing import List, NamedTuple, Optional

from .limits import MOST_COUNTER, TRACE_BYTES
from .names import RULES
from .policy import Bounds
from .words import Words, lines_of, within_limit

KINDS = ("boot", "cpu", "idle", "irq", "rom")
# The form of an access, by its letter: how many digits a write has behind `=`.
ACCESSES = {"f": 0, "r": 0, "b": 0, "w": 4, "c": 2}
ACCESS = re.compile(r"([frbwc])([0-9A-Fa-f]{4})(?:=([0-9A-Fa-f]+))?")


class Access(NamedTuple):
    """A fetch `f`, a read of a word `r` or a byte `b`, or a write of a word `w` or a byte `c`."""
    letter: str
    place: int
    number: Optional[int]  # of a write


class TraceLine(NamedTuple):
    """A step, by the words of docs/formats.md."""
    kind: str
    pc: int
    cpu: Optional[Access]
    dma: Optional[Access]
    irq: int
    asked: int
    word: int
    value: int
    dma_value: int
    bounds: Bounds
    exec: int
    rule: str  # `-` for none


def read_access(words: Words) -> Optional[Access]:
    """An access, None for `-`."""
    wanted = "- or fHHHH, rHHHH, bHHHH, wHHHH=HHHH or cHHHH=HH"
    word = words.take(wanted).decode("utf-8", "replace")
    if word == "-":
        return None
    match = ACCESS.fullmatch(word)
    if not match or len(match[3] or "") != ACCESSES[match[1]]:
        words.fault("Word", wanted)
    place = int(match[2], 16)
    if place % 2 and match[1] in "frw":
        words.fault("Range", "an even address")
    return Access(match[1], place, int(match[3], 16) if match[3] else None)


def read_trace(text: bytes) -> List[TraceLine]:
    """The lines in their order. Empty lines are passed over, and no others."""
    trace: List[TraceLine] = []
    for number, line in lines_of(within_limit(text, TRACE_BYTES)):
        if not line:
            continue
        words = Words(number, line)
        words.keyword("t")
        step = words.decimal(MOST_COUNTER)
        entry = TraceLine(words.keyword(*KINDS), words.word(), read_access(words),
                          read_access(words), words.decimal(1), words.decimal(1), words.word(),
                          words.word(), words.word(), [words.word() for _ in range(4)],
                          words.decimal(1), words.keyword("-", *RULES))
        words.end()
        if step != len(trace):
            words.fault("Order", f"the step {len(trace)}")
        trace.append(entry)
    return trace
