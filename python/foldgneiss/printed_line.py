"""The lines that `play`, `round` and `verify` print."""
from typing import Callable, Dict, List, NamedTuple, Optional, Union

from .limits import MOST_COUNTER, REPORTS_BYTES
from .names import RULES, VERDICTS
from .policy import Bounds, bounds_words, is_valid
from .words import Words, texts_of


class SentByte(NamedTuple):
    """A byte that the device sent."""
    step: int
    byte: int


class Reset(NamedTuple):
    """A reset, with the rule of RULES that was broken."""
    step: int
    rule: str


class Denial(NamedTuple):
    """A request that was not attested: 2 where its counter is not new, 3 where its token is wrong.
    """
    step: int
    decision: int


class Report(NamedTuple):
    version: int
    step: int
    exec: int
    aux: int  # in version 1 it counts as 0
    count: int  # likewise
    challenge: bytes
    bounds: Bounds
    output: Optional[bytes]  # None where the bounds are not valid
    mac: bytes

    def __str__(self) -> str:
        """Its line."""
        name, of_request = "report", ""
        if self.version == 2:
            name, of_request = "report2", f" aux {self.aux} count {self.count}"
        output = "-" if self.output is None else self.output.hex()
        return (f"{name} {self.step} exec {self.exec}{of_request} chal {self.challenge.hex()} "
                f"{bounds_words(self.bounds)} data {output} mac {self.mac.hex()}")


class Verdict(NamedTuple):
    """On the report of this number, from 1: one of VERDICTS."""
    number: int
    name: str


class Collision(NamedTuple):
    """Two unequal inputs of one SHA-256 digest."""
    one: bytes
    other: bytes


class End(NamedTuple):
    """What stands behind the last step."""
    steps: int
    pc: int
    exec: int


Line = Union[SentByte, Reset, Denial, Report, Verdict, Collision, End]


def read_report(words: Words, version: int) -> Report:
    step = words.decimal(MOST_COUNTER)
    flag, aux, count = words.flag("exec"), 0, 0
    if version == 2:
        aux = words.flag("aux")
        words.keyword("count")
        count = words.decimal(MOST_COUNTER)
    words.keyword("chal")
    challenge = words.bytes(32)
    words.keyword("er")
    bounds = [words.word(), words.word()]
    words.keyword("or")
    bounds += [words.word(), words.word()]
    words.keyword("data")
    output = None if words.takes(b"-") else words.any_bytes()
    words.keyword("mac")
    mac = words.bytes(32)
    words.end()
    size = bounds[3] + 2 - bounds[2] if is_valid(bounds, version) else None
    if size != (None if output is None else len(output)):
        words.fault("Output")
    return Report(version, step, flag, aux, count, challenge, bounds, output, mac)


def read_end(words: Words) -> End:
    steps = words.decimal(MOST_COUNTER)
    words.keyword("pc")
    return End(steps, words.word(), words.flag("exec"))


# What stands behind each keyword.
FORMS: Dict[str, Callable[[Words], Line]] = {
    "report": lambda words: read_report(words, 1),
    "report2": lambda words: read_report(words, 2),
    "tx": lambda words: SentByte(words.decimal(MOST_COUNTER), words.bytes(1)[0]),
    "reset": lambda words: Reset(words.decimal(MOST_COUNTER), words.keyword(*RULES)),
    "denied": lambda words: Denial(words.decimal(MOST_COUNTER), words.decimal(3, 2)),
    "verdict": lambda words: Verdict(words.decimal(MOST_COUNTER), words.keyword(*VERDICTS)),
    "collision": lambda words: Collision(words.any_bytes(), words.any_bytes()),
    "end": read_end,
}


def read_line(words: Words) -> Line:
    line = FORMS[words.keyword(*FORMS)](words)
    words.end()
    return line


def read_lines(text: bytes) -> List[Line]:
    """The lines of a file of reports, which may be all that `play` or `round` printed."""
    return [read_line(words) for words in texts_of(text, REPORTS_BYTES)[0]]


def read_reports(text: bytes) -> List[Report]:
    """The reports among them."""
    return [line for line in read_lines(text) if isinstance(line, Report)]
