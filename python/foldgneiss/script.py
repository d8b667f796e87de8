"""Scripts: what comes to a device from outside, each event with its step."""
from typing import Iterable, List, NamedTuple, Tuple

from .limits import MOST_STEPS, SCRIPT_BYTES
from .words import Words, texts_of


class Event(NamedTuple):
    """What comes from outside in a step: `rx`, `p1`, `dma` or `reset`."""
    step: int
    kind: str
    arrived: bytes = b""  # of `rx`
    words: Tuple[int, ...] = ()  # of `p1` the pins; of `dma` source, destination and count

    def __str__(self) -> str:
        """Its line in a script."""
        numbers = [f"{word:04x}" for word in self.words[:2]] + [f"{n}" for n in self.words[2:]]
        return " ".join(["at", f"{self.step}", self.kind, *filter(None, [self.arrived.hex()]),
                         *numbers])


def read_event(words: Words, last: int = MOST_STEPS - 1, digits: int = 10) -> Event:
    """That of a line, from its step on, which is no later than the last."""
    step = words.decimal(last, digits=digits)
    kind = words.keyword("rx", "p1", "dma", "reset")
    if kind == "rx":
        return Event(step, kind, words.digits(lambda length: length >= 2 and length % 2 == 0))
    if kind == "p1":
        return Event(step, kind, words=(words.word(),))
    if kind == "dma":
        return Event(step, kind, words=(words.word(), words.word(), words.decimal(65535)))
    return Event(step, kind)


def read_script(text: bytes) -> List[Event]:
    """The events in their order."""
    events: List[Event] = []
    for words in texts_of(text, SCRIPT_BYTES)[0]:
        words.keyword("at")
        event = read_event(words)
        words.end()
        if events and event.step < events[-1].step:
            words.fault("Order")
        events.append(event)
    return events


def script_text(events: Iterable[Event]) -> bytes:
    """A script with these events."""
    return "".join(f"{event}\n" for event in events).encode()
