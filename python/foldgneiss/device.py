"""A device that lives: it is told what comes from outside as it runs, and tells what it does."""
import contextlib
import subprocess
from typing import Any, Callable, List, NamedTuple, Optional

from .calls import Arguments, Failure, File, answer, image_of, program
from .printed_line import Line, Report, Reset, SentByte, read_line
from .script import Event, script_text
from .words import Fault, Words

MOST_STEPS = 1 << 48
STEPS_AT_ONCE = 1000  # where it is looked between them what was sent
observers: List[Callable[["Device"], None]] = []  # who are told of each device that is made


class Standing(NamedTuple):
    """Where a device stands: so many steps were made, the pc of the next one, and EXEC."""
    steps: int
    pc: int
    exec: int


def read_standing(words: Words) -> Standing:
    steps = words.decimal(MOST_STEPS, digits=15)
    words.keyword("pc")
    return Standing(steps, words.word(), words.flag("exec"))


class Device:
    """A device in a process of its own, from power-on until it is closed.

    What comes from outside comes in the next step that is made, where no later one is named.
    """

    def __init__(self, image: File, key: File) -> None:
        self._image, self._key = image_of(image), key
        with contextlib.ExitStack() as held:
            words = held.enter_context(Arguments(self._image, key))
            self._process = subprocess.Popen([program(), "live", *words], stdin=subprocess.PIPE,
                                             stdout=subprocess.PIPE, stderr=subprocess.PIPE)
            self._held = held.pop_all()
        self.standing = Standing(0, 0, 0)
        self.lines: List[Line] = []  # of all steps
        self.script: List[Event] = []  # from which `play` makes the same run
        self._sent = bytearray()
        self._watchers: List[Callable[[bytes], None]] = []
        for observe in observers:
            observe(self)

    def __enter__(self) -> "Device":
        return self

    def __exit__(self, *_: Any) -> None:
        self.close()

    def close(self) -> Standing:
        """Ends it; where it stood."""
        if self._process.poll() is None:
            self._process.communicate()
        self._held.close()
        return self.standing

    # What comes from outside.

    def rx(self, data: bytes, step: Optional[int] = None) -> None:
        """Bytes arrive at the serial port."""
        self.happens(Event(self._or_next(step), "rx", bytes(data)))

    def pins(self, word: int, step: Optional[int] = None) -> None:
        """The pins of port 1 are set to this."""
        self.happens(Event(self._or_next(step), "p1", words=(word,)))

    def dma(self, source: int, destination: int, count: int, step: Optional[int] = None) -> None:
        """The DMA engine is to copy so many words."""
        self.happens(Event(self._or_next(step), "dma", words=(source, destination, count)))

    def reset(self, step: Optional[int] = None) -> None:
        self.happens(Event(self._or_next(step), "reset"))

    def happens(self, event: Event) -> None:
        """An event in its step; ValueError where that was made, or an earlier event comes later."""
        latest = self.script[-1].step if self.script else 0
        if event.step < max(self.steps, latest):
            raise ValueError(f"{event}: {self.steps} steps are made, and an event is told of "
                             f"step {latest}")
        self._tell(f"{event}")
        self.script.append(event)

    def _or_next(self, step: Optional[int]) -> int:
        return self.steps if step is None else step

    # What it does.

    @property
    def steps(self) -> int:
        """So many were made."""
        return self.standing.steps

    def run(self, steps: int) -> List[Line]:
        """Makes so many steps more; their lines."""
        self._tell(f"run {self.steps + steps}")
        lines: List[Line] = []
        words = self._answer()
        while not words.takes(b"at"):
            lines.append(read_line(words))
            words = self._answer()
        self.standing = read_standing(words)
        self.lines += lines
        sent = bytes(line.byte for line in lines if isinstance(line, SentByte))
        self._sent += sent
        if sent:
            for watcher in self._watchers:
                watcher(sent)
        return lines

    def when_sent(self, call: Callable[[bytes], None]) -> None:
        """Calls this with what each `run` sent, where that is something."""
        self._watchers.append(call)

    def until_sent(self, text: bytes, most: int = 1_000_000) -> bytes:
        """Runs until a text was sent, in so many steps at most, or TimeoutError; what was sent."""
        begin, end = len(self._sent), self.steps + most
        while text not in self._sent[begin:]:
            if self.steps >= end:
                raise TimeoutError(f"in {most} steps {bytes(self._sent[begin:])!r} was sent, and "
                                   f"no {text!r}")
            self.run(min(STEPS_AT_ONCE, end - self.steps))
        return bytes(self._sent[begin:])

    @property
    def sent(self) -> bytes:
        """All bytes that it sent."""
        return bytes(self._sent)

    @property
    def resets(self) -> List[Reset]:
        return [line for line in self.lines if isinstance(line, Reset)]

    @property
    def reports(self) -> List[Report]:
        return [line for line in self.lines if isinstance(line, Report)]

    # What stands in it.

    def registers(self) -> List[int]:
        """The sixteen registers at the last boundary."""
        self._tell("registers")
        words = self._answer()
        words.keyword("registers")
        return [words.word() for _ in range(16)]

    def memory(self, place: int, count: int) -> bytes:
        """Bytes from a place on, up to the first that no one is shown."""
        self._tell(f"memory {place:04x} {count}")
        words = self._answer()
        words.keyword("memory")
        words.word()
        return b"" if words.takes(b"-") else words.any_bytes()

    def trace_lines(self, steps: int) -> List[str]:
        """The lines of a trace of the same run, from power-on to this step."""
        text = answer("trace", self._image, script_text(self.script), self._key, steps)
        return text.decode().splitlines()

    # The lines to it and from it.

    def _tell(self, line: str) -> None:
        assert self._process.stdin
        try:
            self._process.stdin.write(f"{line}\n".encode())
            self._process.stdin.flush()
        except BrokenPipeError:
            self._fail()

    def _answer(self) -> Words:
        """The words of the next line."""
        assert self._process.stdout
        line = self._process.stdout.readline()
        if not line.endswith(b"\n"):
            self._fail()
        words = Words(0, line[:-1])
        if words.takes(b"refused"):
            raise Fault(words.decimal(1 << 48, digits=15), words.take().decode())
        return words

    def _fail(self) -> None:
        """It has ended."""
        _, errors = self._process.communicate()
        raise Failure(self._process.returncode, errors.decode("utf-8", "replace").strip())
