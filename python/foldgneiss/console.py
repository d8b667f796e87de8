"""foldgneiss console [--pty] [--speed STEPS] [--record SCRIPT] IMAGE [KEY]

A terminal at the serial port of a device that lives: what is typed arrives, what is sent is shown,
and resets and reports are told in words, until Ctrl-] is typed or the input ends. With --pty it is
a pseudo-terminal, whose name is printed, for minicom, screen or pyserial. The device makes STEPS
steps a second, 1,000,000 if none are named. SCRIPT gets the script from which `foldgneiss play`
makes the same run. Without KEY the device has a key that nobody knows.
"""
import argparse
import contextlib
import os
import secrets
import select
import sys
import termios
import time
import tty
from typing import Iterator, List

from .calls import Failure
from .device import Device
from .names import RULES
from .printed_line import Denial, Line, Report, Reset, SentByte
from .script import script_text

TICK = 0.02  # seconds
STEPS_A_BYTE = 1000  # between two bytes that arrive
END = b"\x1d"  # Ctrl-]
DENIALS = {2: "its counter is not new", 3: "its token is wrong"}


def words_of(line: Line) -> str:
    """A line in words, "" where the byte is shown instead."""
    if isinstance(line, Reset):
        return f"step {line.step}: reset, since {RULES[line.rule]} ({line.rule})"
    if isinstance(line, Report):
        return f"step {line.step}: a report with counter {line.count}, EXEC {line.exec}, AUX {line.aux}"
    if isinstance(line, Denial):
        return f"step {line.step}: a request was denied, since {DENIALS[line.decision]}"
    return ""


class Port:
    """Where bytes are typed and shown."""

    def __init__(self, taken: int, put: int, is_terminal: bool) -> None:
        self.taken, self.put, self.is_terminal = taken, put, is_terminal
        self.is_open = True

    def typed(self, seconds: float) -> bytes:
        """What is typed in this time; the port is closed where that is the end."""
        ready, _, _ = select.select([self.taken], [], [], seconds)
        data = os.read(self.taken, 4096) if ready else b""
        self.is_open = bool(data) or not ready
        if self.is_terminal and END in data:
            self.is_open = False
            data = data[:data.index(END)]
        return data

    def show(self, data: bytes) -> None:
        if self.is_terminal:
            data = data.replace(b"\n", b"\r\n")
        while data:
            data = data[os.write(self.put, data):]


class Console:
    """A device and its port, at so many steps a second."""

    def __init__(self, device: Device, port: Port, speed: int) -> None:
        self.device, self.port, self.speed = device, port, speed
        self.begin = self.told = time.monotonic()

    def run(self) -> None:
        """Until the port is closed, and a second more."""
        while self.port.is_open:
            self.take(self.port.typed(TICK))
            due = int((time.monotonic() - self.begin) * self.speed)
            self.show(self.device.run(max(due - self.device.steps, 0)))
            self.tell_progress()
        if not self.port.is_terminal:
            self.show(self.device.run(self.speed))

    def take(self, data: bytes) -> None:
        """Bytes arrive one behind the other."""
        latest = self.device.script[-1].step + STEPS_A_BYTE if self.device.script else 0
        first = max(self.device.steps, latest)
        for at, byte in enumerate(data):
            self.device.rx(bytes([byte]), first + STEPS_A_BYTE * at)

    def show(self, lines: List[Line]) -> None:
        self.port.show(bytes(line.byte for line in lines if isinstance(line, SentByte)))
        for words in filter(None, map(words_of, lines)):
            self.say(words)

    def say(self, words: str) -> None:
        end = "\r\n" if self.port.is_terminal else "\n"
        print(f"{end if self.port.is_terminal else ''}[{words}]", end=end, file=sys.stderr,
              flush=True)

    def tell_progress(self) -> None:
        """In the window's title, once a second."""
        now = time.monotonic()
        if now - self.told > 1 and sys.stderr.isatty():
            rate = self.device.steps / (now - self.begin)
            print(f"\x1b]0;{self.device.steps:,} steps, {rate:,.0f} a second\x07", end="",
                  file=sys.stderr, flush=True)
            self.told = now


@contextlib.contextmanager
def raw_terminal(descriptor: int) -> Iterator[None]:
    """The terminal gives each key at once, and shows none itself."""
    before = termios.tcgetattr(descriptor)
    tty.setraw(descriptor)
    try:
        yield
    finally:
        termios.tcsetattr(descriptor, termios.TCSADRAIN, before)


@contextlib.contextmanager
def opened_port(is_pty: bool) -> Iterator[Port]:
    if is_pty:
        own, other = os.openpty()
        tty.setraw(other)
        print(os.ttyname(other), flush=True)
        yield Port(own, own, False)
    elif os.isatty(0):
        print("Ctrl-] ends it", file=sys.stderr)
        with raw_terminal(0):
            yield Port(0, 1, True)
        print(file=sys.stderr)  # (behind what was shown last)
    else:
        yield Port(0, 1, False)


def arguments() -> argparse.Namespace:
    parser = argparse.ArgumentParser(usage=__doc__)
    parser.add_argument("--pty", action="store_true")
    parser.add_argument("--speed", type=int, default=1_000_000)
    parser.add_argument("--record")
    parser.add_argument("image")
    parser.add_argument("key", nargs="?")
    return parser.parse_args()


def main() -> int:
    options = arguments()
    key = options.key or secrets.token_hex(64).encode()
    try:
        with Device(options.image, key) as device:
            with opened_port(options.pty) as port, contextlib.suppress(KeyboardInterrupt):
                Console(device, port, options.speed).run()
            if options.record:
                with open(options.record, "wb") as file:
                    file.write(script_text(device.script))
            print(f"{device.steps:,} steps", file=sys.stderr)
    except (Failure, OSError) as failure:
        print(f"foldgneiss: {failure}", file=sys.stderr)
        return failure.status if isinstance(failure, Failure) else 3
    return 0


if __name__ == "__main__":
    sys.exit(main())
