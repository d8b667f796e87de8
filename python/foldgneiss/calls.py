"""Calls of the proved program, each with a typed result.

A file is given by its path, or as bytes by what is in it. An image may be the ELF of a firmware.
"""
import os
import shutil
import subprocess
import tempfile
from typing import Any, Iterable, List, NamedTuple, Optional, Sequence, Union

from .elf import MAGIC, Elf
from .image import image_text
from .policy import Policy, policy_text
from .printed_line import (Collision, Denial, End, Line, Report, Reset, SentByte, Verdict,
                           read_line)
from .script import Event, script_text
from .trace_line import TraceLine, read_trace
from .words import Words, lines_of

File = Union[str, "os.PathLike[str]", bytes]
ANSWERED = (0, 1)  # the statuses with which all of the text was printed


class Failure(Exception):
    """A call that ended otherwise; README's table of exit codes says what a status means."""

    def __init__(self, status: int, message: str) -> None:
        super().__init__(message or f"status {status}")
        self.status, self.message = status, message


def program() -> str:
    """The command: what FOLDGNEISS in the environment names, the script of the repository or the
    release that this package lies in, or `foldgneiss` on the PATH.
    """
    named = os.environ.get("FOLDGNEISS")
    if named:
        return named
    beside = os.path.join(os.path.dirname(os.path.abspath(__file__)), "../../foldgneiss")
    found = beside if os.access(beside, os.X_OK) else shutil.which("foldgneiss")
    if not found:
        raise FileNotFoundError("there is no foldgneiss: install it, or set FOLDGNEISS")
    return found


class Arguments:
    """Words of a call, of which the program reads those that are bytes from files, until the end
    of the block.
    """

    def __init__(self, *words: Union[File, int]) -> None:
        self._folder = tempfile.TemporaryDirectory(prefix="foldgneiss-")
        self.words = [self._word(f"{at}", word) for at, word in enumerate(words)]

    def _word(self, name: str, word: Union[File, int]) -> str:
        if isinstance(word, bytes):
            path = os.path.join(self._folder.name, name)
            with open(path, "wb") as file:
                file.write(word)
            return path
        return os.fspath(word) if isinstance(word, os.PathLike) else str(word)

    def __enter__(self) -> List[str]:
        return self.words

    def __exit__(self, *_: Any) -> None:
        self._folder.cleanup()


def answer(name: str, *words: Union[File, int], option: Sequence[str] = ()) -> bytes:
    """What a command prints."""
    with Arguments(*words) as arguments:
        ran = subprocess.run([program(), name, *option, *arguments], stdin=subprocess.DEVNULL,
                             stdout=subprocess.PIPE, stderr=subprocess.PIPE)
    if ran.returncode not in ANSWERED:
        raise Failure(ran.returncode, ran.stderr.decode("utf-8", "replace").strip())
    return ran.stdout


def content_of(file: File) -> bytes:
    if isinstance(file, bytes):
        return file
    with open(file, "rb") as opened:
        return opened.read()


def image_of(image: File) -> File:
    """An image as the program takes it."""
    if not isinstance(image, bytes):
        with open(image, "rb") as file:
            if file.read(len(MAGIC)) != MAGIC:
                return image
    content = content_of(image)
    return image_text(Elf(content).image) if content.startswith(MAGIC) else content


def script_of(script: Union[File, Sequence[Event]]) -> File:
    return script if isinstance(script, (str, bytes, os.PathLike)) else script_text(script)


def policy_of(policy: Union[File, Policy]) -> File:
    return policy_text(policy) if isinstance(policy, Policy) else policy


def reports_of(reports: Union[File, Iterable[Report]]) -> File:
    if isinstance(reports, (str, bytes, os.PathLike)):
        return reports
    return "".join(f"{report}\n" for report in reports).encode()


class Request(NamedTuple):
    """A request to attest."""
    challenge: bytes
    counter: int
    token: bytes

    @property
    def message(self) -> bytes:
        """Challenge, counter and token as the metadata have them, and as the kit's firmware takes
        them from the serial port.
        """
        return self.challenge + self.counter.to_bytes(4, "little") + self.token


class Printout:
    """What was printed, line by line."""

    def __init__(self, text: bytes) -> None:
        self.text = text
        self.lines: List[Line] = []
        self.unanswered: Optional[int] = None  # the number of the first such request
        for number, line in lines_of(text):
            words = Words(number, line)
            if words.takes(b"unanswered"):
                self.unanswered = words.decimal(1 << 32)
            else:
                self.lines.append(read_line(words))

    def _all(self, kind: Any) -> List[Any]:
        return [line for line in self.lines if isinstance(line, kind)]

    @property
    def verdicts(self) -> List[str]:
        """The names of the verdicts, in their order."""
        return [verdict.name for verdict in self._all(Verdict)]

    @property
    def is_accepted(self) -> bool:
        """Whether each request of the policy got an `accept`, and no report anything else."""
        return self.unanswered is None and all(name == "accept" for name in self.verdicts)

    @property
    def collisions(self) -> List[Collision]:
        return self._all(Collision)


class Run(Printout):
    """A run of a device, from power-on to its last step."""

    @property
    def sent(self) -> bytes:
        """The bytes that the device sent."""
        return bytes(line.byte for line in self._all(SentByte))

    @property
    def resets(self) -> List[Reset]:
        return self._all(Reset)

    @property
    def reports(self) -> List[Report]:
        return self._all(Report)

    @property
    def denials(self) -> List[Denial]:
        return self._all(Denial)

    @property
    def end(self) -> End:
        end: End = self._all(End)[0]
        return end


def play(image: File, script: Union[File, Sequence[Event]], key: File, steps: int) -> Run:
    """A run of so many steps."""
    return Run(answer("play", image_of(image), script_of(script), key, steps))


def trace(image: File, script: Union[File, Sequence[Event]], key: File,
          steps: int) -> List[TraceLine]:
    """Each step of a run."""
    return read_trace(answer("trace", image_of(image), script_of(script), key, steps))


def request(key: File, challenge: bytes, counter: int) -> Request:
    """A request to attest, by the device of this key."""
    text = answer("request", key, challenge.hex(), counter)
    return Request(challenge, counter, bytes.fromhex(text.split()[-1].decode()))


def verify(image: File, policy: Union[File, Policy], key: File,
           reports: Union[File, Iterable[Report]]) -> Printout:
    """The verdicts on reports."""
    return Printout(answer("verify", image_of(image), policy_of(policy), key, reports_of(reports),
                          option=["--all"]))


def round(image: File, script: Union[File, Sequence[Event]], key: File,
          policy: Union[File, Policy], steps: int) -> Run:
    """A run, with a verdict on each of its reports."""
    return Run(answer("round", image_of(image), script_of(script), key, policy_of(policy), steps,
                      option=["--all"]))
