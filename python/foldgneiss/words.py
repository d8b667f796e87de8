"""The lines and words of the program's files, and the faults that they may have."""
import re
import string
from typing import Callable, List, NoReturn, Optional, Tuple

HEX = frozenset(string.hexdigits.encode())


class Fault(Exception):
    """The first fault of a file: its line, from 1, and its kind, as docs/formats.md has them.

    Where it can be told, `column` is that of the word, from 1 and in bytes, `wanted` what should
    stand there, and `cause` the line and the words of what makes it wrong.
    """

    def __init__(self, line: int, kind: str, column: Optional[int] = None,
                 wanted: Optional[str] = None, cause: Optional[Tuple[int, str]] = None) -> None:
        super().__init__(f"line {line}: {kind}")
        self.line, self.kind, self.column = line, kind, column
        self.wanted, self.cause = wanted, cause


def lines_in(text: bytes) -> List[bytes]:
    """The lines without LF or CRLF; the last may have no end."""
    *lines, last = text.split(b"\n")
    lines = [line[:-1] if line.endswith(b"\r") else line for line in lines]
    return [*lines, last] if last else lines


def lines_of(text: bytes) -> List[Tuple[int, bytes]]:
    """The lines with their numbers."""
    return list(enumerate(lines_in(text), 1))


def within_limit(text: bytes, limit: int) -> bytes:
    if len(text) > limit:
        raise Fault(0, "TooLong")
    return text


def column_of_no_digit(text: bytes) -> Optional[int]:
    """That of the first character that is no hexadecimal digit, None where all are."""
    return next((column for column, digit in enumerate(text, 1) if digit not in HEX), None)


class Words:
    """The words of a line, read from the left."""

    def __init__(self, number: int, line: bytes) -> None:
        self.number, self.length = number, len(line)
        self.matches = list(re.finditer(rb"[^ \t]+", line))
        self.column: Optional[int] = None  # of the word taken last, or after the line's end

    def is_text(self) -> bool:
        return bool(self.matches) and not self.matches[0].group().startswith(b"#")

    def begins_with(self, word: bytes) -> bool:
        return bool(self.matches) and self.matches[0].group() == word

    def fault(self, kind: str, wanted: Optional[str] = None,
              cause: Optional[Tuple[int, str]] = None) -> NoReturn:
        raise Fault(self.number, kind, self.column, wanted, cause)

    def take(self, wanted: Optional[str] = None) -> bytes:
        if not self.matches:
            self.column = self.length + 1
            self.fault("Missing", wanted)
        match = self.matches.pop(0)
        self.column = match.start() + 1
        return bytes(match.group())

    def takes(self, word: bytes) -> bool:
        """Whether the next word is this one, which is taken then."""
        if not self.begins_with(word):
            return False
        self.take()
        return True

    def keyword(self, *names: str) -> str:
        wanted = " or ".join(names)
        word = self.take(wanted).decode("utf-8", "replace")
        return word if word in names else self.fault("Word", wanted)

    def decimal(self, most: int, least: int = 0, digits: int = 10) -> int:
        wanted = f"a decimal, {least} to {most}" if least < most else f"{most}"
        word = self.take(wanted)
        if not word.isdigit():
            self.fault("Digit", wanted)
        if len(word) > digits or not least <= int(word) <= most:
            self.fault("Range", wanted)
        return int(word)

    def decimal_or_none(self, most: int) -> Optional[int]:
        """A decimal, None for `none`."""
        return None if self.takes(b"none") else self.decimal(most)

    def flag(self, name: str) -> int:
        """0 or 1 behind its name."""
        self.keyword(name)
        return self.decimal(1)

    def digits(self, is_right: Callable[[int], bool],
               wanted: str = "hexadecimal digits, an even number") -> bytes:
        word = self.take(wanted)
        if not HEX.issuperset(word):
            self.fault("Digit", wanted)
        return bytes.fromhex(word.decode()) if is_right(len(word)) else self.fault("Count", wanted)

    def bytes(self, count: int) -> bytes:
        wanted = f"{2 * count} hexadecimal digits"
        return self.digits(lambda length: length == 2 * count, wanted)

    def word(self) -> int:
        return int.from_bytes(self.bytes(2), "big")

    def any_bytes(self) -> bytes:
        return self.digits(lambda length: length % 2 == 0)

    def end(self) -> None:
        if self.matches:
            self.take()
            self.fault("Extra")
        self.column = None


def texts_of(text: bytes, limit: int) -> Tuple[List[Words], int]:
    """The words of each line that has some and is no comment, and the number of lines."""
    lines = lines_of(within_limit(text, limit))
    for number, line in lines:
        try:
            line.decode()
        except UnicodeDecodeError as error:
            raise Fault(number, "Utf8", error.start + 1) from None
    words = [Words(number, line) for number, line in lines]
    return [each for each in words if each.is_text()], len(lines)
