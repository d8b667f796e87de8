#!/usr/bin/env python3
"""python3 device.py LIBRARY COMMAND ARGUMENT..

Answers as `foldgneiss COMMAND ARGUMENT..` does, with the device in this process. LIBRARY is
libfoldgneiss_device.so, of which crates/device_library/include/device.h tells.
"""
import ctypes
import os
import sys
from typing import Dict, List, Sequence, Tuple

NAMES = ("image", "script", "key", "other")  # of the files of a call
TOO_LONG = 5  # the exit code where a text is longer than the piece for it


def in_memory(arguments: Sequence[str]) -> Tuple[List[str], Dict[str, bytes]]:
    """The words of a command line, and the files that it names, each under a name of a call."""
    words: List[str] = []
    files: Dict[str, bytes] = {}
    for word in arguments:
        if os.path.isfile(word):
            name = NAMES[len(files)]
            with open(word, "rb") as file:
                files[name] = file.read()
            word = name
        words.append(word)
    return words, files


class Device:
    """The commands of the device, of a library that was loaded."""

    def __init__(self, library: str) -> None:
        self._run = ctypes.CDLL(os.path.abspath(library)).device_run
        self._run.restype = ctypes.c_uint8
        self._run.argtypes = 6 * [ctypes.c_char_p, ctypes.c_size_t] + [
            ctypes.POINTER(ctypes.c_size_t)]

    def call(self, words: Sequence[str], files: Dict[str, bytes], room: int) -> Tuple[
            int, int, bytes]:
        """One call with a piece of so many bytes: the exit code, the count, and the piece."""
        # (an argument that is no UTF-8 goes on as it is)
        line = "\n".join(words).encode("utf-8", "surrogateescape")
        given = [line, *(files.get(name, b"") for name in NAMES)]
        pointers = [word for each in given for word in (each, len(each))]
        piece, count = ctypes.create_string_buffer(max(room, 1)), ctypes.c_size_t()
        status = self._run(*pointers, piece, room, ctypes.byref(count))
        return status, count.value, ctypes.string_at(piece, room)

    def run(self, words: Sequence[str], files: Dict[str, bytes]) -> Tuple[int, bytes]:
        """The exit code, with the whole text or the line on standard error."""
        status, count, piece = self.call(words, files, 1 << 16)
        if status == TOO_LONG:
            status, count, piece = self.call(words, files, count)
        return status, piece[:count]


def main(arguments: List[str]) -> int:
    if not arguments:
        sys.exit(__doc__)
    status, answer = Device(arguments[0]).run(*in_memory(arguments[1:]))
    if status <= 1:
        sys.stdout.buffer.write(answer)
    else:
        sys.stderr.buffer.write(answer + b"\n")
    return status


if __name__ == "__main__":
    sys.exit(main(sys.argv[1:]))
