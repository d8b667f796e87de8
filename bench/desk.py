#!/usr/bin/env python3
"""bench/desk.py DESK: how fast a desk with a memory serves, and how fast it starts, a line each.

The memory lies in a folder for temporary files (TMPDIR says where): the first line is as fast as
its disk keeps what it is given. Each number is the best of three.
"""
import os
import subprocess
import sys
import tempfile
import time
from string import ascii_letters

EXAMPLES = os.path.join(os.path.dirname(os.path.dirname(os.path.realpath(__file__))), "examples")
NAMES = [first + last for last in ("", *ascii_letters) for first in ascii_letters][:1886]
WAITS = 1000  # lines of a client that waits
REQUESTS = 100_000


class Desk:
    """One that serves all devices over a memory, from its start to its end."""

    def __init__(self, program, folder, memory):
        words = [program, "desk", f"{folder}/keys", f"{EXAMPLES}/round/image.hex",
                 f"{EXAMPLES}/desk/policy.txt", f"{folder}/{memory}"]
        self.process = subprocess.Popen(words, stdin=subprocess.PIPE, stdout=subprocess.PIPE)

    def answers(self, lines):
        """Gives it lines in one piece, and waits for the reply to each."""
        self.process.stdin.write("".join(lines).encode())
        self.process.stdin.flush()
        for _ in lines:
            if not self.process.stdout.readline():
                sys.exit("bench/desk.py: a line has no reply")

    def end(self):
        self.process.communicate()


def found(program, folder, memory):
    subprocess.run([program, "found", f"{folder}/{memory}", "bench"], check=True)


def asks(number, names):
    return [f"ask {name} {number}\n" for name in names]


def seconds(action):
    begin = time.monotonic()
    action()
    return time.monotonic() - begin


def start_of(program, folder, memory):
    """The seconds from the start of a desk to its first reply."""
    def run():
        nonlocal desk
        desk = Desk(program, folder, memory)
        desk.answers(["x\n"])
    desk = None
    took = seconds(run)
    desk.end()
    return took


def served(program, folder, memory):
    """A new desk's seconds for lines that wait for each other, and for a thousand at once."""
    found(program, folder, memory)
    desk = Desk(program, folder, memory)
    desk.answers(["x\n"])
    waited = seconds(lambda: [desk.answers(asks(number, NAMES[:1]))
                              for number in range(1, WAITS + 1)])
    at_once = seconds(lambda: desk.answers(asks(WAITS + 1, NAMES[:1000])))
    desk.end()
    return waited, at_once


def main(program):
    with tempfile.TemporaryDirectory(prefix="bench-desk-") as folder:
        with open(f"{folder}/keys", "w") as keys:
            keys.writelines(f"device {name} {number:0128d}\n" for number, name in enumerate(NAMES))
        rows = [served(program, folder, f"memory-{run}") for run in range(3)]
        waited, at_once = map(min, zip(*rows))
        print(f"desk with a memory: {WAITS / waited:.0f} lines a second of a client that waits")
        print(f"                    {at_once:.3f} s for 1,000 requests in one piece")
        found(program, folder, "new")
        first = min(start_of(program, folder, "new") for _ in range(3))
        desk = Desk(program, folder, "memory-0")
        for number in range(WAITS + 2, WAITS + 2 + REQUESTS // len(NAMES) + 1):
            desk.answers(asks(number, NAMES))
        desk.end()
        later = min(start_of(program, folder, "memory-0") for _ in range(3))
        print(f"                    {first:.3f} s to start with 1,886 devices, {later:.3f} s after "
              f"{REQUESTS:,} requests")


if __name__ == "__main__":
    main(sys.argv[1])
