#!/usr/bin/env python3
"""bench/live.py SERVER PROGRAM [DEVICES]: what a device that lives takes, a line each.

SERVER is the proved program that has `live`, and PROGRAM the one that has `play`. Times are of the
processor, the least of five, but for those of DEVICES devices at once (1,000 if none are named),
each a process of its own.
"""
import os
import subprocess
import sys
import time

BENCH = os.path.dirname(os.path.realpath(__file__))
KEY = f"{BENCH}/../examples/echo/key.txt"
LOADS = (("cpu", 10_000_000, None), ("peripherals", 10_000_000, None),
         ("peripherals", 10_000_000, "events.py"), ("exec", 10_000_000, None),
         ("attestations", 5_000_000, "attestations.py"))  # image, steps, what prints the script
EXCHANGES, DAY, DEVICES = 10_000, 86_400_000_000, 1000
STEPS_EACH = 1_000_000  # of many devices at once


def image(name):
    return f"{BENCH}/{name}.hex"


class Life:
    """A device that lives in a process."""

    def __init__(self, server, name):
        self.process = subprocess.Popen([server, "live", image(name), KEY], bufsize=0,
                                        stdin=subprocess.PIPE, stdout=subprocess.PIPE)
        self.output = open(self.process.stdout.fileno(), "rb", closefd=False)

    def tell(self, line):
        self.process.stdin.write(line.encode() + b"\n")

    def goes_on(self, steps):
        self.tell(f"run {steps}")

    def is_there(self):
        """Reads up to where it stands."""
        for line in self.output:
            if line.startswith(b"at "):
                return
        sys.exit("bench/live.py: a device has ended")

    def kib(self):
        """What it has for itself, and all that it sees."""
        with open(f"/proc/{self.process.pid}/smaps_rollup", encoding="ascii") as lines:
            told = {words[0]: int(words[1]) for words in map(str.split, lines) if len(words) == 3}
        return told["Private_Clean:"] + told["Private_Dirty:"], told["Rss:"]

    def end(self):
        """The seconds of the processor that it took."""
        self.process.stdin.close()
        _, _, usage = os.wait4(self.process.pid, 0)
        return usage.ru_utime + usage.ru_stime


def printed(printer):
    return subprocess.check_output([sys.executable, f"{BENCH}/{printer}"])


def least(action, *arguments):
    return min(action(*arguments) for _ in range(5))


def played(program, name, steps, script):
    words = [program, "play", image(name), "/dev/stdin", KEY, str(steps)]
    process = subprocess.Popen(words, stdin=subprocess.PIPE, stdout=subprocess.DEVNULL)
    process.stdin.write(script)
    process.stdin.close()
    _, _, usage = os.wait4(process.pid, 0)
    return usage.ru_utime + usage.ru_stime


def lived(server, name, steps, script=b""):
    life = Life(server, name)
    life.process.stdin.write(script)
    life.goes_on(steps)
    life.is_there()
    return life.end()


def exchanged(server):
    """A line and its answer, as often as EXCHANGES says."""
    life = Life(server, "cpu")
    for number in range(1, EXCHANGES + 1):
        life.goes_on(number)
        life.is_there()
    return life.end()


def many(server, count):
    """The seconds that so many took for STEPS_EACH, and the most memory of one."""
    lives = [Life(server, "cpu") for _ in range(count)]
    for life in lives:
        life.goes_on(1)
    for life in lives:
        life.is_there()
    begin = time.monotonic()
    for life in lives:
        life.goes_on(STEPS_EACH)
    for life in lives:
        life.is_there()
    took = time.monotonic() - begin
    own, seen = map(max, zip(*(life.kib() for life in lives[:20])))
    for life in lives:
        life.end()
    return took, own, seen


def main():
    server, program = sys.argv[1:3]
    count = int(sys.argv[3]) if sys.argv[3:] else DEVICES
    for name, steps, printer in LOADS:
        script = printed(printer) if printer else b""
        lives, plays = (least(action, program_of, name, steps, script)
                        for action, program_of in ((lived, server), (played, program)))
        print(f"run of {steps:,} steps, {name}{' with events' if script else ''}: "
              f"{lives / plays:.2f} times play")
    print(f"an exchange: {least(exchanged, server) / EXCHANGES * 1e6:.1f} µs")
    print(f"a day of sleep, {DAY:,} steps: {least(lived, server, 'days', DAY):.2f} s")
    print(f"start: {least(lived, server, 'cpu', 1) * 1000:.1f} ms")
    took, own, seen = many(server, count)
    print(f"{count:,} devices at once: {STEPS_EACH / took:,.0f} steps a second each, "
          f"{own:,} KiB of its own, {seen:,} with what all share")


if __name__ == "__main__":
    main()
