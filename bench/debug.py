#!/usr/bin/env python3
"""bench/debug.py SERVER PROGRAM: what a debugger takes, a line for each load and question.

SERVER is the proved program that has `debug`, and PROGRAM the one that has `play`. Times are of the
processor: `continue` over all 10,000,000 steps beside `play`, the least of five rounds, each with
both, as the machine's speed changes; a step back and a `reverse-continue` to the breakpoint before,
at places near and far, once the device has gone back.
"""
import os
import subprocess
import sys

BENCH = os.path.dirname(os.path.realpath(__file__))
KEY = f"{BENCH}/../examples/echo/key.txt"
# image, what prints the script, and an address in its innermost loop
LOADS = (("cpu", None, 0xC010), ("peripherals", None, 0xC034), ("peripherals", "events.py", 0xC034),
         ("exec", None, 0xC108), ("attestations", "attestations.py", 0xC026),
         ("nested", None, 0xC024))
STEPS = 10_000_000
PLACES = 100_000, 3_456_789, 9_999_000
# A breakpoint and a watch that are never met: of a place in no image, and of a word of RAM.
NEVER = "Z0,fe00,2", "Z2,2100,2"
STOPS = (), NEVER[:1], NEVER[1:], NEVER


class Debugger:
    """A debugger of a load, and what it takes of the processor."""

    def __init__(self, server, name, script):
        self.script = os.memfd_create("script")
        os.write(self.script, script)
        words = [server, "debug", f"{BENCH}/{name}.hex", f"/proc/self/fd/{self.script}", KEY]
        self.process = subprocess.Popen(words, stdin=subprocess.PIPE, stdout=subprocess.PIPE,
                                        pass_fds=[self.script])
        self.taken()

    def seconds(self):
        with open(f"/proc/{self.process.pid}/schedstat", encoding="ascii") as numbers:
            return int(numbers.read().split()[0]) / 1e9

    def taken(self, *bodies):
        """The seconds that the answers to these packets took."""
        self.answer("?")
        begin = self.seconds()
        for body in bodies:
            self.answer(body)
        return self.seconds() - begin

    def answer(self, body):
        """The last packet of an answer."""
        self.process.stdin.write(b"$%s#%02x" % (body.encode(), sum(body.encode()) % 256))
        self.process.stdin.flush()
        while True:
            text = self.packet()
            if text[:1] != b"O" or text == b"OK":
                return text.decode()

    def packet(self):
        text, output = b"", self.process.stdout
        while output.read(1) != b"$":
            pass
        while (byte := output.read(1)) != b"#":
            text += byte
        output.read(2)
        return text

    def kib(self):
        """The most memory that it had."""
        with open(f"/proc/{self.process.pid}/status", encoding="ascii") as lines:
            return next(int(line.split()[1]) for line in lines if line.startswith("VmHWM"))

    def end(self):
        self.process.stdin.close()
        self.process.wait()
        os.close(self.script)


def monitor(text):
    return f"qRcmd,{text.encode().hex()}"


def printed(printer):
    return subprocess.check_output([sys.executable, f"{BENCH}/{printer}"]) if printer else b""


def played(program, name, script):
    words = [program, "play", f"{BENCH}/{name}.hex", "/dev/stdin", KEY, str(STEPS)]
    process = subprocess.Popen(words, stdin=subprocess.PIPE, stdout=subprocess.DEVNULL)
    process.stdin.write(script)
    process.stdin.close()
    _, _, usage = os.wait4(process.pid, 0)
    return usage.ru_utime + usage.ru_stime


def continued(server, name, script, *stops):
    debugger = Debugger(server, name, script)
    for stop in stops:
        debugger.answer(stop)
    took = debugger.taken("c")
    debugger.end()
    return took


def ratios(server, program, name, script):
    """How much longer `continue` takes than `play`, with each of the stops."""
    rounds = [[played(program, name, script),
               *(continued(server, name, script, *stops) for stops in STOPS)] for _ in range(5)]
    plays, *goings = map(min, zip(*rounds))
    return [going / plays for going in goings]


def gone_back(server, name, script, loop):
    """The longest of each way back, with the first one left out, and the most memory."""
    debugger = Debugger(server, name, script)
    debugger.answer("c")
    debugger.answer("bs")
    longest = {}
    for place in PLACES + PLACES[:1]:
        debugger.answer(monitor(f"until {place}"))
        debugger.answer("bc")
        debugger.answer("c")
        debugger.answer(monitor("until 0"))
        for way in "bs", "bs", "bs", "bc":
            if way == "bc":
                debugger.answer(f"Z0,{loop:x},2")
            longest[way] = max(longest.get(way, 0), debugger.taken(way))
            debugger.answer(f"z0,{loop:x},2")
    kib = debugger.kib()
    debugger.end()
    return longest, kib


def main():
    server, program = sys.argv[1:3]
    for name, printer, loop in LOADS:
        script = printed(printer)
        told = f"{name}{' with events' if script else ''}"
        times = ", ".join(f"{ratio:.2f}" for ratio in ratios(server, program, name, script))
        print(f"continue, {told}: {times} times play, with nothing, a breakpoint, a watch and both",
              flush=True)
        longest, kib = gone_back(server, name, script, loop)
        print(f"back, {told}: {longest['bs'] * 1000:.0f} ms a step, {longest['bc'] * 1000:.0f} ms "
              f"to a breakpoint, {kib:,} KiB", flush=True)


if __name__ == "__main__":
    main()
