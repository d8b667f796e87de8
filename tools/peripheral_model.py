"""The ports and the timer's flag in a play, by its trace and its script, written from
docs/peripherals.md and apart from the program's own.
"""
from reference import TIMER_VECTOR

SRXD, STXD, TCTL, TCMP = 0x0074, 0x0076, 0x0160, 0x0164


def covers(access, letters, place):
    """Whether an access of these kinds has the byte at this even place among its bytes."""
    return access is not None and access.letter in letters and access.place == place


def sent_by(line):
    return line.cpu.number & 255 if line.rule == "-" and covers(line.cpu, "wc", STXD) else None


def received_by(line):
    return line.value & 255 if line.rule == "-" and covers(line.cpu, "frb", SRXD) else None


def pins_in(script, steps):
    """The pins in each step."""
    lines = [line.split() for line in script.splitlines()]
    set_to = {int(line[1]): int(line[3], 16) for line in lines if line[2:3] == [b"p1"]}
    pins, told = 0, []
    for step in range(steps):
        pins = set_to.get(step, pins)
        told.append(pins)
    return told


def entries(trace):
    """The vectors of the interrupt entries, by the step in which each begins."""
    begun, vectors = None, {}
    for step, line in enumerate(trace):
        if line.kind == "irq" and begun is None:
            begun = step
        if line.kind != "irq" or line.rule != "-":
            begun = None
        elif line.cpu.letter == "r":
            vectors[begun], begun = line.cpu.place, None
    return vectors


class Timer:
    def __init__(self):
        self.bytes = dict.fromkeys((TCTL, TCTL + 1, TCMP, TCMP + 1), 0)
        self.distance, self.flag = 0, False

    def write(self, place, size, number):
        for each in range(size):
            if place + each in self.bytes:
                self.bytes[place + each] = number >> 8 * each & 255
                self.distance, self.flag = -1, False

    def tick(self):
        self.distance += 1
        period = self.bytes[TCMP] + 256 * self.bytes[TCMP + 1] + 1
        if self.bytes[TCTL] & 1 and self.distance and self.distance % period == 0:
            self.flag = True


def timer_flags(trace):
    """The timer's flag after each line."""
    timer, vectors = Timer(), entries(trace)
    for step, line in enumerate(trace):
        if line.rule != "-":
            timer = Timer()
        else:
            if line.cpu is not None and line.cpu.letter in "wc":
                timer.write(line.cpu.place, 2 if line.cpu.letter == "w" else 1, line.cpu.number)
            if vectors.get(step) == TIMER_VECTOR:
                timer.flag = False
            timer.tick()
        yield timer.flag
