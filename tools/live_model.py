"""What `live` puts of lines, by what `play`, `dump` and `wave` print of the script that they make,
written from docs/formats.md and apart from the program's own.
"""
import os
import re

import wave_model
from file_readers import Fault, Words, is_place, lines_in, read_image
from foldgneiss.script import read_event

MOST_STEPS, LONGEST_LINE, MOST_SHOWN = 1 << 48, 65536, 2048
SECRET = (range(0x4000, 0x4400), range(0x6A00, 0x6A40))
REGISTERS = [1, 2, *range(4, 16)]  # that a waveform has


class Life:
    """A device that was told lines, of which those of a script are kept."""

    def __init__(self, called, folder, image, key):
        self.called, self.image, self.key = called, image, key
        self.script_file = os.path.join(folder, "live-script")
        self.events, self.steps, self.number, self.text = [], 0, 0, b""
        self.told = b""  # of the steps

    def ran(self, command, steps=None):
        """What a command prints of the script so far."""
        with open(self.script_file, "wb") as file:
            file.write("".join(f"{event}\n" for event in self.events).encode())
        return self.called(command, self.image, self.script_file, self.key,
                           str(self.steps if steps is None else steps))

    def played(self):
        """The lines of the steps, and where the device stands."""
        if not self.steps:
            return b"", b"0 pc 0000 exec 0\n"
        text = self.ran("play")
        lines, _, end = text[:-1].rpartition(b"\n") if text.count(b"\n") > 1 else (b"", b"", text[:-1])
        return lines + b"\n" * bool(lines), end[len(b"end "):] + b"\n"

    def tell(self, line):
        """A line without its end."""
        self.number += 1
        words = Words(self.number, line)
        try:
            if len(line) > LONGEST_LINE:
                words.fault("TooLong")
            if words.is_text():
                self.text += self.answer(words)
        except Fault as fault:
            self.text += b"refused %d %s\n" % (self.number, fault.kind.encode())

    def answer(self, words):
        kind = words.keyword("at", "run", "registers", "memory")
        if kind == "at":
            event = read_event(words, MOST_STEPS - 1, 15)
            words.end()
            if event.step < max([self.steps, *(last.step for last in self.events[-1:])]):
                words.fault("Order")
            self.events.append(event)
            return b""
        if kind == "run":
            return self.run(words)
        if kind == "memory":
            return self.memory(words)
        words.end()
        return self.registers()

    def run(self, words):
        steps = words.decimal(MOST_STEPS, digits=15)
        words.end()
        if steps < self.steps:
            words.fault("Order")
        self.steps = steps
        lines, standing = self.played()
        assert lines.startswith(self.told)
        told, self.told = lines[len(self.told):], lines
        return told + b"at " + standing

    def registers(self):
        """By a waveform, which has no PC, and R3 is 0: `....` stands for what it has not."""
        if not self.steps:
            return b"registers" + b" 0000" * 16 + b"\n"
        sample = wave_model.samples(self.ran("wave", self.steps + 1))[self.steps]
        names = {1: "sp", 2: "sr"}
        told = {number: sample[names.get(number, f"r{number}")] for number in REGISTERS}
        return b"registers" + b"".join(
            b" %04x" % told[number] if number in told else b" ...." for number in range(16)) + b"\n"

    def memory(self, words):
        place, count = words.word(), words.decimal(MOST_SHOWN, 1)
        words.end()
        shown = []
        for at in range(place, min(place + count, 0x10000)):
            if any(at in secret for secret in SECRET):
                break
            shown.append(at)
        memory = self.memory_after()
        digits = "".join(f"{memory[at]:02x}" if is_place(at) else ".." for at in shown)
        return f"memory {place:04x} {digits or '-'}\n".encode()

    def memory_after(self):
        if not self.steps:
            memory = dict.fromkeys(range(0x10000), 0)
            memory.update(read_image(open(self.image, "rb").read()))
            return memory
        text = self.ran("dump")
        return read_image(text[text.index(b":"):])

    def end(self):
        return self.text + b"end " + self.played()[1]


def conversation(called, folder, image, key, text):
    """What is put of this input; a `.` stands for what no other command prints."""
    life = Life(called, folder, image, key)
    for line in lines_in(text):
        life.tell(line)
    return life.end()


def is_same(said, told):
    return re.fullmatch(re.escape(told).replace(b"\\.", b"[0-9a-f]"), said) is not None
