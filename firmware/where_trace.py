"""Goes through the text of a trace: what was done at each step, which function called which, and
where the stack was.
"""
import re
import sys
import time
from collections import namedtuple

from memory_map import ROM_ENTRY
from where_elf import Function, Place, fail

# What consecutive lines of a trace did together: an instruction, an entry of an interrupt, a call
# of the attestation ROM, a sleep, or a boot. `access` and `rest` are of its last line, the latter
# from the word D on; `proposed` is the access of its first, and `rule` what one of its steps broke.
Unit = namedtuple("Unit", "kind step pc word steps proposed access rest rule")
CHUNK = 1 << 18
# The form of a line where each hexadecimal digit is a 0, in a kind and an access too.
DIGITS = bytes.maketrans(b"123456789abcdef", b"0" * 15)
FORM = re.compile(rb"(?:t 0+ (?:0oot|0pu|i0l0|irq|rom) 0000"
                  rb"(?: (?:-|[0r]0000|w0000=0000|00000=00)){2} 0 0(?: 0000){7} 0 (?:-|[AIKX]0))?"
                  rb"\r?")
ENTRY_STEPS = 3  # of an interrupt
ROM_PC = b"%04x" % ROM_ENTRY
# What an instruction does to the stack.
CALL, PUSH, RETURN, END_OF_HANDLER, POP, SET = range(1, 7)
MOV, ADD, SUB = 4, 5, 8
READS_ALONE = (9, 11)  # CMP, BIT
CONSTANTS = {(2, 2): 4, (2, 3): 8, (3, 0): 0, (3, 1): 1, (3, 2): 2, (3, 3): 0xFFFF}


def check(lines, forms):
    """Ends where one of these is no line of a trace. The few forms that lines have are kept, so
    that each is looked at once.
    """
    new = {*b"".join(lines).translate(DIGITS).split(b"\n")} - forms
    if not all(map(FORM.fullmatch, new)):
        wrong = next(line for line in lines
                     if not FORM.fullmatch(line.rstrip(b"\n").translate(DIGITS)))
        refuse(wrong)
    forms |= new


def refuse(line):
    fail(f"no line of a trace: {line[:60]!r}")


def chunks(file):
    """Lists of lines, with the progress on standard error where that is a terminal, and standard
    output is none.
    """
    shows, steps, then = sys.stderr.isatty() and not sys.stdout.isatty(), 0, time.monotonic()
    forms = set()
    for lines in iter(lambda: file.readlines(CHUNK), []):
        check(lines, forms)
        yield lines
        steps += len(lines)
        if shows and time.monotonic() - then > 0.2:
            then = time.monotonic()
            print(f"\rwhere: {steps:,} steps", end="", file=sys.stderr, flush=True)
    if shows and steps:
        print("\r\033[K", end="", file=sys.stderr, flush=True)


def word_of(rest):
    """W of a line from D on."""
    return rest[6:10] if rest[:1] == b"-" else rest.split(b" ", 4)[3]


def value_of(rest):
    """V of a line from D on."""
    return int(rest.split(b" ", 5)[4], 16)


def place_in(access):
    return int(access[1:5], 16)


def units(file):
    """The units of a trace, in order."""
    first = last = rule = None
    steps = 0
    kind, pc = b"", b""
    for lines in chunks(file):
        for line in lines:
            try:
                _, step, now, here, access, rest = line.split(b" ", 5)
            except ValueError:  # (it is empty)
                continue
            if now == b"cpu":
                starts = access[1:] == here and access[:1] == b"f" or kind != now
            elif now in (b"idle", b"irq"):
                starts = kind != now
            elif now in (b"rom", b"boot"):
                starts = now != b"rom" or here == ROM_PC or kind != now
            else:
                refuse(line)
            if starts:
                if steps:
                    yield Unit(kind, first, pc, word, steps, proposed, last, tail, rule)
                kind, first, pc, word, proposed = now, step, here, word_of(rest), access
                steps, rule = 0, None
            steps += 1
            last, tail = access, rest
            if rest[-2:] != b"-\n":
                rule = rest.split()[-1]
                rule = None if rule == b"-" else rule
    if steps:
        yield Unit(kind, first, pc, word, steps, proposed, last, tail, rule)


def action_of(word):
    """What an instruction does to the stack, with what of it is needed: how its word is read is
    said in docs/instructions.md.
    """
    word = int(word, 16)
    source, mode, target = word >> 8 & 15, word >> 4 & 3, word & 15
    if word >> 10 == 4:
        operation = word >> 7 & 7
        if word == 0x1300:
            return END_OF_HANDLER, None
        if operation in (4, 5):
            return (PUSH if operation == 4 else CALL), None
        if target == 1 and mode == 0:
            return SET, (None, None)
        return (POP, True) if (target, mode) == (1, 3) else None
    operation, in_register, pops = word >> 12, not word & 0x80, (source, mode) == (1, 3)
    if operation < 4:
        return None
    if in_register and target == 0 and pops and operation == MOV:
        return RETURN, None
    if in_register and target == 1 and operation not in READS_ALONE:
        if mode == 0 and source != 3 or word & 0x40:
            return SET, (None, None)
        return SET, (operation, CONSTANTS.get((source, mode)))
    return (POP, in_register) if pops else None


class Stack:
    """A stack: where it begins, and its lowest SP, with the place that made it so."""

    def __init__(self, top):
        self.top = self.lowest = top
        self.place = None


class Frame:
    """A function that runs, with what had been counted when it was entered. `slot` is where its
    return address lies, and no number where it was entered without a call.
    """
    __slots__ = ("function", "site", "slot", "handles", "counts", "stack", "base", "own", "lowest")

    def __init__(self, function, site, slot, handles, counts, stack, base):
        self.function, self.site, self.slot, self.handles = function, site, slot, handles
        self.counts, self.stack, self.base = counts, stack, base
        self.own = self.lowest = base if slot is None else slot


class Walk:
    """A walk through traces: costs by place, calls by caller and callee, and stacks."""

    def __init__(self, firmware):
        self.firmware = firmware
        self.rom = Place(ROM_ENTRY, b"", "", Function("(attestation ROM)"))
        self.boot = Place(0, b"", "", Function("(boot)"))
        self.places = dict(firmware.places)
        for place in self.places.values():
            place.action = action_of(place.word)
        self.others = {}  # places beside those of the ELF, by address and word
        self.calls = {}  # number and costs, by the place of a call and what was called
        self.used = {}  # own bytes, all bytes and lowest SP, by function
        self.stacks = {}
        self.unknown = {}  # instructions before which SP was not known, by function
        self.begin()

    def begin(self):
        """Nothing runs yet."""
        self.frames, self.slots, self.handlers = [], {}, 0
        self.function = self.last = self.sp = self.stack = None
        self.total = [0, 0, 0]  # steps and instructions, and steps asleep

    def place_at(self, pc, word):
        """Where the ELF has no such instruction."""
        place = self.others.get((pc, word))
        if place is None:
            place = self.firmware.place_of(int(pc, 16), word, f".word 0x{word.decode()}")
            place.action = action_of(word)
            self.others[pc, word] = place
        return place

    def all_places(self):
        return [*self.places.values(), *self.others.values(), self.rom, self.boot]

    def go(self, file):
        """Each unit of a trace with its place, before what it does to the stack. The last may not
        be whole, and does nothing to it.
        """
        self.begin()
        places, total, acts = self.places, self.total, None
        for unit in units(file):
            kind, _, pc, word, steps, _, _, _, rule = unit
            if acts is not None:
                self.act(acts, before)
                acts = None
            if kind == b"cpu":
                place = places.get(pc)
                if place is None or place.word != word:
                    place = self.place_at(pc, word)
                if place.function is not self.function:
                    self.jump(place)
                place.steps += steps
                total[0] += steps
                if rule is None:
                    place.count += 1
                    total[1] += 1
                if self.sp is None:
                    self.unknown[place.function] = self.unknown.get(place.function, 0) + 1
                if place.action and rule is None:
                    acts, before = place, unit
                self.last = place
                yield unit, place
            else:
                yield unit, self.other(unit)
        self.leave(0)
        self.begin()

    def other(self, unit):
        """What is no instruction: its place."""
        kind, total = unit.kind, self.total
        if kind == b"boot":
            place = self.boot
            self.leave(0)
            self.sp, self.stack, self.last = 0, None, place
            self.enter(place.function, None, None)
        elif kind == b"rom":
            place = self.rom
            self.jump(place)
        else:
            place = self.places.get(unit.pc) or self.place_at(unit.pc, b"0000")
        if kind == b"idle":
            place.idle += unit.steps
            total[2] += unit.steps
            return place
        if kind == b"irq" and unit.rule is None and unit.steps == ENTRY_STEPS:
            place = self.interrupt(place, unit)
        place.steps += unit.steps
        total[0] += unit.steps
        if kind == b"rom" and unit.access[:1] == b"r" and place_in(unit.access) in self.slots:
            self.come_back(place_in(unit.access))
        if kind == b"boot":
            self.enter(None, place, None)
        return place

    def interrupt(self, place, unit):
        """An entry: a call of the handler at the place that it interrupts."""
        if self.function is None and self.frames:
            self.jump(place)
        slot, handler = place_in(unit.proposed), b"%04x" % (value_of(unit.rest) & 0xFFFE)
        target = self.places.get(handler) or self.place_at(handler, b"0000")
        self.enter(target.function, place, slot, True)
        self.move(slot - 2, target)
        self.last = target
        return target

    def act(self, place, unit):
        """What an instruction does to the stack."""
        action, detail = place.action
        if action == CALL:
            slot = place_in(unit.access)
            self.enter(None, place, slot)
            self.move(slot, place)
        elif action == PUSH:
            self.move(place_in(unit.access), place)
        elif action in (RETURN, END_OF_HANDLER):
            self.come_back(place_in(unit.access))
        elif action == POP and detail:
            self.sp = place_in(unit.access) + 2 & 0xFFFF
        elif action == POP:
            self.sp = None if self.sp is None else self.sp + 2 & 0xFFFF
        else:
            self.set_sp(place, detail, unit)

    def set_sp(self, place, detail, unit):
        """An operation with SP as its destination. (A register's value is not in a trace.)"""
        operation, constant = detail
        value = value_of(unit.rest) if constant is None and operation else constant
        if operation == MOV:
            self.sp = value & 0xFFFE
            self.stack = self.stack_of(self.sp, place.word == b"4031")
            frame = self.frames[-1] if self.frames else None
            if frame and frame.stack is None:
                frame.stack, frame.base, frame.own, frame.lowest = self.stack, *[self.sp] * 3
        elif operation in (ADD, SUB) and self.sp is not None:
            self.move(self.sp + (value if operation == ADD else -value) & 0xFFFE, place)
        else:
            self.sp = None

    def stack_of(self, sp, begins):
        """The stack in which an SP is. One begins where SP is set to a number of the program, and
        where it is set into the data and no stack was known there; else it is the next above.
        """
        tops = [top for top in self.stacks if top >= sp]
        top = min(tops, default=None)
        if top is None or begins or sp < self.firmware.end_of_data_below(top)[0]:
            top = sp
        return self.stacks.setdefault(top, Stack(top))

    def move(self, sp, place):
        """SP is this now, by this place."""
        if self.sp is None or self.stack is None:
            self.stack = self.stack_of(sp + 2, False)
        self.sp, stack = sp, self.stack
        if sp < stack.lowest:
            stack.lowest, stack.place = sp, place
        frame = self.frames[-1] if self.frames else None
        if frame and frame.stack is stack and sp < frame.own:
            frame.own = sp
            frame.lowest = min(frame.lowest, sp)

    def jump(self, place):
        """The function at this place runs now, and another one did before: it was called, or jumped
        to, which goes back to a function that was left by a jump or begins another.
        """
        function, frames = place.function, self.frames
        if frames and frames[-1].function is None:
            frames[-1].function = function
            function.entries += 1
        else:
            depth = len(frames)
            while depth and frames[depth - 1].slot is None:
                depth -= 1
            again = [at for at in range(max(depth - 1, 0), len(frames))
                     if frames[at].function is function]
            if again:
                self.leave(again[-1] + 1)
            else:
                self.enter(function, self.last, None)
        self.function = function

    def enter(self, function, site, slot, handles=False):
        """A function begins, the next one that runs where none is given."""
        if slot in self.slots:  # whoever had this return address has been left for good
            self.leave(self.slots[slot])
        if slot is not None:
            self.slots[slot] = len(self.frames)
        base = self.sp if slot is None else slot + 2
        if slot is not None and (self.stack is None or self.sp is None):
            self.stack = self.stack_of(base, False)
        stack = None if base is None else self.stack
        self.frames.append(Frame(function, site, slot, handles, (*self.total,), stack, base))
        self.handlers += handles
        self.function = function
        if function:
            function.entries += 1

    def come_back(self, slot):
        """A return over the address in this slot."""
        if slot in self.slots:
            self.leave(self.slots[slot])
        self.sp = slot + 2 & 0xFFFF

    def leave(self, depth):
        """The frames from this depth on end."""
        frames = self.frames
        while len(frames) > depth:
            frame = frames.pop()
            if frame.slot is not None:
                del self.slots[frame.slot]
            self.handlers -= frame.handles
            self.account(frame)
            if frames and frame.stack and frames[-1].stack is frame.stack:
                frames[-1].lowest = min(frames[-1].lowest, frame.lowest)
        self.function = frames[-1].function if frames else None

    def account(self, frame):
        """Costs and stack of a frame that ends."""
        if frame.function is None:
            return
        if frame.site is not None:
            call = self.calls.setdefault((frame.site, frame.function), [0, 0, 0, 0])
            call[0] += 1
            for at, (now, then) in enumerate(zip(self.total, frame.counts), 1):
                call[at] += now - then
        if frame.stack is not None:
            used = self.used.setdefault(frame.function, [0, 0, 0xFFFF])
            used[0] = max(used[0], frame.base - frame.own)
            used[1] = max(used[1], frame.base - frame.lowest)
            used[2] = min(used[2], frame.lowest)
