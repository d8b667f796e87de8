"""What a desk replies to lines, and what becomes of its memory, apart from the program's own code.
"""
import re

import attestation_model
import verifier_model
from file_readers import (MOST, Entry, Fault, Home, State, Words, lines_in, read_report,
                          state_lines)
from reference import AS_OFTEN, ELSEWHERE, GONE, NO_DEVICE, OWN_DESK, TAKEN

LONGEST_LINE = 65536


def challenge(key, count):
    """That of a device's request with this counter."""
    return attestation_model.hmac_of(key, b"\x02" + count.to_bytes(4, "little"))


def key_mark(key):
    """What a memory has of a key."""
    return attestation_model.hmac_of(key, b"\x03")[:16]


def state_line(name, mark, state, home):
    """The line of an entry among those that `states` prints."""
    where = b"state2 %s" % name if home.gone is None else b"moved %s to %s" % (name, home.gone)
    last = b"%d %s" % (state.number, state.said) if state.said else b"none"
    outstanding = b"none" if state.outstanding is None else b"%d" % state.outstanding
    return b"%s moves %d key %s count %d outstanding %s last %s\n" % (
        where, home.moves, mark.hex().encode(), state.count, outstanding, last)


def states_text(entries):
    return b"".join(state_line(*entry) for entry in entries)


class Refusal(Exception):
    """What is wrong with a memory, as the program says it."""


def last_entry(entries, name):
    """That which tells the state of the device of a name; None where it has none."""
    return next((entry for entry in reversed(entries) if entry.name == name), None)


def owner_of(entries, mark):
    """The name that a key stands under."""
    return next((entry.name for entry in entries if entry.mark == mark), None)


def with_entry(entries, new):
    """The entries after one more, which replaces its device's last where that has its key."""
    last = last_entry(entries, new.name)
    if last is None or last.mark != new.mark:
        return (*entries, new)
    return tuple(new if entry is last else entry for entry in entries)


def check_keys(entries, keys):
    """Whether a desk may serve these devices; else why not."""
    for number, (name, key) in enumerate(keys.items(), 1):
        if owner_of(entries, key_mark(key)) not in (None, name):
            raise Refusal(TAKEN.format(number))
    for number, name in enumerate(keys, 1):
        last = last_entry(entries, name)
        if last and last.home.gone is not None:
            raise Refusal(GONE.format(number))


def moved(entries, desk, name, target):
    """What the memory of a desk has once a device has moved to another, and the lines of the move.
    """
    last = last_entry(entries, name)
    if last is None:
        raise Refusal(NO_DEVICE)
    home = last.home
    if home.gone is None:
        if target == desk:
            raise Refusal(OWN_DESK)
        if home.moves == MOST:
            raise Refusal(AS_OFTEN)
        home = Home(home.moves + 1, target)
    elif home.gone != target:
        raise Refusal(ELSEWHERE)
    entries = with_entry(entries, last._replace(home=home))
    return entries, states_text(entry._replace(home=home)
                                for entry in entries if entry.name == name)


def has_come(line, last):
    """Whether a device came by the move of this line."""
    return last is not None and last.home == Home(line.home.moves)


def adoption_fault(entries, desk, line):
    """Why the desk of a name takes no such line, None where it does."""
    last = last_entry(entries, line.name)
    if line.home.gone != desk:
        return "Place"
    if owner_of(entries, line.mark) not in (None, line.name):
        return "Twice"
    if last and not has_come(line, last) and (
            last.home.gone is None or last.home.moves >= line.home.moves):
        return "Order"
    return None


def adopted(entries, desk, text):
    """What the memory of a desk has with the devices that came; Fault is of a line, the first."""
    lines = [*state_lines(text)]
    for number, line in lines:
        if fault := adoption_fault(entries, desk, line):
            raise Fault(number, fault)
    coming = [line for _, line in lines if not has_come(line, last_entry(entries, line.name))]
    after = entries
    for place, line in enumerate(coming):
        is_last = last_entry(coming[place + 1:], line.name) is None
        if is_last or owner_of(entries, line.mark) is None:
            after = with_entry(after, line._replace(home=Home(line.home.moves)))
    return after


class Desk:
    """The states of its devices by their names, and what its memory has."""

    def __init__(self, keys, image, policy, last_count=MOST, entries=()):
        self.keys, self.image, self.policy = keys, image, policy
        self.last_count = last_count
        self.entries = self.states = None
        self.start(entries)

    def start(self, entries=()):
        """Starts it anew, with what a memory has. What is outstanding and what was answered last is
        a key's own: under another key the count goes on, and no number up to the last is new.
        """
        self.entries = tuple(entries)
        self.states = {}
        for name, key in self.keys.items():
            last = last_entry(self.entries, name) or Entry(name, key_mark(key), State())
            self.states[name] = last.state
            if last.mark != key_mark(key):
                said = last.state.said and b"stale"
                self.states[name] = last.state._replace(outstanding=None, said=said)

    def note(self, name, state):
        self.states[name] = state
        last = last_entry(self.entries, name)
        entry = Entry(name, key_mark(self.keys[name]), state, last.home if last else Home())
        self.entries = with_entry(self.entries, entry)

    def ask(self, key, state, rest):
        """The new state, and what is said."""
        if rest:
            return state, b"bad Extra"
        if state.count == self.last_count:
            return state, b"spent"
        count = state.count + 1
        return state._replace(count=count, outstanding=count), b"request %d" % count

    def give(self, key, state, rest):
        words = Words(0, b" ".join(rest))
        try:
            words.keyword("report2")
            report = read_report(words, 2)
        except Fault as fault:
            return state, b"bad " + fault.kind.encode()
        count = state.outstanding
        policy = self.policy._replace(requests=[(challenge(key, count), count)] if count else [])
        verdict = verifier_model.verdict(self.image, policy, key, 0, report)
        if verdict == "accept":
            state = state._replace(outstanding=None)
        return state, b"verdict " + verdict.encode()

    def answer(self, verb, name, number, rest):
        state = self.states[name]
        if number < state.number:
            said = b"stale"
        elif number == state.number:
            said = state.said
        else:
            answer = self.ask if verb == b"ask" else self.give
            state, said = answer(self.keys[name], state, rest)
            self.note(name, state._replace(number=number, said=said))
        verb, *rest = said.split(b" ")
        if verb == b"request":
            key, count = self.keys[name], int(rest[0])
            rest = attestation_model.request_line(key, challenge(key, count), count).split()[1:]
        return b" ".join((verb, name, b"%d" % number, *rest)) + b"\n"

    def reply(self, line):
        """The reply to a line without its end; none where it has no words."""
        if len(line) > LONGEST_LINE:
            return b"too-long\n"
        words = re.findall(rb"[^ \t]+", line)
        if not words:
            return b""
        if len(words) > 2 and words[0] in (b"ask", b"give") and words[1] in self.keys:
            number = int(words[2]) if re.fullmatch(rb"[0-9]{1,10}", words[2]) else 0
            if 1 <= number <= MOST:
                return self.answer(words[0], words[1], number, words[3:])
        return b"refused\n"

    def replies(self, text):
        return b"".join(map(self.reply, lines_in(text)))
