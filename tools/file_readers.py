"""The readers of the program's files for the tools, written from docs/formats.md and apart from the
program's own: those of the package in python/, and here those of a desk's files.

Each gives the value of a file, or raises Fault with the first fault's line and kind, and where it
can with its column, from 1 and in bytes, with what is wanted there, and with the line and the words
of its cause.
"""
import re
from typing import NamedTuple, Optional

import reference
from foldgneiss.image import hex_record, image_text, is_place, read_image  # noqa: F401
from foldgneiss.key import read_key  # noqa: F401
from foldgneiss.policy import Policy, is_valid, policy_text, read_policy  # noqa: F401
from foldgneiss.printed_line import (Report, SentByte, read_lines, read_report,  # noqa: F401
                                     read_reports)
from foldgneiss.script import read_event, read_script  # noqa: F401
from foldgneiss.trace_line import KINDS, Access, TraceLine, read_trace  # noqa: F401
from foldgneiss.words import Fault, Words, lines_in, lines_of, texts_of, within_limit  # noqa: F401
from reference import VERDICTS

FAULT_KINDS = sorted({kind for faults in reference.FAULTS.values() for kind in faults})
MOST = reference.MOST_COUNTER  # of a step and the number of a report too


class State(NamedTuple):
    """What a desk knows of a device."""
    count: int = 0
    outstanding: Optional[int] = None
    number: int = 0
    said: bytes = b""  # the kept answer: its verb, and its counter, fault or verdict


class Home(NamedTuple):
    """How often a device has moved from desk to desk, and which one it is gone to; None: none."""
    moves: int = 0
    gone: Optional[bytes] = None


class Entry(NamedTuple):
    """What a desk's memory has of a device under one of its keys."""
    name: bytes
    mark: bytes
    state: State
    home: Home = Home()


def read_name(words):
    """That of a device."""
    wanted = "a name of 1 to 32 letters, digits and _"
    name = words.take(wanted)
    if not re.fullmatch(rb"[0-9A-Za-z_]+", name):
        words.fault("Digit", wanted)
    return name if len(name) <= 32 else words.fault("Count", wanted)


def read_keys(text):
    """The keys by their names, in the order of the lines."""
    keys = {}
    for words in texts_of(text, reference.FILES["keys"].limit)[0]:
        words.keyword("device")
        name = read_name(words)
        key = words.bytes(64)
        words.end()
        if name in keys or key in keys.values():
            words.fault("Twice")
        keys[name] = key
    return keys


def read_answer(words):
    """What was said to the last line of a device, as it is printed."""
    verb = words.keyword("stale", "spent", "bad", "verdict", "request")
    if verb in ("bad", "verdict"):
        verb += " " + words.keyword(*(FAULT_KINDS if verb == "bad" else VERDICTS))
    elif verb == "request":
        verb += f" {words.decimal(MOST)}"
    return verb.encode()


def read_home(words):
    """The name of a line's device, and where it is at home: a line of version 1 knows no moves."""
    verb, gone = words.keyword("state", "state2", "moved"), None
    name = read_name(words)
    if verb == "moved":
        words.keyword("to")
        gone = read_name(words)
    if verb == "state":
        return name, Home()
    words.keyword("moves")
    return name, Home(words.decimal(MOST), gone)


def read_state(words):
    words.keyword("count")
    count = words.decimal(MOST)
    words.keyword("outstanding")
    outstanding = words.decimal_or_none(count)
    words.keyword("last")
    last = words.decimal_or_none(MOST)
    return State(count, outstanding, last or 0, b"" if last is None else read_answer(words))


def read_entry(words):
    name, home = read_home(words)
    words.keyword("key")
    mark = words.bytes(16)
    state = read_state(words)
    words.end()
    return Entry(name, mark, state, home)


def is_in_range(state):
    """Whether requests are left, and the last answer tells none that was not made."""
    verb, _, number = state.said.partition(b" ")
    return state.count < MOST and not (verb == b"request" and int(number) > state.count)


def falls_behind(entry, earlier):
    """Whether an entry cannot come after this one of its device."""
    return (entry.state.count < earlier.state.count or entry.state.number < earlier.state.number
            or entry.home.moves < earlier.home.moves)


def state_lines(text):
    """The entries of a text of states, each with the number of its line."""
    lines, last, names = [], {}, {}  # (the last entry of a name, and the name of a mark)
    for words in texts_of(text, reference.FILES["states"].limit)[0]:
        entry = read_entry(words)
        earlier = last.get(entry.name)
        if not is_in_range(entry.state):
            words.fault("Range")
        if (names.setdefault(entry.mark, entry.name) != entry.name
                or earlier and earlier.mark == entry.mark):
            words.fault("Twice")
        if earlier and falls_behind(entry, earlier):
            words.fault("Order")
        last[entry.name] = entry
        lines.append((words.number, entry))
    return lines


def read_states(text):
    return [entry for _, entry in state_lines(text)]


def read_desk_policy(text):
    """A policy of version 2."""
    policy = read_policy(text)
    if policy.version != 2:
        raise Fault(0, "Word")
    return policy
