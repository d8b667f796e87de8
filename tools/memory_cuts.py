"""Power cuts, from the system calls of a run that strace recorded.

After a cut a file has all that was synced. Of each later write or change of its length nothing, a
part or all is there, or any bytes in its place. A name that was made or removed since its folder
was synced is there or not.
"""
import os
import re

from trial import random_bytes

FOLDER = "folder"
SYNCS = ("fdatasync", "fsync")
REMOVALS = ("unlink", "unlinkat")
# Those that are understood, and those that may not touch a memory.
CALLS = ("open", "openat", "close", "pwrite64", "write", "ftruncate", "fcntl", *SYNCS, *REMOVALS)
OTHER_CALLS = ("rename", "renameat", "renameat2", "link", "linkat", "truncate", "fallocate",
               "pwritev", "pwritev2", "writev", "copy_file_range", "sendfile", "dup", "dup2",
               "dup3", "creat")
LINE = re.compile(r"(?:\d+ +)?(\w+)\((.*)\) += (-?\d+)")


def recorded(name):
    """The words before a command, whose calls stand then in the file of this name."""
    return ["strace", "-f", "-qq", "-o", name, "-xx", "-s", "10000000", "-e",
            f"trace={','.join(CALLS + OTHER_CALLS)}"]


def quoted(text):
    """The bytes of the strings in the arguments of a call."""
    return [bytes.fromhex(found.replace("\\x", "")) for found in re.findall(r'"([^"]*)"', text)]


def with_bytes(data, at, new):
    return data[:at].ljust(at, b"\0") + new + data[at + len(new):]


def with_length(data, length):
    return data[:length].ljust(length, b"\0")


class Calls:
    """What a run did with a memory: pairs of a part of it, or the folder, and what was done: bytes
    written at a place, a length, a sync, a name made or removed; and of no part how many lines it
    printed.
    """

    def __init__(self, name, path, parts, start):
        path = os.path.realpath(path)
        self.names = {(path + part).encode(): part for part in parts}
        self.names[os.path.dirname(path).encode()] = FOLDER
        self.files, self.events = {}, []
        self.named = {part for part in parts if start[part] is not None}
        with open(name) as lines:
            for line in lines:
                self.take(line)

    def take(self, line):
        match = LINE.match(line)
        if not match or int(match[3]) < 0:
            return
        call, text, result = match[1], match[2], int(match[3])
        first = text.split(",", 1)[0]
        part = self.files.get(int(first)) if first.isdigit() else None
        names = [self.names[each] for each in quoted(text) if each in self.names]
        if call in ("open", "openat"):
            self.open(names, text, result)
        elif call == "close":
            self.files.pop(int(first), None)
        elif call == "fcntl" and "F_DUPFD" in text:
            self.files[result] = part
        elif call in REMOVALS and names:
            self.add(names[0], "removed")
            self.named.discard(names[0])
        elif call == "write" and first == "1":
            self.add(None, quoted(text)[0].count(b"\n"))
        elif part is not None:
            self.change(part, call, text, result)
        elif call in OTHER_CALLS and names:
            raise SystemExit(f"a power cut: the call {call} is not understood")

    def add(self, part, what):
        self.events.append((part, what))

    def open(self, names, text, number):
        self.files[number] = names[0] if names else None
        if names and "O_CREAT" in text and names[0] not in self.named:
            self.named.add(names[0])
            self.add(names[0], "made")
        if names and "O_TRUNC" in text:
            self.add(names[0], 0)

    def change(self, part, call, text, result):
        """What a call did with an open file."""
        if call == "pwrite64":
            self.add(part, (int(text.rsplit(", ", 1)[1]), quoted(text)[0][:result]))
        elif call == "ftruncate":
            self.add(part, int(text.split(", ")[1]))
        elif call in SYNCS:
            self.add(part, "synced")
        elif call != "fcntl":
            raise SystemExit(f"a power cut: the call {call} is not understood")


def done(data, change):
    """The bytes of a file after a write, or of another length."""
    if isinstance(change, int):
        return with_length(data, change)
    return with_bytes(data, *change)


def half_done(rng, data, change):
    """The same where the power was cut before a sync."""
    if isinstance(change, int) or rng.random() < 0.4:
        return done(data, change) if rng.random() < 0.5 else data
    at, new = change
    if rng.random() < 0.4:
        return with_bytes(data, at, new[:rng.randrange(len(new) + 1)])
    old = with_length(data, max(len(data), at + len(new)))[at:at + len(new)]
    choices = (new, new, old, random_bytes(rng, len(new)))
    return with_bytes(data, at, bytes(rng.choice(choices)[place] for place in range(len(new))))


def torn(rng, calls, start):
    """What a cut at a random moment leaves, and how many lines were printed before it."""
    files = {part: data or b"" for part, data in start.items()}
    named = {part: data is not None for part, data in start.items()}
    waiting, renamed, printed = {part: [] for part in files}, {}, 0
    for part, what in calls.events[:rng.randrange(len(calls.events) + 1)]:
        if part is None:
            printed += what
        elif part == FOLDER:
            named.update(renamed)
            renamed = {}
        elif what in ("made", "removed"):
            renamed[part] = what == "made"
        elif what == "synced":
            for change in waiting[part]:
                files[part] = done(files[part], change)
            waiting[part] = []
        else:
            waiting[part].append(what)
    for part, is_named in renamed.items():
        named[part] = is_named if rng.random() < 0.5 else named[part]
    for part, changes in waiting.items():
        for change in changes:
            files[part] = half_done(rng, files[part], change)
    return {part: data if named[part] else None for part, data in files.items()}, printed
