"""The ways by which an operator loses or repeats something of a desk's memory: each ends in a
refusal with its message, or in the right answer.
"""
import os
import shutil

import desk_model
from file_readers import policy_text
from memory_log import frames, has_pages, is_of_another
from memory_trial import (PARTS, contents, is_untouched, lost_endings, none_ending, put,
                          with_file)
from memory_world import report_on
from reference import (ABSENT, DAMAGED, ELSEWHERE, FOUNDED, GONE, OTHER_LOG, TAKEN, ending,
                       fault_ending)
from sample_files import Example, write

MOST_CALLS = 60  # of a kind, that a call makes


class Place:
    """A folder with desks over the image of the example `round`, and devices by their keys."""

    def __init__(self, trial, folder):
        example = Example("round")
        self.trial, self.folder, self.files = trial, folder, example
        self.image, self.policy = example.value("image"), example.value("policy")._replace(
            version=2, flag="exec", requests=[])
        self.keys = {name: bytes([at]) * 64 for at, name in enumerate((b"a", b"b"), 1)}
        self.other_key = b"\x09" * 64
        self.memory = self.path("north")

    def path(self, name):
        return f"{self.folder}/{name}"

    def desk_words(self, memory, keys=None):
        lines = b"".join(b"device %s %s\n" % (name, key.hex().encode())
                         for name, key in (self.keys if keys is None else keys).items())
        return ("desk", write(self.path("keys"), lines), self.files.file("image"),
                write(self.path("policy"), policy_text(self.policy)), memory)

    def text(self, name, text):
        return write(self.path(name), text)

    def report(self, count, key):
        return report_on(key, self.image, self.policy.bounds, count)

    def found(self, memory, name="north"):
        self.trial.prints(b"", "found", memory, name)
        return ()

    def serve(self, memory, entries, lines, keys=None):
        """A desk over lines, as the model has it; what the memory has then."""
        keys = self.keys if keys is None else keys
        model = desk_model.Desk(keys, self.image, self.policy, entries=entries)
        self.trial.prints(model.replies(lines), *self.desk_words(memory, keys), input=lines)
        self.tells(memory, model.entries)
        return model.entries

    def tells(self, memory, entries):
        self.trial.prints(desk_model.states_text(entries), "states", memory)

    def told(self, memory):
        """What a memory has, None where it is none."""
        answer = self.trial.call("states", memory)
        return answer.output if answer.status == 0 else None

    def refuses(self, line, *words, status=16, memory=None, **options):
        """A call that ends so, and leaves what the memory has, or the files where it is none."""
        memory = memory or self.memory
        before, told = contents(memory), self.told(memory)
        self.trial.expect(status, line, *words, **options)
        if told is None and not is_untouched(before, contents(memory)) or told != self.told(memory):
            self.trial.fault(f"{words}: refused, and the memory is another")

    def faults(self, fault, *words, **options):
        status, line = fault_ending("states", fault)
        self.refuses(line, *words, status=status, **options)

    def each_call(self, memory, keys=None):
        """A call of each command that opens a memory."""
        return (self.desk_words(memory, keys), ("states", memory),
                ("move", memory, "a", "south"), ("adopt", self.text("none-moved", b""), memory))

    def each_making(self, memory):
        return (("found", memory, "north"),
                ("remember", self.text("none-states", b""), memory, "north"))

    def stands_beside(self, memory, file, log, entries, what):
        """Whether each command refuses a memory with this log, and writes nothing; else it has
        these entries.
        """
        put(memory, {"": file, "-wal": log})
        if not is_of_another(file, log):
            self.tells(memory, entries)
            return False
        for words in (*self.each_call(memory), *self.each_making(memory)):
            answer = self.trial.call(*words, input=b"ask a 1\n")
            if answer.ending != (16, OTHER_LOG) or contents(memory) != {"": file, "-wal": log}:
                self.trial.fault(f"{words} over {what}: {answer}")
                put(memory, {"": file, "-wal": log})
        return True

    def killed_in(self, call, number, *words, lines=b""):
        """Whether a call was killed in this one of its system calls."""
        answer = self.trial.call(self.trial.desk, *words, input=lines, command=[
            "strace", "-f", "-qq", "-o", "/dev/null", "-e", f"trace={call}", "-e",
            f"inject={call}:signal=KILL:when={number}"])
        return answer.status in (-9, 137)


def left_logs(place, memory, entries, lines):
    """What a desk may leave beside its memory where it is killed: logs with pages, one with the
    same pages. The memory is as it was then.
    """
    before, logs = contents(memory), {}
    for call in ("pwrite64", "fdatasync", "unlink"):
        for number in range(1, MOST_CALLS):
            put(memory, before)
            if not place.killed_in(call, number, *place.desk_words(memory), lines=lines):
                break
            log = contents(memory)["-wal"]
            logs.setdefault(tuple(frames(log or b"")), (log, f"a log of {call} {number}"))
    put(memory, before)
    place.tells(memory, entries)
    return dict(log for pages, log in logs.items() if pages)


def log_of_another_time(place):
    """A log that was left is not read over a later memory, nor over one that was made elsewhere."""
    entries = place.serve(place.memory, place.found(place.memory), b"ask a 1\n")
    logs = left_logs(place, place.memory, entries, b"ask a 2\nask b 1\n")
    if not logs:
        place.trial.fault("no kill leaves a log with a page")
    entries = place.serve(place.memory, entries, b"ask a 2\ngive a 3 " + place.report(
        2, place.keys[b"a"]) + b"ask a 4\n")
    place.trial.prints(b"", "remember", place.text("states", desk_model.states_text(entries)),
                       place.path("new"), "north")
    for made in (place.memory, place.path("new")):
        now = contents(made)
        refused = [place.stands_beside(made, now[""], log, entries, logs[log]) for log in logs]
        if not any(refused):
            place.trial.fault("no log of another time is refused")
        put(made, now)


def lost_memory(place):
    """Where a memory is gone, or empty, or of one byte, no desk begins anew."""
    entries = place.serve(place.memory, place.found(place.memory), b"ask a 1\n")
    logs = left_logs(place, place.memory, entries, b"ask a 2\n")
    now = contents(place.memory)
    for log in (None, b"", b"kept\n", *logs):
        for file in (None, b"", b"x", b"xy", now[""][:99]):
            put(place.memory, {"": file, "-wal": log})
            wanted, making = lost_endings(file, log)
            for words in place.each_call(place.memory):
                place.refuses(wanted[1], *words, input=b"ask a 1\n")
            for words in place.each_making(place.memory) if making[0] else ():
                place.trial.expect(*making, *words)
                if not is_untouched({"": file, "-wal": log},
                                    with_file(contents(place.memory), file)):
                    place.trial.fault(f"{words}: {file} beside a log is written")
    put(place.memory, now)
    place.tells(place.memory, entries)


def cut_off_making(place):
    """A memory whose making was cut off is none; then it can be made. What the making left beside
    it is no other memory's.
    """
    entries = place.serve(place.memory, place.found(place.memory), b"ask a 1\nask b 1\n")
    states = place.text("states", desk_model.states_text(entries))
    made, cut, logs = place.path("cut"), 0, {}
    for words, kept in ((("found", made, "north"), ()),
                        (("remember", states, made, "north"), entries)):
        for call in ("pwrite64", "fdatasync", "ftruncate", "fsync"):
            for number in range(1, MOST_CALLS):
                put(made, dict.fromkeys(PARTS))
                if not place.killed_in(call, number, *words):
                    break
                log, what = contents(made)["-wal"], f"{words} cut off in {call} {number}"
                if has_pages(log):
                    logs[call, words[0]] = log, what
                cut += is_made_again(place, words, kept, what)
                place.refuses(FOUNDED, *words, memory=made)
                place.serve(made, kept, b"ask a 2\n")
    if not cut or not logs:
        place.trial.fault("no making was cut off, or none left a log")
    now = contents(place.memory)
    for log, what in logs.values():
        place.stands_beside(place.memory, now[""], log, entries, what)
    put(place.memory, now)


def is_made_again(place, words, kept, what):
    """Whether there was no memory yet; then it is made."""
    made = place.path("cut")
    answer = place.trial.call("states", made)
    if answer.ending == none_ending(made):
        for call in place.each_call(made):
            place.trial.expect(*answer.ending, *call, input=b"ask a 1\n")
        place.trial.prints(b"", *words)
        return True
    if answer.ending != (0, "") or answer.output != desk_model.states_text(kept):
        place.trial.fault(f"{what}: {answer}")
    return False


def device_that_moves(place):
    """A device that moves twice has its last state, whatever lines are adopted once more; nobody
    serves one that is gone.
    """
    trial, key = place.trial, place.keys[b"a"]
    north, south = place.memory, place.path("south")
    keys = {b"a": key}
    entries = place.serve(north, place.found(north), b"ask a 1\nask a 2\nask b 1\n")
    place.found(south, "south")
    entries, text = desk_model.moved(entries, b"north", b"a", b"south")
    first = place.text("first", text)
    for _ in range(2):
        trial.prints(text, "move", north, "a", "south")
    place.refuses(ELSEWHERE, "move", north, "a", "west")
    place.refuses(GONE.format(1), *place.desk_words(north), input=b"ask a 3\n")
    place.serve(north, entries, b"ask b 2\n", {b"b": place.keys[b"b"]})
    place.faults("1: Place", "adopt", first, north)
    there = desk_model.adopted((), b"south", text)
    for _ in range(2):
        trial.prints(b"", "adopt", first, south)
        place.tells(south, there)
    there = place.serve(south, there, b"ask a 2\ngive a 3 " + place.report(2, key) + b"ask a 4\n",
                        keys)
    trial.prints(b"", "adopt", first, south)
    place.tells(south, there)
    there, text = desk_model.moved(there, b"south", b"a", b"north")
    trial.prints(text, "move", south, "a", "north")
    place.faults("1: Order", "adopt", first, south, memory=south)
    entries = desk_model.adopted(place.serve(north, entries, b"ask b 2\n", {
        b"b": place.keys[b"b"]}), b"north", text)
    trial.prints(b"", "adopt", place.text("second", text), north)
    place.serve(north, entries, b"give a 5 " + place.report(2, key) + b"ask a 6\n")
    behind = desk_model.states_text(there) + read_lines(first)
    place.faults(f"{behind.count(10)}: Twice", "remember", place.text("behind", behind),
                 place.path("again"), "south", memory=place.path("again"))


def read_lines(name):
    with open(name, "rb") as file:
        return file.read()


def key_that_changes(place):
    """The old key's request and last answer are not the new one's, and no key has two names."""
    trial, old, new = place.trial, place.keys[b"a"], place.other_key
    entries = place.serve(place.memory, place.found(place.memory), b"ask a 1\nask b 1\n")
    changed = {b"a": new, b"b": place.keys[b"b"]}
    for key in (old, new):
        lines = b"ask a 1\ngive a 2 " + place.report(1, key)
        shutil.copy(place.memory, place.path("copy"))
        replies = desk_model.Desk(changed, place.image, place.policy, entries=entries).replies(
            lines)
        if b"accept" in replies or not replies.startswith(b"stale"):
            trial.fault(f"the model says {replies}")
        place.serve(place.path("copy"), entries, lines, changed)
    entries = place.serve(place.memory, entries, b"ask a 1\nask a 2\n", changed)
    for number, keys in ((1, {b"c": old}), (2, {b"a": new, b"b": old}), (1, {b"c": new})):
        place.refuses(TAKEN.format(number), *place.desk_words(place.memory, keys),
                      input=b"ask c 1\n")
    place.serve(place.memory, entries, b"ask a 2\nask a 3\n")


# What a text of states cannot say of a device, and the fault of its line.
UNSOUND = (
    (b"count 7 outstanding 8 last 9 spent", "Range"),
    (b"count 7 outstanding none last 9 request 8", "Range"),
    (b"count 4294967295 outstanding none last 9 spent", "Range"),
    (b"count 6 outstanding none last 9 spent", "Order"),
    (b"count 7 outstanding none last 8 spent", "Order"),
    (b"count 7 outstanding none last none", "Order"),
)


def unsound_states(place):
    """A memory is made of no states that a desk cannot have had, nor of any that fall behind."""
    line = b"state2 a moves %d key " + b"1" * 32 + b" count 7 outstanding 7 last 9 request 7\n"
    text = line % 3 + b"state2 a moves 3 key " + b"2" * 32 + b" "
    new = place.path("none")
    for rest, fault in UNSOUND:
        states = place.text("states", text + rest + b"\n")
        place.faults(f"2: {fault}", "remember", states, new, "north", memory=new)
    fewer = line % 3 + (line % 2).replace(b"1" * 32, b"2" * 32)
    place.faults("2: Order", "remember", place.text("states", fewer), new, "north", memory=new)
    sound = text + b"count 7 outstanding none last 10 stale\n" + b"state c" + (
        b" key " + b"3" * 32 + b" count 0 outstanding none last none\n")
    place.trial.prints(b"", "remember", place.text("states", sound), place.memory, "north")
    place.trial.prints(sound.replace(b"state c", b"state2 c moves 0"), "states", place.memory)


def causes_of_answers(place):
    """In use, no place and no room are what they are; behind a kill a memory can be opened."""
    memory = place.memory
    entries = place.serve(memory, place.found(memory), b"ask a 1\n")
    making = (("found", memory, "north"),
              ("remember", place.text("states", desk_model.states_text(entries)), memory, "north"))
    with place.trial.serving(*place.desk_words(memory)):
        for words in (*place.each_call(memory), *making):
            place.trial.expect(*ending(17), *words)
    place.tells(memory, entries)
    for name, line in ((place.folder, None), ("/dev/null", None), ("", ABSENT),
                       (place.path("nowhere/memory"), ABSENT)):
        place.trial.expect(*ending(18), "found", name, "north")
        place.trial.expect(*((16, line) if line else ending(18)), *place.desk_words(name))
    write(f"{memory}-journal", b"x")
    for words in place.each_call(memory):
        place.trial.expect(16, DAMAGED, *words)
    os.remove(f"{memory}-journal")
    place.tells(memory, entries)
    for number in range(1, MOST_CALLS):
        if not place.killed_in("pwrite64", number, *place.desk_words(memory),
                               lines=b"ask a %d\n" % (number + 1)):
            break
        answer = place.trial.call("states", memory)
        if answer.ending != (0, ""):
            place.trial.fault(f"killed in its write {number}: {answer}")


WAYS = {way.__name__.replace("_", " "): way for way in (
    log_of_another_time, lost_memory, cut_off_making, device_that_moves, key_that_changes,
    unsound_states, causes_of_answers)}


def try_way(trial, folder, kind):
    WAYS[kind](Place(trial, folder))
