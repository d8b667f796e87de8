"""Trials of the memories of several desks: acts on them, those that are killed, system calls that
are refused, power cuts, bits that are changed between acts, and logs and files that are left or
lost.

What is found in a memory behind an act has to be what the model has, and behind one that was cut
off what a beginning of it leads to, in which all is that was answered.
"""
import os
import select
import signal
import subprocess
import time

import desk_model
from memory_cuts import Calls, recorded, torn
from memory_log import FRAME, is_alone, is_begun, is_of_another
from memory_world import World
from reference import ABSENT, DAMAGED, OTHER_LOG, UNFOUNDED
from sample_files import write

PARTS = ("", "-wal")  # of a memory, the ends of its files' names
PATIENCE = 120  # seconds for a reply
KILLED = (-signal.SIGKILL, 128 + signal.SIGKILL)
ACTS = 150  # on one world
# A disk that syncs at once, where there is one: what a kill leaves does not depend on it.
QUICK = "/dev/shm" if os.access("/dev/shm", os.W_OK) else None
REFUSED = 16
# The ends of an act whose system calls are refused.
FAULTS = (3, 4, 6, REFUSED, 18)
NOT_STARTED = 127  # (the system could not load it)
REFUSED_CALLS = {"pwrite64": 4, "fdatasync": 4, "fsync": 1, "ftruncate": 2, "pread64": 2,
                 "openat": 1, "fcntl": 1, "unlink": 1}  # each so often
REFUSALS = ("error=EIO", "error=ENOSPC", "signal=KILL")
NOT_TAKEN = ((REFUSED, ABSENT), (REFUSED, UNFOUNDED), (REFUSED, DAMAGED), (REFUSED, OTHER_LOG))
IMAGES, AGAIN = 20, 5  # of the cuts of an act, and of those of what recovers one of them


def contents(path):
    """The bytes of a memory's files, None of one that is not there."""
    found = {}
    for part in PARTS:
        found[part] = None
        if os.path.exists(path + part):
            with open(path + part, "rb") as file:
                found[part] = file.read()
    return found


def put(path, parts):
    for part, data in parts.items():
        if data is not None:
            write(path + part, data)
        elif os.path.exists(path + part):
            os.remove(path + part)


def with_file(parts, file):
    """The same, but for an empty file that is made where there was none."""
    return {**parts, "": file if file is None and not parts[""] else parts[""]}


def is_untouched(before, after):
    """Whether a memory is as it was; beside it a log without a page may have been begun."""
    log, new = (parts["-wal"] or b"" for parts in (before, after))
    return before[""] == after[""] and (log == new or max(len(log), len(new)) < FRAME)


def none_ending(path):
    """How all but a making end where no memory was made, or its making was cut off."""
    file, log = contents(path).values()
    if file is None:
        return REFUSED, ABSENT
    return REFUSED, OTHER_LOG if is_begun(file, log) else UNFOUNDED


def lost_endings(file, log):
    """How the others end where no more than this is left of a memory, and how a making does."""
    if is_alone(file, log):
        return (REFUSED, ABSENT if file is None else OTHER_LOG), (REFUSED, OTHER_LOG)
    if len(file or b"") > 1:
        return (REFUSED, DAMAGED), (REFUSED, DAMAGED)
    return (REFUSED, ABSENT if file is None else UNFOUNDED), (0, "")


class Run:
    """A program between its start and its end, which is killed at a moment, or once it put so many
    lines.
    """

    def __init__(self, words, moment=None, most=None):
        self.process = subprocess.Popen(words, stdin=subprocess.PIPE, stdout=subprocess.PIPE,
                                        stderr=subprocess.PIPE, bufsize=0, start_new_session=True)
        self.until = time.monotonic() + (PATIENCE if moment is None else moment)
        self.printed, self.wanted, self.most = b"", 0, most

    def give(self, data, count):
        """Whether so many replies came to these lines, before the program ended."""
        self.wanted += count
        try:
            self.process.stdin.write(data)
        except BrokenPipeError:
            return False
        while self.printed.count(b"\n") < self.wanted:
            if not self.reads():
                return False
        return True

    def reads(self):
        """Whether there was more to read before the moment."""
        left = self.until - time.monotonic()
        if left <= 0 or not select.select([self.process.stdout], [], [], left)[0]:
            return self.kill()
        data = os.read(self.process.stdout.fileno(), 65536)
        self.printed += data
        if self.most is not None and self.printed.count(b"\n") >= self.most:
            return self.kill()
        return data != b""

    def kill(self):
        os.killpg(self.process.pid, signal.SIGKILL)
        return False

    def end(self):
        """Its status, all that it printed, and its line on standard error."""
        self.process.stdin.close()
        self.process.stdin = None
        while self.reads():
            pass
        _, line = self.process.communicate()
        return self.process.returncode, self.printed, line.decode("utf-8", "replace").rstrip("\n")


class Trials:
    """The trials over a world."""

    def __init__(self, trial, folder, rng):
        self.trial, self.rng, self.world = trial, rng, World(trial, folder, rng)
        self.acts = self.cases = 0

    def is_worn(self):
        return self.acts > ACTS or self.world.is_worn()

    # Acts.

    def pieces(self, act):
        """The lines in pieces that are given at once: a line or several."""
        at, most = 0, self.rng.choice((1, 1, 20, 80))
        while at < len(act.lines):
            end = at + self.rng.randint(1, most)
            yield act.lines[at:end]
            at = end

    def run(self, act, moment=None, most=None, before=()):
        """How it ended, and in how many of its steps it was answered, as the model has it."""
        run = Run([*before, self.trial.desk, *act.words], moment, most)
        for piece in self.pieces(act):
            if not run.give(b"".join(piece), len(piece)):
                break
        status, printed, line = run.end()
        self.trial.tries += 1
        self.acts += 1
        if not b"".join(act.replies).startswith(printed):
            self.trial.fault(f"{act.words}: other text than that of the model: "
                             f"{printed[-200:]!r}, not {b''.join(act.replies)[-200:]!r}")
        return (status, line), self.answered(act, status, printed)

    def answered(self, act, status, printed):
        """How many of its steps must be kept now."""
        if not act.lines:
            return len(act.kept) - 1 if status == 0 or printed else 0
        *replies, _ = printed.split(b"\n")
        for line, reply in zip(act.lines, replies):
            self.world.ledger.note(line, reply + b"\n")
        return min(len(replies), len(act.kept) - 1)

    def whole(self, act, **options):
        """An act that is not disturbed; whether it ended as the model has it."""
        (status, line), answered = self.run(act, **options)
        is_right = (status, line) == act.ending and answered == len(act.kept) - 1
        if not is_right:
            self.trial.fault(f"{act.words}: status {status}, '{line}', {answered} answered, in "
                             f"place of {act.ending} and {len(act.kept) - 1}")
        return is_right

    def look(self, what, act, answered, goes_on=True):
        """Whether that is found which the act may leave; then the world goes on there. A making
        that was cut off can be made again, now or later.
        """
        self.cases += 1
        found = self.trial.call("states", act.memory)
        for kept in act.kept[:answered - 1 if answered else None:-1]:
            if self.shows(found, kept, act.memory):
                if kept is None and not act.is_refused and self.rng.random() < 0.7:
                    return self.made_again(what, act, goes_on)
                if goes_on:
                    self.world.settle(act, kept)
                return True
        self.trial.fault(f"{what}: {act.words}, {answered} answered: {found}")
        return False

    def made_again(self, what, act, goes_on):
        made, found = (self.trial.call(*words) for words in (act.words, ("states", act.memory)))
        if made.ending != (0, "") or not self.shows(found, act.kept[-1], act.memory):
            self.trial.fault(f"{what}: {act.words}, made again: {made}, then {found}")
            return False
        if goes_on:
            self.world.settle(act, act.kept[-1])
        return True

    @staticmethod
    def shows(found, kept, path):
        if kept is None:
            return found.ending == none_ending(path) and not found.output
        return found.ending == (0, "") and found.output == desk_model.states_text(kept)

    # Trials; each tells whether the world is to go on.

    def acted(self):
        """An act that goes to its end."""
        act = self.world.draw()
        return self.whole(act) and self.look("behind an act", act, len(act.kept) - 1)

    def killed(self):
        """An act that is killed at a random moment, or once it put a line, or ends before it."""
        rng, act = self.rng, self.world.draw()
        options = {"moment": rng.uniform(0, rng.choice((0.01, 0.05, 0.3)))}
        if rng.random() < 0.3:
            options = {"most": rng.randint(1, max(1, len(act.lines)))}
        (status, line), answered = self.run(act, **options)
        if (status, line) != act.ending and status not in KILLED or status == 0 and (
                answered < len(act.kept) - 1):
            self.trial.fault(f"{act.words} ended with {status}, '{line}', {answered} answered")
        return self.look("after a kill", act, answered)

    def refused(self):
        """An act of which one system call is refused, or which is killed in it (by strace)."""
        act = self.world.draw()
        what, (status, line), answered = self.refuse(act, self.rng.choice(REFUSALS))
        wanted = (act.ending[0], *KILLED, *FAULTS, *(() if answered else (NOT_STARTED,)))
        if status not in wanted or status == 0 and answered < len(act.kept) - 1:
            self.trial.fault(f"{what}: {act.words} ended with {status}, '{line}', {answered} "
                             "answered")
        return self.look(what, act, answered)

    def refuse(self, act, refusal):
        """What is refused, and how the act ends."""
        rng = self.rng
        call, = rng.choices([*REFUSED_CALLS], REFUSED_CALLS.values())
        place = rng.randint(1, rng.choice((6, 60)))
        return f"after {refusal} in the call {place} of {call}", *self.run(act, before=[
            "strace", "-f", "-qq", "-o", "/dev/null", "-e", f"trace={call}", "-e",
            f"inject={call}:{refusal}:when={place}"])

    def changed(self):
        """A bit of a memory is another: it is refused and stays as it is, or has the same states.
        """
        if not self.acted():
            return False
        rng, seat = self.rng, self.rng.choice(self.world.seats)
        before = contents(seat.path)
        part = rng.choice([part for part in PARTS if before[part]])
        data = bytearray(before[part])
        place = rng.randrange(len(data))
        data[place] ^= 1 << rng.randrange(8)
        put(seat.path, {**before, part: bytes(data)})
        self.is_left_alone(seat.path, seat,
                           f"a bit at {place} of the {len(data)} bytes of memory{part}")
        put(seat.path, before)
        return True

    def is_left_alone(self, path, seat, what):
        """A memory is refused, and stays as it is with its log; or it has its states."""
        self.cases += 1
        before = contents(path)
        found = self.trial.call("states", path)
        if self.shows(found, seat.entries, path):
            return
        if found.ending not in NOT_TAKEN or found.output:
            self.trial.fault(f"{what}: other states: {found}")
        elif not is_untouched(before, contents(path)):
            self.trial.fault(f"{what}: refused, and written")

    def cut(self):
        """The power is cut at random moments of one act: what was synced is there, and of the rest
        each write is lost, whole, cut off, or any bytes. And it is cut again while that is
        recovered, or made again.
        """
        act = self.world.draw()
        start, name = contents(act.memory), f"{self.world.folder}/calls"
        if not self.whole(act, before=recorded(name)):
            return False
        end, calls = contents(act.memory), Calls(name, act.memory, PARTS, start)
        calls.add(None, len(act.kept))  # (at its end all was answered)
        for _ in range(IMAGES):
            parts, answered = self.cut_off(act, calls, start)
            if not self.look("after a power cut", act, answered, goes_on=False):
                return False
        put(act.memory, parts)
        is_making = act.kept[0] is None and self.rng.random() < 0.7
        self.trial.call(*(act.words if is_making else ("states", act.memory)),
                        command=[*recorded(name), self.trial.desk])
        calls = Calls(name, act.memory, PARTS, parts)
        for _ in range(AGAIN):
            self.cut_off(act, calls, parts)
            if not self.look("after a second power cut", act, answered, goes_on=False):
                return False
        put(act.memory, end)
        self.world.settle(act, act.kept[-1])
        return True

    def cut_off(self, act, calls, start):
        """What a cut leaves of a memory, which is there then, and how much was answered."""
        parts, printed = torn(self.rng, calls, start)
        put(act.memory, parts)
        return parts, min(printed, len(act.kept) - 1)

    def left(self):
        """A log that a kill left, beside the memory of a later time, or another's, or none."""
        seat = self.rng.choice(self.world.seats)
        _, _, answered = self.refuse(act := self.world.serving(seat), "signal=KILL")
        log = contents(seat.path)["-wal"]
        if not self.look("after a kill", act, answered):
            return False
        later = self.world.serving(seat)
        if not self.whole(later) or not self.look("behind a kill", later, len(later.kept) - 1):
            return False
        now, other = contents(seat.path), self.rng.choice(self.world.seats)
        others = contents(other.path)
        self.stands_beside(seat, now[""], log, seat.entries)
        self.is_lost(seat, self.rng.choice((None, b"", b"x", now[""][:self.rng.randrange(100)])),
                     log)
        self.stands_beside(seat, others[""], log, other.entries)
        put(seat.path, now)
        return True

    def calls(self, seat):
        """A call of each command but those that make a memory."""
        return (("states", seat.path), ("move", seat.path, "pump_0", "east"),
                ("adopt", os.devnull, seat.path), self.world.serving(seat).words)

    def stands_beside(self, seat, file, log, entries):
        """A log that is not of the last opening of a memory is refused by all, and nothing is
        written; another changes nothing.
        """
        put(seat.path, {"": file, "-wal": log})
        before = contents(seat.path)
        if not is_of_another(file, log):
            self.cases += 1
            found = self.trial.call("states", seat.path)
            if not self.shows(found, entries, seat.path):
                self.trial.fault(f"beside a log that says nothing: {found}")
            return
        makings = (("found", seat.path, seat.name), ("remember", os.devnull, seat.path, seat.name))
        for call in (*self.calls(seat), *makings):
            self.refuses("beside another's log", call, (REFUSED, OTHER_LOG), before, seat)

    def refuses(self, what, call, wanted, before, seat):
        """A call is refused so, and the memory stays as it was."""
        self.cases += 1
        found = self.trial.call(*call, input=b"ask pump_0 1\n")
        if found.ending != wanted or found.output:
            self.trial.fault(f"{what}: {call}: {found}, not {wanted}")
        elif not is_untouched(before, contents(seat.path)):
            self.trial.fault(f"{what}: {call}: refused, and written")

    def is_lost(self, seat, file, log):
        """No desk begins anew where a file is lost or cut off, nor is one made beside its log."""
        put(seat.path, {"": file, "-wal": log})
        before, (wanted, making) = contents(seat.path), lost_endings(file, log)
        for call in self.calls(seat):
            self.refuses(f"{file} for a memory", call, wanted, before, seat)
        found = self.trial.call("found", seat.path, seat.name)
        self.cases += 1
        if found.ending != making:
            self.trial.fault(f"found: {file} for a memory: {found}")
        elif found.status and not is_untouched(before, with_file(contents(seat.path), file)):
            self.trial.fault(f"found: {file} for a memory: refused, and written")


TRIALS = {"acts": Trials.acted, "kills": Trials.killed, "refused calls": Trials.refused,
          "changed bits": Trials.changed, "power cuts": Trials.cut, "left logs": Trials.left}
BY_STRACE = ("refused calls", "power cuts", "left logs")


def try_memory(trial, folder, rng, kind, cases):
    """At least so many cases of a kind; how many. All is begun anew where something was wrong, and
    now and then.
    """
    trials, tried = None, 0
    while tried < cases:
        if trials is None or trials.is_worn():
            trials = Trials(trial, folder, rng)
        trials.cases = 0
        goes_on = TRIALS[kind](trials)
        tried += max(1, trials.cases)
        trials = trials if goes_on else None
    return tried
