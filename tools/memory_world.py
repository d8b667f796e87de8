"""Several desks, each with a memory, the acts on them, and what each act has to lead to."""
import os
import re
from typing import NamedTuple

import attestation_model
import desk_model
import verifier_model
from file_readers import MOST, Fault, Policy, Report, policy_text, read_states
from reference import FOUNDED, fault_ending
from sample_files import Example, remove_memory, write
from trial import random_bytes

DESKS = ("north", "south", "west")
DEVICES = 6
KEYS_PER_DEVICE = 12  # that a device has had, before all is begun anew
STEP = 65536  # by which a count is raised where a memory was lost


def report_on(key, image, bounds, count):
    """The report of a device on the desk's request with this counter, in one line."""
    size = bounds[3] + 2 - bounds[2]
    output = (count.to_bytes(4, "little") * size)[:size]
    report = Report(2, 100, 1, 0, count, desk_model.challenge(key, count), bounds, output, b"")
    return attestation_model.report_line(verifier_model.with_right_mac(image, key, report))


def raised(entry):
    """What a text of states has of a device whose last requests may be forgotten."""
    return entry._replace(state=entry.state._replace(
        count=entry.state.count + STEP, outstanding=None))


def unsound(rng, entries, place):
    """An entry that no desk can have, or not behind an earlier one; or of a device that is here and
    cannot move on. (Of one that is gone it would be lines of a move that there never was.)
    """
    entry, earlier = entries[place], desk_model.last_entry(entries[:place], entries[place].name)
    state, home = entry.state, entry.home
    changes = [entry._replace(state=state._replace(count=MOST)),
               entry._replace(state=state._replace(
                   number=state.number + 1, said=b"request %d" % (state.count + 1)))]
    if home.gone is None:
        changes.append(entry._replace(home=home._replace(moves=MOST)))
    if earlier and earlier.state.count and earlier.state.number:
        changes += [entry._replace(state=state._replace(
                        count=earlier.state.count - 1, outstanding=None, said=b"spent")),
                    entry._replace(state=state._replace(number=earlier.state.number - 1))]
    return rng.choice(changes)


class Ledger:
    """The replies of all runs at all desks, and what they say of counters."""

    def __init__(self, fault):
        self.fault, self.replies, self.counters = fault, {}, {}

    def note(self, line, reply):
        verb, *rest = reply.split()
        if verb == b"stale" or len(rest) < 2:
            return
        number = tuple(rest[:2])
        if number in self.replies:
            if self.replies[number] != reply:
                self.fault(f"two replies to one line: {self.replies[number]}, {reply}")
            return
        self.replies[number] = reply
        if verb == b"request":
            self.take("requested", rest[0], rest[3])
        elif rest[-1] == b"accept":
            self.take("accepted", rest[0], re.search(rb" count (\d+) ", line)[1])

    def take(self, what, name, counter):
        if (what, name, counter) in self.counters:
            self.fault(f"the counter {counter} of {name} is {what} twice")
        self.counters[what, name, counter] = True


class Seat:
    """A desk: its name, its memory, and the entries in it; None where it was not founded."""

    def __init__(self, name, path):
        self.name, self.path, self.entries, self.number = name, path, None, 0

    def next_path(self):
        """Where a memory may be made that takes the place of this one."""
        return f"{self.path.rpartition('.')[0]}.{self.number + 1}"


class Act(NamedTuple):
    """A call, and what it has to lead to. A call with no lines prints its text at once."""
    seat: Seat
    words: tuple
    kept: list  # what the memory has before, and behind each line or the whole call
    ending: tuple = (0, "")
    lines: tuple = ()
    replies: tuple = ()  # to each line, or the text
    path: str = None  # the memory that it is on, where it is not that of the seat

    @property
    def memory(self):
        return self.path or self.seat.path

    @property
    def is_refused(self):
        return self.ending[0] != 0


class World:
    """The desks, their devices with all keys that each had, and the lines of moves."""

    def __init__(self, trial, folder, rng):
        example = Example("round")
        self.trial, self.rng, self.folder = trial, rng, folder
        for name in os.listdir(folder):
            os.remove(f"{folder}/{name}")
        policy = example.value("policy")
        self.image, self.policy = example.value("image"), Policy(2, policy.bounds, "exec", [])
        self.files = (example.file("image"), write(
            f"{folder}/policy", policy_text(self.policy)))
        self.keys = {b"pump_%d" % number: [random_bytes(rng, 64)] for number in range(DEVICES)}
        self.current = {name: keys[0] for name, keys in self.keys.items()}
        self.seats = [Seat(name, f"{folder}/{name}.0") for name in DESKS]
        self.new = Seat("", f"{folder}/new")
        self.births = {name: rng.choice(self.seats) for name in self.keys}
        self.ledger, self.sent, self.letters = Ledger(trial.fault), {}, []
        self.renewed = None  # the device whose key was changed last
        for seat in self.seats:
            self.found(seat)

    def is_worn(self):
        return max(map(len, self.keys.values())) > KEYS_PER_DEVICE

    def found(self, seat):
        self.trial.prints(b"", "found", seat.path, seat.name)
        seat.entries = ()

    def has(self, seat, name):
        """Whether a device is at home there."""
        last = desk_model.last_entry(seat.entries or (), name)
        if last is None and not any(desk_model.last_entry(other.entries or (), name)
                                    for other in self.seats):
            return self.births[name] is seat
        return last is not None and last.home.gone is None

    def settle(self, act, kept):
        """The memory has this now. (The lines of a move may be lost, and are printed again.)"""
        if act.words[0] == "move" and not act.is_refused and kept is act.kept[-1]:
            self.letters.append((act.words[-1], act.replies[0]))
        if act.path and kept is not None:
            remove_memory(act.seat.path)
            act.seat.path, act.seat.number = act.path, act.seat.number + 1
        if not act.path or kept is not None:
            act.seat.entries = kept

    # Acts.

    def draw(self):
        """One of an operator, most often what the desks are for."""
        seat = self.rng.choice(self.seats)
        kinds = (self.serving, self.moving, self.adopting, self.remembering, self.founding)
        return self.rng.choices(kinds, (8, 4, 4, 1, 1))[0](seat)

    def change_key(self, name):
        """A device has another key, a new one or one that it had."""
        if self.rng.random() < 0.5:
            self.keys[name].append(random_bytes(self.rng, 64))
        self.current[name] = self.rng.choice(self.keys[name])
        self.renewed = name

    def keys_at(self, seat):
        """What KEYS of a desk has; now and then a device that is gone, or another's key."""
        names = [name for name in self.keys if self.has(seat, name)]
        for name in names:
            if self.rng.random() < 0.05:
                self.change_key(name)
        keys = {name: self.current[name] for name in names}
        gone = [entry.name for entry in seat.entries if entry.name not in keys]
        if gone and self.rng.random() < 0.06:
            name = self.rng.choice(gone)
            keys[name] = self.current[name]
        elif len(names) > 1 and self.rng.random() < 0.06:
            name, other = self.rng.sample(names, 2)
            mark = desk_model.key_mark(self.current[other])
            if desk_model.owner_of(seat.entries, mark) and self.current[other] != keys[name]:
                del keys[other]
                keys[name] = self.current[other]
        return keys

    def serving(self, seat, most=12):
        """A desk over lines, or one that is refused."""
        keys = self.keys_at(seat)
        write(f"{self.folder}/keys", b"".join(b"device %s %s\n" % (name, key.hex().encode())
                                              for name, key in keys.items()))
        words = ("desk", f"{self.folder}/keys", *self.files, seat.path)
        try:
            desk_model.check_keys(seat.entries, keys)
        except desk_model.Refusal as refusal:
            return Act(seat, words, [seat.entries], (16, str(refusal)), (b"ask %s 1\n" % next(
                iter(keys)),))
        model = desk_model.Desk(keys, self.image, self.policy, entries=seat.entries)
        lines, replies, kept = [], [], [seat.entries]
        for _ in range(self.rng.randint(1, most) if keys else 0):
            lines.append(self.line(model))
            replies.append(model.reply(lines[-1][:-1]))
            kept.append(model.entries)
        return Act(seat, words, kept, (0, ""), tuple(lines), tuple(replies))

    def line(self, model):
        """One of a device, most often a new one."""
        name = self.rng.choice([*model.keys])
        steps = (-1, 0, 1, 1, 1, 1, 1, 2)
        if self.renewed in model.keys and self.rng.random() < 0.3:
            name, steps = self.renewed, (0, 0, 1)
        last = model.states[name].number
        number = max(1, last + self.rng.choice(steps))
        if number > last:
            self.sent[name, number] = self.new_line(model, name, number)
        return self.sent.get((name, number)) or self.new_line(model, name, number)

    def new_line(self, model, name, number):
        """A request, or a report on one."""
        rng = self.rng
        state, chance = model.states[name], rng.random()
        if chance < 0.4 or not state.count:
            return b"ask %s %d%s\n" % (name, number, b" x" if chance < 0.02 else b"")
        count = state.outstanding or 0
        if not count or chance < 0.6:
            count = rng.randint(1, state.count + 1)
        key = rng.choice(self.keys[name]) if rng.random() < 0.2 else model.keys[name]
        return b"give %s %d %s" % (name, number,
                                   report_on(key, self.image, self.policy.bounds, count))

    def moving(self, seat):
        rng = self.rng
        here = [name for name in self.keys if desk_model.last_entry(seat.entries, name)]
        name = rng.choice(here) if here and rng.random() < 0.95 else rng.choice([*self.keys])
        target = rng.choice(DESKS) if rng.random() < 0.1 else rng.choice(
            [each for each in DESKS if each != seat.name])
        last = desk_model.last_entry(seat.entries, name)
        if last and last.home.gone and rng.random() < 0.7:
            target = last.home.gone.decode()  # (once more)
        words = ("move", seat.path, name.decode(), target)
        try:
            entries, text = desk_model.moved(seat.entries, seat.name.encode(), name,
                                             target.encode())
        except desk_model.Refusal as refusal:
            return Act(seat, words, [seat.entries], (16, str(refusal)))
        return Act(seat, words, [seat.entries, entries], replies=(text,))

    def letter(self, seat):
        """A text that a desk is given to adopt: lines of its moves, the newest most often, of
        others', or of no move.
        """
        rng, own = self.rng, [text for target, text in self.letters if target == seat.name]
        if own and rng.random() < 0.85:
            text = b"".join({text: None for text in rng.choices(own[-4:], k=rng.choice((
                1, 1, 1, 2, 3)))})
            return text if rng.random() < 0.9 else b"".join(sorted(text.splitlines(True)))
        if self.letters and rng.random() < 0.8:
            return b"".join(text for _, text in rng.choices(self.letters, k=rng.choice((1, 2))))
        return desk_model.states_text(rng.choice(self.seats).entries)

    def adopting(self, seat):
        text = self.letter(seat)
        if self.rng.random() < 0.1:
            text = b"# moves\r\n\n" + text.replace(b"\n", b"\r\n")
        words = ("adopt", write(f"{self.folder}/moved", text), seat.path)
        try:
            entries = desk_model.adopted(seat.entries, seat.name.encode(), text)
        except Fault as fault:
            return Act(seat, words, [seat.entries],
                       fault_ending("moved", f"{fault.line}: {fault.kind}"))
        return Act(seat, words, [seat.entries, entries])

    def states_for(self, seat):
        """The text of a memory that is made anew, as it is, with counts raised, or with a fault."""
        rng, entries = self.rng, [*seat.entries]
        chance = rng.random()
        if chance < 0.4:
            entries = [raised(entry) if self.has(seat, entry.name) else entry for entry in entries]
        elif chance < 0.5 and entries:
            entries.insert(rng.randrange(len(entries)), rng.choice(entries))
        elif chance < 0.6:
            rng.shuffle(entries)
        elif chance < 0.8 and entries:
            place = rng.randrange(len(entries))
            entries[place] = unsound(rng, entries, place)
        return desk_model.states_text(entries)

    def remembering(self, seat):
        """A new memory takes the place of that of a desk, which is lost."""
        text, path = self.states_for(seat), seat.next_path()
        name = write(f"{self.folder}/states", text)
        if self.rng.random() < 0.1:
            return Act(seat, ("remember", write(name, b""), seat.path, seat.name), [seat.entries],
                       (16, FOUNDED))
        words = ("remember", name, path, seat.name)
        try:
            return Act(seat, words, [None, tuple(read_states(text))], path=path)
        except Fault as fault:
            ending = fault_ending("states", f"{fault.line}: {fault.kind}")
            return Act(seat, words, [None], ending, path=path)

    def founding(self, seat):
        """Of a memory that is there; or of a new one, which is no desk's here."""
        name = self.rng.choice(DESKS)
        if self.rng.random() < 0.3:
            return Act(seat, ("found", seat.path, name), [seat.entries], (16, FOUNDED))
        if self.new.entries is not None:
            remove_memory(self.new.path)
        return Act(self.new, ("found", self.new.path, name), [None, ()])
