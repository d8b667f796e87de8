"""What lines and replies of a fleet say together: no number has two lines or two replies, no
counter is requested or accepted twice, and each device is answered as by a desk of its own.
"""
import collections
import hashlib
import re

import desk_model
from readers import READERS
from reference import VERDICTS
from sample_files import read

COUNTED = ("accept", "refused", "stale", "cut", "repeated")
# A whole reply; one that was cut off names no line.
REPLY = re.compile(
    r"request \w+ \d+ [0-9a-f]{64} \d+ token [0-9a-f]{64}|bad \w+ \d+ \w+|(spent|stale) \w+ \d+|"
    rf"verdict \w+ \d+ ({'|'.join(VERDICTS)})|refused|too-long".encode())


class Ledger:
    """All lines that desks were given, and all replies that were seen."""

    def __init__(self, fault, keys, folders):
        self.fault, self.keys = fault, keys
        self.images = [READERS["image"](read(f"{folder}/image.hex")) for folder in folders]
        self.policies = [READERS["policy"](read(f"{folder}/policy.txt"))._replace(requests=[])
                         for folder in folders]
        self.lines, self.replies, self.reports, self.counters = {}, {}, {}, {}
        self.numbers = {}  # the last of each device
        self.accepts = collections.defaultdict(list)  # the numbers and images of each device
        self.counts = collections.Counter()

    def share(self, name):
        """Which of the desks of an image a device has, of however many there are."""
        return int(hashlib.sha256(name).hexdigest()[:8], 16)

    def put(self, table, key, value, what):
        """Whether it is new; a fault where the key has another value."""
        if key not in table:
            table[key] = value
            return True
        if table[key] != value:
            self.fault(f"{what}: {key}: {table[key]}, {value}")
        return False

    def take_line(self, line):
        """A line that comes to a desk."""
        words = line.split(b" ")
        self.counts["repeated"] += (words[1], int(words[2])) in self.lines
        self.note_line(line)

    def note_line(self, line):
        verb, name, number, *rest = line.split(b" ")
        number = int(number)
        self.put(self.lines, (name, number), line, "two lines with one number")
        if verb == b"give":
            self.put(self.reports, (name, *rest), number, "one report in two lines")
        self.numbers[name] = max(number, self.numbers.get(name, 0))

    def note_reply(self, image, reply):
        """A reply of a desk of this image."""
        verb, *words = reply.split(b" ")
        if not REPLY.fullmatch(reply):
            self.counts["cut"] += 1
        elif not words or verb == b"stale":
            self.counts[verb.decode()] += 1
        elif (number := (words[0], int(words[1]))) not in self.lines:
            self.fault(f"a reply to no line: {reply}")
        elif self.put(self.replies, number, reply, "two replies to one line"):
            self.note_new_reply(image, *number, words)

    def note_new_reply(self, image, name, number, words):
        if len(words) == 6:  # (a request)
            self.put(self.counters, ("requested", name, words[3]), number, "requested twice")
        elif words[-1] == b"accept":
            count = re.search(rb" count (\d+) ", self.lines[name, number])[1]
            self.put(self.counters, ("accepted", name, count), number, "accepted twice")
            self.accepts[name].append((number, image))

    def is_accepted_after(self, name, number, image):
        return any(each > number and by == image for each, by in self.accepts[name])

    def add_journal(self, text):
        """What a gateway kept: it took one reply to each line before it sent the next."""
        taken = set()
        for record in text.splitlines():
            kind, image, line = record.split(b" ", 2)
            verb, name, number = line.split(b" ")[:3]
            if kind == b"line":
                self.note_line(line)
                continue
            if verb == b"stale" or (name, int(number)) in taken:
                self.fault(f"a gateway took the reply {line}")
            taken.add((name, int(number)))
            self.note_reply(int(image), line)
        names = {name for name, _ in taken}
        for name, number in set(self.lines) - taken:
            if name in names and number < self.numbers[name]:
                self.fault(f"a gateway took no reply to the line {number} of {name}")

    # Against the model of a desk.

    def check(self):
        """The replies of each device are those of a desk of its own; the states that it may have
        then, where its last line may have had no reply.
        """
        states = {}
        for name, key in self.keys.items():
            desk = desk_model.Desk({name: key}, self.images[0], self.policies[0])
            states[name] = {desk_model.states_text(entries)
                            for entries in self.last_entries(desk, name)}
        return states

    def last_entries(self, desk, name):
        """What the memory of a device's own desk may have after its lines."""
        for number in sorted(number for each, number in self.lines if each == name):
            seen, outcomes = self.replies.get((name, number)), self.outcomes(desk, name, number)
            if seen is None:
                return [desk.entries, *(entries for _, entries in outcomes)]
            fitting = [entries for reply, entries in outcomes if reply == seen]
            if not fitting:
                self.fault(f"not the reply of a desk of its own: {seen} to {name} {number}")
                break
            desk.start(fitting[0])
        return [desk.entries]

    def outcomes(self, desk, name, number):
        """The reply of the desk of each image, and what the memory has then."""
        start, outcomes = desk.entries, []
        for desk.image, desk.policy in zip(self.images, self.policies):
            desk.start(start)
            reply = desk.reply(self.lines[name, number])[:-1]
            outcomes.append((reply, desk.entries))
        desk.start(start)
        return outcomes

    def check_states(self, text, names, expected):
        """A desk's memory has of its devices what their lines lead to, however often they moved."""
        found = {line.split(b" ")[1]: re.sub(rb" moves \d+", b" moves 0", line)
                 for line in text.splitlines(True)}
        for name in names:
            if found.get(name, b"") not in expected[name]:
                self.fault(f"the memory has {found.get(name)}, not {expected[name]}")

    def check_gone(self, text, names, desk):
        """An old desk's memory has that its devices are gone to this one."""
        for line in text.splitlines():
            verb, name, _, target = line.split(b" ")[:4]
            if name not in names or (verb, target) != (b"moved", desk.encode()):
                self.fault(f"a device did not leave for {desk}: {line}")

    def counts_text(self):
        self.counts["accept"] = sum(map(len, self.accepts.values()))
        return [f"{len(self.lines)} lines",
                *(f"{self.counts[kind]} {kind}" for kind in COUNTED)]
