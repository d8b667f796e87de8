"""Trials of the desk: its replies, its files, pipes, its memory, and the example."""
import contextlib
import os
import random
import resource
import runpy
import shutil
import socket
import subprocess
import tempfile
import time
from concurrent.futures import ThreadPoolExecutor

import desk_model
from memory_trial import BY_STRACE, QUICK, Run, try_memory
from memory_ways import WAYS, try_way
from readers import READERS
from reference import (ABSENT, AS_OFTEN, COMMANDS, DAMAGED, ELSEWHERE, FOUNDED, NO_DEVICE,
                       OWN_DESK, TAKEN, UNFOUNDED, ending)
from sample_files import EXAMPLES, Example, database, read, remove_memory
from trial import limiting

LONG = b"x" * desk_model.LONGEST_LINE


def desk(trial, files):
    """The replies to lines, those of the model; and lines of other devices change none."""
    def replies(lines, keys="keys"):
        model = desk_model.Desk(READERS["keys"](read(files[keys])), files.round.value("image"),
                                files.policy)
        trial.prints(model.replies(lines), *files.words_of_round("desk", keys=files[keys]),
                     input=lines)

    report, other = files.desk_report(1), files.desk_report(1, mac=bytes(32))
    worked = (b"ask a 1\nask a 1\nask b 1\ngive a 2 " + report + b"give a 2\ngive a 3 " + report
              + b"ask a 2\nask a 4 x\n")
    others = [line + b"\n" for line in (
        b"ask Z 1", b"", b" \t", b"ask A_9 1", b"ask %s 4294967295" % (b"Z" * 32), b"\xff",
        b"give A_9 2", b"ask A_9 2", LONG, LONG + b"x", LONG + b"\r", b"ask A_9 0", b"# ask")]
    replies(worked)
    replies(b"")
    replies(worked.replace(b"\n", b"\r\n"))
    replies(worked[:-1])
    mixed = [part for line in worked.splitlines(True) for part in (line, *others)]
    replies(b"".join(mixed), "keys-among")
    for verdict in ({"mac": bytes(32)}, {"exec": 0}, {"version": 1}, {"output": None}):
        replies(b"ask a 7\ngive a 8 " + files.desk_report(1, **verdict) + b"give a 9 " + report)
    for line in (b"ask a 1 ", b"\task\ta\t1", b"give a 1 " + other[:-1] + b" x", b"give a 1",
                 b"ask a 00000000001", b"ask a 0000000001", b"ask a 4294967296", b"Ask a 1",
                 b"ask a", b"ask a 1\r", b"\r", LONG, LONG + b"x", LONG + b"\r", b"ask\x0ba 1"):
        replies(line)
        replies(line + b"\n")
    rng = random.Random(1)
    lines = [*others, *worked.splitlines(True)]
    for _ in range(20):
        replies(b"".join(rng.choices(lines, k=40)), "keys-among")


def desk_files(trial, files):
    """The answers to the words and files of a desk, before a byte of the input is taken."""
    def words_with(**others):
        return files.words_of_round("desk", **others)

    words = words_with()
    trial.refuses(2, *words, words[-1], words[-1], input=b"ask a 1\n")
    for kind, fault, others in (
            ("keys", "2: Twice", {"keys": files["keys-twice"], "image": files["none"]}),
            ("policy", "0: Word", {"policy": files.policy_with(version=1, requests=[])}),
            ("image", "0: NoEnd", {"image": files["empty"], "policy": files["none"]})):
        trial.finds(kind, fault, *words_with(**others), input=b"ask a 1\n")
    trial.refuses(3, *words_with(keys=files["none"], image=files["empty"]), input=b"ask a 1\n")
    trial.refuses(4, *words_with(keys=files.folder), input=b"ask a 1\n")
    trial.prints(b"refused\n", *files.words_of_round("desk", keys=files["empty"]),
                 input=b"ask a 1\n")
    with open("/dev/full", "wb") as full:
        trial.refuses(5, *words, input=b"ask a 1\n", stdout=full)
        trial.expect(0, "", *words, input=b" \n", stdout=full)
    folder = os.open(files.folder, os.O_RDONLY)
    trial.refuses(4, *words, stdin=folder)
    # (a file that is opened takes the number of a closed input)
    trial.refuses(4, *words, preexec_fn=lambda: os.close(0))
    os.close(folder)


def desk_pipes(trial, files):
    """A reply is out while the beginning of the next line waits; a line may come in parts; a closed
    output ends a desk.
    """
    words = [trial.desk, *files.words_of_round("desk")]
    run = Run(words, trial.seconds)
    for data, count in ((b"ask a 1\nask", 1), (b" a 2\r", 0), (b"\n", 1), (b"x\ny\nz\n", 3)):
        if not run.give(data, count):
            trial.fault(f"desk: {data} has not {count} replies")
        time.sleep(0.05)
    status, printed, _ = run.end()
    if (status, printed.count(b"\n")) != (0, 5):
        trial.fault(f"desk: it ended with {status} after {printed}")
    reader, writer = os.pipe()
    os.close(reader)
    trial.refuses(5, *words[1:], input=b"ask a 1\n", stdout=writer)
    os.close(writer)


class MemoryTrial:
    """Desks with one memory, the files of the example `round`, and the model of them."""

    def __init__(self, trial, files, keys="keys-among"):
        self.trial, self.files, self.memory = trial, files, files["memory"]
        remove_memory(self.memory)
        self.keys = files[keys]
        self.model = desk_model.Desk(READERS["keys"](read(self.keys)),
                                     files.round.value("image"), files.policy)
        trial.prints(b"", "found", self.memory, "north")

    def words(self, **others):
        return *self.files.words_of_round("desk", **{"keys": self.keys, **others}), self.memory

    def serve(self, lines, **others):
        """A desk replies as the model does, and has the same states at its end."""
        self.trial.prints(self.model.replies(lines), *self.words(**others), input=lines)
        self.tells()

    def start_with(self, keys):
        """The desks from now on have this file of keys."""
        self.keys, self.model.keys = keys, READERS["keys"](read(keys))
        self.model.start(self.model.entries)

    def told(self):
        """What the memory has, None where it is none, or is in use."""
        answer = self.trial.call("states", self.memory)
        return answer.output if answer.status == 0 else None

    def tells(self):
        self.trial.prints(desk_model.states_text(self.model.entries), "states", self.memory)

    def refuses(self, status, line, *words, **options):
        """These words are refused, and the memory stays as it is."""
        before, told = os.path.exists(self.memory) and read(self.memory), self.told()
        self.trial.expect(status, line, *(words or self.words()),
                          **{"input": b"ask a 1\n", **options})
        after = os.path.exists(self.memory) and read(self.memory)
        if told is None and after != before or self.told() != told:
            self.trial.fault(f"{words}: refused, and the memory is another")

    def open_desk(self):
        """One that serves."""
        return self.trial.serving(*self.words())


def desk_memory(trial, files):
    """A desk with a memory replies as one that is never stopped, whatever its image and policy; it
    is killed a dozen times.
    """
    runs, rng = MemoryTrial(trial, files), random.Random(2)
    trial.prints(b"", *runs.words(), input=b"")
    runs.tells()
    for start in range(12):
        number = 10 * start
        runs.serve(b"".join(rng.choice((
            b"ask a %d\n", b"ask A_9 %d\n", b"give a %d " + files.desk_report(start // 2 + 1),
            b"give A_9 %d report2\n", b"ask a %d x\n", b"nonsense %d\n", b"ask b %d\n"))
            % (number + at) for at in range(1, 8)))
    runs.serve(b"ask a 200\r\nask a 200\n\n \t\nask a 201")
    count = runs.model.states[b"a"].count
    report = files.desk_report(count)
    other = files.add("policy-aux", read(files["policy"]).replace(b"exec", b"aux"))
    runs.serve(b"give a 202 " + report)
    runs.model.policy = runs.model.policy._replace(flag="aux")
    runs.serve(b"give a 203 " + report + b"ask a 204\n", policy=other)
    runs.model.image = Example("attest").value("image")
    runs.serve(b"give a 205 " + files.desk_report(count + 1), policy=other,
               image=Example("attest").file("image"))


def desk_memory_keys(trial, files):
    """A device's counter goes on under another key, what was outstanding and answered does not, and
    the old key is no other device's.
    """
    runs, key, other = MemoryTrial(trial, files, "keys"), read(files.key), b"1" * 128 + b"\n"
    runs.serve(b"ask a 1\nask a 2\n")
    runs.start_with(files.add("keys-other", b"device a " + other + b"device b " + b"2" * 128))
    runs.serve(b"ask a 2\n")
    runs.start_with(files["keys"])
    runs.serve(b"ask a 2\n")
    runs.start_with(files["keys-other"])
    runs.serve(b"give a 3 " + files.desk_report(2) + b"give a 3\nask a 4\nask b 1\n")
    for number, text in ((1, b"device b " + key), (2, b"device a " + key + b"device c " + other)):
        runs.refuses(16, TAKEN.format(number), *runs.words(keys=files.add("keys-taken", text)))
    runs.start_with(files["keys"])
    runs.serve(b"ask a 4\nask a 5\ngive a 6 " + files.desk_report(4))

    # (a report that was accepted is none under the key that came and went)
    runs.start_with(files["keys-other"])
    runs.serve(b"ask a 6\n")
    runs.start_with(files["keys"])
    runs.serve(b"give a 6\ngive a 7 " + files.desk_report(4))


def desk_memory_states(trial, files):
    """What `states` prints is remembered, in a memory that is not there yet; a desk goes on with
    it. The faults of states.
    """
    runs = MemoryTrial(trial, files)
    runs.serve(b"ask a 1\ngive A_9 1\ngive a 2 " + files.desk_report(1) + b"ask a 3\n")
    states = files.add("states-told", desk_model.states_text(runs.model.entries))
    runs.refuses(16, FOUNDED, "remember", states, runs.memory, "north")
    runs.memory = files["memory-new"]
    trial.prints(b"", "remember", states, runs.memory, "north")
    runs.tells()
    runs.serve(b"ask a 3\ngive a 4 " + files.desk_report(2))
    raised = files.add("states-raised", read(states).replace(b"count 2 ", b"count 70000 "))
    runs.memory = files["memory-raised"]
    trial.prints(b"", "remember", raised, runs.memory, "north")
    trial.prints(read(raised), "states", runs.memory)
    old = files.add("states-old", read(states).replace(b"state2", b"state").replace(
        b" moves 0", b""))
    trial.prints(b"", "remember", old, files["memory-old"], "north")
    trial.prints(read(states), "states", files["memory-old"])
    trial.prints(b"", "remember", files["empty"], files["memory-empty"], "north")
    trial.prints(b"", "states", files["memory-empty"])
    trial.finds("states", "2: Twice", "remember", files["states-twice"], files["none"], "north")
    trial.refuses(3, "remember", files["none"], files["none"], "north")
    trial.refuses(4, "adopt", files.folder, runs.memory)
    if os.path.exists(files["none"]):
        trial.fault("remember: a memory of faulty states")


def desk_moves(trial, files):
    """A device goes from one memory to another by its lines, with a second one's in the same text
    or alone; its desk then refuses it, and the other has what it was answered.
    """
    runs, south = MemoryTrial(trial, files), files["south"]
    runs.serve(b"ask a 1\nask A_9 1\ngive a 2 " + files.desk_report(1) + b"ask a 3\n")
    trial.prints(b"", "found", south, "south")
    entries, text = runs.model.entries, b""
    runs.refuses(16, OWN_DESK, "move", runs.memory, "a", "north")
    for name in (b"a", b"A_9"):
        entries, lines = desk_model.moved(entries, b"north", name, b"south")
        trial.prints(lines, "move", runs.memory, name.decode(), "south")
        text += lines
    for words, line in ((("Z", "south"), NO_DEVICE), (("a", "west"), ELSEWHERE)):
        runs.refuses(16, line, "move", runs.memory, *words)
    with open("/dev/full", "wb") as full:
        trial.refuses(5, "move", runs.memory, "a", "south", stdout=full)
        trial.refuses(5, "states", runs.memory, stdout=full)
    runs.model.start(entries)
    runs.tells()
    moved = files.add("moved-both", b"# both\r\n\n" + text)
    for _ in range(2):
        trial.prints(b"", "adopt", moved, south)
        trial.prints(desk_model.states_text(desk_model.adopted((), b"south", text)), "states",
                     south)
    trial.finds("moved", "3: Place", "adopt", moved, runs.memory)
    runs.memory = south
    runs.model.start(desk_model.adopted((), b"south", text))
    runs.serve(b"ask a 3\ngive a 4 " + files.desk_report(2) + b"ask A_9 2\n")

    # (an earlier move of a device that went on, a key under another name, the last move)
    trial.expect(0, "", "move", south, "a", "north")
    trial.finds("moved", "3: Order", "adopt", moved, south)
    other = files.add("states-z", read(files["states"]).replace(b" a ", b" z "))
    trial.prints(b"", "remember", other, files["memory-z"], "south")
    trial.finds("moved", "3: Twice", "adopt", moved, files["memory-z"])
    last = files.add("states-last", read(other).replace(b"moves 0", b"moves 4294967295"))
    trial.prints(b"", "remember", last, files["memory-last"], "north")
    trial.expect(16, AS_OFTEN, "move", files["memory-last"], "z", "south")


def desk_words(trial, files):
    """The words of the desk's commands: so many of them, and names as devices have them."""
    words_of = {name: files.words_of_round(name) for name, command in COMMANDS.items()
                if command.program == "desk_main"}
    for name, words in words_of.items():
        more = words[:-1] if name == "desk" else (*words, "x")
        for wrong in (words[:1], words[:-1], more, (name.title(), *words[1:])):
            trial.refuses(2, *wrong, input=b"ask a 1\n")
    for name in ("", "a" * 33, "a-b", "a b", "\u00e4", "a\n"):
        for command, place in (("found", 2), ("remember", 3), ("move", 2), ("move", 3)):
            words = [*words_of[command]]
            words[place] = name
            trial.refuses(2, *words)
    if os.path.exists(files["desk.db"]):
        trial.fault("a memory is made by words that are no command")


def desk_memory_files(trial, files):
    """What is no memory is refused and stays as it is, and none is made but by `found` and
    `remember`. Where a file of the desk is refused nothing is made of the memory.
    """
    runs = MemoryTrial(trial, files)
    runs.serve(b"ask a 1\n")
    for status, others in ((3, {"keys": files["none"]}), (14, {"keys": files["keys-twice"]}),
                           (8, {"image": files["empty"]}), (10, {"policy": files["empty"]})):
        if trial.call(*runs.words(**others), input=b"").status != status:
            trial.fault(f"desk: {others} with a memory: another status than {status}")
    runs.tells()
    damaged = bytearray(read(runs.memory))
    damaged[len(damaged) // 2] ^= 1
    device = "create table device (place integer primary key, name text)"
    wrong = (files["keys"], files.image, files["policy"], files["states"],
             files.add("text", b"any text\n"), files.add("damaged", bytes(damaged)),
             files.add("cut", read(runs.memory)[:-100]), *filter(None, (
                 database(files["other"], "create table other (number integer)"),
                 database(files["device"], device))))
    for name in wrong:
        copy = runs.memory = files.add("memory-wrong", read(name))
        for words in (runs.words(), ("states", copy), ("move", copy, "a", "south"),
                      ("adopt", files["moved"], copy), ("found", copy, "north"),
                      ("remember", files["states"], copy, "north")):
            runs.refuses(16, DAMAGED, *words)
    os.symlink(files["none"], files["dangling"])
    for runs.memory, line in ((files["none"], ABSENT), (files["empty"], UNFOUNDED),
                              (files["none/memory"], ABSENT), (files["dangling"], ABSENT)):
        for words in (runs.words(), ("states", runs.memory), ("move", runs.memory, "a", "south"),
                      ("adopt", files["moved"], runs.memory)):
            runs.refuses(16, line, *words)
    if os.path.exists(files["none"]):
        trial.fault("a memory is made where there is none")
    runs.memory = files["empty"]
    trial.prints(b"", "found", runs.memory, "north")
    runs.refuses(16, FOUNDED, "found", runs.memory, "north")
    runs.model.start()
    runs.serve(b"ask a 1\n")


def desk_memory_ends(trial, files):
    """A memory has one desk, by whatever name; what it can't write ends it; a reply that can't be
    written is kept.
    """
    runs, link = MemoryTrial(trial, files), files["link"]
    os.symlink(runs.memory, link)
    with runs.open_desk():
        for words in (runs.words(), (*runs.words()[:-1], link), ("states", link),
                      ("remember", files["states"], runs.memory, "north"),
                      ("found", runs.memory, "north"), ("move", link, "a", "south"),
                      ("adopt", files["moved"], link)):
            runs.refuses(*ending(17), *words)
    with open("/dev/full", "wb") as full:
        trial.refuses(5, *runs.words(), input=b"ask a 1\n", stdout=full)
    runs.model.replies(b"ask a 1\n")
    runs.tells()
    os.link(runs.memory, files["second"])
    runs.refuses(*ending(18))
    os.remove(files["second"])
    for name in (files.folder, "/dev/null"):
        trial.refuses(18, *runs.words()[:-1], name, input=b"ask a 1\n")
    for name in (files.folder, files["none/memory"], "/dev/null", ""):
        trial.refuses(18, "found", name, "north")
    trial.refuses(18, *runs.words(), input=b"ask a 2\n",
                  preexec_fn=limiting(resource.RLIMIT_FSIZE, 0))
    runs.tells()


# Cases of tools/try-memory, of each kind so many.
FEW = {"acts": 60, "kills": 30, "refused calls": 15, "changed bits": 10, "power cuts": 50,
       "left logs": 15}


def desk_memories(trial, files):
    """A few cases of each kind of tools/try-memory, and its ways."""
    kinds = [*FEW, *WAYS] if shutil.which("strace") else [
        kind for kind in FEW if kind not in BY_STRACE]
    for kind in kinds:
        with tempfile.TemporaryDirectory(prefix="check-program-", dir=QUICK) as folder:
            if kind in WAYS:
                try_way(trial, folder, kind)
            else:
                try_memory(trial, folder, random.Random(2), kind, FEW[kind])


def received(client, count):
    """So many replies from a socket, or what came before its end, or within some seconds."""
    client.settimeout(10)
    replies = b""
    with contextlib.suppress(OSError):
        while replies.count(b"\n") < count and (piece := client.recv(65536)):
            replies += piece
    return replies


BRIDGE = f"{EXAMPLES}/desk/bridge.py"


def long_line(rng):
    """A line of about the longest length, with words or without, and one of many ends."""
    length = rng.randrange(desk_model.LONGEST_LINE - 4, desk_model.LONGEST_LINE + 5)
    text = rng.choice((b" ", b"\t", b"x")) * length
    place = rng.choice((0, rng.randrange(length), length))
    word = rng.choice((b"", b"", b"x"))
    end = rng.choice((b"", b"\r", b"\r\r", b" \r", b"\r ", b"\rx"))
    return text[:place] + word + text[place + len(word):] + end + b"\n"


def bridge_lines(trial, files):
    """Of 100,000 lines of all lengths near the longest, in pieces that are cut at random, the
    bridge gives a desk those that the model has a reply to, and what it gives has this reply.
    """
    model, rng = files.desk_of_round(), random.Random(4)
    pool = [(line, model.replies(line)) for line in (long_line(rng) for _ in range(1000))]
    lines = runpy.run_path(BRIDGE)["Lines"]()
    for _ in range(5000):
        drawn, given, at = rng.choices(pool, k=20), [], 0
        text = b"".join(line for line, _ in drawn)
        while at < len(text):
            size = rng.choice((1, 65536, rng.randrange(1, 1 << 20)))
            given, at = given + lines.ended_in(text[at:at + size]), at + size
        trial.tries += 1
        answered = [(line, reply) for line, reply in drawn if reply]
        if len(given) != len(answered) or any(
                passed != line and model.replies(passed) != reply
                for passed, (line, reply) in zip(given, answered)):
            trial.fault(f"bridge: of 20 lines {len(given)} are passed on, not {len(answered)}")


class Bridge:
    """The bridge of the example, while it serves."""

    def __init__(self, trial, files, program, words):
        self.trial, self.path = trial, files["socket"]
        self.process = subprocess.Popen([BRIDGE, "--socket", self.path,
                                         "--idle", "0.5", "--program", program, *words])

    def __enter__(self):
        until = time.monotonic() + self.trial.seconds
        while not os.path.exists(self.path) and time.monotonic() < until:
            time.sleep(0.02)
        return self

    def __exit__(self, *_):
        self.process.terminate()
        self.process.wait()
        os.remove(self.path)

    def client(self):
        client = socket.socket(socket.AF_UNIX)
        client.connect(self.path)
        return client

    def asked(self, lines, count=1):
        """The replies to a client of its own."""
        with self.client() as client:
            client.sendall(lines)
            return received(client, count)

    def gives(self, lines, wanted):
        self.trial.tries += 1
        if self.asked(lines, max(1, wanted.count(b"\n"))) != wanted:
            self.trial.fault(f"bridge: other replies to {lines[:60]!r}")


LENGTHS = b"#!/bin/bash\nwhile IFS= read -r line; do echo ${#line}; done\n"


def bridge_ends(trial, files, words):
    """The bridge ends as its desk does, and it removes no file that is no socket."""
    def ends(status, line, *options, **others):
        trial.expect(status, line, *options, "--program", trial.desk, *words, command=[BRIDGE],
                     **others)

    ends(*ending(18), "--socket", files["socket"], preexec_fn=limiting(resource.RLIMIT_FSIZE, 0))
    for name, why in ((files.add("no-socket", b"kept\n"), "Address already in use"),
                      (files["none/socket"], "No such file or directory")):
        ends(1, f"bridge.py: no socket at {name}: {why}", "--socket", name)
    if read(files["no-socket"]) != b"kept\n":
        trial.fault("bridge: a file that is no socket is removed")


def desk_bridge(trial, files):
    """Each client of the bridge gets its own replies; a line without an end is none, of one that
    does not end a desk gets little, and who is silent is closed.
    """
    bridge_lines(trial, files)
    runs, lengths = MemoryTrial(trial, files), files.add("lengths", LENGTHS)
    os.chmod(lengths, 0o755)
    bridge_ends(trial, files, runs.words()[1:])
    with Bridge(trial, files, lengths, runs.words()[1:]) as bridge:
        for count in (65536, 65537, 65538, 1 << 22):
            bridge.gives(b"x" * count + b"\n", b"%d\n" % min(count, 65538))
    with Bridge(trial, files, trial.desk, runs.words()[1:]) as bridge:
        for lines in (b"ask a 1\nask A_9 1\n\n \t\r\nx\n", LONG + b"\r\nask a 2\n",
                      LONG + b"x\n", LONG + b"\rx\n", b" " * len(LONG) + b" \n",
                      b" " * len(LONG) + b"\r\n\r\r\nx\n",
                      LONG * 40 + b"\nask a 3\n"):
            bridge.gives(lines, runs.model.replies(lines))
        with bridge.client() as silent:
            silent.sendall(b"ask a 9")
            bridge.gives(b"ask a 4\n", runs.model.replies(b"ask a 4\n"))
            began = time.monotonic()
            if received(silent, 1) or time.monotonic() - began > 5:
                trial.fault("bridge: a line without its end has a reply, or its client stays")
        lines = [b"ask %s %d\n" % (name, number) for name in (b"a", b"A_9")
                 for number in range(10, 30)]
        with ThreadPoolExecutor(8) as threads:
            for line, reply in zip(lines, threads.map(bridge.asked, lines)):
                if reply.split()[1:3] != line.split()[1:]:
                    trial.fault(f"bridge: {reply!r} to {line}")


def desk_example(trial, files):
    """The example's script carries requests to two devices, and their reports back."""
    trial.prints(read(f"{EXAMPLES}/desk/expected.txt"), trial.program, trial.desk,
                 command=[f"{EXAMPLES}/desk/carry.sh"])
