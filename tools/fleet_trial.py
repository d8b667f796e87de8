"""Trials of a fleet: broker, desks and gateways that are killed and started again, and a network
that loses, doubles and delays messages, while devices move from the desks of one image to those of
another.
"""
import contextlib
import itertools
import os
import pwd
import random
import shutil
import signal
import socket
import subprocess
import sys
import tempfile
import threading
import time

from fleet_faults import NONE
from fleet_ledger import Ledger
from fleet_messages_trial import fleet_messages
from fleet_parties import DESKS, PATH, Network, Party
from sample_files import EXAMPLES, read, write
from trial import random_bytes

IMAGES = (f"{EXAMPLES}/sensor", f"{EXAMPLES}/fleet/next")
COPIED = ("acl.txt", "desk.sh", "gateway.py", "move.sh")
TOOLS = ("mosquitto", "mosquitto_sub", "mosquitto_pub", "mosquitto_passwd", "flock")
CALM = 90  # seconds for the last rounds, once nothing is killed any more
WAIT = "1"  # seconds after which a gateway sends a line again


def missing_tools():
    return [tool for tool in TOOLS if not shutil.which(tool, path=PATH)]


def free_port():
    with socket.socket() as listener:
        listener.bind(("127.0.0.1", 0))
        return listener.getsockname()[1]


class Fleet:
    """All parties, with the scripts of examples/fleet."""

    def __init__(self, trial, folder, rng, plant, devices=24, gateways=2):
        self.trial, self.folder, self.rng, self.plant = trial, folder, rng, plant
        self.port, self.wrong_before = free_port(), trial.wrong
        for name in COPIED:
            plant.copy(f"{EXAMPLES}/fleet/{name}", f"{folder}/{name}")
        self.keys = {b"meter_%d" % number: random_bytes(rng, 64) for number in range(devices)}
        self.ledger = Ledger(trial.fault, self.keys, IMAGES)
        self.make_users(["gateway", "network", "log", *map(str, range(2 * DESKS))])
        self.desks = [self.make_desk(number) for number in range(2 * DESKS)]
        self.journals, self.network = [], None
        self.gateways = [self.make_gateway(number, gateways) for number in range(gateways)]
        self.broker = Party(self, "broker", ["mosquitto", "-c", self.broker_file()])
        self.parties = [self.broker, *self.desks, *self.gateways]

    # Its files.

    def client(self, user):
        return f"{self.folder}/client-{user}"

    def make_users(self, users):
        write(f"{self.folder}/passwords", b"")
        for user in users:
            password = random_bytes(self.rng, 16).hex()
            subprocess.run(["mosquitto_passwd", "-b", f"{self.folder}/passwords", user, password],
                           check=True, stderr=subprocess.DEVNULL, env={**os.environ, "PATH": PATH})
            os.mkdir(self.client(user))
            for tool in ("mosquitto_sub", "mosquitto_pub"):
                write(f"{self.client(user)}/{tool}",
                      f"-h 127.0.0.1\n-p {self.port}\n-u {user}\n-P {password}\n".encode())

    def broker_file(self):
        """Gateways have topics of their own, and the network carries from those to the desks'."""
        rights = read(f"{self.folder}/acl.txt").replace(b"topic write desk/+/lines",
                                                        b"topic write field/+/lines")
        rights = rights.replace(b"topic read desk/+/replies", b"topic read field/+/replies")
        rights += (b"\nuser network\ntopic read field/+/lines\ntopic write desk/+/lines\n"
                   b"topic read desk/+/replies\ntopic write field/+/replies\n")
        write(f"{self.folder}/acl.txt", rights)
        return write(f"{self.folder}/mosquitto.conf", read(f"{EXAMPLES}/fleet/mosquitto.conf") + (
            f"listener {self.port} 127.0.0.1\npassword_file {self.folder}/passwords\n"
            f"acl_file {self.folder}/acl.txt\n"
            f"user {pwd.getpwuid(os.getuid()).pw_name}\n").encode())

    def key_lines(self, names):
        return b"".join(b"device %s %s\n" % (name, self.keys[name].hex().encode())
                        for name in names)

    def names_of(self, share):
        return [name for name in self.keys if self.ledger.share(name) % DESKS == share]

    def make_desk(self, number):
        """Those of the first image have all devices at first."""
        image, share = divmod(number, DESKS)
        folder = f"{self.folder}/desk_{number}"
        os.mkdir(folder)
        self.trial.prints(b"", "found", f"{folder}/memory", f"desk_{number}")
        names = [] if image else self.names_of(share)
        write(f"{folder}/keys.txt", self.key_lines(names))
        shutil.copy(f"{IMAGES[image]}/image.hex", folder)
        policy = read(f"{IMAGES[image]}/policy.txt")
        write(f"{folder}/policy.txt", b"".join(
            line for line in policy.splitlines(True) if not line.startswith(b"ask ")))
        words = [f"{self.folder}/desk.sh", folder, str(number), self.trial.desk]
        return Party(self, f"desk_{number}", words, str(number))

    def make_gateway(self, number, gateways):
        folder = f"{self.folder}/gateway-{number}"
        os.makedirs(f"{folder}/devices")
        for name, key in itertools.islice(self.keys.items(), number, None, gateways):
            write(f"{folder}/devices/{name.decode()}.txt", key.hex().encode())
        self.journals.append(f"{folder}/journal")
        words = [f"{self.folder}/gateway.py", "--desks", str(DESKS), "--rounds", "0", "--wait",
                 WAIT, "--topics", "field", f"{folder}/devices", f"{folder}/journal",
                 self.trial.debugger, *(f"{image}/image.hex" for image in IMAGES)]
        return Party(self, f"gateway-{number}", words, "gateway")

    # A run.

    def look_after(self):
        for party in self.parties:
            party.look_after(self.rng, time.monotonic())

    def kill_some(self):
        """Kills a party, most often a desk or a gateway, the broker less often; or trespasses."""
        weights = [2, *(4 for _ in self.desks), *(4 for _ in self.gateways)]
        party, = self.rng.choices(self.parties, weights)
        chance = self.rng.random()
        if chance < 0.1:
            self.network.subscriber.kill()
        elif chance < 0.2:
            self.trespass()
        elif not party.is_held:
            party.kill_some(self.rng)
        self.trial.tries += 1

    def trespass(self):
        """A user says what it may not, so that nobody hears it."""
        user, topic, text = self.rng.choice((
            ("gateway", "desk/0/replies", "verdict meter_1 1 accept"),
            ("gateway", "field/1/replies", "verdict meter_2 2 mac-differs"),
            ("0", "desk/2/replies", "verdict meter_3 1 accept"),
            ("0", "desk/1/lines", "ask meter_4 4294967295")))
        with contextlib.suppress(subprocess.TimeoutExpired):
            subprocess.run(["mosquitto_pub", "-q", "1", "-t", topic, "-m", text], timeout=2,
                           env={**os.environ, "XDG_CONFIG_HOME": self.client(user)},
                           stderr=subprocess.DEVNULL, check=False)

    def disturb(self, seconds):
        """Kills parties, and moves all devices meanwhile."""
        self.network = Network(self, self.rng)
        mover = threading.Thread(target=Mover(self).move_all, args=(seconds,), daemon=True)
        mover.start()
        end, next_kill = time.monotonic() + seconds, time.monotonic() + 2
        while time.monotonic() < end or mover.is_alive():
            self.look_after()
            if next_kill < time.monotonic() < end:
                self.kill_some()
                next_kill = time.monotonic() + self.rng.uniform(0.05, 0.8)
            time.sleep(0.02)

    def calm_down(self):
        """Until each device was accepted once more, by the desk of the new image, or a fault."""
        self.network.is_bad = False
        begin, until = dict(self.ledger.numbers), time.monotonic() + CALM
        waiting = [*self.keys]
        while waiting and time.monotonic() < until and not self.is_wrong():
            self.look_after()
            waiting = [name for name in waiting if not self.ledger.is_accepted_after(
                name, begin.get(name, 0), len(IMAGES) - 1)]
            time.sleep(0.1)
        if waiting and not self.is_wrong():
            self.trial.fault(f"not accepted in the end: {b' '.join(waiting).decode()}")

    def is_wrong(self):
        return self.trial.wrong > self.wrong_before

    def end(self):
        for party in reversed(self.parties):
            party.stop()
        if self.network:
            self.network.end()

    def check(self):
        """What the gateways took and the memories have is what the lines lead to."""
        for journal in self.journals:
            self.ledger.add_journal(read(journal))
        expected = self.ledger.check()
        for number, desk in enumerate(self.desks):
            states = self.trial.call("states", f"{desk.words[1]}/memory")
            if states.status:
                self.trial.fault(f"{desk.name}: states: {states}")
            names = self.names_of(number % DESKS)
            if number >= DESKS:
                self.ledger.check_states(states.output, names, expected)
            else:
                self.ledger.check_gone(states.output, names, f"desk_{number + DESKS}")


class Mover:
    """Moves all devices from the desks of the first image to those of the second, some of them back
    and once more, by calls of move.sh that are killed.
    """

    def __init__(self, fleet):
        self.fleet, self.rng = fleet, random.Random(fleet.rng.random())

    def moves(self, size=6):
        """From which desk to which, and the devices."""
        batches = []
        for share in range(DESKS):
            names = self.fleet.names_of(share)
            self.rng.shuffle(names)
            batches += [(share, names[at:at + size]) for at in range(0, len(names), size)]
        self.rng.shuffle(batches)
        for share, names in batches:
            there, back = (share, DESKS + share, names), (DESKS + share, share, names)
            yield from self.rng.choice(([there], [there], [there, back, there]))

    def move_all(self, seconds):
        try:
            moves, start = [*self.moves()], time.monotonic()
            for number, move in enumerate(moves):
                due = start + seconds * number / len(moves)
                time.sleep(max(0, due - time.monotonic()))
                desks, batch = self.move(f"{self.fleet.folder}/batch-{number}.txt", *move)
            time.sleep(3)  # (and the last call once more, when the new desk has served them)
            while not self.try_move(desks, batch):
                pass
        except Exception as error:  # (a thread's own would be lost)
            self.fleet.trial.fault(f"the move of devices ended: {error!r}")

    def move(self, batch, source, target, names):
        """Until a call went well, and sometimes once more, when the other desk has served them."""
        desks = [self.fleet.desks[number] for number in (source, target)]
        write(batch, self.fleet.key_lines(names))
        while not self.try_move(desks, batch):
            pass
        if self.rng.random() < 0.5:
            time.sleep(self.rng.uniform(1, 3))
            self.try_move(desks, batch)
        self.hold(desks, False)
        return desks, batch

    def try_move(self, desks, batch):
        """Whether a call went well. Between two calls the desks serve, or not."""
        self.hold(desks, True)
        status = self.call([f"{self.fleet.folder}/move.sh", *(desk.words[1] for desk in desks),
                            batch, self.fleet.trial.desk])
        self.hold(desks, True)
        if status == 0 or self.rng.random() < 0.5:
            self.hold(desks, False)
            time.sleep(self.rng.uniform(0.1, 0.6))
        return status == 0

    def hold(self, desks, is_held):
        for desk in desks:
            if is_held:
                desk.stop()
            desk.is_held = is_held

    def call(self, words):
        """The status of a call, which is killed at a random moment, or not."""
        party = Party(self.fleet, "move", words)
        party.start()
        end = time.monotonic() + (self.rng.uniform(0, 0.5) if self.rng.random() < 0.6 else 60)
        while party.is_running() and time.monotonic() < end:
            time.sleep(0.005)
        status = party.kill_all()
        if status not in (0, -signal.SIGKILL):
            self.fleet.trial.fault(f"move.sh: status {status}: {read(party.log)[-200:]!r}")
        self.fleet.trial.tries += 1
        return status


# A client that is killed in the midst of a line.
HALF_LINE = b"#!/bin/bash\nprintf 'ask a 1\\nask A_9 1'\nsleep 0.5\nkill -9 $$\n"


def desk_folder(trial, files, name, keys):
    """A folder for desk.sh and move.sh."""
    folder = files[name]
    os.mkdir(folder)
    trial.prints(b"", "found", f"{folder}/memory", name)
    write(f"{folder}/keys.txt", keys)
    shutil.copy(files["policy"], f"{folder}/policy.txt")
    shutil.copy(files.round.file("image"), f"{folder}/image.hex")
    return folder


def half_line(trial, files):
    """A line that its client did not write whole has no reply, and spends no number."""
    folder = desk_folder(trial, files, "desk", read(files["keys-among"]))
    for name, text in {"mosquitto_sub": HALF_LINE,
                       "mosquitto_pub": b"#!/bin/bash\nexec cat >replies.txt\n"}.items():
        os.chmod(write(f"{folder}/{name}", text), 0o755)
    answer = trial.call(folder, "0", trial.desk,
                        command=["env", f"PATH={folder}:{PATH}", f"{EXAMPLES}/fleet/desk.sh"])
    replies = read(f"{folder}/replies.txt").splitlines()
    states = trial.call("states", f"{folder}/memory").output
    if (answer.status, len(replies), states.count(b"\n")) != (128 + signal.SIGKILL, 1, 1):
        trial.fault(f"fleet: half a line is answered: {answer}, {replies}, {states}")


def moves(trial, files):
    """A device moves once, from the desk that has it, and never into a second one."""
    device, other_device = b"device a " + read(files.key), b"device b " + b"1" * 128 + b"\n"
    first, second, other = (desk_folder(trial, files, name, keys) for name, keys in {
        "first": device + other_device, "second": b"", "other": b"# none\n"}.items())

    def move(status, line, *folders):
        return trial.expect(status, line, *folders, files.add("batch", device + other_device),
                            trial.desk, command=[f"{EXAMPLES}/fleet/move.sh"])

    move(2, f"move.sh: {other} has not a b", other, second)
    move(3, f"move.sh: there is no {files['none']}/keys.txt", first, files["none"])
    trial.expect(0, "", "desk", f"{first}/keys.txt", f"{first}/image.hex",
                 f"{first}/policy.txt", f"{first}/memory", input=b"ask a 1\n")
    states = trial.call("states", f"{first}/memory").output
    move(0, "", first, second)
    move(0, "", first, second)
    move(2, f"move.sh: {first} has not a b", first, other)
    trial.prints(states.replace(b"moves 0", b"moves 1"), "states", f"{second}/memory")
    write(f"{first}/keys.txt", device)
    move(2, "move.sh: both desks have a", first, second)
    write(f"{first}/keys.txt", b"")
    move(0, "", second, first)
    trial.prints(states.replace(b"moves 0", b"moves 2"), "states", f"{first}/memory")
    if [read(f"{each}/keys.txt").strip() for each in (first, second)] != [
            (device + other_device).strip(), b""]:
        trial.fault("move.sh: other keys than those that moved")


def fleet(trial, files):
    """A desk between its clients, moves, the example with fewer devices, messages that nobody
    should send, and ten seconds of tools/try-fleet.
    """
    half_line(trial, files)
    moves(trial, files)
    if missing := missing_tools():
        print(f"{trial.name}: a fleet is not tried: no {', '.join(missing)}")
        return
    text = trial.expect(0, "run.sh: making the keys of 30 devices", trial.debugger, trial.desk,
                        command=["env", "DEVICES=30", f"PORT={free_port()}",
                                 f"{EXAMPLES}/fleet/run.sh"])
    if not text.endswith(b"\n30 of 30 devices have three accepts\n"):
        trial.fault(f"fleet: {text[-200:]!r}")
    fleet_messages(trial, Fleet)
    with tempfile.TemporaryDirectory(prefix="check-program-") as folder:
        try_fleet(trial, folder, random.Random(1), 10, NONE)


def try_fleet(trial, folder, rng, seconds, plant):
    """So many seconds of kills, and then an end in calm."""
    signal.signal(signal.SIGTERM, lambda *_: sys.exit(128 + signal.SIGTERM))
    fleet = Fleet(trial, folder, rng, plant)
    try:
        fleet.disturb(seconds)
        fleet.calm_down()
    finally:
        fleet.end()
    fleet.check()
    return fleet.ledger.counts_text()
