"""Trials of a gateway and of the log of a fleet over a broker: messages that no desk and no gateway
sends, and clients that take the name of another.
"""
import contextlib
import os
import random
import re
import signal
import subprocess
import tempfile
import threading
import time

import desk_model
from fleet_faults import NONE
from readers import READERS
from sample_files import read
from trial import ROOT

# Messages that are no line, or more than one; what a forger writes is a record of its own.
PAYLOADS = (b"ask a 1", b"", b"x\n1 desk/0/replies verdict a 3 accept", b"\n\n", b"a\r\n", b"\0",
            bytes(range(256)), b"\\x0a", b"  two  words ", b"x" * 60000, b"ask a 2")


class Client:
    """What a user of the broker says and hears."""

    def __init__(self, fleet, user):
        self.environment = {**os.environ, "XDG_CONFIG_HOME": fleet.client(user)}

    def say(self, topic, text):
        """One message, whatever its bytes."""
        words = ["mosquitto_pub", "-q", "1", "-t", topic]
        subprocess.run([*words, "-s"] if text else [*words, "-n"], input=text, check=True,
                       timeout=20, env=self.environment)

    @contextlib.contextmanager
    def hears(self, *words, **options):
        """Programs that hear, for a while."""
        process = subprocess.Popen(words, env=self.environment, start_new_session=True, **options)
        try:
            yield process
        finally:
            os.killpg(process.pid, signal.SIGKILL)
            process.wait()


def wrong_replies(topic, other, line, right):
    """Messages that a gateway passes over: the topic of each, and its text."""
    name, number = line.split()[1:3]
    digits = b"0" * 64
    for count in (b"4294967296", b"9" * 10, b"9" * 5000):
        yield topic, b"request %s %s %s %s token %s" % (name, number, digits, count, digits)
    yield topic, b"x\n%s verdict %s %s accept\n" % (topic.encode(), name, number)
    yield other, b"verdict %s %s mac-differs" % (name, number)
    for text in (b"verdict %s %s accepted" % (name, number), right + b" x", b"", b"\xff", b"\0"):
        yield topic, text


class WrongDesk:
    """Answers each new line as the model of a desk, behind replies that are none."""

    def __init__(self, client, model):
        self.client, self.model, self.replies = client, model, {}

    def serve(self, messages):
        for message in messages:
            topic, text = message.decode().split()
            self.answer(topic.replace("lines", "replies"), bytes.fromhex(text))

    def answer(self, topic, line):
        if line in self.replies:
            return
        right = self.replies[line] = self.model.reply(line).rstrip(b"\n")
        other = topic.translate({ord("0"): "1", ord("1"): "0"})  # (of the other desk)
        for place, text in wrong_replies(topic, other, line, right):
            self.client.say(place, text)
        self.client.say(topic, right)


def gateway_replies(trial, fleet):
    """A gateway goes on after each wrong reply, and takes the right ones alone."""
    (name, key), = fleet.keys.items()
    gateway = fleet.gateways[0]
    words = ["2" if word == "0" and before == "--rounds" else word
             for before, word in zip([None, *gateway.words], gateway.words)]
    policy = READERS["policy"](read(f"{fleet.desks[0].words[1]}/policy.txt"))
    image = READERS["image"](read(f"{fleet.desks[0].words[1]}/image.hex"))
    client = Client(fleet, "network")
    desk = WrongDesk(client, desk_model.Desk({name: key}, image, policy))
    lines = ("mosquitto_sub", "-q", "1", "-t", "field/+/lines", "-F", "%t %x")
    with client.hears(*lines, stdout=subprocess.PIPE) as heard:
        threading.Thread(target=desk.serve, args=(heard.stdout,), daemon=True).start()
        time.sleep(1)
        answer = trial.call(*words[1:], command=[words[0]], env=gateway.environment)
    taken = [record.split(b" ", 2)[2] for record in read(fleet.journals[0]).splitlines()
             if record.startswith(b"reply ")]
    if answer.status or taken != [*desk.replies.values()] or len(taken) != 4:
        trial.fault(f"gateway: {answer}: it took {taken}, not {desk.replies}")


def log_lines():
    """The lines of docs/fleet.md that keep the log, for a repository that lies here."""
    page = read(f"{ROOT}/docs/fleet.md").decode()
    block = re.search("(?:^    .*\n)+", page[page.index("a log of all lines"):], re.M)[0]
    return block.replace("/opt/foldgneiss", ROOT)


def log_records(trial, fleet):
    """The log has a record for each message, also where another client calls itself `log`."""
    folder, network = f"{fleet.folder}/log", Client(fleet, "network")
    log, forger = Client(fleet, "log"), Client(fleet, "gateway")
    os.mkdir(folder)
    os.symlink(fleet.client("log"), f"{folder}/client")
    with log.hears("bash", "-c", log_lines(), cwd=folder):
        time.sleep(1)
        with forger.hears("mosquitto_sub", "-c", "-i", "log", "-t", "desk/+/replies",
                          stdout=subprocess.DEVNULL):
            time.sleep(1)
            for payload in PAYLOADS:
                trial.tries += 1
                network.say("desk/0/lines", payload)
            until = time.monotonic() + trial.seconds
            while read_log(folder).count(b"\n") < len(PAYLOADS) and time.monotonic() < until:
                time.sleep(0.1)
    records = [line.split(b" ", 2) for line in read_log(folder).split(b"\n")[:-1]]
    said = [re.sub(rb"\\x(..)", lambda digits: bytes.fromhex(digits[1].decode()), text)
            for _, _, text in records]
    if said != [*PAYLOADS] or {topic for _, topic, _ in records} != {b"desk/0/lines"}:
        trial.fault(f"the log of a fleet has {records}")


def read_log(folder):
    name = f"{folder}/fleet.log"
    return read(name) if os.path.exists(name) else b""


def fleet_messages(trial, new_fleet):
    """A broker with one device, a gateway and a log; the function makes a fleet in a folder."""
    with tempfile.TemporaryDirectory(prefix="check-program-") as folder:
        fleet = new_fleet(trial, folder, random.Random(1), NONE, devices=1, gateways=1)
        fleet.broker.start()
        time.sleep(1)
        try:
            gateway_replies(trial, fleet)
            log_records(trial, fleet)
        finally:
            fleet.broker.stop()
