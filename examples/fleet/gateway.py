#!/usr/bin/env python3
"""gateway.py [--desks N] [--rounds N] [--wait SECONDS] [--topics PREFIX] DEVICES JOURNAL PROGRAM
IMAGE..

A gateway of a fleet: carries requests from desks to devices and reports back, over a broker, until
each device has had so many accepts (0: for good). DEVICES is a folder with the key of each device,
NAME.txt. A device lives from its first request on, by `live` of PROGRAM, with the IMAGE of the desk
that serves it: of desk K the one of number K / N, from 0. Where another desk serves it, it is
powered on anew with that one's. Each second a line says what was done.

What is sent stands in JOURNAL before it is sent; what counts there is the last line of each device
and its reply, and how many accepts it had. A line without a reply is sent again after SECONDS, with
the same number, to the desk of each image in turn, as one of them has the device.
"""
import argparse
import concurrent.futures
import contextlib
import fcntl
import glob
import hashlib
import os
import queue
import re
import signal
import subprocess
import sys
import threading
import time

sys.path.append(os.path.join(os.path.dirname(os.path.realpath(__file__)), "../../python"))
import foldgneiss  # noqa: E402

LAST_NUMBER = 4294967295
LONGEST_WAIT = 8  # (so many times the first one)
PINS = 0x0017  # that its firmware reads
STEPS_BETWEEN, STEPS_AFTER = 1000, 4000  # what comes in two parts, and the attestation
VERDICTS = ("accept|no-challenge|version-differs|chal-differs|count-differs|bounds-differ|"
            "exec-zero|aux-zero|mac-differs")
# A whole reply that names a device and a line, with its numbers.
REPLY = re.compile(r"request \w+ N [0-9a-f]{64} N token [0-9a-f]{64}|bad \w+ N \w+|"
                   rf"verdict \w+ N (?:{VERDICTS})|(?:spent|stale) \w+ N"
                   .replace("N", r"(\d{1,10})"), re.ASCII)


class Device:
    """What a gateway knows of a device: its last line and reply, and who serves it."""

    def __init__(self, path):
        self.path, self.name = path, os.path.basename(path)[:-4]
        digest = hashlib.sha256(self.name.encode()).hexdigest()
        self.share = int(digest[:8], 16)  # (which of the desks of an image it has)
        self.image = self.number = self.accepts = 0
        self.line = self.reply = None
        self.life = None  # the image that it lives with, and the device
        self.gap = 1  # to the next number
        self.due = self.sends = 0  # when the line is sent again, and how often it was sent

    def note_line(self, line):
        self.line, self.reply, self.sends = line, None, 0
        self.number = int(line.split()[2])

    def note_reply(self, image, reply):
        self.image, self.reply = image, reply
        words = reply.split()
        # (as the reply to `ask` a verdict is an earlier one)
        self.accepts += words[0] == "verdict" and words[3] == "accept" and self.line[0] == "g"
        # A gateway whose journal is lost has to find a number that is not stale.
        self.gap = 2 * self.gap if words[0] == "stale" else 1

    def waits_for(self, reply):
        return self.line and not self.reply and reply.split()[1:3] == [self.name, str(self.number)]

    def next_line(self, report):
        number = self.number + self.gap
        return f"give {self.name} {number} {report}" if report else f"ask {self.name} {number}"

    def is_at_end(self):
        return self.number + self.gap > LAST_NUMBER or self.reply and self.reply[:6] == "spent "


def is_reply(text):
    match = REPLY.fullmatch(text)
    return match and all(int(number or 0) <= LAST_NUMBER for number in match.groups())


def messages(lines):
    """The topics and texts of whole lines `TOPIC HEX`. (As text a message may be many lines.)"""
    for line in lines:
        topic, _, payload = line.rpartition(" ")
        if payload.endswith("\n"):
            yield topic, bytes.fromhex(payload).decode("ascii", "replace")


def living(image, device):
    """The device as it lives with an image, powered on where it does not yet."""
    if device.life is None or device.life[0] != image:
        if device.life:
            device.life[1].close()
        device.life = image, foldgneiss.Device(image, device.path)
        device.life[1].pins(PINS)
    return device.life[1]


def told(alive, request):
    """What a device tells that is sent a request."""
    lines = alive.run(STEPS_BETWEEN)
    alive.rx(request.message[:36])
    lines += alive.run(STEPS_BETWEEN)
    alive.rx(request.message[36:])
    return lines + alive.run(STEPS_AFTER)


def attested(image, device):
    """The report of a device on the request that came; None where it makes none."""
    _, _, _, challenge, count, _, token = device.reply.split()
    request = foldgneiss.Request(bytes.fromhex(challenge), int(count), bytes.fromhex(token))
    try:
        lines = told(living(image, device), request)
    except foldgneiss.Failure as failure:
        # A process that was killed is a device whose power is cut: it lives anew.
        if failure.status >= 0:
            raise
        device.life = None
        return None
    return next((f"{line}" for line in lines if isinstance(line, foldgneiss.Report)), None)


class Journal:
    """The lines that were sent and the replies to them, in a file."""

    def __init__(self, path, devices):
        self.file = open(path, "a+")
        try:
            fcntl.flock(self.file, fcntl.LOCK_EX | fcntl.LOCK_NB)
        except OSError:
            sys.exit(f"gateway.py: another gateway has {path}")
        self.file.seek(0)
        *records, rest = self.file.read().split("\n")
        # (what was not written whole was not sent)
        self.file.truncate(self.file.tell() - len(rest))
        for record in records:
            kind, image, text = record.split(" ", 2)
            device = devices.get(text.split()[1])
            if device and kind == "line":
                device.note_line(text)
            elif device:
                device.note_reply(int(image), text)

    def add(self, kind, image, text):
        self.file.write(f"{kind} {image} {text}\n")

    def keep(self):
        self.file.flush()
        os.fsync(self.file.fileno())


class Publisher:
    """The client that sends lines to a topic, anew where it ended, but once a second at most."""

    def __init__(self, topic):
        self.words = ["mosquitto_pub", "-q", "1", "-l", "-t", topic]
        self.process, self.retry = None, 0

    def publish(self, line):
        """It may be lost, without a word."""
        now = time.monotonic()
        if (not self.process or self.process.poll() is not None) and now > self.retry:
            self.process = subprocess.Popen(self.words, stdin=subprocess.PIPE, bufsize=0)
            self.retry = now + 1
        with contextlib.suppress(BrokenPipeError):
            self.process.stdin.write(f"{line}\n".encode())


class Gateway:
    """The devices, the connections to the broker, and what comes from both."""

    def __init__(self, arguments):
        self.arguments = arguments
        paths = sorted(glob.glob(f"{arguments.devices}/*.txt"))
        self.devices = {device.name: device for device in map(Device, paths)}
        self.journal = Journal(arguments.journal, self.devices)
        self.events, self.outbox, self.publishers = queue.SimpleQueue(), [], {}
        self.players = concurrent.futures.ThreadPoolExecutor(2)
        self.lines = self.replies = self.repeats = 0
        self.subscriber = None
        threading.Thread(target=self.listen, daemon=True).start()

    # The broker.

    def listen(self):
        """Takes replies, and connects anew where the client ended."""
        topics = [f"{self.arguments.topics}/{desk}/replies"
                  for desk in range(self.arguments.desks * len(self.arguments.image))]
        words = ["mosquitto_sub", "-q", "1", "-F", "%t %x"]
        for topic in topics:
            words += ["-t", topic]
        while True:
            with subprocess.Popen(words, text=True, errors="replace",
                                  stdout=subprocess.PIPE) as self.subscriber:
                for topic, reply in messages(self.subscriber.stdout):
                    if topic in topics and is_reply(reply):
                        self.events.put((self.take_reply, topics.index(topic), reply))
            time.sleep(0.2)

    def send(self, device):
        """Sends the line; where it is lost it is sent again later."""
        images = len(self.arguments.image)
        image = (device.image + device.sends) % images
        desk = image * self.arguments.desks + device.share % self.arguments.desks
        if desk not in self.publishers:
            self.publishers[desk] = Publisher(f"{self.arguments.topics}/{desk}/lines")
        self.publishers[desk].publish(device.line)
        wait = self.arguments.wait * min(2 ** (device.sends // images), LONGEST_WAIT)
        device.due, device.sends = time.monotonic() + wait, device.sends + 1

    # A device's rounds.

    def go_on(self, device):
        """What comes after a reply, or at first."""
        if self.is_done(device):
            return
        if device.reply and device.reply.startswith("request "):
            image = self.arguments.image[device.image]
            play = self.players.submit(attested, image, device)
            play.add_done_callback(lambda done: self.events.put((self.begin, device, done)))
        else:
            self.begin(device)

    def begin(self, device, play=None):
        """A device's next line, with its report if it was played, to be kept and then sent."""
        device.note_line(device.next_line(play and play.result()))
        self.journal.add("line", device.image, device.line)
        self.outbox.append(device)
        self.lines += 1

    def take_reply(self, desk, reply):
        device = self.devices.get(reply.split()[1])
        image, share = divmod(desk, self.arguments.desks)
        if device and device.share % self.arguments.desks == share and device.waits_for(reply):
            device.note_reply(image, reply)
            self.journal.add("reply", device.image, reply)
            self.replies += 1
            self.go_on(device)

    def is_done(self, device):
        return device.is_at_end() or 0 < self.arguments.rounds <= device.accepts

    # The loop.

    def take_events(self):
        with contextlib.suppress(queue.Empty):
            call, *words = self.events.get(timeout=0.1)
            call(*words)
            while True:
                call, *words = self.events.get_nowait()
                call(*words)

    def send_lines(self):
        """Keeps the new lines and sends them, and sends again what waits too long."""
        if self.outbox:
            self.journal.keep()
        for device in self.outbox:
            self.send(device)
        self.outbox = []
        now = time.monotonic()
        for device in self.devices.values():
            if device.line and not device.reply and device.due < now:
                self.repeats += 1
                self.send(device)

    def tell(self):
        accepted = sum(map(self.is_done, self.devices.values()))
        print(f"attested {accepted} lines {self.lines} replies {self.replies} "
              f"repeats {self.repeats}", flush=True)

    def run(self):
        for device in self.devices.values():
            if not device.line or device.reply:
                self.go_on(device)
        told = 0
        while not all(map(self.is_done, self.devices.values())):
            self.take_events()
            self.send_lines()
            if time.monotonic() - told > 1:
                told = time.monotonic()
                self.tell()
        self.tell()
        self.journal.keep()
        self.stop(0)

    def stop(self, status):
        """Ends the clients of the broker, which would wait for it, and itself."""
        publishers = (publisher.process for publisher in self.publishers.values())
        for client in filter(None, (self.subscriber, *publishers)):
            client.kill()
        os._exit(status)


def main():
    parser = argparse.ArgumentParser(usage=__doc__)
    parser.add_argument("--desks", type=int, default=4)
    parser.add_argument("--rounds", type=int, default=3)
    parser.add_argument("--wait", type=float, default=5)
    parser.add_argument("--topics", default="desk")
    for name in ("devices", "journal", "program"):
        parser.add_argument(name)
    parser.add_argument("image", nargs="+")
    arguments = parser.parse_args()
    os.environ["FOLDGNEISS"] = arguments.program
    gateway = Gateway(arguments)
    signal.signal(signal.SIGTERM, lambda *_: gateway.stop(128 + signal.SIGTERM))
    gateway.run()


if __name__ == "__main__":
    main()
