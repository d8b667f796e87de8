"""The parties of a fleet: programs in process groups of their own, and the network between them."""
import contextlib
import heapq
import itertools
import os
import queue
import signal
import subprocess
import threading
import time

from sample_files import read
from trial import ROOT

DESKS = 2  # for each image
PACKAGE = f"{ROOT}/python"  # by which a gateway has its devices live
PATH = f"{os.environ['PATH']}:/usr/sbin"


class Party:
    """A program of the fleet with its children, in a process group of their own."""

    def __init__(self, fleet, name, words, user=None):
        self.name, self.words = name, words
        self.environment = {**os.environ, "PATH": PATH, "PYTHONPATH": PACKAGE}
        if user:
            self.environment["XDG_CONFIG_HOME"] = fleet.client(user)
        self.log, self.lock = f"{fleet.folder}/{name}.log", threading.RLock()
        self.process, self.is_held, self.next_start = None, False, 0

    def start(self):
        with open(self.log, "ab") as log:
            self.process = subprocess.Popen(
                self.words, env=self.environment, stdin=subprocess.DEVNULL, stdout=log, stderr=log,
                start_new_session=True)

    def is_running(self):
        """Whether it has not ended. (Its id stays its own until kill_all.)"""
        return self.process and not os.waitid(os.P_PID, self.process.pid,
                                              os.WEXITED | os.WNOHANG | os.WNOWAIT)

    def members(self):
        """The ids of those that live."""
        found = []
        for pid in filter(str.isdigit, os.listdir("/proc") if self.process else ()):
            with contextlib.suppress(OSError):
                state, _, group = read(f"/proc/{pid}/stat").rpartition(b")")[2].split()[:3]
                if state != b"Z" and int(group) == self.process.pid:
                    found.append(int(pid))
        return sorted(found)

    def kill_all(self):
        """Kills the group, and waits until none of it lives; its status."""
        with self.lock:
            while self.members():
                os.killpg(self.process.pid, signal.SIGKILL)
                time.sleep(0.01)
            process, self.process = self.process, None
            return process and process.wait()

    def kill_some(self, rng):
        """Kills one of the group, or all."""
        with self.lock:
            members = self.members()
            if members and rng.random() < 0.7:
                with contextlib.suppress(ProcessLookupError):
                    os.kill(rng.choice(members), signal.SIGKILL)
            else:
                self.kill_all()

    def stop(self):
        """Ends it for a while."""
        self.is_held = True
        self.kill_all()

    def look_after(self, rng, now):
        """Starts it again some time after its end, and ends what is left of it."""
        with self.lock:
            if self.is_held or self.is_running():
                self.next_start = 0
            elif not self.next_start:
                self.kill_all()
                self.next_start = now + rng.choice((0, rng.uniform(0, 0.8)))
            elif self.next_start < now:
                self.kill_all()  # (it may have been started and killed since the last look)
                self.start()


class Network:
    """Carries lines from gateways to desks and replies back: some are lost, some come twice, and
    some late.
    """

    def __init__(self, fleet, rng):
        self.fleet, self.rng, self.is_bad, self.is_over = fleet, rng, True, False
        self.environment = {**os.environ, "XDG_CONFIG_HOME": fleet.client("network")}
        self.messages, self.publishers, self.subscriber = queue.SimpleQueue(), {}, None
        self.threads = [threading.Thread(target=call, daemon=True)
                        for call in (self.listen, self.carry)]
        for thread in self.threads:
            thread.start()

    def listen(self):
        words = ["mosquitto_sub", "-q", "1", "-v", "-t", "field/+/lines", "-t", "desk/+/replies"]
        while not self.is_over:
            self.subscriber = subprocess.Popen(words, env=self.environment, stdout=subprocess.PIPE,
                                               stderr=subprocess.DEVNULL)
            for message in self.subscriber.stdout:
                topic, _, text = message.rstrip(b"\n").partition(b" ")
                self.messages.put((topic.decode(), text))
            self.subscriber.wait()
            time.sleep(0.1)

    def delays(self):
        """When a message comes, for each of its copies."""
        if not self.is_bad:
            return [0]
        copies = self.rng.choices((0, 1, 2, 3), (5, 70, 20, 5))[0]
        return [self.rng.choice((0, 0, self.rng.uniform(0, 2))) for _ in range(copies)]

    def carry(self):
        waiting, order = [], itertools.count()
        while not self.is_over:
            with contextlib.suppress(queue.Empty):
                topic, text = self.messages.get(timeout=0.02)
                if topic.endswith("/replies"):
                    self.fleet.ledger.note_reply(int(topic.split("/")[1]) // DESKS, text)
                for delay in self.delays():
                    heapq.heappush(waiting, (time.monotonic() + delay, next(order), topic, text))
            while waiting and waiting[0][0] <= time.monotonic():
                _, _, topic, text = heapq.heappop(waiting)
                place, rest = topic.split("/", 1)
                if place == "field":
                    self.fleet.ledger.take_line(text)
                self.publish(f"{'desk' if place == 'field' else 'field'}/{rest}", text)

    def publish(self, topic, text):
        publisher = self.publishers.get(topic)
        if not publisher or publisher.poll() is not None:
            publisher = self.publishers[topic] = subprocess.Popen(
                ["mosquitto_pub", "-q", "1", "-l", "-t", topic], env=self.environment,
                stdin=subprocess.PIPE, stderr=subprocess.DEVNULL, bufsize=0)
        with contextlib.suppress(BrokenPipeError):
            publisher.stdin.write(text + b"\n")

    def end(self):
        self.is_over = True
        for thread in self.threads:
            while thread.is_alive():
                self.kill_clients()
                thread.join(0.05)
        self.kill_clients()

    def kill_clients(self):
        for process in filter(None, (self.subscriber, *self.publishers.values())):
            process.kill()
            process.wait()
