"""Trials of what a debugger's client meets at the ends of a session: programs that are yet to be
made, a file that is at fault, what is refused, a run that is interrupted, and a client that goes in
its midst.
"""
import os
import signal
import socket
import subprocess
import time

from packet_model import packet
from pass_packets import REFUSALS
from reference import fault_ending

# A notification, which is no packet and has no reply.
KEPT = b"%" + packet(b"Making:")[1:]
# How soon a call ends, and how soon a program has to be gone once nobody reads it: a fifth of a
# second, and more on a machine that has other work.
SOON, GONE = 10.0, 2.0
# A run that takes some three seconds, and on such a machine as many times more: to the last step,
# with all watches and breakpoints, which are not met.
FIRST = b"".join([*(packet(b"Z2,%x,2" % (0x3e0 + 2 * at)) for at in range(16)),
                  *(packet(b"Z0,%x,2" % (0x300 + 2 * at)) for at in range(64)), packet(b"c")])


class Client:
    """A client at the socket of the script's debugger."""

    def __init__(self, repository, *words):
        self.ours, theirs = socket.socketpair()
        self.ours.settimeout(SOON)
        self.ran = subprocess.Popen([f"{repository.root}/foldgneiss", "debug", *words],
                                    stdin=theirs, stdout=theirs, stderr=subprocess.PIPE,
                                    cwd=repository.root, env=repository.environment,
                                    start_new_session=True)
        theirs.close()

    def rest(self, taken):
        """What is put after these bytes, up to the end; None where there is none, or a reset. The
        notifications in it are counted, and left out.
        """
        put = b""
        try:
            if taken:
                self.ours.sendall(taken)
            while piece := self.ours.recv(65536):
                put += piece
        except (BrokenPipeError, ConnectionResetError, TimeoutError):
            return None
        self.kept = put.count(KEPT)
        return put.replace(KEPT, b"")

    def go(self):
        """What is put once a run that takes some seconds has begun."""
        self.ours.sendall(FIRST)
        put = b""
        while put.count(b"$OK#9a") < 80:
            put += self.ours.recv(65536)
        return put

    def end(self):
        """The status and the lines of the script, which has to end soon."""
        self.ours.close()
        try:
            lines = self.ran.communicate(timeout=SOON)[1].decode()
        except subprocess.TimeoutExpired:
            os.killpg(self.ran.pid, signal.SIGKILL)
            lines = self.ran.communicate()[1].decode()
        return self.ran.returncode, lines


def unmade(trial, files, repository):
    """Where the programs are yet to be made a client is kept by notifications, and then answered;
    where they cannot be made the connection is closed, and the call tells why.
    """
    trial.tries += 2
    repository.environment["RT_LINE"] = "main.rt:1: no"
    client = Client(repository, *files.letter)
    put = client.rest(packet(b"?"))
    status, lines = client.end()
    if (put, status) != (b"", 125) or "do not compile" not in lines:
        trial.fault(f"./foldgneiss debug, not to be made: {put}, {status}, {lines}")
    del repository.environment["RT_LINE"]
    repository.environment["RT_SECONDS"] = "2.5"
    client = Client(repository, *files.letter)
    put = client.rest(packet(b"?") + packet(b"k"))
    status, lines = client.end()
    if (put, status) != (b"+" + packet(b"T05") + b"+", 0) or client.kept < 4:
        trial.fault(f"./foldgneiss debug, unmade: {put}, {status}, {lines}, kept {client.kept}")


def refusals(trial, files, repository):
    """What is refused is told in words, of which GDB has none."""
    trial.tries += 1
    client = Client(repository, *files.letter)
    put = client.rest(packet(b"M300,1:05") + packet(b"vKill;1") + packet(b"k"))
    status, lines = client.end()
    if (put, status) != (b"+" + packet(b"E01") + b"+" + packet(b"") + b"+", 0) \
            or [lines.count(why.decode()) for _, why in REFUSALS] != [1, 1]:
        trial.fault(f"./foldgneiss debug, refused: {put}, {status}, {lines}")


def is_gone(word):
    """Whether no process has this word among its own."""
    for number in filter(str.isdigit, os.listdir("/proc")):
        try:
            with open(f"/proc/{number}/cmdline", "rb") as words:
                if word.encode() in words.read().split(b"\0"):
                    return False
        except OSError:  # (it has ended)
            pass
    return True


def ends(trial, files, repository):
    """A file at fault is told, and the connection closed; and without a client no run goes on."""
    trial.tries += 2
    status, line = fault_ending("image", "1: NoColon")
    client = Client(repository, files.add("faulty.hex", b"x\n"), files.script, files.key)
    put = client.rest(packet(b"?"))
    ended, lines = client.end()
    if (put, ended) != (b"", status) or not lines.startswith(f"{line}\n"):
        trial.fault(f"./foldgneiss debug, a faulty image: {put}, {ended}, {lines}")
    image = files.add("going.hex", files.letter_image())
    client = Client(repository, image, files.script, files.key)
    client.go()
    client.ours.close()
    begun = time.monotonic()
    while not is_gone(image) and time.monotonic() - begun < GONE:
        time.sleep(0.05)
    if not is_gone(image):
        trial.fault("./foldgneiss debug: the program runs on without its client")
    client.end()


def interrupted(trial, files, repository):
    """Ctrl-C stops a run, and so does the end of all that the client says."""
    trial.tries += 2
    client = Client(repository, files.add("going.hex", files.letter_image()), files.script,
                    files.key)
    put = client.go()
    begun = time.monotonic()
    client.ours.sendall(b"\x03")
    while not put.endswith(b"$T02#b6") and time.monotonic() - begun < GONE:
        put += client.ours.recv(65536)
    if not put.endswith(b"$T02#b6"):
        trial.fault(f"./foldgneiss debug, interrupted: {put}")
    client.ours.sendall(packet(b"c"))
    client.ours.shutdown(socket.SHUT_WR)
    put = client.rest(b"")
    ended = client.end()
    if (put, ended) != (b"+$T02#b6", (0, "")):
        trial.fault(f"./foldgneiss debug, at the end of its input: {put}, {ended}")
