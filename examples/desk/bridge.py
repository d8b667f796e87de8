#!/usr/bin/env python3
"""bridge.py [--socket PATH] [--idle SECONDS] [--program PROGRAM] KEYS IMAGE POLICY MEMORY

One desk for all who connect to a socket: that of systemd, or else one that is made at PATH, where
there may be nothing but a socket of before. Each client has its lines answered in their order, and
sees no reply of another. A line without its end is none, and one without words has no reply. Of a
longer line than a desk takes the desk gets no more than it needs to say `too-long`. A client that
sends nothing for SECONDS, 60 if none are named, is closed, and so is one that does not take its
replies. The status is that of the desk, which PROGRAM runs, ./foldgneiss if none is named, or 1
where no socket can be made.
"""
import argparse
import collections
import contextlib
import os
import queue
import socket
import stat
import subprocess
import sys
import threading

FOLDGNEISS = f"{os.path.dirname(os.path.realpath(__file__))}/../../foldgneiss"
LONGEST = 65536  # (of a line without its end, which is LF or CRLF)
PIECE = 65536
MOST_CLIENTS = 64


class Desk:
    """The desk, and who waits for its replies, in their order."""

    def __init__(self, words):
        # (With the signals that Python ignores, a file past its limit is a fault of writing.)
        self.process = subprocess.Popen(words, stdin=subprocess.PIPE, stdout=subprocess.PIPE,
                                        restore_signals=False)
        self.lock, self.waiting = threading.Lock(), collections.deque()

    def replies(self, lines):
        """The replies to lines each of which has one."""
        answers = queue.SimpleQueue()
        with self.lock:
            self.waiting.extend([answers] * len(lines))
            self.process.stdin.write(b"".join(lines))
            self.process.stdin.flush()
        return b"".join(answers.get() for _ in lines)

    def hand_out(self):
        """Hands out its replies until it ends; its status."""
        for reply in self.process.stdout:
            self.waiting.popleft().put(reply)
        return self.process.wait()


class Lines:
    """The lines of a client, cut from what it sends as a desk does."""

    def __init__(self):
        self.rest = b""

    def ended_in(self, data):
        """Those that end in what it sends next and have a reply."""
        # (one byte more than a line and a CR may have, and it is too long)
        *lines, self.rest = (line[:LONGEST + 2] for line in (self.rest + data).split(b"\n"))
        return [line + b"\n" for line in lines if has_reply(line)]


def has_reply(line):
    """Whether it has words, or is too long; one CR before LF is of its end, and no other is."""
    length = len(line) - line.endswith(b"\r")
    return length > LONGEST or line[:length].strip(b" \t") != b""


def serve(desk, client, idle):
    """Serves a client until it ends, or is silent for so many seconds."""
    lines = Lines()
    with client, contextlib.suppress(OSError):
        client.settimeout(idle)
        while data := client.recv(PIECE):
            if ended := lines.ended_in(data):
                client.sendall(desk.replies(ended))


def take_clients(desk, path, idle):
    """Serves so many clients at once, and lets others wait, once the desk serves."""
    desk.replies([b"ready\n"])  # (`refused`, as it is of no device)
    try:
        listener, places = listening(path), threading.Semaphore(MOST_CLIENTS)
    except OSError as error:
        print(f"bridge.py: no socket at {path}: {error.strerror}", file=sys.stderr)
        os._exit(1)  # (the desk reads the end of its input)

    def run(client):
        serve(desk, client, idle)
        places.release()

    while places.acquire():
        client, _ = listener.accept()
        threading.Thread(target=run, args=(client,), daemon=True).start()


def listening(path):
    if os.environ.get("LISTEN_FDS"):
        return socket.socket(fileno=3)
    if os.path.lexists(path) and stat.S_ISSOCK(os.lstat(path).st_mode):
        os.remove(path)
    listener = socket.socket(socket.AF_UNIX)
    listener.bind(path)
    listener.listen()
    return listener


def main():
    parser = argparse.ArgumentParser(usage=__doc__)
    parser.add_argument("--socket", default="desk.sock")
    parser.add_argument("--idle", type=float, default=60)
    parser.add_argument("--program", default=FOLDGNEISS)
    for name in ("keys", "image", "policy", "memory"):
        parser.add_argument(name)
    arguments = parser.parse_args()
    desk = Desk([arguments.program, "desk", arguments.keys, arguments.image, arguments.policy,
                 arguments.memory])
    threading.Thread(target=take_clients, daemon=True,
                     args=(desk, arguments.socket, arguments.idle)).start()
    os._exit(desk.hand_out())  # (clients may wait for replies that will not come)


if __name__ == "__main__":
    main()
