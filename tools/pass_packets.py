#!/usr/bin/env python3
"""tools/pass_packets.py TOLD KEPT PROGRAM ARGUMENT..

Runs a debugger's program and passes standard input on to it, however much comes before it reads.
The program looks at the size of a file while the device is on its way: the file grows for each
Ctrl-C, which GDB sends as the byte 03 between two packets, and where a socket that it reads is at
its end. Where nobody reads its output any more, since GDB is gone, the program is ended within a
fifth of a second, in the midst of a run too. Where it ends at once, for a file that is at fault,
what GDB began to write is read first, so that GDB says no more than that the connection is closed.

GDB says of a write that is refused that memory cannot be accessed, and of a `run` that the
connection is lost, so the file TOLD, a number, is told what is the matter, before GDB has its
reply. The file KEPT, a number or `none`, gets a line once the program has begun to read.

The exit status is the program's, and 5 where its output was closed.
"""
import fcntl
import os
import re
import select
import signal
import stat
import subprocess
import sys
import termios

# How often the output is looked at, and how long GDB's first packet may take, in seconds.
LOOK, FIRST = 0.1, 1
PIECE, MOST = 65536, 1 << 24
OUTPUT_CLOSED = 5
# The variable that names the file to the program.
NAME = "FOLDGNEISS_INTERRUPTS"
# What is told of packets that begin so.
REFUSALS = (
    (re.compile(rb"\$[GPM]"), b"nothing is written to the device, as its run would be another"),
    (re.compile(rb"\$vKill;"), b"the device ends: connect again for its beginning"))
# A packet, which another one or the end cuts off, and one at the end that may go on.
PACKET = re.compile(rb"\$[^$#]*(?:#[^$]{0,2})?")
OPEN = re.compile(rb"\$[^$#]*(#[^$]?)?\Z")


class Interrupts:
    """The file, which is in memory, and goes away with whoever has it."""

    def __init__(self):
        self.file = os.memfd_create("interrupts")
        self.path = f"/proc/self/fd/{self.file}"
        self.begun = b""

    def grow(self, count=1):
        os.write(self.file, bytes(count))

    def take(self, piece):
        """Grows by what comes between packets in the next bytes."""
        text = self.begun + piece
        self.grow(b"".join(PACKET.split(text)).count(b"\x03"))
        last = OPEN.search(text)
        self.begun = b"$" + (last[1] or b"") if last else b""


class Passing:
    """A program of these words, and the bytes that wait for it."""

    def __init__(self, told, kept, *words):
        self.told, self.kept = int(told), None if kept == "none" else int(kept)
        reader, self.pipe = os.pipe()
        os.set_blocking(self.pipe, False)
        self.woken, wakes = os.pipe()
        os.set_blocking(wakes, False)
        signal.set_wakeup_fd(wakes)  # (a program that ends wakes the poll)
        signal.signal(signal.SIGCHLD, lambda *_: None)
        self.interrupts = Interrupts()
        self.is_socket = stat.S_ISSOCK(os.fstat(sys.stdin.fileno()).st_mode)
        self.ran = subprocess.Popen(words, stdin=reader, pass_fds=[self.interrupts.file],
                                    env={**os.environ, NAME: self.interrupts.path})
        os.close(reader)
        self.waiting, self.is_open, self.has_packet = bytearray(), True, False

    def events(self):
        """What has happened, at the latest after a while."""
        poll = select.poll()
        poll.register(sys.stdout.fileno(), 0)
        poll.register(self.woken, select.POLLIN)
        if self.is_open and len(self.waiting) < MOST:
            poll.register(sys.stdin.fileno(), select.POLLIN)
        if self.waiting:
            poll.register(self.pipe, select.POLLOUT)
        return dict(poll.poll(LOOK * 1000))

    def take(self):
        piece = os.read(sys.stdin.fileno(), PIECE)
        self.has_packet = self.has_packet or b"#" in piece
        self.is_open = bool(piece)
        for packets, why in REFUSALS:
            if packets.search(piece):
                put(self.told, b"foldgneiss: %s\n" % why)
        self.waiting += piece
        self.interrupts.take(piece)

    def give(self):
        try:
            del self.waiting[:os.write(self.pipe, self.waiting)]
        except BrokenPipeError:
            self.waiting.clear()

    def let_go(self):
        """GDB is kept up to here."""
        if self.kept is not None:
            put(self.kept, b"\n")
            self.kept = None

    def has_read(self):
        """Whether the program has read a first packet."""
        left = fcntl.ioctl(self.pipe, termios.FIONREAD, bytes(4))
        return self.has_packet and not self.waiting and not any(left)

    def run(self):
        """The status of the program."""
        is_given = False
        while self.ran.poll() is None:
            events = self.events()
            if events.get(sys.stdout.fileno()):
                self.ran.kill()
                self.ran.wait()
                return OUTPUT_CLOSED
            if sys.stdin.fileno() in events:
                self.take()
            if self.pipe in events:
                self.give()
            if self.kept is not None and self.has_read():
                self.let_go()
            if not (self.is_open or self.waiting or is_given):
                self.let_go()
                os.close(self.pipe)
                is_given = True
            if self.is_socket and not self.is_open:
                self.interrupts.grow()
        return self.status()

    def status(self):
        """That of a program that has ended."""
        self.let_go()
        while self.ran.returncode and self.is_open and not self.has_packet:
            if not select.select([sys.stdin], [], [], FIRST)[0]:
                break
            self.take()
        return self.ran.returncode if self.ran.returncode >= 0 else 128 - self.ran.returncode


def put(file, text):
    try:
        os.write(file, text)
    except OSError:  # (nobody reads it)
        pass


if __name__ == "__main__":
    if len(sys.argv) < 4:
        sys.exit(__doc__)
    sys.exit(Passing(*sys.argv[1:]).run())
