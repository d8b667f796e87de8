#!/usr/bin/env python3
"""tools/debug_trial.py PROGRAM IMAGE SCRIPT KEY [SECONDS [SEED]]

Trials of a debugger that talks packets to `PROGRAM debug IMAGE SCRIPT KEY`, where PROGRAM may have
words: a packet's `+` comes before it is acted on, for which the device has to run to the limit of
steps; and packets that are damaged, cut off or asked for again change no answer to the others.
"""
import os
import random
import shlex
import socket
import subprocess
import sys
import time

sys.dont_write_bytecode = True
from packet_model import LONGEST_BODY, answers, intact, packet, put_for  # noqa: E402
from sample_files import Example  # noqa: E402

# Not later than GDB waits for a `+`, in seconds.
PATIENCE = 2.0

# Bodies of every kind. A first `c` is short behind `monitor until`, and few come behind it.
UNTIL = b"qRcmd," + b"until 300".hex().encode()
GOING = [b"c", b"C0b", b"vCont;c", b"bc"]
BODIES = [UNTIL, b"?", b"g", b"s", b"S05", b"bs", b"vCont;s:1", b"vCont;rc000,c010",
          b"vCont?", b"qSupported:swbreak+", b"qAttached", b"Hg0", b"X0,0:", b"P1=0000",
          b"m200,40", b"m69f0,20", b"m0,1000", b"mffff,2", b"Z0,c000,2", b"z0,c000,2",
          b"Z2,268,2", b"z2,268,2", b"Z5,0,1", b"Zx,0,1", b"m,1", b"vCont;x", b"", b"}]*~\xff\0",
          b"qRcmd," + b"steps".hex().encode(), b"qRcmd," + b"trace 3".hex().encode(),
          b"m" + b"0" * (LONGEST_BODY - 1), b"m" + b"0" * LONGEST_BODY]
NOISE = b"$#-+}*\x030af\xff"

# What is put for bytes that are not all packets: noise, a reply that is asked for again, packets
# that are damaged, cut off, closed or too long, and what comes behind the end.
PUT_FOR = {
    b"": b"",
    b"-": b"",
    b"+++junk\r\n$?#3f": b"+$T05#b9",
    b"$?#3f--+$?#00-": b"+$T05#b9$T05#b9$T05#b9-$T05#b9",
    b"$?#3g$?#3F\x03$?#3f\x03\x03": b"-+$T05#b9+$T05#b9",
    b"$mc000,$mc000,4#c0$?#3f": b"+$b2404100#bd+$T05#b9",
    b"$g#6$?#3f": b"+$T05#b9",
    b"$}]*~\xff\x00#81": b"+$#00",
    b"$?#3f$bs#d": b"+$T05#b9",
    b"$?#3f$D#44$?#3f": b"+$T05#b9+$OK#9a",
    b"$m" + b"0" * LONGEST_BODY + b"#6d": b"+$#00",
}


class Debugger:
    """A program of these words, and the bytes to and from it."""

    def __init__(self, words):
        self.ran = subprocess.Popen(words, stdin=subprocess.PIPE, stdout=subprocess.PIPE)

    def send(self, body):
        """Sends a packet, and gives how long its `+` took."""
        begun = time.monotonic()
        self.ran.stdin.write(packet(body))
        self.ran.stdin.flush()
        mark = self.ran.stdout.read(1)
        if mark != b"+":
            raise ValueError(f"{mark!r} in the place of +")
        return time.monotonic() - begun

    def reply(self):
        """The body of the next packet."""
        text = b""
        while text[-3:-2] != b"#":
            byte = self.ran.stdout.read(1)
            if not byte:
                raise ValueError(f"the output ends in {text!r}")
            text += byte
        if text != packet(text[1:-3]):
            raise ValueError(f"{text!r} is no packet")
        return text[1:-3]

    def end(self):
        """Ends the session, and gives the status."""
        self.ran.stdin.write(packet(b"k"))
        self.ran.stdin.close()
        self.ran.stdout.read()
        return self.ran.wait()


def acknowledges_at_once(words):
    """Runs a device to the limit of steps: how long the `+` took, and then the run."""
    debugger = Debugger(words)
    debugger.send(b"?")
    debugger.reply()
    took = debugger.send(b"c")
    begun = time.monotonic()
    while debugger.reply().startswith(b"O"):
        pass
    ran = time.monotonic() - begun
    if debugger.end() != 0:
        raise ValueError("it does not end with status 0")
    return took, ran


def acknowledged_lines(words, patience=20.0):
    """Lets a run put a line every five steps, and acknowledges each by a write of its own, as GDB
    does over a socket: how many, up to its reply; TimeoutError where it stands still."""
    ours, theirs = socket.socketpair()
    ours.settimeout(patience)
    put, lines = b"", 0
    with subprocess.Popen(words, stdin=theirs, stdout=theirs) as ran, ours:
        theirs.close()
        try:
            ours.sendall(packet(b"qRcmd," + b"until 20000".hex().encode()))
            while b"$OK#" not in put:
                put += ours.recv(65536)
            ours.sendall(b"+" + packet(b"c"))
            put = bytes(5)
            while b"$T05#" not in put:
                put = put[-5:] + ours.recv(65536)
                for _ in range(put.count(b"$O", 4)):
                    ours.sendall(b"+")
                    lines += 1
            ours.sendall(b"+" + packet(b"k"))
        except TimeoutError:
            ran.kill()
            raise
    return lines


def changed(rng, taken):
    """Bytes to a debugger, changed in one way."""
    at, way = rng.randrange(len(taken) + 1), rng.randrange(7)
    if way == 0:
        return taken[:at] + taken[at + 1:]
    if way == 1:
        return taken[:at] + bytes([rng.randrange(256)]) + taken[at + 1:]
    if way == 2:
        return taken[:at] + bytes(rng.choices(NOISE, k=rng.randrange(1, 5))) + taken[at:]
    if way in (3, 4):
        begin = taken.find(b"$", at)
        begin = len(taken) if begin < 0 else begin
        asked = rng.choice((b"-", b"--", b"+", b"$"))
        return (taken[:begin] + asked if way == 3 else taken[:at]) + taken[begin:]
    if way == 5:
        end = taken.find(b"#", at)
        return taken if end < 0 else taken[:end] + taken[end:end + 3].upper() + taken[end + 3:]
    return taken[:at] if rng.random() < 0.1 else taken[:at] + taken[at:at + 40] + taken[at:]


def damaged_packets(rng):
    """Packets to a debugger, some of them changed, so that a run stays short."""
    bodies = rng.choices(BODIES, k=rng.randrange(1, 20)) + rng.choices(GOING, k=rng.randrange(3))
    rng.shuffle(bodies)
    taken = b"".join(map(packet, bodies))
    for _ in range(rng.randrange(6)):
        taken = changed(rng, taken)
    ends = rng.choice((b"", b"", b"$D#44", b"$k#6b$g#67", b"$g#6"))
    return packet(UNTIL) + taken + ends


def wrong_answer(taken, put_by):
    """What is wrong with the answers to bytes that are damaged, if anything; PUT_BY gives what is
    put for bytes.
    """
    want = put_for(taken, answers(put_by(b"".join(intact(taken)))))
    put = put_by(taken)
    return None if put == want else f"{taken!r}: put {put!r} in place of {want!r}"


def answers_as_without_damage(words, seconds, seed):
    """How many conversations were tried until one was wrong, or the time is over."""
    rng, tried, begun = random.Random(seed), 0, time.monotonic()

    def put_by(taken):
        return subprocess.run(words, input=taken, stdout=subprocess.PIPE, check=True).stdout

    while time.monotonic() - begun < seconds:
        wrong = wrong_answer(damaged_packets(rng), put_by)
        if wrong:
            raise ValueError(wrong)
        tried += 1
    return tried


def debug(trial, files):
    """The `+` comes before the device runs, and packets that are damaged change no answer to the
    others.
    """
    took, ran = acknowledges_at_once([trial.debugger, "debug", *files.letter])
    if took >= min(PATIENCE, ran):
        trial.fault(f"a + took {took} s, the run behind it {ran} s")
    answers_as_without_damage([trial.debugger, *Example("attest").words("debug")], 5, 1)


def debug_files(trial, files):
    """The answers to the words and files of a debugger, before a byte of the input is taken, and to
    input and output that fail.
    """
    words, taken = ("debug", *files.letter), packet(b"?")
    for given, put in PUT_FOR.items():
        trial.prints(put, *words, input=given)
    for wrong in (words[:1], words[:-1], (*words, "5")):
        trial.refuses(2, *wrong, input=taken)
    image, script, key = files.letter
    none, empty = files["none"], files["empty"]
    for kind, fault, others in (("key", "1: Missing", (none, none, empty)),
                                ("image", "0: NoEnd", (empty, none, key)),
                                ("script", "2: Order", (image, files["script-order"], key))):
        trial.finds(kind, fault, "debug", *others, input=taken)
    trial.refuses(3, "debug", none, files.folder, key, input=taken)
    trial.refuses(4, "debug", files.folder, none, key, input=taken)
    with open("/dev/full", "wb") as full:
        trial.refuses(5, *words, input=taken, stdout=full)
        trial.expect(0, "", *words, input=b"+++", stdout=full)
    folder = os.open(files.folder, os.O_RDONLY)
    trial.refuses(4, *words, stdin=folder)
    # (a file that is opened takes the number of a closed input)
    trial.refuses(4, *words, preexec_fn=lambda: os.close(0))
    os.close(folder)


def main(program, image, script, key, seconds="10", seed="1"):
    words = [*shlex.split(program), "debug", image, script, key]
    took, ran = acknowledges_at_once(words)
    print(f"+ after {took * 1000:.1f} ms, the reply {ran:.2f} s later")
    print(f"{answers_as_without_damage(words, int(seconds), int(seed))} conversations with damage")
    return 0 if took < min(PATIENCE, ran) else 1


if __name__ == "__main__":
    sys.exit(main(*sys.argv[1:]))
