"""Trials of `live`: what it puts of lines, beside what `play` prints of the script that they make."""
import os
import random
import subprocess

import live_model
from sample_files import Example, read

EXAMPLES = ("letter-a", "echo", "sensor", "meter", "attest", "round", "pump/forged", "resets/vector")
FAULTY = (b"at 5", b"at x rx 00", b"at 7 rx 0", b"at 9 tx 00", b"run", b"run x", b"run 5 5", b"runs 5",
          b"run 281474976710657", b"run 0281474976710656", b"at 281474976710656 reset", b"registers 1",
          b"memory", b"memory 200 4", b"memory 0200 0", b"memory 0200 2049", b"memory 0200 1 1",
          b"\xff\xfe", b"at 1 dma 0200 0300", b"at 1 dma 0200 0300 65536", b"at 2 p1 00112", b"end",
          b"at 3 rx " + b"00" * 33000)
PASSED = (b"", b"  \t", b"# run 5", b" # x")


def happening(rng):
    kind = rng.choice(("rx", "rx", "rx", "p1", "dma", "reset"))
    if kind == "rx":
        return f"rx {bytes(rng.getrandbits(8) for _ in range(rng.randrange(1, 5))).hex()}"
    if kind == "p1":
        return f"p1 {rng.getrandbits(16):04x}"
    if kind == "dma":
        return (f"dma {rng.choice((0x200, 0x4000, 0x6a00, 0xc000)):04x} "
                f"{rng.choice((0x300, 0x400)):04x} {rng.randrange(5)}")
    return "reset"


def random_lines(rng, most):
    """Lines of which most are sound."""
    lines, step, latest = [], 0, 0
    for _ in range(rng.randrange(1, 40)):
        draw = rng.random()
        if draw < 0.35:
            latest = max(step, latest) + rng.choice((0, 0, 1, 7, 100))
            if latest < most:
                lines.append(f"at {latest} {happening(rng)}".encode())
        elif draw < 0.65:
            step += rng.choice((0, 1, 2, 50, 333, 2000))
            if step > most:
                break
            lines.append(f"run {step}".encode())
        elif draw < 0.7:
            lines.append(f"{rng.choice(('at', 'run'))} {rng.randrange(step + 1)} reset".encode())
        elif draw < 0.8:
            lines.append(rng.choice(FAULTY))
        elif draw < 0.85:
            lines.append(rng.choice(PASSED))
        elif draw < 0.9:
            lines.append(b"registers")
        else:
            lines.append(b"memory %04x %d" % (
                rng.choice((0x200, 0x380, 0x3fff, 0x3ff0, 0x4000, 0x6a00, 0x69f0, 0xc000, 0xfff0, 0x100)),
                rng.choice((1, 2, 16, 40, 2048))))
    return lines


def texts(trial, files, cases, seed=1):
    """Random conversations."""
    rng = random.Random(seed)

    def called(*words):
        return trial.call(*words).output
    for _ in range(cases):
        example = Example(rng.choice(EXAMPLES))
        lines = random_lines(rng, 20000)
        end = rng.choice((b"\n", b"\r\n"))
        text = end.join(lines) + rng.choice((end, b"", b""))
        image, key = example.file("image"), example.file("key")
        told = live_model.conversation(called, files.folder, image, key, text)
        said = trial.call("live", image, key, input=text).output
        if not live_model.is_same(said, told):
            trial.fault(f"live: {text[:3000]!r}: {said[-600:]!r} in place of {told[-600:]!r}")


def answers_at_once(trial, words):
    """Each line is answered before more is read: of lines that are told one by one."""
    ran = subprocess.Popen([trial.debugger, *words], stdin=subprocess.PIPE, stdout=subprocess.PIPE)
    for steps in (1, 5, 5, 1000):
        ran.stdin.write(b"run %d\n" % steps)
        ran.stdin.flush()
        line = ran.stdout.readline()
        while not line.startswith(b"at "):
            line = ran.stdout.readline()
        if not line.startswith(b"at %d pc " % steps):
            trial.fault(f"live: {line!r} behind {steps} steps")
    end, _ = ran.communicate()
    if not end.startswith(b"end 1000 pc ") or ran.returncode != 0:
        trial.fault(f"live: {end!r} at the end, status {ran.returncode}")


def files_and_pipes(trial, files):
    """The answers to the words and files of `live`, before a byte of the input is taken, and to
    input and output that fail.
    """
    image, _, key = files.letter
    words = ("live", image, key)
    trial.prints(b"end 0 pc 0000 exec 0\n", *words, input=b"")
    for wrong in (words[:1], words[:-1], (*words, "5")):
        trial.refuses(2, *wrong, input=b"run 5\n")
    none, empty = files["none"], files["empty"]
    trial.finds("key", "1: Missing", "live", none, empty, input=b"run 5\n")
    trial.finds("image", "0: NoEnd", "live", empty, key, input=b"run 5\n")
    trial.refuses(3, "live", none, key, input=b"run 5\n")
    trial.refuses(4, "live", files.folder, key, input=b"run 5\n")
    with open("/dev/full", "wb") as full:
        trial.refuses(5, *words, input=b"run 5\n", stdout=full)
        trial.refuses(5, *words, input=b"", stdout=full)
    folder = os.open(files.folder, os.O_RDONLY)
    trial.refuses(4, *words, stdin=folder)
    # (a file that is opened takes the number of a closed input)
    trial.refuses(4, *words, preexec_fn=lambda: os.close(0))
    os.close(folder)
    answers_at_once(trial, words)


def live(trial, files):
    files_and_pipes(trial, files)
    texts(trial, files, 150)
