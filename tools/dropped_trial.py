"""Trials of what ./foldgneiss says of bytes that the serial port drops: that it is what the device
loses, and that nothing else of a call changes.
"""
import random

from sample_files import Example, sent_bytes

DRAINED = 64 * 50  # steps in which a firmware sends back all that waits


def message(script, dropped):
    """What is said of these pairs of a step and a number of bytes."""
    if not dropped:
        return ""
    (step, count), *others = dropped
    later = f", and {sum(count for _, count in others)} in later steps" if others else ""
    return (f"foldgneiss: {script}: of the bytes that arrive in step {step} {count} are dropped, "
            f"as no more than 64 can wait{later}")


def rx(step, count, byte=0):
    return b"at %d rx %s\n" % (step, bytes([byte] * count).hex().encode())


# Scripts to a firmware that reads nothing, and what is dropped. A reset empties the queue, and what
# arrives in its step is lost in any case.
UNREAD = (
    (b"", []),
    (rx(0, 64), []),
    (rx(0, 65), [(0, 1)]),
    (rx(0, 68), [(0, 4)]),
    (rx(0, 40) + rx(9, 20) + rx(9, 20) + rx(11, 2), [(9, 16), (11, 2)]),
    (rx(0, 40) + b"at 9 reset\n" + rx(10, 40), []),
    (rx(0, 40) + b"at 9 reset\n" + rx(9, 68) + rx(10, 60), []),
    (b"at 9 reset\n" + rx(10, 68), [(10, 4)]),
    (rx(0, 40) + rx(90, 40), []),  # (behind the last step)
)


def of_unread_bytes(trial, files, repository):
    for text, dropped in UNREAD:
        script = files.add("script-rx", text)
        for command in ("play", "dump", "trace", "wave"):
            words = command, files.image, script, files.key, "90"
            repository.prints(trial.call(*words).output, message(script, dropped), *words)
    words = files.round.words("round", script=files.add("script-rx", rx(0, 68)), steps="9")
    repository.prints(trial.call(*words).output, message(words[2], [(0, 4)]), *words)
    with open(files.add("script-rx", rx(0, 68)), "rb") as script:
        words = "play", files.image, "/dev/stdin", files.key, "5"
        answer = repository.answer(*words, stdin=script)
    if answer != (0, files.texts["letter"], message("/dev/stdin", [(0, 4)])):
        trial.fault(f"./foldgneiss play, of a script that is standard input: {answer}")
    words = "play", files.image, files.add("script-rx", rx(0, 68)), files.key
    repository.prints(b"", lambda lines: lines.startswith("words are no command"), *words, status=2)


# It boots, makes an instruction, and fetches a word in step 2 that is none.
ILLEGAL = b""".org 0xC000
nop
.word 0
.org 0xFFFE
.word 0xC000
"""


def of_lost_bytes(trial, files, repository):
    """What arrives in the step of a reset is lost and not dropped, also where the firmware made it.
    """
    image = files.add("illegal.hex", trial.call("asm", files.add("illegal", ILLEGAL)).output)
    for step, dropped in ((1, [(1, 4)]), (2, []), (3, [(3, 4)])):
        script = files.add("script-rx", rx(step, 68))
        repository.prints(b"reset 2 I1\nend 4 pc c000 exec 0\n", message(script, dropped),
                          "play", image, script, files.key, "4")


# It reads bytes, and sends them: the upper byte of the register, which takes none, and the lower.
POLLING = b""".org 0xC000
again: mov.b &0x75,&0x76
mov.b &0x74,&0x76
jmp again
.org 0xFFFE
.word again
"""


def of_read_bytes(trial, files, repository):
    """What a firmware does not send back is what is said to be dropped: the example `echo`, which
    reads words, and one that reads bytes.
    """
    rng, echo, tried = random.Random(1), Example("echo"), 0
    polling = files.add("polling.hex", trial.call("asm", files.add("polling", POLLING)).output)
    for image in (echo.file("image"), polling) * 4:
        steps = sorted(rng.sample(range(2000), rng.randrange(5, 30)))
        counts = [rng.randrange(1, 60) for _ in steps]
        script = files.add("script-rx", b"".join(map(rx, steps, counts, range(1, len(steps) + 1))))
        words = "play", image, script, files.key, str(steps[-1] + DRAINED)
        sent = sent_bytes(trial.call(*words).output)
        lost = [(step, count - sent.count(number))
                for number, (step, count) in enumerate(zip(steps, counts), 1)]
        dropped = [(step, count) for step, count in lost if count]
        tried += len(dropped) > 1
        repository.expect(0, message(script, dropped), *words)
    if tried < 6:
        trial.fault("./foldgneiss: hardly a run dropped bytes")


def dropped_bytes(trial, files, repository):
    of_unread_bytes(trial, files, repository)
    of_lost_bytes(trial, files, repository)
    of_read_bytes(trial, files, repository)
