"""Trials that ./foldgneiss shows no key, in whatever form and place one comes, and reads no more of
a file than its limit.
"""
import base64
import random
import re
import resource
import sys
import textwrap

from messages import explanation, is_shown
from reference import ABSENT, COMMANDS, FILES, ending, fault_ending
from sample_files import read, write
from trial import ROOT, limiting, random_bytes

ROOM = 400 << 20  # bytes of memory, in which no file of 3 GB has its place


def forms(key):
    """A key as tools and people write it, by what the form is called."""
    digits, in_base64 = key.hex(), base64.b64encode(key).decode()
    pairs, fours = textwrap.wrap(digits, 2), textwrap.wrap(digits, 4)
    lines = [pairs[at:at + 16] for at in range(0, 64, 16)]
    texts = {
        "one line": digits,
        "xxd -p": "\n".join(textwrap.wrap(digits, 60)),
        "xxd": "\n".join(f"{16 * at:08x}: {' '.join(fours[8 * at:8 * at + 8])}  ................"
                         for at in range(4)),
        "xxd -i": ", ".join(f"0x{pair}" for pair in pairs),
        "od": "\n".join(f"{16 * at:07o} {' '.join(line)}" for at, line in enumerate(lines)),
        "0x": f"0x{digits}",
        "colons": ":".join(pairs),
        "openssl": "\n".join("    " + "".join(f"{pair}:" for pair in line) for line in lines),
        "blanks": " ".join(pairs),
        "words": "\n".join(map(" ".join, (fours[:16], fours[16:]))),
        "capitals": digits.upper(),
        "127 digits": digits[:127],
        "129 digits": digits + digits[0],
        "base64": in_base64,
        "base64 in lines": "\n".join(textwrap.wrap(in_base64, 64)),
    }
    return {**{form: f"{text}\n".encode() for form, text in texts.items()}, "bytes": key}


def pieces(text):
    """What no message may have of a text: each eight characters in a row."""
    text = re.sub("0x|[^0-9A-Za-z+/]", "", text.decode("latin-1"))
    return {text[at:at + 8] for at in range(len(text) - 7)}


def in_each_place(trial, files):
    """A key in the place of each file of each command."""
    rng, names = random.Random(1), {kind: files[f"key-as-{kind}"] for kind in FILES}
    for form, text in forms(random_bytes(rng, 64)).items():
        for kind, command in ((kind, command) for command in COMMANDS.values()
                              for kind in command.files):
            name = write(names[kind], text)
            words = files.words_of_round(command.name, **{kind: name})
            answer = trial.call(*words, input=b"")
            told = [line.replace(name, "") for line in explanation(*answer.ending, words) if line]
            shown = re.sub("0x|[^0-9A-Za-z+/]", "", "".join(told))
            if any(piece in shown for piece in pieces(text)) or any(
                    line.startswith("    ") for line in told):
                trial.fault(f"./foldgneiss {command.name}: a key as {form} is shown: {told}")


def lines_of_many_keys(trial):
    """No line of a key is one that is shown, whatever the digits spell: here instructions too."""
    rng, words = random.Random(2), ("dadd", "dadc", "decd")
    for key in (*(bytes.fromhex(word * 32) for word in words),
                *(random_bytes(rng, 64) for _ in range(300))):
        trial.tries += 1
        for form, text in forms(key).items():
            for line in text.split(b"\n"):
                shown = [kind for kind in FILES if line.strip() and is_shown(kind, line)]
                if shown:
                    trial.fault(f"a key as {form} has a line of {shown}: {line}")


def in_some_places(trial, files, repository):
    """Through the script no line with a key in it is shown."""
    key = read(files.key)
    wrong = files.add("keys-wrong", b"# a device\ndevice a " + key[:127] + b"x\n")
    meaning = "a character of a name is no letter, digit or `_`, or one of a key no digit"
    repository.explains(fault_ending("keys", "2: Digit"),
                        f"{wrong}, line 2, column 10: {meaning} (wanted: 128 hexadecimal digits)",
                        *files.words_of_round("desk", keys=wrong))
    for kind, fault, words in (
            ("key", "1: Extra", ("play", *files.letter[:2], files["key-extra"], "5")),
            ("image", "1: NoColon", ("list", files.key)),
            ("script", "1: Word", ("play", files.image, files["keys"], files.key, "5")),
            ("source", "1: Syntax", ("asm", files.key))):
        status, line = fault_ending(kind, fault)

        def shows_nothing(lines):
            return lines.startswith(f"{line}\nfoldgneiss: ") and not re.search(
                "[0-9a-f]{16}", re.sub("/[^ ]*", "", lines))
        repository.expect(status, shows_nothing, *words)


def within_lines(trial, files, repository):
    """A line that begins as one of its file does is not shown where a key stands in it; and a key
    in the place of a name or a number is not told.
    """
    digits = random_bytes(random.Random(3), 64).hex()

    def hides(status, begin, *words):
        repository.expect(status, lambda lines: lines.startswith(f"{begin}\nfoldgneiss: ")
                          and digits[:8] not in lines, *words)

    policy = "version 2\ner c020 c022\nor 0300 0300\nflag exec\n"
    for kind, fault, text, command in (
            ("policy", "5: Count", f"{policy}ask {digits} 1", "verify"),
            ("script", "1: Extra", f"at 5 rx {digits} x", "play"),
            ("states", "1: Count", f"state a key {digits}", "remember"),
            ("moved", "1: Count", f"moved a to b moves 1 key {digits}", "adopt"),
            ("keys", "1: Extra", f"device a {digits} x", "desk"),
            ("reports", "1: Count", f"report2 1 exec 1 aux 1 count 1 chal {digits}", "verify"),
            ("trace", "1: Word", f"t 0 {digits}", "audit"),
            ("source", "1: Syntax", f".word 0x{digits}", "asm")):
        name = files.add("key-within", text.encode())
        hides(*fault_ending(kind, fault), *files.words_of_round(command, **{kind: name}))
    hides(*ending(2), "request", files.key, digits, "1")
    hides(*ending(2), "play", *files.letter, digits)
    hides(*ending(2), "found", files["none"], digits)
    hides(16, ABSENT, "states", digits)
    hides(*ending(3), "list", digits)
    hides(*ending(3), "play", *files.letter[:2], f"0x{digits}", "5")


def largest_files(trial, files):
    """Of a file of 3 GB in the place of each, no more is read than what shows that it is too long.
    """
    name = files.add("huge", b"")
    with open(name, "r+b") as file:
        file.truncate(3 << 30)
    for kind, command in {kind: command.name for command in COMMANDS.values()
                          for kind in command.files}.items():
        status, line = fault_ending(kind, "0: TooLong")
        told = f"the file is longer than its limit (line 0), {FILES[kind].limit} bytes"
        trial.expect(0, f"foldgneiss: {name}: {told}", "explain", str(status), line,
                     *files.words_of_round(command, **{kind: name}),
                     command=[sys.executable, f"{ROOT}/tools/messages.py"],
                     preexec_fn=limiting(resource.RLIMIT_DATA, ROOM))


def hidden_keys(trial, files, repository):
    in_each_place(trial, files)
    in_some_places(trial, files, repository)
    lines_of_many_keys(trial)
    within_lines(trial, files, repository)
    largest_files(trial, files)
