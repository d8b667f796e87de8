"""Trials of rows of texts: each has its first fault, its words or its bytes."""
from file_readers import image_text
from readers import first_fault
from reference import COMMANDS, FILES, PROGRAM
from text_rows import (CODE, FAULTS, IMAGES, PLACED, READ_LINES, READ_POLICIES, TORN, TORN_IMAGE,
                       WORDS, ZEROS)

OWN_FAULTS = "Syntax", "Mnemonic", "Operand"  # of a line, whatever stands around it


def filled(kind, text):
    """A row's text with zeros in the place of each @, in a file of this kind."""
    return text.replace(b"@", b"0" * ZEROS[kind]) if kind in ZEROS else text


def faulty_texts(trial, files):
    """Each faulty text has its fault, by the first command that reads such a file and by the reader
    of tools/readers.py.
    """
    for kind, faults in FAULTS.items():
        command = next(command.name for command in COMMANDS.values() if kind in command.files)
        for fault, texts in faults.items():
            for text in texts:
                text = filled(kind, text)
                if first_fault(kind, text) != fault:
                    trial.fault(f"{text}: our own reader finds another fault than {fault}")
                trial.finds(kind, fault, *files.words_of_round(
                    command, **{kind: files.add("faulty", text)}))


def cut_images(trial, files):
    """The letter's image is refused at its last line, cut behind whatever byte."""
    image = files.texts["image"]
    for length in range(len(image) - 1):
        text = image[:length]
        trial.finds("image", first_fault("image", text), "list", files.add("cut.hex", text))


def faultless_texts(trial, files):
    """Lines of a source and policies that are read, whatever else is wrong."""
    for line in READ_LINES:
        answer = trial.call("asm", files.add("line.asm", line))
        if answer.status not in (0, FILES["source"].status) or answer.line.endswith(OWN_FAULTS):
            trial.fault(f"{line}: {answer}")
    for text in READ_POLICIES:
        policy = files.add("policy-read", filled("policy", text))
        answer = trial.call(*files.words_of_round("verify", policy=policy))
        if answer.status not in (0, 1):
            trial.fault(f"{text}: {answer}")


def statement_words(trial, files):
    """Each source is assembled to its words, and a torn image is cut where it is torn."""
    for source, words in WORDS.items():
        code = b"".join(int(word, 16).to_bytes(2, "little") for word in words.split())
        trial.prints(image_text(dict(enumerate(code, PROGRAM.first))),
                     "asm", files.add("words.asm", source))
    trial.prints(TORN_IMAGE, "asm", files.add("torn.asm", TORN))


def other_images(trial, files):
    """Images by other tools are listed and played as the same bytes in plain records are."""
    rows = {text: dict(enumerate(CODE, first)) for text, first in IMAGES.items()}
    rows[PLACED] = {0xC000: 0x11, 0xC001: 0x33}
    for text, image in rows.items():
        other, plain = files.add("other.hex", text), files.add("plain.hex", image_text(image))
        trial.prints(trial.expect(0, "", "list", plain), "list", other)
        trial.prints(trial.expect(0, "", "dump", plain, *files.letter[1:], "5"),
                     "dump", other, *files.letter[1:], "5")


def text_rows(trial, files):
    faulty_texts(trial, files)
    cut_images(trial, files)
    faultless_texts(trial, files)
    statement_words(trial, files)
    other_images(trial, files)
