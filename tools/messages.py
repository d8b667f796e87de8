"""What ./foldgneiss says beside the program's own lines.

    messages.py help WORD..                   the text of --help, or its part on the command among
                                              the words
    messages.py explain STATUS LINE WORD..    on a run of these words that ended with this status
                                              and this line on standard error: what was wrong, and
                                              where
    messages.py dropped PROGRAM WORD..        on a run of these words of PROGRAM that went to its
                                              end: which bytes found the receive queue full
"""
import os
import re
import stat
import sys

sys.dont_write_bytecode = True
import dropped_bytes  # noqa: E402
import file_readers  # noqa: E402
import memory_faults  # noqa: E402
import mistaken_files  # noqa: E402
import reference_texts  # noqa: E402
from readers import READERS  # noqa: E402
from reference import (FAULTS, FILES, SCRIPT_COMMANDS, STATUSES, VALUES,  # noqa: E402
                       WITH_INPUT, said_of)

WIDTH = 76
LONG_DIGITS = re.compile("[0-9A-Fa-f]{65,}")  # more than a challenge has: a key, or a part of one

SCRIPT_HELP = """
The script ./foldgneiss has these too:
  foldgneiss build           proves all crates and makes the proved programs
  foldgneiss folder          prints the folder with firmware, examples and docs
  foldgneiss help [COMMAND]  prints this, or what it says of one command; so do
                             -h and --help, also after a command
Its own statuses are 125 where the sources do not compile, or what comes of it
cannot be written, 127 where rt, python3, or Linux on x86-64 is wanted and not
there, and 1 where a crate does not prove in build.
"""
# What stands in the place of a command, with what may follow.
OTHER_USAGES = {"build": "build", "folder": "folder", "--version": "--version",
                "help": "help [COMMAND]", "-h": "-h [COMMAND]", "--help": "--help [COMMAND]"}
COMMAND_NAMES = ", ".join([*SCRIPT_COMMANDS, "build", "folder", "help"])


def unknown_command(name):
    return f"{name} is no command; the commands are {COMMAND_NAMES}"


def shown_word(word):
    """An argument, but for the digits of a key, which may have come in the place of another."""
    return LONG_DIGITS.sub("..", word)


def wrong_words(words):
    """What is wrong with the words of a call."""
    if not words:
        return f"a command is wanted: {COMMAND_NAMES}"
    name, *arguments = words
    if name in OTHER_USAGES:
        return f"too many words behind {name}"
    if name not in SCRIPT_COMMANDS:
        return unknown_command(name)
    command = SCRIPT_COMMANDS[name]
    arguments, most = command.behind_option(arguments), len(command.all_words)
    if not len(command.words) <= len(arguments) <= most:
        counts = f"{len(command.words)} or {most}" if command.last else most
        return f"{name} takes {counts} argument{'s' * (most > 1)}, not {len(arguments)}"
    for word, argument in zip(command.all_words, arguments):
        try:
            argument.encode()
        except UnicodeEncodeError:
            return f"{word.upper()} is not UTF-8"
        if word in VALUES and not VALUES[word].takes(argument):
            meant = mistaken_files.in_digits(argument)
            hint = f"; in digits it is {meant}" if VALUES[word].takes(meant) else ""
            return (f"{word.upper()} is {shown_word(argument)!r} (wanted: {VALUES[word].about})"
                    + hint)
    return None


def usage_of(name):
    """How the command of this name is called; of none, or of an unknown one, all commands."""
    if name in SCRIPT_COMMANDS:
        return f"usage: foldgneiss {SCRIPT_COMMANDS[name].usage}\n"
    if name in OTHER_USAGES:
        return f"usage: foldgneiss {OTHER_USAGES[name]}\n"
    return reference_texts.usages()


def names_of(words):
    """What stands in a call for each of its command's words."""
    command = SCRIPT_COMMANDS[words[0]]
    return dict(zip(command.all_words, command.behind_option(words[1:])))


def files_of(words):
    """The kinds and names of a call's files, in the order in which they are read."""
    names = names_of(words)
    return [(kind, names[kind]) for kind in FILES if kind in names]


def contents(name, most):
    """The first bytes of a file, or None where it is a pipe or a device, which is read once."""
    if name and not stat.S_ISREG(os.stat(name).st_mode) and not os.path.isdir(name):
        return None
    with open(name, "rb") as file:
        return file.read(most)


def text_of(name, most):
    """The first bytes of a file, None where they can't be read (once more)."""
    try:
        return contents(name, most)
    except OSError:
        return None


def judged_text(kind, name):
    """The bytes of a file of this kind; of one past its limit those that show that it is."""
    return text_of(name, FILES[kind].limit + 1)


def unread_file(words):
    """What is said of the first file that is absent or cannot be read."""
    for kind, name in files_of(words):
        try:
            contents(name, 1)
        except OSError as error:
            return f"{kind.upper()} {shown_word(name) or repr(name)}: {error.strerror}"
    return None


def misplaced(kind, words):
    """Which files of a call stand in the places of others, where that of this kind does."""
    found = {}
    for place, name in names_of(words).items():
        start = text_of(name, mistaken_files.START) if place in FILES else None
        form = mistaken_files.kind_of(start or b"")
        if form not in (None, place, *mistaken_files.OTHERS_IN.get(place, ())):
            what = mistaken_files.FORMS[form].name
            found[place] = mistaken_files.SAID["misplaced"].format(
                name, what, place.upper())
    if kind not in found:
        return []
    command, *order = SCRIPT_COMMANDS[words[0]].usage.split()
    return ["; ".join([*found.values(), f"{command} takes {' '.join(order)}"])]


def fault_in(kind, text, number, kind_of_fault):
    """The fault as our own reader has it, with the column where it is not of the whole line."""
    try:
        READERS[kind](text)
    except file_readers.Fault as found:
        if (found.line, found.kind) == (number, kind_of_fault):
            return found
    return file_readers.Fault(number, kind_of_fault)


def place_of(kind, text, fault):
    """The line and the column of a fault, or the line of its cause. Of a key the column of the
    reader is in the whole text, which may have several lines.
    """
    if fault.cause:
        return fault.cause[0], None
    if kind != "key" or not fault.column:
        return fault.line, fault.column
    before = text[:fault.column - 1]
    return 1 + before.count(b"\n"), len(before) - before.rfind(b"\n")


def meaning_of(kind, fault):
    """What a fault means; of a meaning in two parts the second is that of line 0."""
    parts = said_of(None, FAULTS[kind].get(fault.kind, fault.kind)).split("; or ")
    wanted = f" (wanted: {fault.wanted})" if fault.wanted else ""
    return (fault.cause[1] if fault.cause else parts[0 if fault.line else -1]) + wanted


def shown_line(line, column):
    """A line of a file, or what stands around the column, and a mark below the column."""
    before = len(line[:(column or 1) - 1].decode("utf-8", "replace"))
    text = "".join(letter if letter.isprintable() else " ?"[letter != "\t"]
                   for letter in line.decode("utf-8", "replace").rstrip("\r"))
    start = max(0, before - WIDTH // 2) if len(text) > WIDTH else 0
    lines = ["    " + text[start:start + WIDTH]]
    if column:
        lines.append("    " + " " * (before - start) + "^")
    return lines


def is_shown(kind, line):
    """Whether a line can have no key in it: it begins as one of its file does, which is no file of
    keys, and has no more digits in a row than a challenge.
    """
    return (kind not in ("key", "keys") and mistaken_files.begins_as(kind, line)
            and not LONG_DIGITS.search(line.decode("utf-8", "replace")))


def file_fault(line, words):
    """What is said of the fault that the line names."""
    match = re.fullmatch(r"(bad \w+): line (\d+): (\w+)", line)
    if not match:
        return []
    number = int(match[2])
    kind, name = next(file for file in files_of(words)
                      if STATUSES[FILES[file[0]].status].line.startswith(f"{match[1]}:"))
    text = judged_text(kind, name)
    fault = fault_in(kind, text or b"", number, match[3])
    meaning = meaning_of(kind, fault)
    hints = (misplaced(kind, words) or mistaken_files.hints(kind, name, text or b"")
             or memory_faults.hints(kind, fault, text or b"", names_of(words)))
    if fault.kind == "TooLong":
        return [f"{name}: {meaning}, {FILES[kind].limit} bytes", *hints]
    lines = text.split(b"\n") if text is not None else []
    if not 1 <= number <= len(lines):
        return [f"{name}, line {number}: {meaning}" if number else f"{name}: {meaning}", *hints]
    number, column = place_of(kind, text, fault)
    place = f"line {number}, column {column}" if column else f"line {number}"
    line = lines[number - 1]
    shown = shown_line(line, column) if is_shown(kind, line) and not hints else []
    return [f"{name}, {place}: {meaning}", *shown, *hints]


def explanation(status, line, words):
    """The lines on a run that ended so."""
    if status == 2:
        return [wrong_words(words), *usage_of(words[0] if words else None).splitlines()]
    if status in (3, 4):
        has_input = words[0] in WITH_INPUT
        return [unread_file(words) or ("standard input cannot be read" if has_input else None)]
    if status == 15:
        return [said_of(words[:1], STATUSES[status].remedy).replace("`", "")]
    if status in memory_faults.OWN_STATUSES:
        lines = memory_faults.explanation(status, line, names_of(words))
        return [each and shown_word(each) for each in lines]
    return file_fault(line, words)


def dropped(program, words):
    """What is said of the bytes that a run of these words of the program dropped."""
    names = names_of(words)
    texts = {kind: judged_text(kind, name) for kind, name in files_of(words)}
    if None in texts.values():  # (a pipe, which can't be read once more)
        return []
    steps = dropped_bytes.dropped_in_run(
        [program, "trace", names["image"], names["script"], names["key"]],
        READERS["script"](texts["script"]), int(names["steps"]))
    if not steps:
        return []
    (first, count), *others = steps
    more = sum(count for _, count in others)
    later = f", and {more} in later steps" if others else ""
    return [f"{names['script']}: of the bytes that arrive in step {first} {count} are dropped, "
            f"as no more than {dropped_bytes.QUEUE} can wait{later}"]


def put(stream, text):
    """Whether standard output, 1, or standard error, 2, took a text."""
    try:
        with open(stream, "wb", closefd=False) as file:
            file.write(os.fsencode(text))
    except OSError:
        return False
    return True


def say(lines):
    """Puts what is said of a run on standard error."""
    lines = list(filter(None, lines))
    if lines:
        put(2, "foldgneiss: " + "".join(f"{line}\n" for line in lines))


def help_on(name):
    """What --help says of a command, or of all if there is none; None of an unknown one."""
    if name is None:
        return reference_texts.help_text() + SCRIPT_HELP
    if name in ("build", "folder"):
        return SCRIPT_HELP.lstrip()
    return reference_texts.command_help(name) if name in SCRIPT_COMMANDS else None


def print_help(words):
    """Prints the help that the words ask for; the exit status."""
    names = [word for word in words if word not in ("help", "-h", "--help")]
    text = help_on(names[0] if names else None)
    if text is None:
        put(2, f"foldgneiss: {unknown_command(names[0])}\n")
        return 2
    if put(1, text):
        return 0
    put(2, f"{STATUSES[5].line}\n")
    return 5


def main(arguments):
    kind, *words = arguments
    if kind == "explain":
        say(explanation(int(words[0]), words[1], words[2:]))
    elif kind == "dropped":
        say(dropped(words[0], words[1:]))
    else:
        return print_help(words)
    return 0


if __name__ == "__main__":
    sys.exit(main(sys.argv[1:]))
