"""The cases of conformance/."""
import hashlib
import os
import re

from reference import COMMANDS, STATUSES
from sample_files import read
from trial import ROOT

# The commands that cases are of.
TRIED = ("play", "dump", "trace", "request", "verify", "round", "desk", "audit", "debug")
# The end of what stands on standard input, by the command that reads it.
INPUTS = {"desk": "lines", "debug": "packets"}


class Case:
    """The files of a case are its stem and an end: for an argument its name, and for what a command
    prints the command's.
    """

    def __init__(self, stem):
        self.stem, self.name = stem, os.path.basename(stem)
        self.group = self.name.rsplit("-", 1)[0]

    def file(self, end):
        return f"{self.stem}.{end}"

    def has(self, end):
        return os.path.exists(self.file(end))

    def read(self, end):
        return read(self.file(end))

    def end_of(self, command):
        """Where a case has no reports, `verify` is tried on those of its round, whose text has the
        verdicts too.
        """
        return "round" if command == "verify" and not self.has("reports") else command

    def is_of(self, command):
        """An audit is tried on every trace, those of devices among them, which are clean."""
        if command in ("trace", "audit"):
            return self.has("trace") and (command == "audit" or self.has("hex"))
        return self.has("dump.sha256" if command == "dump" else self.end_of(command))

    def words(self, command):
        """The command with the case's arguments: files, and what stands in those of the others."""
        kinds = COMMANDS[command]
        ends = {"image": "hex", "reports": "reports" if self.has("reports") else "round"}
        return [command, *(self.file(ends.get(word, word)) if word in kinds.files
                           else self.read(word).decode().strip() for word in kinds.words)]

    def input(self, command):
        """What stands on standard input, where the command reads it."""
        return self.read(INPUTS[command]) if command in INPUTS else None

    def text(self, command):
        """What the command prints; of a dump the beginning."""
        if command == "dump":
            return self.read("play")
        if command == "audit" and not self.has("audit"):
            return b"clean %d\n" % self.read("trace").count(b"\n")
        text = self.read(self.end_of(command))
        return b"".join(re.findall(rb"^verdict .*\n", text, re.M)) if command == "verify" else text

    def is_printed(self, command, text):
        """Whether this is what the command prints; a dump is known by its digest."""
        if command == "dump":
            return hashlib.sha256(text).hexdigest() == self.read("dump.sha256").decode().strip()
        return text == self.text(command)

    def ending(self, command):
        """The exit status and the line on standard error, which a case has where it names a fault.
        """
        name = self.end_of(command)
        status = int(self.read(f"{name}.status")) if self.has(f"{name}.status") else 0
        if self.has(f"{name}.line"):
            return status, self.read(f"{name}.line").decode().rstrip("\n")
        return status, STATUSES[status].line


def all_cases():
    folder = f"{ROOT}/conformance/cases"
    stems = {name.split(".")[0] for name in os.listdir(folder)}
    return [Case(f"{folder}/{stem}") for stem in sorted(stems)]
