"""Calls of a program from outside: what it answers, and what of it was wrong."""
import os
import resource
import signal
import subprocess
import sys
from typing import NamedTuple

from reference import COMMANDS, PROGRAMS, STATUSES, ending, fault_ending

ROOT = os.path.dirname(os.path.dirname(os.path.realpath(__file__)))
PROVED = [f"{ROOT}/crates/{crate}/out/{crate}" for crate in PROGRAMS]
OUT_OF_MEMORY = ending(6)


class Answer(NamedTuple):
    status: int  # None where the time was over, negative where a signal ended it
    output: bytes
    line: str  # what stands on standard error, without its line end

    @property
    def ending(self):
        return self.status, self.line

    def __str__(self):
        return f"status {self.status}, '{self.line}', printed {self.output[:80]!r}"


class Programs:
    """That of the device, that of the desk, and the debugger."""

    def __init__(self, name, paths):
        paths = [*paths, *PROVED[len(paths):]]
        self.all = dict(zip(PROGRAMS, (program_of(name, [path]) for path in paths)))
        self.device, self.desk, self.debugger = self.all.values()

    def that_has(self, words):
        """The one that has the command of these words."""
        command = COMMANDS.get(words[0]) if words else None
        return self.all[command.program] if command else self.device


class Trial:
    """The calls of the programs, each within a time limit, and what was wrong."""

    def __init__(self, name, paths, seconds=60):
        self.name, self.programs, self.seconds = name, Programs(name, paths), seconds
        self.program, self.desk = self.programs.device, self.programs.desk
        self.debugger = self.programs.debugger
        self.part = ""  # that is tried now
        self.tries, self.wrong = 0, 0

    def fault(self, what):
        print(f"{self.name}: {self.part and f'{self.part}: '}{what}", file=sys.stderr)
        self.wrong += 1

    def call(self, *arguments, command=None, seconds=None, **options):
        """What the program of these words, or another command, answers; options are those of
        subprocess.Popen, and `input` for its standard input.
        """
        self.tries += 1
        taken = options.pop("input", None)
        options = {"stdin": subprocess.DEVNULL if taken is None else subprocess.PIPE,
                   "stdout": subprocess.PIPE, "stderr": subprocess.PIPE, **options}
        process = subprocess.Popen([*(command or [self.programs.that_has(arguments)]), *arguments],
                                   start_new_session=True, **options)
        try:
            output, errors = process.communicate(taken, timeout=seconds or self.seconds)
        except subprocess.TimeoutExpired:
            os.killpg(process.pid, signal.SIGKILL)
            process.communicate()
            self.fault(f"{spelled(arguments)}: no end in time")
            return Answer(None, b"", "")
        errors = (errors or b"").decode("utf-8", "replace")
        line = errors.rstrip("\n")
        if not command and process.returncode in STATUSES and errors not in ("", f"{line}\n"):
            self.fault(f"{spelled(arguments)}: {errors!r} is no line")
        return Answer(process.returncode, output or b"", line)

    def ends(self, endings, *arguments, **options):
        """A call that ends with one of these pairs of a status and a line, and prints nothing
        unless the status is 0 or 1; the answer.
        """
        answer = self.call(*arguments, **options)
        if answer.status is not None and answer.ending not in endings:
            self.fault(f"{spelled(arguments)}: {answer} in place of {endings}")
        elif answer.output and answer.status not in (0, 1):
            self.fault(f"{spelled(arguments)}: printed beside a refusal: {answer}")
        return answer

    def expect(self, status, line, *arguments, **options):
        """A call that ends so; its output."""
        return self.ends([(status, line)], *arguments, **options).output

    def refuses(self, status, *arguments, **options):
        """A call that ends with this status and its line."""
        self.expect(*ending(status), *arguments, **options)

    def finds(self, kind, fault, *arguments, **options):
        """A call that is refused for this fault, as `1: Missing`, in its file of this kind."""
        self.expect(*fault_ending(kind, fault), *arguments, **options)

    def prints(self, text, *arguments, status=0, line="", **options):
        """A call that prints this text."""
        output = self.expect(status, line, *arguments, **options)
        if output != text:
            self.fault(f"{spelled(arguments)}: printed {output[:80]!r}, not {text[:80]!r}")

    def serving(self, *words):
        """A desk of these words, once it serves."""
        process = subprocess.Popen([self.desk, *words], stdin=subprocess.PIPE,
                                   stdout=subprocess.PIPE, bufsize=0)
        process.stdin.write(b"x\n")
        process.stdout.readline()
        return process

    def end(self, *counts):
        """The last line; the exit status."""
        print(", ".join([f"{self.name}: {self.tries} tried", *counts, f"{self.wrong} wrong"]))
        return 1 if self.wrong else 0


def limiting(kind, most):
    """A preexec_fn of programs that have no more than this of a resource."""
    def limit():
        signal.signal(signal.SIGXFSZ, signal.SIG_IGN)
        resource.setrlimit(resource.RLIMIT_CORE, (0, 0))
        resource.setrlimit(kind, (most, most))
    return limit


def random_bytes(rng, count):
    """As the randbytes of Python 3.9."""
    return rng.getrandbits(8 * count).to_bytes(count, "little") if count else b""


def spelled(arguments):
    return " ".join(map(str, arguments)) or "no arguments"


def program_of(name, arguments):
    """The program that the arguments of a tool name, the proved one of the device if none."""
    program = os.path.realpath(arguments[0] if arguments else PROVED[0])
    if not os.access(program, os.X_OK):
        sys.exit(f"{name}: no proved program at {program}: ./foldgneiss build")
    return program
