"""Lines of traces as stimuli of a module, and what the module and the models say of them."""
import os
import subprocess
import sys
from typing import NamedTuple

sys.path.insert(0, os.path.join(os.path.dirname(os.path.realpath(__file__)), "../tools"))
import trace_model  # noqa: E402
from file_readers import KINDS  # noqa: E402
from reference import METADATA, RULES  # noqa: E402

FOLDER = os.path.dirname(os.path.realpath(__file__))
OPERATIONS = {"f": (1, 0), "r": (2, 0), "b": (2, 1), "w": (3, 0), "c": (3, 1)}
POWER_ON = "1" + 16 * " 0"


class Answer(NamedTuple):
    rule: str
    exec: int
    aux: int

    def __str__(self):
        return f"{self.rule}, EXEC {self.exec}, AUX {self.aux}"


def access_numbers(access):
    return (0, 0, 0) if access is None else (*OPERATIONS[access.letter], access.place)


def stimulus(line):
    """The numbers of line.vh, but for the clock, in the order in which replay.cpp reads them."""
    numbers = (0, KINDS.index(line.kind), line.pc, *access_numbers(line.cpu),
               *access_numbers(line.dma), line.irq, line.asked, line.word, line.value,
               *line.bounds)
    return " ".join(f"{number:x}" for number in numbers)


def stimuli(traces):
    """Each trace begins behind a power-on, which is no step."""
    for trace in traces:
        yield POWER_ON
        yield from map(stimulus, trace)


def wanted(trace):
    """The answers to a trace by the model of tools/, which is told neither rule nor flags."""
    answers, last = [], None
    for line in trace:
        rule = trace_model.right_rule(last, line)
        answers.append(line._replace(rule=rule))
        last = line.pc
    return [Answer(line.rule, int(exec_flag), int(aux)) for line, (exec_flag, aux) in zip(
        answers, trace_model.flags_of(answers))]


class Simulation:
    """A program that reads stimuli and prints answers."""

    def __init__(self, *command):
        self.command = command

    def answers(self, traces):
        """Those to each trace."""
        text = "\n".join(stimuli(traces)) + "\n"
        said = subprocess.run(self.command, input=text.encode(), stdout=subprocess.PIPE,
                              check=True).stdout.decode().splitlines()
        names, at, found = ["-", *RULES], 0, []
        for trace in traces:
            part = [line.split() for line in said[at + 1:at + 1 + len(trace)]]
            found.append([Answer(names[int(rule)], int(exec_flag), int(aux))
                          for rule, exec_flag, aux in part])
            at += 1 + len(trace)
        return found


class Verilated(Simulation):
    """A module with the ports of line.vh, compiled by verilator: quick to run."""

    def __init__(self, folder, top, *sources):
        super().__init__(f"{folder}/{top}/replay")
        flags = f"-O1 -DMODULE=V{top} -DMODULE_HEADER='\"V{top}.h\"'"
        subprocess.run(["verilator", "--cc", "--exe", "--build", "--Mdir", f"{folder}/{top}",
                        "--top-module", top, "-Wno-fatal", "-Wno-lint", f"-I{FOLDER}", "-CFLAGS",
                        flags, "-o", "replay", *sources, f"{FOLDER}/replay.cpp"],
                       check=True, stdout=subprocess.DEVNULL)


class Compiled(Simulation):
    """A module `monitors`, compiled by iverilog: quick to make."""

    def __init__(self, name, module):
        super().__init__("vvp", "-n", f"{name}.vvp")
        subprocess.run(["iverilog", "-g2012", f"-I{FOLDER}", "-s", "replay", "-o", f"{name}.vvp",
                        module, f"{FOLDER}/of_line.v", f"{FOLDER}/replay.v"], check=True)


def moves_bounds(line):
    """Whether the bounds may be others in the next line."""
    return any(trace_model.touches(access, METADATA) for access in trace_model.writes(line))


def steady(trace):
    """The beginning of a trace in which bounds move by writes to META alone."""
    for step, (before, line) in enumerate(zip(trace, trace[1:])):
        if line.bounds != before.bounds and not moves_bounds(before):
            return trace[:step + 1]
    return trace


class Difference(NamedTuple):
    trace: int
    step: int
    said: Answer
    right: Answer

    def __str__(self):
        return f"step {self.step}: {self.said} in place of {self.right}"


def differences(simulation, traces):
    """The first step of each trace in which a module says otherwise than the model."""
    for number, (trace, answers) in enumerate(zip(traces, simulation.answers(traces))):
        for step, (said, right) in enumerate(zip(answers, wanted(trace))):
            if said != right:
                yield Difference(number, step, said, right)
                break
