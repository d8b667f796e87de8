"""Proofs by yosys: that a module is equal to the definitions, and what is claimed of the formulas.
"""
import os
import re
import subprocess
from concurrent.futures import ThreadPoolExecutor
from typing import Dict, NamedTuple, Tuple

from formulas import claims_of_each, property_text, refuted
from reference_module import FLAGS, Step, verilog

FOLDER = os.path.dirname(os.path.realpath(__file__))
MODULE = f"{FOLDER}/monitors.v"
PREPARED = """read_verilog -sv {results}/reference.v
read_verilog -sv -I{folder} {module} {folder}/of_line.v
read_verilog -sv -formal -I{results} -I{results}/{name} -I{folder} {defined} {folder}/{top}.v
prep -top {top}
flatten
opt -full
async2sync
dffunmap
opt -full
"""
SAT = "sat -set-assumes -tempinduct -maxsteps 4 -timeout 300"
COUNTEREXAMPLE = f"{SAT} -tempinduct-baseonly -show-inputs"
WHOLE = f"{SAT} -prove-asserts"


class Run(NamedTuple):
    """Commands over a top module, each with a label, and whether each has to prove or refute."""
    name: str
    top: str
    defined: Tuple[str, ...]
    commands: Dict[str, str]
    proves: bool = True
    claims: tuple = ()


class Proofs:
    """Runs of yosys in a folder of their own, so many at once."""

    def __init__(self, results, module=MODULE, processors=os.cpu_count()):
        self.results, self.module = results, os.path.realpath(module)
        self.pool = ThreadPoolExecutor(processors)
        step = Step()
        conditions = [name for name in step.outputs if name not in ("rule", *FLAGS)]
        self.write("reference.v", verilog(step))
        self.write("conditions.vh", f"    wire {', '.join(conditions)};\n")

    def write(self, name, text):
        os.makedirs(os.path.dirname(f"{self.results}/{name}"), exist_ok=True)
        with open(f"{self.results}/{name}", "w", encoding="utf-8") as file:
            file.write(text)

    def said(self, run):
        """What yosys says of each command, by its label."""
        self.write(f"{run.name}/claims.vh", "".join(
            f"    (* keep *) wire {claim.name} = {property_text(claim.formula)};\n"
            for claim in run.claims))
        prepared = PREPARED.format(
            results=self.results, folder=FOLDER, module=self.module, name=run.name, top=run.top,
            defined=" ".join(f"-D{each}" for each in run.defined))
        commands = "".join(f"log == {label}\n{line}\n" for label, line in run.commands.items())
        self.write(f"{run.name}/run.ys", prepared + commands)
        answer = subprocess.run(["yosys", f"{run.name}/run.ys"], cwd=self.results,
                                stdout=subprocess.PIPE, stderr=subprocess.STDOUT)
        text = answer.stdout.decode("utf-8", "replace")
        self.write(f"{run.name}/log", text)
        parts = re.split(r"^== (\S+)$", text, flags=re.M)
        return {**dict.fromkeys(run.commands, text), **dict(zip(parts[1::2], parts[2::2]))}

    def wrong(self, run):
        """The labels of a run that are not as it says, each with a line of why."""
        right = "SUCCESS!" if run.proves else "FAIL!"
        for label, text in self.said(run).items():
            if right not in text and run.commands[label].startswith("sat"):
                found = re.search(r"SUCCESS!|FAIL!|Reached maximum.*|TIMEOUT|ERROR.*", text)
                yield f"{run.name}: {label}: {found[0] if found else 'no answer of yosys'}"

    def all_wrong(self, runs):
        return [line for lines in self.pool.map(lambda run: [*self.wrong(run)], runs)
                for line in lines]


def defined(premises):
    return tuple(premise.upper() for premise in premises)


EQUAL = ("EVEN", "BOUNDS")


def equality():
    """The rules under one premise, the flags under two; and each premise is needed."""
    return [
        Run("equal_flags", "equal", (*EQUAL, "FLAGS"), {"flags": WHOLE}),
        Run("equal_rules", "equal", EQUAL[:1], {"rules": WHOLE}),
        Run("rules_without_even", "equal", (), {"rules": f"{COUNTEREXAMPLE} -prove-asserts"},
            False),
        Run("flags_without_bounds", "equal", ("EVEN", "FLAGS"),
            {"flags": f"{COUNTEREXAMPLE} -prove-asserts"}, False),
    ]


def of_claims(kind, extra, claims, refutes=False):
    """A run for the claims under each set of premises. What makes them inductive is proved first,
    and then assumed.
    """
    for premises in sorted({claim.premises for claim in claims}):
        own = tuple(claim for claim in claims if claim.premises == premises)
        if refutes:
            commands = {claim.name: f"{COUNTEREXAMPLE} -prove {claim.name} 1'b1" for claim in own}
        else:
            proved = " ".join(f"-prove {claim.name} 1'b1" for claim in own)
            commands = {"invariants": WHOLE, "assumed": "chformal -assert2assume",
                        "claims": f"{SAT} {proved}"}
        yield Run("_".join([kind, *premises]), "claims", (*defined(premises), *extra), commands,
                  not refutes, own)


def formulas():
    """What is claimed of the formulas, of the definitions and of the module; and that no premise
    and no exception is too much, of the definitions.
    """
    for paper, claims in claims_of_each().items():
        yield from of_claims(f"{paper}_of_definitions", ("REFERENCE",), claims)
        yield from of_claims(f"{paper}_of_module", (), claims)
    yield from of_claims("refuted", ("REFERENCE",), [*refuted()], True)
