"""Trials of rtl/: the monitors in Verilog beside the definitions, the formulas of the papers, and
faults of both, where yosys, iverilog and verilator are.
"""
import os
import re
import shutil
import sys
import tempfile
from concurrent.futures import ThreadPoolExecutor

from assembler_model import is_illegal
from conformance_cases import all_cases
from file_readers import is_valid, read_trace
from sample_files import read
from trial import ROOT
from verifier_trial import prints_verdicts

sys.path.insert(0, f"{ROOT}/rtl")
import formula_readings  # noqa: E402
import formulas  # noqa: E402
import mutants  # noqa: E402
from foreign_lines import foreign_trace  # noqa: E402
from netlist import FALSE, TRUE, constant  # noqa: E402
from proofs import MODULE, Proofs, equality  # noqa: E402
from proofs import formulas as formula_runs  # noqa: E402
from reference_module import BOUNDS  # noqa: E402
from replay import FOLDER, Verilated, differences, steady, wanted  # noqa: E402
from symbolic import Evaluation  # noqa: E402
from values import called, known  # noqa: E402
import trace_model  # noqa: E402

# What a correct board shows, and what docs/audit.md says to write for it.
RETURN = b"""t 0 cpu c000 fc000 - 0 0 4303 4303 0000 c040 c048 0300 0310 0 -
t 1 cpu a000 fa000 - 0 0 4303 4303 0000 c040 c048 0300 0310 0 -
t 2 cpu bffe fbffe - 0 0 4130 4130 0000 c040 c048 0300 0310 0 -
t 3 cpu bffe r21fe - 0 0 0000 c010 0000 c040 c048 0300 0310 0 -
t 4 cpu c010 fc010 - 0 0 4303 4303 0000 c040 c048 0300 0310 0 -
"""
RESET = b"""t 0 cpu a000 fa000 - 0 0 4303 4303 0000 c040 c048 0300 0310 0 -
t 1 cpu a002 w0300=0000 - 0 0 0000 0000 0000 c040 c048 0300 0310 0 K3
t 2 idle 0000 - - 0 0 0000 0000 0000 c040 c048 0300 0310 0 -
t 3 boot 0000 rfffe - 0 0 0000 c000 0000 c040 c048 0300 0310 0 -
"""
SHOWN = ((RETURN, b"offence 3 rule A2\n"), (RESET, b"offence 2 rule A1\n"),
         (re.sub(rb"t 2 .*\n", b"", RETURN), b"clean 4\n"),
         (RESET.replace(b"idle", b"boot"), b"clean 4\n"))
NEEDED = ("yosys", "iverilog", "verilator")
SEEDS = range(10)  # of lists of 1,000 foreign lines


def steps_of_cases(trial, results):
    """The module and the reference answer every line of conformance/ and foreign lines rightly. The
    module is not asked where bounds move without a write to META.
    """
    traces = [read_trace(read(case.file("trace"))) for case in all_cases()
              if case.has("trace") and not case.has("audit.status")]
    foreign = [foreign_trace(seed, False) for seed in SEEDS]
    tops = {"of_line": ((MODULE, f"{FOLDER}/of_line.v"), [*map(steady, traces)]
                        + [foreign_trace(seed, True) for seed in SEEDS]),
            "reference": ((f"{results}/reference.v",), traces + foreign)}
    for top, (sources, lists) in tops.items():
        for each in differences(Verilated(results, top, *sources), lists):
            trial.fault(f"{top}: list {each.trace}, {each}")
    audited(trial, results, foreign)


def audited(trial, results, lists):
    """The program's audit finds the answers right that the module and the reference gave."""
    for number, trace in enumerate(lists):
        text = b"".join(
            trace_model.trace_line(step, line._replace(rule=right.rule, exec=right.exec))
            for step, (line, right) in enumerate(zip(trace, wanted(trace))))
        name = f"{results}/foreign-{number}"
        with open(name, "wb") as file:
            file.write(text)
        trial.prints(b"clean %d\n" % len(trace), "audit", name)


# Terms with their values, and terms that are refused: the language of the definitions is read as
# far as those of rules and flags need it.
TERMS = {"1 + 2 * 3 == 7 && true": TRUE, "false || not false && false": FALSE,
         "let x : N = 2 in x + x == 4": TRUE, "if nat_lt 1 2 then false else true": FALSE,
         "(record { a = 3; b = 4 }).b == 0x4": TRUE, "9 / 2 * 2 == 8": TRUE, "9 % 4 == 1": TRUE,
         "list_any (λ x. x == 2) (1 ∷ 2 ∷ [])": TRUE,
         "list_all is_some (Some 1 ∷ None ∷ [])": FALSE,
         "is_none (option_or None (Some 1))": FALSE, "2 ^ 3 - 1 - 1 == 6": TRUE,
         "list_any (λ x. x == 3) (map (λ x. x + 1) ((1 ∷ []) ++ (2 ∷ [])))": TRUE}
REFUSED = {"x": NameError, "1 ? 2": SyntaxError, "if true then 1": SyntaxError,
           "true )": SyntaxError, "(1, 2": SyntaxError, "- 1": SyntaxError,
           "is_some 1": AttributeError}


def reference_tool(trial):
    """The tool that makes the reference: terms, words that are illegal, and bounds that are valid,
    beside the models of tools/.
    """
    evaluation = Evaluation()
    for text, value in TERMS.items():
        if evaluation.library.defined("f", [f"f = {text}"]) is not value:
            trial.fault(f"{text} is not {value.operation}")
    for text, error in REFUSED.items():
        try:
            evaluation.library.defined("f", [f"f = {text}"])
            trial.fault(f"{text} is read")
        except error:
            pass
    illegal = evaluation.named("part_definitions", "NextAccess", "is_illegal")
    for word in [*range(0, 0x10000, 97), *range(0x1000, 0x1400)]:
        if (called(illegal, constant(word)) is TRUE) != is_illegal(word):
            trial.fault(f"is_illegal {word:04x}")
    valid = evaluation.named("device_types", "Bounds", "are_valid")
    for line in foreign_trace(2, False, 400):
        bounds = {name: known(constant(place)) for name, place in zip(BOUNDS, line.bounds)}
        if (called(valid, bounds) is TRUE) != is_valid(line.bounds, 2):
            trial.fault(f"are_valid {line.bounds}")
    trial.tries += len(TERMS) + len(REFUSED)


def told_texts(trial):
    """The files that are made are as they would be made now."""
    audit = read(f"{ROOT}/docs/audit.md").decode()
    for paper in formulas.PAPERS:
        if formulas.table(paper) not in audit:
            trial.fault(f"docs/audit.md has another table of {paper} than rtl/formulas.py")
    for name, text in {"formulas.sv": formulas.sva(), "formulas.smv": formulas.smv()}.items():
        if read(f"{FOLDER}/{name}").decode() != text:
            trial.fault(f"rtl/{name} is not as rtl/formulas.py writes it")
    for fault in formula_readings.differences(foreign_trace(1, False, 800, 0.5), 1):
        trial.fault(fault)


def shown_by_boards(trial, files):
    """What docs/audit.md says of lines of another device."""
    for text, verdict in SHOWN:
        lines = [re.sub(rb"^t \d+", b"t %d" % step, line)
                 for step, line in enumerate(text.splitlines(True))]
        prints_verdicts(trial, verdict, "audit", files.add("board", b"".join(lines)))


def faults(trial, results):
    """Each mutant of the module is shown by its trace as the page tells, which `audit` finds too
    where a line tells what is wrong; or it is equal.
    """
    found = mutants.shown(results)
    if mutants.page(found) != read(f"{FOLDER}/mutants.md").decode():
        trial.fault("rtl/mutants.md is not as rtl/mutants.py writes it")
    for mutant, (said, right) in found.items():
        if said[-1] == right[-1] or said[:-1] != right[:-1]:
            trial.fault(f"{mutant.what}: its trace does not show it at its end")
        name = f"{results}/fault"
        with open(name, "w", encoding="utf-8") as file:
            file.write(mutants.text_of(mutant, said))
        last, told = len(said) - 1, f"clean {len(said)}\n"
        if said[-1].rule != right[-1].rule:
            told = f"offence {last} rule {right[-1].rule}\n"
        elif said[-1].exec != right[-1].exec:
            told = f"offence {last} exec {right[-1].exec}\n"
        prints_verdicts(trial, told.encode(), "audit", name)
    for line in mutants.equal_wrong(results):
        trial.fault(line)


def rtl(trial, files):
    """What rtl/README.md says: each part beside the others, since the proofs take long."""
    reference_tool(trial)
    told_texts(trial)
    shown_by_boards(trial, files)
    missing = [name for name in NEEDED if not shutil.which(name)]
    if missing:
        print(f"{trial.name}: rtl is left out: no {', '.join(missing)}")
        return
    with tempfile.TemporaryDirectory() as results, ThreadPoolExecutor(os.cpu_count()) as pool:
        proofs = Proofs(results)
        parts = [pool.submit(part, trial, results) for part in (steps_of_cases, faults)]
        for line in proofs.all_wrong([*equality(), *formula_runs()]):
            trial.fault(line)
        for part in parts:
            part.result()
