"""Small faults of monitors.v, each with the shortest quiet trace that shows it, or proved equal.

    python3 rtl/mutants.py > rtl/mutants.md

writes the page of them, for reviewers; python3 rtl/mutants.py --search asks the solver for each
mutant whether a shorter trace shows it.
"""
import os
import sys
import tempfile
from concurrent.futures import ThreadPoolExecutor
from typing import NamedTuple, Tuple

sys.dont_write_bytecode = True
sys.path.insert(0, os.path.join(os.path.dirname(os.path.realpath(__file__)), "../tools"))
from file_readers import read_trace  # noqa: E402
from proofs import COUNTEREXAMPLE, EQUAL, MODULE, WHOLE, Proofs, Run  # noqa: E402
from replay import Compiled, wanted  # noqa: E402

QUIET = "c040 c048 0300 0310"


class Mutant(NamedTuple):
    what: str
    old: str
    new: str
    breaks: str  # which rule or condition is not kept; none where it is proved equal
    trace: Tuple[str, ...]  # of each line K P C D I X W V, and the bounds where they are no others


def fetch(pc, bounds=QUIET, **fields):
    """A line with a plain opcode fetch, and with other fields where they are named."""
    words = {"K": "cpu", "P": pc, "C": f"f{pc}", "D": "-", "I": "0", "X": "0", "W": "4303",
             "V": "0000", **fields}
    return " ".join([*words.values(), "0000", bounds])


ENTERED = fetch("c040")
ROM = fetch("a000")
WORD = "c040 c040 0300 0310"  # a region of one word
RUN = fetch("c040", WORD)
SLEEP = (RUN, fetch("c000", WORD), fetch("c040", WORD, K="idle", C="-"))
MUTANTS = (
    Mutant("a fetch of the key is no read", "(Fen | Ren) & `IN_KR(Daddr)", "Ren & `IN_KR(Daddr)",
           "K1", (fetch("c000", C="f6a00"),)),
    Mutant("the key ends a byte early", "16'h6A3F", "16'h6A3E", "K1", (fetch("c000", C="b6a3f"),)),
    Mutant("the stack is guarded against reads alone", "(Fen | Ren | Wen) & `IN_XS",
           "(Fen | Ren) & `IN_XS", "K2", (fetch("c000", C="w4000=0000"),)),
    Mutant("the ROM may write anywhere but to stack and MAC",
           "Wen & ~`IN_XS(Daddr) & ~`IN_MR(Daddr)", "Wen & (`IN_XS(Daddr) | `IN_MR(Daddr))",
           "K3", (fetch("a000", C="w0300=0000"),)),
    Mutant("the ROM may not write the MAC", "Wen & ~`IN_XS(Daddr) & ~`IN_MR(Daddr)",
           "Wen & ~`IN_XS(Daddr)", "K3", (fetch("a000", C="w0200=0000"),)),
    Mutant("the DMA may go on beside the ROM, but for odd addresses", "k6 = DMAen &",
           "k6 = DMAen & DMAaddr[0] &", "K6", (fetch("a000", D="r0300"),)),
    Mutant("the DMA may reach the last word of the stack", "k5 = DMAen & `IN_XS(DMAaddr)",
           "k5 = DMAen & `IN(DMAaddr, 16'h4000, 16'h43FD)", "K5", (fetch("c000", D="r43fe"),)),
    Mutant("the ROM may not be left from its exit", "state == FIRST_CR | state == MID_CR;",
           "state != NOT_CR;", "A1", (fetch("bffe"), fetch("c000"))),
    Mutant("the ROM may be entered at its exit", "PC != `CR_MIN;", "PC != `CR_MIN & PC != `CR_MAX;",
           "A2", (fetch("bffe"),)),
    Mutant("a boot leaves the ROM wrongly", "& ~`IN_CR(PC) & ~boot", "& ~`IN_CR(PC)",
           "A1", (ROM, fetch("0000", K="boot", C="rfffe"))),
    Mutant("an interrupt is kept out at the entry alone", "a3 = irq & `IN_CR(PC)",
           "a3 = irq & PC == `CR_MIN", "A3", (fetch("a002", I="1"),)),
    Mutant("the return address may lie in the stack", "Ren & (`IN_KR(Daddr) | `IN_XS(Daddr))",
           "Ren & `IN_KR(Daddr)", "A4", (ROM, fetch("bffe", C="r4000"))),
    Mutant("A2 goes before A3", "a3 ? 2 : a2 ? 3", "a2 ? 3 : a3 ? 2", "A3",
           (fetch("a002", I="1"),)),
    Mutant("SXT.B is legal", "operation == 1 | operation == 3 |", "operation == 1 |", "I1",
           (fetch("c000", W="11c5"),)),
    Mutant("validity forgets the MAC", "& (in_ram | in_program) & above_mac &",
           "& (in_ram | in_program) &", "start", (fetch("c040", "c040 c048 0204 0206"),)),
    Mutant("in validity the metadata end as those of version 1", "first > 16'h028F",
           "first > 16'h0269", "start", (fetch("c040", "c040 c048 0284 0286"),)),
    Mutant("ER and OR may have a word in common", "ERmax < ORmin", "ERmax <= ORmin", "start",
           (fetch("c040", "c040 c048 c048 c050"),)),
    Mutant("a DMA write does not fall under E1", "Wen & d_er | DMAwen & dma_er", "Wen & d_er",
           "", ()),
    Mutant("ER may be left from anywhere", "state == IN_ER & ~in_er", "1'b0", "E2, F2",
           (ENTERED, fetch("c000"))),
    Mutant("ER may not be left from ERmax", "leaves = state == IN_ER &",
           "leaves = (state == IN_ER | state == LAST_ER) &", "E2, F2",
           (RUN, fetch("c000", WORD))),
    Mutant("ER may be entered anywhere", "enters = state == BEHIND & in_er & ~is_entry",
           "enters = 1'b0", "E3, F3", SLEEP),
    Mutant("an interrupt clears EXEC when it is entered, and not when it could be",
           "e4 = irq & in_er", "e4 = irq_entry & in_er", "E4", (fetch("c040", I="1"),)),
    Mutant("OR is guarded at its first byte alone", "e5 = ~in_er & Wen & d_or",
           "e5 = ~in_er & Wen & Daddr == ORmin", "E5, F5",
           (RUN, fetch("c000", WORD, C="w0302=0000"))),
    Mutant("the DMA may read code and output", "e6 = DMAen &", "e6 = DMAwen &", "E6, F6",
           (RUN, fetch("c000", WORD, D="r0300"))),
    Mutant("the DMA may read while ER runs", "e7 = in_er & DMAen", "e7 = in_er & DMAwen",
           "E7, F7", (fetch("c040", D="r0400"),)),
    Mutant("ER may fetch from outside", "e8 = in_er & Fen & ~d_er", "e8 = 1'b0", "E8, F8",
           (ENTERED, fetch("c048", C="fc04a"))),
    Mutant("a refused step leaves the flags set", "DMAwen & `IN_META(DMAaddr) | reset",
           "DMAwen & `IN_META(DMAaddr)", "E9, F9", (fetch("c040", X="1"),)),
    Mutant("counter and token may be exchanged", "e9 = Wen & `IN_META(Daddr)",
           "e9 = Wen & `IN(Daddr, 16'h0240, 16'h026B)", "E9, F9",
           (ENTERED, fetch("c042", C="w026c=0000"))),
    Mutant("a handler's address keeps bit 0", "handler = {din[15:1], 1'b0}", "handler = din", "",
           ()),
    Mutant("F3 is as E3", ".is_entry(opcode & at_first)", ".is_entry(at_first)", "F3",
           SLEEP),
    Mutant("a handler may lie outside ER", "clears | f4 | f10", "clears | f10", "F4",
           (ENTERED, fetch("c042", K="irq", C="rfff2", V="c000"))),
    Mutant("the DMA may write the vectors", "`IN_IVT(Daddr) | DMAwen & `IN_IVT(DMAaddr)",
           "`IN_IVT(Daddr)", "F10",
           (RUN, fetch("c000", WORD, D="wfff2=0000"))),
    Mutant("a run starts with any bounds", "start = opcode & at_first & valid",
           "start = opcode & at_first", "start", (fetch("c040", "c040 c03e 0300 0310"),)),
    Mutant("a start sets a flag that its own step clears", "(start | state != NOT_SET) & ~clears",
           "(start | state != NOT_SET & ~clears)", "E9, F9", (fetch("c040", X="1"),)),
    Mutant("to the DMA ER ends with the first byte of ERmax",
           "dma_er = `IN(DMAaddr, ERmin, ERmax | 16'h0001)",
           "dma_er = `IN(DMAaddr, ERmin, ERmax)", "E6, F6", (RUN, fetch("c000", WORD, D="bc041"))),
    Mutant("a sleep at ERmin starts a run", "start = opcode & at_first & valid",
           "start = at_first & valid", "start", (fetch("c040", K="idle", C="-"),)),
)


def text_of(mutant, answers):
    """The trace with these answers."""
    return "".join(f"t {step} {line} {answer.exec} {answer.rule}\n"
                   for step, (line, answer) in enumerate(zip(mutant.trace, answers)))


def lines_of(mutant):
    return read_trace("".join(f"t {step} {line} 0 -\n"
                              for step, line in enumerate(mutant.trace)).encode())


def source(mutant):
    with open(MODULE, encoding="utf-8") as file:
        text = file.read()
    if text.count(mutant.old) != 1:
        raise ValueError(f"{mutant.what}: {mutant.old} stands {text.count(mutant.old)} times")
    return text.replace(mutant.old, mutant.new)


def written(folder, mutant):
    """The file of a mutant."""
    name = f"{folder}/{MUTANTS.index(mutant) + 1}.v"
    with open(name, "w", encoding="utf-8") as file:
        file.write(source(mutant))
    return name


def answers(folder, mutant):
    """What the mutant says of its trace, and what is right."""
    module = Compiled(f"{folder}/{MUTANTS.index(mutant) + 1}", written(folder, mutant))
    trace = lines_of(mutant)
    return module.answers([trace])[0], wanted(trace)


def shown(folder):
    """For each mutant with a trace, its answers and the right ones."""
    traced = [mutant for mutant in MUTANTS if mutant.trace]
    with ThreadPoolExecutor() as pool:
        return dict(zip(traced, pool.map(lambda mutant: answers(folder, mutant), traced)))


def equal_wrong(folder):
    """What is wrong of the mutants that are told to be equal."""
    found = []
    for mutant in MUTANTS:
        if not mutant.trace:
            own = Proofs(f"{folder}/equal{MUTANTS.index(mutant)}", written(folder, mutant))
            found += own.wrong(Run("mutant", "equal", (*EQUAL, "FLAGS"), {"flags": WHOLE}))
    return found


def is_shown_sooner(folder, mutant):
    """Whether a trace of fewer lines shows it."""
    proofs = Proofs(f"{folder}/s{MUTANTS.index(mutant)}", written(folder, mutant))
    fewer = COUNTEREXAMPLE.replace("-maxsteps 4", f"-maxsteps {len(mutant.trace) - 1}")
    said = proofs.said(Run("sooner", "equal", (*EQUAL, "FLAGS"),
                           {"sooner": f"{fewer} -prove-asserts"}))
    return "FAIL!" in said["sooner"]


HEAD = """# Faults of the monitors, and what shows them

Written by `python3 rtl/mutants.py`. Each row is a small fault of `monitors.v`. `equal` is proved:
under the premises of `README.md` the fault changes nothing, and why is told. Each other is shown by
the trace below, which no shorter one does; the file ends with the line in which the fault answers
wrongly, and has its answers. `audit` of it names the offence, but where AUX alone is wrong, which
no line tells.

| | Fault | It says | Right | Broken |
|---|---|---|---|---|
"""
WHY_EQUAL = {"a DMA write does not fall under E1": "E6 has every DMA access to ER",
             "a handler's address keeps bit 0": "valid bounds begin and end with whole words"}


def page(found):
    rows, traces = [], []
    for number, mutant in enumerate(MUTANTS, 1):
        if mutant.trace:
            said, right = found[mutant]
            rows.append(
                f"| {number} | {mutant.what} | {said[-1]} | {right[-1]} | {mutant.breaks} |")
            traces.append(f"{number}: {mutant.what}\n\n" + "".join(
                f"    {line}\n" for line in text_of(mutant, said).splitlines()))
        else:
            rows.append(f"| {number} | {mutant.what} | equal: {WHY_EQUAL[mutant.what]} | | |")
    return HEAD + "\n".join(rows) + "\n\n## The traces\n\n" + "\n".join(traces)


def main():
    with tempfile.TemporaryDirectory() as folder:
        if sys.argv[1:] == ["--search"]:
            for mutant in MUTANTS:
                if len(mutant.trace) > 1:
                    print(mutant.what, is_shown_sooner(folder, mutant), flush=True)
        else:
            print(page(shown(folder)), end="")


if __name__ == "__main__":
    main()
