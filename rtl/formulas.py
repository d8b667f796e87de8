"""The formulas of VRASED, APEX and ASAP, and what the rules and the flags here are beside them:
that the device keeps a formula, and that a rule asks for no more than its formula does.

    python3 rtl/formulas.py sva|smv|tables

prints the formulas as a module of SystemVerilog, as one of SMV, and as the tables of docs/audit.md.
"""
import re
import sys
import textwrap
from typing import Any, NamedTuple, Tuple

REGIONS = {"CR": (0xA000, 0xBFFF), "KR": (0x6A00, 0x6A3F), "XS": (0x4000, 0x43FF),
           "MR": (0x0200, 0x021F), "METADATA": (0x0240, 0x028F), "IVT": (0xFFE0, 0xFFFF)}
PLACES = {"CRmin": 0xA000, "CRmax": 0xBFFE}
BOUNDS = ("ERmin", "ERmax", "ORmin", "ORmax")
BITS = ("Fen", "Ren", "Wen", "DMAen", "DMAwen", "irq", "reset", "EXEC", "AUX")
WORDS = ("PC", "Daddr", "DMAaddr", *BOUNDS)
PREMISES = ("even", "boot", "bounds")  # docs/audit.md says what each is


class Row(NamedTuple):
    """A formula, and what here is beside it. The formulas here are of the same wires, of those of
    single rules and conditions in the reference, and of a flag's `stands`: it was set before, or a
    run starts.
    """
    here: str  # the rule or condition
    text: str  # the formula, empty where the paper has none
    kept: Tuple[str, ...] = ()  # the premises under which the device keeps it
    less: str = ""  # but for this
    asks: str = ""  # where the rule asks for the effect
    asked: Tuple[str, ...] = ()  # the premises under which the formula asks for it too
    more: str = ""  # but for this


def rule_row(rule, text, kept=(), asked=("even",), more=""):
    """A formula of VRASED, which asks for a reset in the same step, or in the next."""
    asks = f"X({rule.lower()})" if "X(reset)" in text else rule.lower()
    return Row(rule, text, kept, "", asks, asked, more)


VRASED = (
    rule_row("A1", "¬reset ∧ (PC ∈ CR) ∧ ¬(X(PC) ∈ CR) → PC = CRmax ∨ X(reset)", ("boot",),
             ("boot",)),
    rule_row("A2", "¬reset ∧ ¬(PC ∈ CR) ∧ (X(PC) ∈ CR) → X(PC) = CRmin ∨ X(reset)", (),
             ("boot",), "PC = CRmax"),
    rule_row("A3", "irq ∧ (PC ∈ CR) → reset", (), ()),
    rule_row("K1", "¬(PC ∈ CR) ∧ Ren ∧ (Daddr ∈ KR) → reset", more="Fen"),
    rule_row("K2", "¬(PC ∈ CR) ∧ (Ren ∨ Wen) ∧ (Daddr ∈ XS) → reset", more="Fen"),
    rule_row("K3", "(PC ∈ CR) ∧ Wen ∧ ¬(Daddr ∈ XS) ∧ ¬(Daddr ∈ MR) → reset"),
    rule_row("K4", "DMAen ∧ (DMAaddr ∈ KR) → reset"),
    rule_row("K5", "DMAen ∧ (DMAaddr ∈ XS) → reset"),
    rule_row("K6", "DMAen ∧ (PC ∈ CR) → reset", (), ()),
)


def flag_rows(flag, letter, own):
    """The formulas that APEX and ASAP have alike; `own` are those that differ, by what they are
    of.
    """
    stands, off, next_off = f"stands{flag}", f"¬{flag}", f"¬X({flag})"
    bounds, both, read = ("bounds",), ("even", "bounds"), "DMAen ∧ ¬DMAwen"
    er = "[Wen ∧ (Daddr ∈ ER)] ∨ [DMAen ∧ (DMAaddr ∈ ER)]"
    output = "[¬(PC ∈ ER) ∧ (Wen ∧ Daddr ∈ OR)] ∨ (DMAen ∧ DMAaddr ∈ OR) ∨ (PC ∈ ER ∧ DMAen)"
    meta = "[Wen ∧ (Daddr ∈ METADATA)] ∨ [DMAen ∧ (DMAaddr ∈ METADATA)]"
    return (
        Row("start", f"¬{flag} ∧ X({flag}) → X(PC = ERmin)", asks=f"¬{flag} ∧ X(¬starts)",
            more="X(PC = ERmin) ∧ ¬X(opcode ∧ valid)"),
        Row(f"{letter}1, {letter}6 of ER", f"{er} → {off}", bounds, asks=f"{stands} ∧ e1",
            asked=both),
        Row(f"{letter}2", f"(PC ∈ ER) ∧ ¬(X(PC) ∈ ER) → PC = ERmax ∨ {next_off}", bounds,
            asks=f"X({stands} ∧ e2)", asked=bounds),
        own["3"],
        own["4"],
        Row(f"{letter}5, {letter}6 of OR, {letter}7", f"{output} → {off}", bounds,
            asks=f"{stands} ∧ (e5 ∨ e6 ∨ e7)", asked=both, more="DMAen ∧ (DMAaddr ∈ ER)"),
        Row(f"{letter}8", ""),
        Row(f"{letter}9, of META", f"{meta} → {off}", less=read, asks=f"{stands} ∧ e9",
            asked=("even",), more="reset"),
        Row(f"{letter}9, refused", f"reset → {off}"),
        Row("valid bounds", f"ERmin > ERmax ∨ ORmin > ORmax → {off}", bounds),
        Row("ER over CR", f"ERmin ≤ CRmax ∧ ERmax ≥ CRmin → {off}", bounds),
        *own["behind"],
    )


def entry(flag):
    return f"¬(PC ∈ ER) ∧ (X(PC) ∈ ER) → X(PC) = ERmin ∨ ¬X({flag})"


APEX = flag_rows("EXEC", "E", {
    "3": Row("E3", entry("EXEC"), ("bounds",), asks="X(standsEXEC ∧ e3)", asked=("bounds",)),
    "4": Row("E4", "(PC ∈ ER) ∧ irq → ¬EXEC", ("bounds",), asks="standsEXEC ∧ e4",
             asked=("bounds",)),
    "behind": (),
})
ASAP = flag_rows("AUX", "F", {
    "3": Row("F3", entry("AUX"), ("bounds",), asks="X(standsAUX ∧ f3)", asked=("bounds",),
             more="X(PC = ERmin ∧ ¬opcode)"),
    "4": Row("F4", ""),
    "behind": (
        Row("F10", "[Wen ∧ (Daddr ∈ IVT)] ∨ [DMAen ∧ (DMAaddr ∈ IVT)] → ¬AUX",
            less="DMAen ∧ ¬DMAwen", asks="standsAUX ∧ f10", asked=("even",)),
    ),
})
PAPERS = {"VRASED": VRASED, "APEX": APEX, "ASAP": ASAP}


class Formula(NamedTuple):
    operator: str  # of a wire it is empty, and its name the only operand
    operands: Tuple[Any, ...]


TOKEN = re.compile(r"\s*([()\[\]¬∧∨→∈=<>≤≥]|\w+)")
LEVELS = ("→", "∨", "∧", "=<>≤≥∈")
TRUE, FALSE = (Formula("", (word,)) for word in ("true", "false"))


class Reader:
    """`X(PC) ∈ CR` is read as `X(PC ∈ CR)`."""

    def __init__(self, text):
        self.text, self.words = text, TOKEN.findall(text)
        if "".join(self.words) != re.sub(r"\s", "", text):
            raise SyntaxError(f"no formula: {text}")

    def whole(self):
        found = self.formula()
        if self.words:
            raise SyntaxError(f"{' '.join(self.words)} behind a formula: {self.text}")
        return found

    def formula(self, level=0):
        if level == len(LEVELS):
            return self.operand()
        left = self.formula(level + 1)
        while self.words and self.words[0] in LEVELS[level]:
            operator, right = self.words.pop(0), self.formula(level + 1)
            if level == len(LEVELS) - 1 and left.operator == "X":
                left = Formula("X", (Formula(operator, (left.operands[0], right)),))
            else:
                left = Formula(operator, (left, right))
        return left

    def operand(self):
        word = self.words.pop(0)
        if word in ("¬", "X"):
            return Formula(word, (self.operand(),))
        if word not in "([":
            return Formula("", (word,))
        found = self.formula()
        if self.words.pop(0) != {"(": ")", "[": "]"}[word]:
            raise SyntaxError(f"a bracket is left open in {self.text}")
        return found


def read_formula(text):
    return Reader(text).whole()


def parts(formula):
    """A formula and all in it."""
    yield formula
    for each in formula.operands:
        if isinstance(each, Formula):
            yield from parts(each)


def looks_ahead(formula):
    return any(part.operator == "X" for part in parts(formula))


def replaced(formula, part, other):
    """A formula with another in place of a part."""
    if formula == part:
        return other
    return formula._replace(operands=tuple(
        replaced(each, part, other) if isinstance(each, Formula) else each
        for each in formula.operands))


def demand(row):
    """Where a formula asks for something: where it is false if there is no reset, or if the flag is
    set; in the next step, where it speaks of that.
    """
    formula = read_formula(row.text)
    undone = {"reset": FALSE, "EXEC": TRUE, "AUX": TRUE}
    name = next(name for name in undone if row.text.count(name) == max(
        map(row.text.count, undone)))
    effect = Formula("", (name,))
    later = Formula("X", (effect,))
    return Formula("¬", (replaced(formula, later if later in parts(formula) else effect,
                                  undone[name]),))


def either(formula, excepted):
    return Formula("∨", (formula, read_formula(excepted))) if excepted else formula


class Claim(NamedTuple):
    name: str
    formula: Formula
    premises: Tuple[str, ...]


def name_of(paper, row):
    return re.sub(r"\W+", "_", f"{paper} {row.here}")


def claims(paper, row, less=True, more=True):
    """That the device keeps the formula, and that the rule asks for no more; of each, whether what
    is told of it as less or as more is excepted.
    """
    if row.text:
        yield Claim(f"{name_of(paper, row)}_kept",
                    either(read_formula(row.text), row.less if less else ""), row.kept)
    if row.text and row.asks:
        asked = either(demand(row), row.more if more else "")
        yield Claim(f"{name_of(paper, row)}_asked",
                    Formula("→", (read_formula(row.asks), asked)), row.asked)


def claims_of_each():
    return {paper: [claim for row in rows for claim in claims(paper, row)]
            for paper, rows in PAPERS.items()}


def refuted():
    """What is not so: each claim without one of its premises, and without what it excepts."""
    for paper, rows in PAPERS.items():
        for row in rows:
            kept_and_asked = [*claims(paper, row)]
            for claim in kept_and_asked:
                for premise in claim.premises:
                    left = tuple(each for each in claim.premises if each != premise)
                    yield claim._replace(name=f"{claim.name}_without_{premise}", premises=left)
            without = [*claims(paper, row, less=False, more=False)]
            for claim, bare in zip(kept_and_asked, without):
                if claim != bare:
                    yield bare._replace(name=f"{bare.name}_without_exception")


class Notation(NamedTuple):
    """How a language writes a formula."""
    operators: dict
    number: str
    next: str  # a formula at the next moment, and a wire at this one beside it
    now: str


SHARED = {"¬": "!{}", "<": "({} < {})", ">": "({} > {})", "≤": "({} <= {})", "≥": "({} >= {})",
          "or": "({} | {})"}
VERILOG = Notation({**SHARED, "∧": "({} && {})", "∨": "({} || {})", "→": "(!{} || {})",
                    "=": "({} == {})", "true": "1'b1", "false": "1'b0"},
                   "16'h{:04X}", "{}", "{}_q")
SMV = Notation({**SHARED, "∧": "({} & {})", "∨": "({} | {})", "→": "({} -> {})",
                "=": "({} = {})", "true": "TRUE", "false": "FALSE"},
               "0uh16_{:04X}", "X {}", "{}")


def written(notation, formula):
    """A formula in a language; that a wire is of this moment is only told beside an X."""
    ahead = looks_ahead(formula)

    def wire(name, is_next):
        if name in PLACES:
            return notation.number.format(PLACES[name])
        if name in ("true", "false"):
            return notation.operators[name]
        return notation.now.format(name) if ahead and not is_next else name

    def ends(region, is_next):
        if region in REGIONS:
            return [notation.number.format(place) for place in REGIONS[region]]
        last = wire(f"{region}max", is_next)  # (of the word there the second byte)
        return wire(f"{region}min", is_next), notation.operators["or"].format(
            last, notation.number.format(1))

    def write(one, is_next=False):
        operator, operands = one
        if not operator:
            return wire(operands[0], is_next)
        if operator == "X":
            return notation.next.format(write(operands[0], True))
        if operator != "∈":
            return notation.operators[operator].format(*(write(each, is_next)
                                                         for each in operands))
        place = write(operands[0], is_next)
        first, last = ends(operands[1].operands[0], is_next)
        both = [notation.operators["≥"].format(place, first),
                notation.operators["≤"].format(place, last)]
        return notation.operators["∧"].format(*both)
    return write(formula)


def property_text(formula):
    """A formula in Verilog, at the later of its moments."""
    text = written(VERILOG, formula)
    return f"!seen || {text}" if looks_ahead(formula) else text


def named_formulas():
    return {name_of(paper, row): read_formula(row.text)
            for paper, rows in PAPERS.items() for row in rows if row.text}


SVA_HEAD = """\
// The formulas of VRASED, APEX and ASAP over the wires of README.md, one clock a step. Made by
// rtl/formulas.py; docs/audit.md has them as the papers write them. A formula that speaks of the
// next step is asserted in that one, over the values before it.
module formulas
   (input wire clk, por, {bits},
    input wire [15:0] {words});

    reg seen;
    reg {bits_q};
    reg [15:0] {words_q};
    initial seen = 0;
    always @(posedge clk) begin
        seen <= !por;
{kept}
    end

"""


def lines(text):
    """A text in lines, by its spaces."""
    return "\n".join(textwrap.wrap(text, 96, initial_indent=" " * 8, subsequent_indent=" " * 8,
                                   break_long_words=False, break_on_hyphens=False))


def sva():
    bits, words = ([name for name in names] for names in (BITS, WORDS))
    head = SVA_HEAD.format(
        bits=", ".join(bits), words=", ".join(words),
        bits_q=", ".join(f"{name}_q" for name in bits),
        words_q=", ".join(f"{name}_q" for name in words),
        kept="\n".join(f"        {name}_q <= {name};" for name in (*bits, *words)))
    return head + "".join(
        f"    {name}: assert property (@(posedge clk) disable iff (por)\n"
        f"{lines(f'{property_text(formula)});')}\n"
        for name, formula in named_formulas().items()) + "endmodule\n"


SMV_HEAD = """\
-- The formulas of VRASED, APEX and ASAP over the wires of README.md, one moment a step. Made by
-- rtl/formulas.py; docs/audit.md has them as the papers write them. Bits are booleans, and words
-- are of the type unsigned word[16].
MODULE formulas(
{wires})
"""


def smv():
    return SMV_HEAD.format(wires=lines(", ".join((*BITS, *WORDS)))) + "".join(
        f"LTLSPEC NAME {name} :=\n{lines(f'G ({written(SMV, formula)});')}\n"
        for name, formula in named_formulas().items())


def table_rows(paper):
    def cell(premises, excepted):
        words = ", ".join(premises) or "always"
        return f"{words}; but for `{excepted}`" if excepted else words
    for row in PAPERS[paper]:
        text = f"`G : {{{row.text}}}`" if row.text else "none"
        kept = cell(row.kept, row.less) if row.text else ""
        asked = cell(row.asked, row.more) if row.asks else ""
        yield f"| {row.here} | {text} | {kept} | {asked} |\n".replace("  ", " ")


def table(paper):
    """The rows of a paper as they stand in docs/audit.md; of ASAP those that are not APEX's."""
    of_apex = {re.sub(r"\bE(?=\d)", "F", row.replace("EXEC", "AUX")) for row in table_rows("APEX")}
    rows = (row for row in table_rows(paper) if paper != "ASAP" or row not in of_apex)
    return f"| Here | {paper} | It is kept | No more is asked |\n|---|---|---|---|\n" + "".join(rows)


def tables():
    return "\n".join(map(table, PAPERS))


if __name__ == "__main__":
    print({"sva": sva, "smv": smv, "tables": tables}[sys.argv[1]](), end="")
