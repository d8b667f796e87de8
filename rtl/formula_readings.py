"""The formulas as docs/audit.md has them, as formulas.sv does and as formulas.smv does, each read
by itself, and whether they are true of two lines of a trace, one behind the other.
"""
import random
import re

from formulas import BITS, BOUNDS, PLACES, REGIONS, named_formulas, read_formula, sva, smv

COMPARISONS = {"=": int.__eq__, "<": int.__lt__, ">": int.__gt__, "≤": int.__le__,
               "≥": int.__ge__}
FROM_VERILOG = (("||", "∨"), ("&&", "∧"), ("|", "∨"), (">=", "≥"), ("<=", "≤"), ("==", "="),
                ("!", "¬"), ("16'h", "0x"))
FROM_SMV = (("->", "→"), ("|", "∨"), ("&", "∧"), (">=", "≥"), ("<=", "≤"), ("!", "¬"),
            ("0uh16_", "0x"))


def wires(line, rng):
    """Those of a line; reset and both flags are drawn."""
    letter, dma = (access.letter if access else "" for access in (line.cpu, line.dma))
    found = {"PC": line.pc, "Fen": letter == "f", "Ren": letter in ("r", "b"),
             "Wen": letter in ("w", "c"), "DMAen": dma != "", "DMAwen": dma in ("w", "c"),
             "Daddr": line.cpu.place if line.cpu else 0,
             "DMAaddr": line.dma.place if line.dma else 0, "irq": bool(line.irq),
             **dict(zip(BOUNDS, line.bounds))}
    return {**found, **{name: rng.random() < 0.5 for name in BITS if name not in found}}


def region(name, moment):
    if name in REGIONS:
        return REGIONS[name]
    return moment[f"{name}min"], moment[f"{name}max"] | 1


def value(formula, now, later):
    """Of a formula at two moments; a wire of the earlier one may be called so by `_q`."""
    operator, operands = formula
    if operator == "X":
        return value(operands[0], later, None)
    if operator == "∈":
        first, last = region(operands[1].operands[0], now)
        return first <= value(operands[0], now, later) <= last
    if not operator:
        word = operands[0]
        if re.match(r"\d", word):
            return int(word, 0)
        return PLACES[word] if word in PLACES else now[word]
    numbers = [value(each, now, later) for each in operands]
    if operator == "¬":
        return not numbers[0]
    if operator in COMPARISONS:
        return COMPARISONS[operator](*numbers)
    return {"∧": lambda a, b: a & b, "∨": lambda a, b: a | b,
            "→": lambda a, b: (not a) | b}[operator](*numbers)


def translated(text, words):
    for old, new in words:
        text = text.replace(old, new)
    return read_formula(text)


def of_verilog():
    """The formulas of formulas.sv; `!seen ||` is told by the number of moments."""
    found = re.findall(r"(\w+): assert property \(@\(posedge clk\) disable iff \(por\)(.*?)\);\n",
                       sva(), re.S)
    return {name: translated(text.replace("!seen ||", ""), FROM_VERILOG) for name, text in found}


def of_smv():
    found = re.findall(r"LTLSPEC NAME (\w+) :=\s+G \((.*?)\);\n", smv(), re.S)
    return {name: translated(text, FROM_SMV) for name, text in found}


def readings():
    """Each formula as it is read, of the wires of two moments: whether it is true by the papers'
    notation, by formulas.sv, and by formulas.smv.
    """
    own, verilog, smv_formulas = named_formulas(), of_verilog(), of_smv()
    if not [*own] == [*verilog] == [*smv_formulas]:
        raise ValueError("the files have other formulas")
    for name in own:
        yield name, own[name], verilog[name], smv_formulas[name], "_q" in str(verilog[name])


def differences(trace, seed):
    """The names of formulas that are read in two ways, and of those that are never false."""
    rng = random.Random(seed)
    moments = [wires(line, rng) for line in trace]
    pairs = [(now, later, {**later, **{f"{wire}_q": number for wire, number in now.items()}})
             for now, later in zip(moments, moments[1:])]
    for name, own, verilog, other, has_past in readings():
        found = {(bool(value(own, now, later)), bool(value(other, now, later)),
                  bool(value(verilog, both if has_past else now, None)))
                 for now, later, both in pairs}
        if found != {(True,) * 3, (False,) * 3}:
            yield f"{name} is {sorted(found)} as docs/audit.md, formulas.smv, formulas.sv have it"
