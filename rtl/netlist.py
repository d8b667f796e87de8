"""Terms over the wires of a module, and their Verilog: Booleans, which have the width 0, and
natural numbers, each wide enough that nothing of it is lost.
"""
from functools import lru_cache, partial

LEAVES = {"true": "1'b1", "false": "1'b0", "wire": "{}", "number": "{width}'h{:x}"}
WRITTEN = {"&&": "{} & {}", "||": "{} | {}", "not": "~{}", "==": "{} == {}", "<=": "{} <= {}",
           "<": "{} < {}", "+": "{} + {}", "choice": "{} ? {} : {}", "slice": "{}[{}:{}]",
           "shifted": "{{{}, {}'b0}}"}
COMPUTED = {"==": int.__eq__, "<=": int.__le__, "<": int.__lt__, "+": int.__add__,
            "-": lambda left, right: max(0, left - right), "*": int.__mul__,
            "/": int.__floordiv__, "%": int.__mod__, "^": int.__pow__}


class Term:
    """An operation and its operands: terms, or numbers and names."""

    def __init__(self, operation, *operands, width=0):
        self.operation, self.operands, self.width = operation, operands, width


term = lru_cache(None)(Term)  # equal terms are one object, so that they become one wire
TRUE, FALSE = term("true"), term("false")


def constant(value):
    """The term of a Boolean or of a number."""
    if isinstance(value, bool):
        return TRUE if value else FALSE
    return term("number", value, width=max(1, value.bit_length()))


def wire(name, width=0):
    return term("wire", name, width=width)


def negation(one):
    if one in (TRUE, FALSE):
        return constant(one is FALSE)
    return one.operands[0] if one.operation == "not" else term("not", one)


def joined(operator, left, right):
    """By `&&` or `||`: of each one Boolean is neutral, and the other decides."""
    neutral, decisive = (TRUE, FALSE) if operator == "&&" else (FALSE, TRUE)
    if decisive in (left, right) or negation(left) is right:
        return decisive
    if left is neutral or left is right:
        return right
    return left if right is neutral else term(operator, left, right)


conjunction, disjunction = partial(joined, "&&"), partial(joined, "||")


def choice(guard, left, right):
    """One of two terms, the left one where the guard holds, of which that is not known."""
    if not left.width:
        return disjunction(conjunction(guard, left), conjunction(negation(guard), right))
    return term("choice", guard, left, right, width=max(left.width, right.width))


def operation(operator, left, right):
    """Of two Booleans or numbers. Of numbers that depend on wires it is a comparison, a sum, or a
    product, quotient or remainder by a power of two.
    """
    if operator in ("&&", "||"):
        return joined(operator, left, right)
    values = [each.operands[0] if each.operation == "number" else None for each in (left, right)]
    if None not in values:
        return constant(COMPUTED[operator](*values))
    if operator in ("==", "<=", "<"):
        return TRUE if operator == "<=" and values[0] == 0 else term(operator, left, right)
    if operator == "+":
        return term("+", left, right, width=max(left.width, right.width) + 1)
    bits = (values[1] or 0).bit_length() - 1
    if operator not in ("*", "/", "%") or bits < 0 or values[1] != 1 << bits:
        raise ValueError(f"no wires for {operator} by {values[1]}")
    if operator == "*":
        return term("shifted", left, bits, width=left.width + bits) if bits else left
    first, end = (0, min(bits, left.width)) if operator == "%" else (bits, left.width)
    if first >= end:
        return constant(0)
    if end - first == left.width:
        return left
    return term("slice", left, end - 1, first, width=end - first)


def width_text(width):
    return f"[{width - 1}:0] " if width else ""


class Netlist:
    """The wires of terms, in an order in which each comes behind those that it needs."""

    def __init__(self):
        self.names, self.lines = {}, []

    def name(self, one):
        """What a term is written as: its wire, which it gets here, or itself where it is a leaf."""
        if one.operation in LEAVES:
            return LEAVES[one.operation].format(*one.operands, width=one.width)
        if one not in self.names:
            text = WRITTEN[one.operation].format(*(
                self.name(each) if isinstance(each, Term) else each for each in one.operands))
            self.names[one] = f"n{len(self.lines)}"
            self.lines.append(f"    wire {width_text(one.width)}{self.names[one]} = {text};")
        return self.names[one]
