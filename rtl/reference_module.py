"""The module `reference`: rules and flags as the definitions in specs/ have them.

    python3 rtl/reference_module.py > reference.v

`right_rule before line`, `exec (line ∷ before)` and `aux (line ∷ before)` are evaluated with a wire
for each field of the line and a list `before` of which nothing is known. What then is left of
`before` are three functions of it: the `pc` of its last record, and both flags after it. They are
the registers of the module; what they are of no lines is evaluated too.
"""
import os
import re
import sys

sys.dont_write_bytecode = True
sys.path.insert(0, os.path.join(os.path.dirname(os.path.realpath(__file__)), "../tools"))
from netlist import (FALSE, Netlist, TRUE, conjunction, constant, negation,  # noqa: E402
                     operation, width_text, wire)
from reference import RULES  # noqa: E402
from symbolic import Evaluation  # noqa: E402
from values import Data, Opaque, branch, called, data, known, merged  # noqa: E402

KINDS = ("Boot", "Cpu", "Idle", "Irq", "Rom")  # as the wire `kind` numbers them
BOUNDS = ("er_min", "er_max", "or_min", "or_max")
FLAGS = {"exec": ("device_types", "ExecFlag", "exec"),
         "aux": ("part_definitions", "TrustedFlag", "aux")}
LAST = merged(negation(wire("last_some")), data("None"), data("Some", known(wire("last_pc", 16))))
# Functions of the lines before, each with what stands for it and what it is of no lines.
LEFT = ((("device_types", "ExecFlag", "last_pc"), LAST, data("None")),
        *((place, wire(f"{flag}_q"), FALSE) for flag, place in FLAGS.items()))
# The files of single rules and conditions, each with what is given to them beside the `pc` before.
SINGLE = {("part_definitions", "MonitorRule"): "signals_in",
          ("part_definitions", "FirstRule"): "signals_in",
          ("device_types", "ExecFlag"): "seen_in",
          ("part_definitions", "TrustedFlag"): "seen_in"}
CONDITION = re.compile(r"(?:breaks|clears)_([a-z]\d+)|(starts)_run")


def by_number(one, values):
    """The data of a number; every number that is left is of the last one."""
    found, rest = [], TRUE
    guards = [operation("==", one, constant(place)) for place in range(len(values) - 1)]
    for guard, value in zip([*guards, TRUE], values):
        found.append(value.alternatives[0]._replace(guard=conjunction(rest, guard)))
        rest = conjunction(rest, negation(guard))
    return Data(found)


def access(master):
    """0 none, 1 a fetch, 2 a read, 3 a write."""
    place, number = known(wire(f"{master}_addr", 16)), known(wire(f"{master}_number", 16))
    size = known(merged(wire(f"{master}_byte"), data("Byte"), data("Word")))
    none, *others = by_number(wire(f"{master}_op", 2), [
        data("None"), data("Fetch", place), data("Read", place, size),
        data("Write", place, size, number)]).alternatives
    return merged(none.guard, data("None"), data("Some", known(Data(others))))


def line_of_wires():
    fields = {"kind": by_number(wire("kind", 3), [*map(data, KINDS)]),
              "cpu": access("cpu"), "dma": access("dma"), "irq": wire("irq"),
              "asked": wire("ext_reset"), "exec": FALSE, "rule": data("None"),
              "bounds": {name: known(wire(name, 16)) for name in BOUNDS},
              **{name: wire(name, 16) for name in ("pc", "word", "value", "dma_value")}}
    return {name: known(value) for name, value in fields.items()}


def rule_number(rule):
    """The place of a rule in the order in which they are tried, from 1; 0 for none."""
    found, names = constant(0), [*RULES]
    for guard, constructor, arguments in rule.alternatives:
        for own, name, _ in arguments[0].get().alternatives if constructor == "Some" else ():
            place = constant(names.index(name) + 1)
            found = branch(conjunction(guard, own), known(place), known(found))
    return found


class Step:
    """One line behind a list of which nothing is known."""

    def __init__(self):
        self.of, self.line, before = Evaluation(), line_of_wires(), Opaque("before")
        history = self.seen_in(before)
        for place, now, first in LEFT:
            function = self.of.named(*place)
            self.of.registers[called(function, history).text] = now
            if called(function, data("[]")) != first:
                raise ValueError(f"the register of {place} begins otherwise than that")
        rule = called(self.named("right_rule"), before, self.line)
        self.line["rule"] = known(rule)
        records = self.seen_in(data("∷", known(self.line), known(before)))
        flags = {flag: called(self.of.named(*place), records) for flag, place in FLAGS.items()}
        self.outputs = {"rule": rule_number(rule), **flags, **dict(self.conditions())}

    def named(self, name):
        return self.of.named("trace_files", "Clean", name)

    def seen_in(self, lines):
        """The records that the flags are of."""
        return called(self.of.library.value("map"), self.named("seen_in"), lines)

    def conditions(self):
        """Each rule and each condition of a flag by itself, whatever others hold."""
        for place, view in SINGLE.items():
            given = called(self.named(view), self.line)
            names = self.of.crates.specs(*place).definitions
            for found in filter(None, map(CONDITION.fullmatch, names)):
                function = self.of.named(*place, found[0])
                last = [LAST] * (function.arity - 1)
                yield found[1] or found[2], called(function, *last, given)


MODULE = """\
// Made from the definitions in specs/ by rtl/reference_module.py. Of the lines before it knows:
{registers}
module reference
   (input wire clk, por, cpu_byte, dma_byte, irq, ext_reset,
    input wire [1:0] cpu_op, dma_op, input wire [2:0] kind,
    input wire [15:0] pc, cpu_addr, dma_addr, word, value, er_min, er_max, or_min, or_max,
{outputs},
    output reg last_some, exec_q, aux_q, output reg [15:0] last_pc);
    initial begin last_some = 0; exec_q = 0; aux_q = 0; last_pc = 0; end
{lines}
    always @(posedge clk) begin
        last_some <= ~por;
        exec_q <= exec & ~por;
        aux_q <= aux & ~por;
        last_pc <= pc;
    end
endmodule
"""


def verilog(step):
    netlist = Netlist()
    assigned = [f"    assign {name} = {netlist.name(one)};" for name, one in step.outputs.items()]
    outputs = ",\n".join(f"    output wire {width_text(one.width)}{name}"
                         for name, one in step.outputs.items())
    return MODULE.format(
        registers="\n".join(f"//   {text}" for text in step.of.registers), outputs=outputs,
        lines="\n".join([*netlist.lines, *assigned]))


if __name__ == "__main__":
    print(verilog(Step()), end="")
