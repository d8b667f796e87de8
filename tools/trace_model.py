"""The lines of a trace file, what an audit says of them, and both flags after them, written from
docs/formats.md and docs/monitors.md and apart from the program's own.
"""
from assembler_model import is_illegal
from file_readers import is_valid, read_reports
from reference import KEY, MAC, METADATA, ROM, STACK, VECTORS, Region

ENTRY, EXIT = ROM.first, ROM.last - 1


def places(access):
    if access is None:
        return []
    return [access.place, access.place + 1][:1 if access.letter in "bc" else 2]


def touches(access, *regions):
    return any(region.has(place) for place in places(access) for region in regions)


def is_write(access):
    return access is not None and access.letter in "wc"


def is_read(access):
    return access is not None and access.letter in "rb"


def writes(line):
    return [access for access in (line.cpu, line.dma) if is_write(access)]


def was_inside(last):
    """The step before was in the ROM, and not at its exit."""
    return last is not None and ROM.has(last) and last != EXIT


def fetches_opcode(line):
    return (line.kind == "cpu" and line.cpu is not None and line.cpu.letter == "f"
            and line.cpu.place == line.pc)


def conditions(last, line):
    """Each rule with whether it holds, in the order in which they are tried."""
    inside, cpu, dma = ROM.has(line.pc), line.cpu, line.dma
    write = is_write(cpu)
    yield "X0", line.asked
    yield "A3", line.irq and inside
    yield "A2", inside and line.pc != ENTRY and not was_inside(last)
    yield "A1", was_inside(last) and not inside and line.kind != "boot"
    yield "A4", line.pc == EXIT and is_read(cpu) and touches(cpu, KEY, STACK)
    yield "K1", touches(cpu, KEY) and not write and not inside
    yield "K2", touches(cpu, STACK) and not inside
    yield "K3", inside and write and not all(STACK.has(place) or MAC.has(place)
                                             for place in places(cpu))
    yield "K4", touches(dma, KEY)
    yield "K5", touches(dma, STACK)
    yield "K6", dma is not None and inside
    yield "I1", fetches_opcode(line) and is_illegal(line.word)


def right_rule(last, line):
    return next((rule for rule, holds in conditions(last, line) if holds), "-")


def starts_run(line):
    return fetches_opcode(line) and line.pc == line.bounds[0] and is_valid(line.bounds, 2)


def code_of(line):
    return Region(line.bounds[0], (line.bounds[1] + 1) % 65536)


def is_inside(line):
    return code_of(line).has(line.pc)


def was_in_code(last, line):
    return last is not None and code_of(line).has(last)


def enters_code(last, line):
    return is_inside(line) and not was_in_code(last, line)


def clears_both(last, line):
    """Whether one of E1, E2 and E5 to E9 describes the step, which clear both flags."""
    er_max, or_min, or_max = line.bounds[1:]
    er, output, here = code_of(line), Region(or_min, (or_max + 1) % 65536), is_inside(line)
    fetch = line.cpu is not None and line.cpu.letter == "f"
    return any((
        any(touches(access, er) for access in writes(line)),
        not here and was_in_code(last, line) and last != er_max,
        not here and is_write(line.cpu) and touches(line.cpu, output),
        touches(line.dma, er, output),
        here and line.dma is not None,
        here and fetch and not all(map(er.has, places(line.cpu))),
        line.rule != "-" or any(touches(access, METADATA) for access in writes(line)),
    ))


def clears_exec(last, line):
    """These, E3 or E4."""
    return (clears_both(last, line)
            or enters_code(last, line) and line.pc != line.bounds[0]
            or is_inside(line) and bool(line.irq))


def clears_aux(last, line):
    """These, F3, F4 or F10."""
    first = fetches_opcode(line) and line.pc == line.bounds[0]
    elsewhere = (line.kind == "irq" and is_read(line.cpu)
                 and not code_of(line).has(line.value & 0xFFFE))
    return (clears_both(last, line)
            or enters_code(last, line) and not first
            or is_inside(line) and elsewhere
            or any(touches(access, VECTORS) for access in writes(line)))


def flag_after(flag, clears, last, line):
    return (flag or starts_run(line)) and not clears(last, line)


def flags_of(trace):
    """EXEC and AUX after each line."""
    last, exec_flag, aux = None, False, False
    for line in trace:
        exec_flag = flag_after(exec_flag, clears_exec, last, line)
        aux = flag_after(aux, clears_aux, last, line)
        yield exec_flag, aux
        last = line.pc


def wrong_report(trace, play):
    """The first report of a play that tells other flags than its trace, None where all are right.
    """
    flags = [*flags_of(trace)]
    return next((report for report in read_reports(play)
                 if (report.exec, report.aux) != flags[report.step]), None)


def access_word(access):
    if access is None:
        return "-"
    digits = 2 if access.letter == "c" else 4
    number = "" if access.number is None else "=%0*x" % (digits, access.number)
    return f"{access.letter}{access.place:04x}{number}"


def trace_line(step, line):
    """The text of a line."""
    numbers = " ".join("%04x" % number
                       for number in (line.word, line.value, line.dma_value, *line.bounds))
    return (f"t {step} {line.kind} {line.pc:04x} {access_word(line.cpu)} "
            f"{access_word(line.dma)} {line.irq:d} {line.asked:d} {numbers} {line.exec:d} "
            f"{line.rule}\n").encode()


def audit_line(trace):
    """What `audit` prints of these lines."""
    last = None
    for step, (line, (flag, _)) in enumerate(zip(trace, flags_of(trace))):
        rule = right_rule(last, line)
        if line.rule != rule:
            return b"offence %d rule %s\n" % (step, rule.encode())
        if line.exec != flag:
            return b"offence %d exec %d\n" % (step, flag)
        last = line.pc
    return b"clean %d\n" % len(trace)
