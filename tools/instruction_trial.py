"""Trials of the tables of instructions in docs/: the assembler and the listing have the same."""
import re

from file_readers import image_text
from reference import PROGRAM
from sample_files import read
from trial import ROOT


EXTENSION = "0x0042"  # the extension word of an operand that has one
OPERANDS = {"the register": "r{}", "indexed": EXTENSION + "(r{})", "absolute": "&" + EXTENSION,
            "indirect": "@r{}", "indirect, and the register is incremented": "@r{}+",
            "immediate": "#" + EXTENSION}


def cells(line):
    return [cell.strip() for cell in line.strip("|\n").split("|")]


def table(head):
    """The rows of the table of docs/instructions.md with this head, the head the first."""
    text = read(f"{ROOT}/docs/instructions.md").decode()
    first, rows = re.search(rf"^(\| {head} \|.*\n)\|[-|]+\n((?:\|.*\n)*)", text, re.M).groups()
    return [cells(line) for line in (first + rows).splitlines()]


def numbered(head):
    """The numbers in a table's head, with the names in its first row."""
    numbers, names = table(head)[:2]
    return [(int(number, 16), name.lower()) for number, name in zip(numbers[1:], names[1:])]


def word_of(form, **values):
    """The word of a form whose fields, by the table of bits, have these values; 0 where none."""
    word, above = 0, 16
    for high, low, fixed, name in re.findall(r"(\d+)(?:\.\.(\d+))? (?:are ([01]+)|([^,]+))",
                                             dict(table("Form"))[form]):
        low = int(low or high)
        value = int(fixed, 2) if fixed else values.pop(re.sub(r"\W", "_", name), 0)
        if int(high) != above - 1 or value >> above - low:
            raise ValueError(f"docs/instructions.md: bits {high} to {low} of {form}")
        word, above = word | value << low, low
    if values:
        raise ValueError(f"docs/instructions.md: no {', '.join(values)} of {form}")
    return word


def source(mode, register):
    """How the source of a mode and a register is printed, by the table of modes."""
    (modes, text), = (
        (modes.split(", "), text) for modes, registers, text in table("As")[1:]
        if str(mode) in modes.split(", ")
        and (f"R{register}" in re.findall(r"R\d+", registers)) != registers.startswith("not "))
    if text.startswith("the constants "):
        constants = text.removeprefix("the constants ").replace("−", "-").split(", ")
        return "#" + constants[modes.index(str(mode))]
    return OPERANDS[re.split(":|;| with|, added", text)[0]].format(register)


def dest(mode, register):
    """How a destination is printed: as a source of such a mode, but for R3."""
    return ["r3", EXTENSION + "(r3)"][mode] if register == 3 else source(mode, register)


def statements():
    """The first word of each instruction that is tried, with its text but for a jump's target: each
    opcode, and each mode of each register."""
    for opcode, name in numbered("Opcode of two operands"):
        yield (word_of("two operands", opcode=opcode, source_register=4, destination_register=5),
               f"{name} r4,r5")
    for opcode, name in numbered("Opcode of one operand"):
        yield word_of("one operand", opcode=opcode, register=4), f"{name} r4"
    for condition, name in numbered("Condition"):
        yield word_of("jump", condition=condition), name
    for mode in range(4):
        for register in range(16):
            text, fields = source(mode, register), {"B_W": 1, "As": mode}
            yield word_of("one operand", opcode=4, register=register, **fields), f"push.b {text}"
            yield (word_of("two operands", opcode=4, source_register=register, Ad=mode % 2,
                           destination_register=15 - register, **fields),
                   f"mov.b {text},{dest(mode % 2, 15 - register)}")


def opcodes(trial, files):
    """What docs/instructions.md says of words, opcodes and modes is what is read and printed."""
    image, lines, place = {}, [], PROGRAM.first
    for word, text in statements():
        text = text if " " in text else f"{text} 0x{place + 2:04x}"
        lines.append((place, text))
        for part in [word] + text.count(EXTENSION) * [int(EXTENSION, 16)]:
            image.update(enumerate(part.to_bytes(2, "little"), place))
            place += 2
    asm = files.add("opcodes.asm", "".join(f"{text}\n" for _, text in lines).encode())
    trial.prints(image_text(image), "asm", asm)
    listed = "".join(f"{place:04x}: {text}\n" for place, text in lines)
    trial.prints(listed.encode(), "list", files.add("opcodes.hex", image_text(image)))


def emulated(trial, files):
    """Each emulated instruction of docs/assembler.md is the one beside it."""
    text = read(f"{ROOT}/docs/assembler.md").decode()
    rows = re.search(r"^\| Written \| Is \|.*\n\|[-|]+\n((?:\|.*\n)*)", text, re.M)[1]
    pairs = re.findall(r"`(\w+(?: [ds])?)` \| `([^`]*)`", rows)
    if len(pairs) != 24:
        trial.fault(f"docs/assembler.md: {len(pairs)} emulated instructions")
    written, core = (
        trial.expect(0, "", "asm", files.add(f"{side}.asm", "".join(
            re.sub(r"\bd\b", "r9", re.sub(r"\bs\b", "@r8+", line)) + "\n"
            for line in lines).encode()))
        for side, lines in zip(("written", "core"), zip(*pairs)))
    if written != core:
        trial.fault("docs/assembler.md: an emulated instruction is another")


def instructions(trial, files):
    opcodes(trial, files)
    emulated(trial, files)
