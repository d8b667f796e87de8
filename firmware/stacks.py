"""llvm-nm ELF | stacks.py DUMP

Looks into DUMP, what `foldgneiss dump` printed of a run, whether the stack of the firmware ELF grew
out of its place: the word below it, which the kit's start lays, is another then.
"""
import re
import sys

GUARD = 0x5AFE


def memory_of(text):
    """The bytes of the Intel HEX records in a text, by their places."""
    memory = {}
    for row in re.findall(r"^:([0-9A-F]+)$", text, re.M):
        record = bytes.fromhex(row)
        if record[3] == 0:
            place = int.from_bytes(record[1:3], "big")
            memory.update(enumerate(record[4:-1], place))
    return memory


def main():
    symbols = {name: (place, kind) for place, kind, name in map(str.split, sys.stdin)}
    if symbols.get("start", "  ")[1] != "W":  # a start of the firmware's own lays no word
        return 0
    with open(sys.argv[1], encoding="ascii") as file:
        memory = memory_of(file.read())
    place = int(symbols["stack_guard"][0], 16)
    word = memory.get(place, 0) | memory.get(place + 1, 0) << 8
    print(f"stack_guard: {word:04x} at {place:04x}")
    if word != GUARD:
        print("error: stack_guard: the stack met the data: fewer nested calls, smaller arrays in "
              "functions, or smaller variables", file=sys.stderr)
        return 1
    return 0


if __name__ == "__main__":
    sys.exit(main())
