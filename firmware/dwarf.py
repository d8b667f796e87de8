"""What the DWARF of an ELF says of its variables: where they lie, and the values that their bytes
are, written as in C.
"""
import json
import re
from typing import Dict, List, NamedTuple

LINE = re.compile(r"^0x([0-9a-f]+):( +)DW_TAG_(\w+)$|^ +DW_AT_(\w+)\t\((.*)\)$", re.M)
ADDRESS = re.compile(r"DW_OP_addr 0x([0-9a-f]+)")
POINTER_BYTES = 2


class Entry(NamedTuple):
    tag: str
    depth: int
    attributes: Dict[str, str]
    children: List["Entry"]

    def number(self, attribute):
        return int(self.attributes[attribute], 0)

    def name(self):
        return self.attributes.get("name", "").strip('"')

    def of_kind(self, tag):
        return [child for child in self.children if child.tag == tag]


class Dwarf:
    """The entries that llvm-dwarfdump --debug-info prints, by their places."""

    def __init__(self, text):
        self.entries, open_entries = {}, []
        for place, blanks, tag, attribute, value in LINE.findall(text):
            if not tag:
                open_entries[-1].attributes.setdefault(attribute, value)
                continue
            entry = Entry(tag, len(blanks), {}, [])
            while open_entries and open_entries[-1].depth >= entry.depth:
                open_entries.pop()
            if open_entries:
                open_entries[-1].children.append(entry)
            open_entries.append(entry)
            self.entries[int(place, 16)] = entry

    def referred(self, entry, attribute):
        """The entry that this attribute refers to."""
        return self.entries[int(entry.attributes[attribute].split()[0], 16)]

    def variables(self):
        """Address, name and type of each variable that has one address."""
        for entry in self.entries.values():
            found = ADDRESS.fullmatch(entry.attributes.get("location", ""))
            if found and entry.tag == "variable":
                while "type" not in entry.attributes:  # (of a function that was inlined)
                    entry = self.referred(entry, "abstract_origin")
                yield int(found[1], 16), entry.name(), self.referred(entry, "type")

    def size(self, kind):
        """The bytes that a value of a type has."""
        if kind.tag == "array_type":
            size = self.size(self.referred(kind, "type"))
            for part in kind.of_kind("subrange_type"):
                size *= part.number("count")
            return size
        if "byte_size" in kind.attributes:
            return kind.number("byte_size")
        return POINTER_BYTES if kind.tag == "pointer_type" else self.size(
            self.referred(kind, "type"))

    def told(self, kind, data):
        """The value of a type that these bytes are."""
        if kind.tag in ("structure_type", "union_type"):
            return "{%s}" % ", ".join(f"{member.name()} = {self.member(member, data)}"
                                      for member in kind.of_kind("member"))
        if kind.tag == "array_type":
            counts = [part.number("count") for part in kind.of_kind("subrange_type")]
            return self.array(self.referred(kind, "type"), counts, data)
        if kind.tag == "pointer_type":
            return f"0x{number_in(data):04x}"
        if kind.tag == "base_type":
            return base_value(kind, data)
        if kind.tag == "enumeration_type":
            return self.enumerated(kind, data)
        return self.told(self.referred(kind, "type"), data)

    def member(self, member, data):
        """The value of a member, of the bytes of its struct."""
        kind = self.referred(member, "type")
        size = self.size(kind)
        if "data_bit_offset" in member.attributes:
            start = member.number("data_bit_offset")
        else:
            first = member.number("data_member_location")
            if "bit_size" not in member.attributes:
                return self.told(kind, data[first:first + size])
            start = 8 * (first + size) - member.number("bit_offset") - member.number("bit_size")
        bits = member.number("bit_size")
        value = number_in(data) >> start & (1 << bits) - 1
        if self.is_signed(kind):
            value -= (value >> bits - 1) << bits
        return self.told(kind, value.to_bytes(size, "little", signed=value < 0))

    def is_signed(self, kind):
        if "encoding" in kind.attributes:
            return "_signed" in kind.attributes["encoding"]
        return "type" in kind.attributes and self.is_signed(self.referred(kind, "type"))

    def array(self, kind, counts, data):
        """The value of an array with these numbers of elements, the outermost first."""
        if not counts:
            return self.told(kind, data)
        text = data.rstrip(b"\0").decode("latin-1")
        if kind.name() == "char" and len(counts) == 1 and text.isascii() and text.isprintable():
            return json.dumps(text)
        step = len(data) // counts[0] if counts[0] else 1
        return "{%s}" % ", ".join(self.array(kind, counts[1:], data[at:at + step])
                                  for at in range(0, len(data), step))

    def enumerated(self, kind, data):
        """The name of the value, itself where it has none."""
        for one in kind.of_kind("enumerator"):
            if (one.number("const_value") - number_in(data)) % (1 << 8 * len(data)) == 0:
                return one.name()
        return str(number_in(data))


def number_in(data, signed=False):
    return int.from_bytes(data, "little", signed=signed)


def base_value(kind, data):
    encoding = kind.attributes["encoding"]
    value = number_in(data, "_signed" in encoding)
    if "boolean" in encoding and value < 2:
        return "true" if value else "false"
    letter = chr(value) if kind.name() == "char" and 0 < value < 128 else "\0"
    return f"{value} '{letter}'" if letter.isprintable() else str(value)
