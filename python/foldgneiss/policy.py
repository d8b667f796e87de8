"""Policies: what reports have to say."""
from typing import Any, Dict, List, NamedTuple, Optional, Sequence, Tuple

from .limits import MOST_COUNTER, POLICY_BYTES
from .memory_map import MAC, METADATA, METADATA_ONE, PROGRAM, RAM
from .names import FLAGS
from .words import Fault, Words, texts_of

Bounds = List[int]  # the first and the last word of the executable and of the output region


def wrong_region(first: int, last: int, version: int) -> Optional[str]:
    """What is wrong with a region by itself, of which these are the first and the last word."""
    odd = [place for place in (first, last) if place % 2]
    if odd:
        return f"{odd[0]:04x} is odd"
    if first > last:
        return f"it ends at {last:04x}, before it begins at {first:04x}"
    last += 1
    if not any(region.has(first) and region.has(last) for region in (RAM, PROGRAM)):
        return f"{first:04x} to {last:04x} is not wholly in RAM or in the program"
    metadata = METADATA if version == 2 else METADATA_ONE
    for name, region in (("MAC", MAC), ("metadata", metadata)):
        if first <= region.last and last >= region.first:
            return (f"{first:04x} to {last:04x} lies on the {name}, {region.first:04x} to "
                    f"{region.last:04x}")
    return None


def wrong_bounds(bounds: Sequence[int], version: int) -> Optional[Tuple[str, str]]:
    """Which of both regions is wrong, `er` or `or`, and why; None where the bounds are valid."""
    er_min, er_max, or_min, or_max = bounds
    for name, first, last in (("er", er_min, er_max), ("or", or_min, or_max)):
        why = wrong_region(first, last, version)
        if why:
            return name, why
    apart = er_max + 1 < or_min or or_max + 1 < er_min
    return None if apart else ("or", "it lies on the region of er")


def is_valid(bounds: Sequence[int], version: int) -> bool:
    return wrong_bounds(bounds, version) is None


def bounds_words(bounds: Sequence[int]) -> str:
    return "er {:04x} {:04x} or {:04x} {:04x}".format(*bounds)


class Policy(NamedTuple):
    version: int
    bounds: Bounds
    flag: str  # that is asked for; in version 1 always exec
    requests: List[Tuple[bytes, int]]  # challenge and counter, which is 0 in version 1


# The lines of a policy, by versions: those that come first, in their order, and the one that may
# come any number of times after them.
POLICY_LINES = {1: (("er", "or"), "chal"), 2: (("version", "er", "or", "flag"), "ask")}


def policy_value(words: Words, kind: str) -> Any:
    """What a line of a policy says behind its keyword."""
    if kind == "version":
        return words.decimal(2, 2)
    if kind == "flag":
        return words.keyword(*FLAGS)
    if kind == "ask":
        return words.bytes(32), words.decimal(MOST_COUNTER, 1)
    return (words.bytes(32), 0) if kind == "chal" else [words.word(), words.word()]


def read_policy(text: bytes) -> Policy:
    lines, count = texts_of(text, POLICY_BYTES)
    version = 2 if lines and lines[0].begins_with(b"version") else 1
    firsts, last = POLICY_LINES[version]
    # (`chal` is a keyword in version 2 too, of a line that has no place there)
    keywords = dict.fromkeys((*firsts, "chal", last))
    values: Dict[str, Any] = {}
    numbers: Dict[str, int] = {}
    requests: List[Tuple[bytes, int]] = []
    for words in lines:
        kind = words.keyword(*keywords)
        value = policy_value(words, kind)
        words.end()
        if kind != (*firsts, last)[len(values)]:
            words.fault("Order")
        if kind == last:
            if version == 2 and value in requests:
                words.fault("Twice")
            requests.append(value)
            continue
        values[kind], numbers[kind] = value, words.number
        wrong = wrong_bounds(values["er"] + value, version) if kind == "or" else None
        if wrong:
            name, why = wrong
            words.fault("Bounds", cause=(numbers[name], f"{name}: {why}"))
    if len(values) < len(firsts):
        raise Fault(count, "Missing")
    return Policy(version, values["er"] + values["or"], values.get("flag", "exec"), requests)


def policy_text(policy: Policy) -> bytes:
    """A policy as its file has it."""
    lines = bounds_words(policy.bounds).replace(" or", "\nor") + "\n"
    if policy.version == 2:
        lines = f"version 2\n{lines}flag {policy.flag}\n"
    for challenge, count in policy.requests:
        lines += (f"ask {challenge.hex()} {count}\n" if policy.version == 2
                  else f"chal {challenge.hex()}\n")
    return lines.encode()
