"""Trials of the places that the package in python/ has: the documents, the kit in firmware/ and the
programs have the same.
"""
import re
import sys

import trace_model
from file_readers import Access, TraceLine, image_text
from readers import first_fault
from reference import (EDGES, IMAGE_PLACES, METADATA, PERIPHERALS, PROGRAM, RAM, REGIONS,
                       RESET_VECTOR, ROM, SERIAL_VECTOR, TIMER_VECTOR, VECTORS, Region)
from sample_files import read
from trial import ROOT

sys.path.append(f"{ROOT}/firmware")
import memory_map  # noqa: E402


def documents(trial):
    """The rows of docs/memory-map.md are the table's regions."""
    rows = re.findall(r"^\| (\w{4})\.\.(\w{4}) \| (\w+) \|", read(
        f"{ROOT}/docs/memory-map.md").decode(), re.M)
    if {name: Region(int(first, 16), int(last, 16)) for first, last, name in rows} != REGIONS:
        trial.fault("docs/memory-map.md: other regions than python/foldgneiss/memory_map.py")


def firmware(trial):
    """So are those of the kit."""
    own = {"PERIPHERALS": PERIPHERALS, "RAM": RAM, "METADATA": METADATA, "VECTORS": VECTORS}
    for name, region in own.items():
        if getattr(memory_map, name) != region.places:
            trial.fault(f"firmware/memory_map.py: {name} is not {region}")
    if memory_map.ROM_ENTRY != ROM.first:
        trial.fault("firmware/memory_map.py: the ROM is entered elsewhere")
    text = read(f"{ROOT}/firmware/firmware.ld").decode()
    told = {name: range(int(first, 16), int(first, 16) + int(length, 16))
            for name, first, length in re.findall(
                r"^ +(\w+) : ORIGIN = 0x(\w+), LENGTH = 0x(\w+)$", text, re.M)}
    told.update((name, int(place, 16)) for name, place in re.findall(
        r"^ +\.(\w+)_vector 0x(\w+) :", text, re.M))
    # (RAM without MAC and metadata)
    if told != {"ram": RAM.places[0x100:], "program": PROGRAM.places, "vectors": VECTORS.places,
                "timer": TIMER_VECTOR, "serial": SERIAL_VECTOR, "reset": RESET_VECTOR}:
        trial.fault(f"firmware/firmware.ld: other places than python/foldgneiss/memory_map.py: {told}")


def images(trial, files):
    """An image may have a byte at the places that the table says, and no others."""
    for place in EDGES:
        image = files.add("edge.hex", image_text({place: 0x5A}))
        if place in IMAGE_PLACES:
            trial.prints(b"%04x: .byte 0x5a\n" % place, "list", image)
        else:
            trial.finds("image", "1: Place", "list", image)


def policies(trial, files):
    """A region of one word is taken where the reader of the tools takes it."""
    reports, image = files["empty"], files.image
    for place in sorted({place & 0xFFFE for place in EDGES}):
        text = f"version 2\ner {PROGRAM.first:04x} {PROGRAM.first:04x}\nor {place:04x} "
        text = (text + f"{place:04x}\nflag exec\n").encode()
        policy, fault = files.add("edge.policy", text), first_fault("policy", text)
        words = "verify", image, policy, files.key, reports
        if fault:
            trial.finds("policy", fault, *words)
        else:
            trial.prints(b"", *words)


def steps():
    """Each access of the processor and of the DMA engine to each edge, from each edge."""
    blank = TraceLine("cpu", 0, None, None, 0, 0, 0x4303, 0, 0, [0, 0, 0, 0], 0, "-")
    for pc in EDGES:
        for letter, number in (("f", None), ("r", None), ("b", None), ("w", 0), ("c", 0)):
            for place in EDGES:
                access = Access(letter, place if letter in "bc" else place & 0xFFFE, number)
                yield blank._replace(pc=pc, cpu=access)
                yield blank._replace(pc=pc, dma=access)


def rules(trial, files):
    """The program's audit names the rules of tools/trace_model.py at each of these steps."""
    last, lines = None, []
    for number, line in enumerate(steps()):
        line = line._replace(rule=trace_model.right_rule(last, line))
        lines.append(trace_model.trace_line(number, line))
        last = line.pc
    trial.prints(b"clean %d\n" % len(lines), "audit", files.add("edges.trace", b"".join(lines)))


def places(trial, files):
    documents(trial)
    firmware(trial)
    images(trial, files)
    policies(trial, files)
    rules(trial, files)
