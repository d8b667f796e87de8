"""What belongs to a region: sections, and places that it may name by a number."""
import memory_map

REGION, OWN, KIT = (".er", ".er.guard", ".er.entry", ".er.exit"), ".er.own", ".runtime.text."
GUARD, ENTRY, EXIT = REGION[1:]
OUTPUT, FOREIGN, STACK = ".or", ".foreign", ".er_stack"
# Places that a region may name by a number: peripherals, metadata, and the vectors, which a guard
# compares.
NUMBERS = (memory_map.PERIPHERALS, memory_map.METADATA, memory_map.VECTORS)


def is_region(section):
    return section in REGION or section.startswith(f"{OWN}.")


def stray_number(place):
    """What is wrong with a place that the region names by a number, "" where nothing is."""
    return "" if any(place in places for places in NUMBERS) else (
        f"the region refers to the place {place:04x}, which lies outside it: "
        "define a variable, with FOREIGN before its definition")
