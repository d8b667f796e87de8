"""Images of firmware, as Intel HEX."""
from typing import Dict, Iterable, Tuple

from .limits import IMAGE_BYTES
from .memory_map import IMAGE_PLACES
from .words import Fault, column_of_no_digit, lines_of, within_limit

Image = Dict[int, int]  # the bytes by their places
COUNTS = {1: 0, 2: 2, 3: 4, 4: 2, 5: 4}  # how many bytes a record has, by its type
END = b":00000001FF"


def is_place(place: int) -> bool:
    """Whether an image may have a byte there."""
    return place in IMAGE_PLACES


def read_record(number: int, line: bytes) -> Tuple[int, int, bytes]:
    """The type, the address and the bytes of a record."""
    if line[:1] != b":":
        raise Fault(number, "NoColon", 1)
    wrong = column_of_no_digit(line[1:])
    if wrong:
        raise Fault(number, "Digit", 1 + wrong)
    digits = line[1:].decode()
    if len(digits) < 10 or len(digits) != 10 + 2 * int(digits[:2], 16):
        raise Fault(number, "Count", 2)
    record = bytes.fromhex(digits)
    if sum(record) % 256:
        raise Fault(number, "Check", len(line) - 1, "%02X" % (-sum(record[:-1]) % 256))
    if record[3] > 5:
        raise Fault(number, "RecordType", 8)
    if COUNTS.get(record[3], record[0]) != record[0]:
        raise Fault(number, "Count", 2)
    return record[3], int.from_bytes(record[1:3], "big"), record[4:-1]


def read_image(text: bytes) -> Image:
    image: Image = {}
    base, has_end = 0, False
    lines = lines_of(within_limit(text, IMAGE_BYTES))
    for number, line in lines:
        if not line:
            continue
        if has_end:
            raise Fault(number, "AfterEnd", 1)
        kind, address, data = read_record(number, line)
        if kind == 0:
            if not all(is_place(base + address + at) for at in range(len(data))):
                raise Fault(number, "Place", 4)
            image.update((base + address + at, byte) for at, byte in enumerate(data))
        elif kind == 1:
            has_end = True
        elif kind in (2, 4):
            base = int.from_bytes(data, "big") * (16 if kind == 2 else 65536)
    if not has_end:
        raise Fault(len(lines), "NoEnd")
    return image


def hex_record(place: int, data: Iterable[int]) -> bytes:
    """A record of these bytes from a place on, without a line end."""
    data = bytes(data)
    record = bytes([len(data), place >> 8, place & 255, 0, *data])
    return b":" + (record + bytes([-sum(record) % 256])).hex().upper().encode()


def image_text(image: Image) -> bytes:
    """The image as the program prints it."""
    lines, places = [], sorted(image)
    while places:
        first = last = places[0]
        while last + 1 in image and (last + 1) % 16:
            last += 1
        data = [image[place] for place in range(first, last + 1)]
        lines.append(hex_record(first, data))
        del places[:len(data)]
    return b"\n".join([*lines, END, b""])
