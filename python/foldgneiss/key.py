"""The key of a device."""
from .limits import KEY_BYTES
from .words import Fault, column_of_no_digit, within_limit

DIGITS = 128


def read_key(text: bytes) -> bytes:
    within_limit(text, KEY_BYTES)
    for end in (b"\r\n", b"\n"):
        if text.endswith(end):
            text = text[:-len(end)]
            break
    if len(text) != DIGITS:
        raise Fault(1, "Missing" if len(text) < DIGITS else "Extra", min(len(text), DIGITS) + 1)
    wrong = column_of_no_digit(text)
    if wrong:
        raise Fault(1, "Digit", wrong)
    return bytes.fromhex(text.decode())
