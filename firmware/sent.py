"""sent.py <TEXT

Prints the bytes that were sent in a run, of which TEXT is what `foldgneiss play` printed: each line
that is text as it is, and any other in hexadecimal digits.
"""
import re
import sys


def shown(line):
    """A line of sent bytes, as text where it is some."""
    try:
        text = line.decode()
    except UnicodeDecodeError:
        text = "\0"
    return text if text.replace("\t", "").isprintable() else line.hex(" ")


def main():
    text = sys.stdin.read()
    sent = bytes.fromhex("".join(re.findall(r"^tx \d+ (..)$", text, re.M)))
    for line in sent.splitlines():
        print(shown(line))
    if not sent:
        print("nothing was sent")


if __name__ == "__main__":
    main()
