#!/usr/bin/env python3
"""records.py: of lines `TIME TOPIC HEX` on standard input, which have a message's payload in
hexadecimal digits, prints TIME, TOPIC and payload, one message a line whatever it is: bytes that
are not printable ASCII, and the backslash, stand as `\\xHH`, and so do the topic's blanks.
"""
import re
import signal
import sys


def escaped(text, others=b""):
    """The text with each byte escaped that is not printable ASCII, or one of the others."""
    return re.sub(rb"[^ -~]|[\\%s]" % others, lambda byte: b"\\x%02x" % ord(byte[0]), text)


def main():
    signal.signal(signal.SIGPIPE, signal.SIG_DFL)
    for line in sys.stdin.buffer:
        time, _, rest = line.rstrip(b"\n").partition(b" ")
        topic, _, payload = rest.rpartition(b" ")
        text = escaped(bytes.fromhex(payload.decode()))
        sys.stdout.buffer.write(b"%s %s %s\n" % (time, escaped(topic, b" "), text))
        sys.stdout.buffer.flush()


if __name__ == "__main__":
    main()
