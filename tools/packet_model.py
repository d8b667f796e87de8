"""Packets of GDB's remote serial protocol, as who answers a debugger finds them among bytes."""
import re

LONGEST_BODY = 4096

# Between packets `-` counts alone. A packet is cut off by a `$` or the end, also behind its `#`.
MESSAGE = re.compile(rb"-|\$([^$#]*)(?:#([^$]{0,2}))?", re.S)


def packet(body):
    """A body with its frame."""
    return b"$%s#%02x" % (body, sum(body) % 256)


# Behind these no byte is looked at.
ENDS = packet(b"D"), packet(b"k")


def messages(taken):
    """What bytes say, in their order: that the last packet is wanted again (`-`), that one is
    damaged (None), or that one is whole, by its frame with digits of lower case.
    """
    for found in MESSAGE.finditer(taken):
        if found[0] == b"-":
            yield b"-"
        elif found[2] and len(found[2]) == 2:
            yield packet(found[1]) if found[2].lower() == packet(found[1])[-2:] else None


def intact(taken):
    """The packets of these bytes that are whole."""
    return [message for message in messages(taken) if message and message != b"-"]


def answers(put):
    """What was put for packets that were whole, cut before each `+`."""
    cut, at = [], 0
    while at < len(put):
        if put[at:at + 1] != b"+":
            raise ValueError(f"{put[at:at + 20]!r} in the place of +")
        end = at + 1
        while put[end:end + 1] == b"$":
            behind = put.index(b"#", end) + 3
            if put[end:behind] != packet(put[end + 1:behind - 3]):
                raise ValueError(f"{put[end:behind]!r} is no packet")
            end = behind
        cut.append(put[at:end])
        at = end
    return cut


def put_for(taken, answered):
    """What is put for bytes, where these are the answers to their whole packets."""
    put, last, left = b"", b"", iter(answered)
    for message in messages(taken):
        if message is None:
            put += b"-"
        elif message == b"-":
            put += last
        else:
            answer = next(left)
            put += answer
            last = answer[answer.rfind(b"$"):] if b"$" in answer else last
            if message in ENDS:
                break
    return put
