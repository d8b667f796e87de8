"""What the attestation ROM makes of a request, by the HMAC of Python's library and apart from the
program's own code.
"""
import hmac

from file_readers import Report, is_valid
from reference import MAC, METADATA


def hmac_of(key, message):
    return hmac.digest(key, message, "sha256")


def in_words(*numbers):
    return b"".join(number.to_bytes(2, "little") for number in numbers)


def bytes_of(memory, first, last):
    return bytes(memory.get(place, 0) for place in range(first, last + 1))


def token(key, challenge, count):
    """The token that lets a request with this counter be attested."""
    return hmac_of(key, b"\x01" + challenge + count.to_bytes(4, "little"))


def mac(key, metadata, region):
    """Of the metadata, which begin with the challenge, and the bytes of code and output."""
    return hmac_of(hmac_of(key, metadata[:32]), metadata + region)


def request(key, challenge, bounds, count, flags=(0, 0)):
    """The metadata with a request that has its token, and with EXEC and AUX."""
    return (challenge + in_words(*bounds, *flags) + count.to_bytes(4, "little")
            + token(key, challenge, count))


def request_line(key, challenge, count):
    """What `request` prints."""
    return (f"request {challenge.hex()} {count} "
            f"token {token(key, challenge, count).hex()}\n").encode()


def report_line(report):
    """What `play` prints of a report, which may be of version 1."""
    return f"{report}\n".encode()


class Call:
    """A call of the ROM that is over, from the memory after it."""

    def __init__(self, key, memory):
        self.key, self.memory = key, memory
        self.metadata = bytes_of(memory, *METADATA)
        self.challenge, self.token = self.metadata[:32], self.metadata[48:]
        words = [int.from_bytes(self.metadata[at:at + 2], "little") for at in range(32, 44, 2)]
        self.bounds, (self.exec, self.aux) = words[:4], words[4:]
        self.count = int.from_bytes(self.metadata[44:48], "little")
        self.code = self.output = b""
        if is_valid(self.bounds, 2):
            er_min, er_max, or_min, or_max = self.bounds
            self.code = bytes_of(memory, er_min, er_max + 1)
            self.output = bytes_of(memory, or_min, or_max + 1)

    def decision(self, kept):
        """1 attests, where the request's counter is above the kept one."""
        if self.token != token(self.key, self.challenge, self.count):
            return 3
        return 1 if self.count > kept else 2

    def released(self, decision):
        """What the ROM leaves at 0200: the MAC, or the decision."""
        if decision == 1:
            return mac(self.key, self.metadata, self.code + self.output)
        return in_words(decision)

    def is_released(self, decision):
        first = self.released(decision)
        return bytes_of(self.memory, *MAC).startswith(first)

    def steps(self, decision):
        return 78 if decision != 1 else 126 + len(self.code + self.output) // 2

    def line(self, step, decision):
        """What `play` prints of the call, which ended in this step."""
        if decision != 1:
            return f"denied {step} {decision}\n".encode()
        return report_line(Report(2, step, self.exec, self.aux, self.count, self.challenge,
                                  self.bounds, self.output or None, self.released(1)))
