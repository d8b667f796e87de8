"""Trials of the functions that the kit in firmware/ has for C, where clang is."""
import random

from firmware_trial import image_of, is_compiler_there
from sample_files import sent_bytes

LEVELS = ("-O0", "-O1", "-O2", "-O3", "-Os", "-Oz", "-Os -flto")
RANDOM_PAIRS, STEPS_OF_A_PAIR = 100, 50_000
# Takes two numbers of 64 bits and a byte, and sends what each function makes of them.
FIRMWARE = rb"""
#include <string.h>
#include "foldgneiss.h"
static uint8_t taken[17], moved[17];
static void send(const volatile void *from, unsigned count) {
    for (const volatile uint8_t *next = from; count--; next++) {
        STXD = *next;
    }
}
#define SEND(type, value) { volatile type sent = value; send(&sent, sizeof sent); }
#define OPERANDS(type) \
    type left, right; \
    memcpy(&left, taken, sizeof left); \
    memcpy(&right, taken + 8, sizeof right); \
    right = right ? right : 1;
#define TRY(type, unsigned_type) { \
    OPERANDS(type) \
    SEND(type, left / right) \
    SEND(type, left % right) \
    SEND(type, left >> taken[16] % (8 * sizeof left)) } { \
    OPERANDS(unsigned_type) \
    SEND(unsigned_type, left * right) \
    SEND(unsigned_type, left << taken[16] % (8 * sizeof left)) \
    SEND(unsigned_type, left / right) \
    SEND(unsigned_type, left % right) \
    SEND(unsigned_type, left >> taken[16] % (8 * sizeof left)) }
static void move(unsigned to, unsigned from, unsigned count) {
    memcpy(moved, taken, sizeof moved);
    memmove(moved + to, moved + from, count);
    send(moved, sizeof moved);
}
static int sign(int number) { return (number > 0) - (number < 0); }
int main(void) {
    for (;;) {
        for (unsigned count = 0; count < sizeof taken; count++) {
            while (!(SSTAT & 1)) {
            }
            taken[count] = SRXD;
        }
        TRY(int16_t, uint16_t)
        TRY(int32_t, uint32_t)
        TRY(int64_t, uint64_t)
        move(3, 0, 12);
        move(0, 3, 12);
        SEND(int8_t, sign(memcmp(taken, taken + 8, 8)))
        SEND(int8_t, memcmp(taken, taken, 8))
        memset(moved, taken[16] | 1, sizeof moved);
        moved[taken[16] % sizeof moved] = 0;
        SEND(uint8_t, strlen((char *)moved))
        STXD = 'E';
    }
}
"""


def quotient(left, right):
    """As C has it, towards 0, with the remainder."""
    whole = abs(left) // abs(right) * (1 if (left < 0) == (right < 0) else -1)
    return whole, left - whole * right


def signed(number, bits):
    return number - (1 << bits) if number >> bits - 1 else number


def results(left, right, byte):
    """What the firmware sends of these operands."""
    taken = left.to_bytes(8, "little") + right.to_bytes(8, "little") + bytes([byte])
    sent = b""
    for bits in (16, 32, 64):
        one, other, count = left % 2**bits, right % 2**bits or 1, byte % bits
        first, second = signed(one, bits), signed(other, bits)
        for value in (*quotient(first, second), first >> count, one * other, one << count,
                      *quotient(one, other), one >> count):
            sent += (value % 2**bits).to_bytes(bits // 8, "little")
    sent += taken[:3] + taken[:12] + taken[15:] + taken[3:15] + taken[12:]
    first, second = taken[:8], taken[8:16]
    return sent + bytes([((first > second) - (first < second)) % 256, 0, byte % 17]) + b"E"


def operands():
    """Pairs of numbers with a byte: of edges each with each, and of numbers of any length."""
    rng = random.Random(1)
    edges = (0, 1, 2**15, 2**16 - 1, 2**31, 2**32 - 1, 2**63 - 1, 2**63, 2**64 - 1)
    for left in edges:
        for right in edges:
            yield left, right, rng.randrange(256)
    for _ in range(RANDOM_PAIRS):
        left, right = (rng.choice((1, -1)) * rng.getrandbits(rng.randrange(1, 65)) % 2**64
                       for _ in range(2))
        yield left, right, rng.randrange(256)


def runtime(trial, files):
    """At each level of optimization clang's products, quotients, shifts and copies are those of
    Python's numbers.
    """
    if not is_compiler_there(trial):
        return
    pairs = list(operands())
    script = "".join(
        f"at {number * STEPS_OF_A_PAIR} rx {left.to_bytes(8, 'little').hex()}"
        f"{right.to_bytes(8, 'little').hex()}{byte:02x}\n"
        for number, (left, right, byte) in enumerate(pairs))
    script = files.add("operands", script.encode())
    for level in LEVELS:
        image = image_of(trial, {"runtime.c": FIRMWARE}, f"CFLAGS={level} -Wall -Wextra")
        text = trial.expect(0, "", "play", files.add("image", image or b""), script, files.key,
                            str(len(pairs) * STEPS_OF_A_PAIR))
        sent = sent_bytes(text)
        for pair in pairs:
            expected = results(*pair)
            if sent[:len(expected)] != expected:
                trial.fault(f"firmware: {level}: of {pair} it sends {sent[:len(expected)].hex()}, "
                            f"not {expected.hex()}")
                break
            sent = sent[len(expected):]
