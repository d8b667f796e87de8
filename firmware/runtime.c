// What clang calls where the processor has no instruction: products, quotients and shifts of 16 and
// 32 bits, by their names in the MSP430 ABI (Texas Instruments, SLAA534), copies of memory, and
// abort for what is never reached. runtime.s has 64 bits.
#include <stdint.h>
#include <stdlib.h>
#include <string.h>

uint32_t __mspabi_mpyl(uint32_t left, uint32_t right) {
    uint32_t product = 0;
    for (; right; right >>= 1, left <<= 1) {
        if (right & 1) {
            product += left;
        }
    }
    return product;
}

// Quotient and remainder by long division, a bit at a time.
static uint32_t divide(uint32_t dividend, uint32_t divisor, uint32_t *remainder) {
    uint32_t quotient = 0, rest = 0;
    for (int bit = 0; bit < 32; bit++) {
        rest = rest << 1 | dividend >> 31;
        dividend <<= 1;
        quotient <<= 1;
        if (rest >= divisor) {
            rest -= divisor;
            quotient |= 1;
        }
    }
    *remainder = rest;
    return quotient;
}

static uint32_t magnitude(int32_t value) {
    return value < 0 ? -(uint32_t)value : (uint32_t)value;
}

uint32_t __mspabi_divul(uint32_t left, uint32_t right) {
    uint32_t remainder;
    return divide(left, right, &remainder);
}

uint32_t __mspabi_remul(uint32_t left, uint32_t right) {
    uint32_t remainder;
    divide(left, right, &remainder);
    return remainder;
}

int32_t __mspabi_divli(int32_t left, int32_t right) {
    uint32_t quotient = __mspabi_divul(magnitude(left), magnitude(right));
    return (left < 0) != (right < 0) ? -quotient : quotient;
}

int32_t __mspabi_remli(int32_t left, int32_t right) {
    uint32_t remainder = __mspabi_remul(magnitude(left), magnitude(right));
    return left < 0 ? -remainder : remainder;
}

uint16_t __mspabi_mpyi(uint16_t left, uint16_t right) { return __mspabi_mpyl(left, right); }
uint16_t __mspabi_divu(uint16_t left, uint16_t right) { return __mspabi_divul(left, right); }
uint16_t __mspabi_remu(uint16_t left, uint16_t right) { return __mspabi_remul(left, right); }
int16_t __mspabi_divi(int16_t left, int16_t right) { return __mspabi_divli(left, right); }
int16_t __mspabi_remi(int16_t left, int16_t right) { return __mspabi_remli(left, right); }

uint32_t __mspabi_slll(uint32_t value, uint16_t count) {
    while (count--) {
        value <<= 1;
    }
    return value;
}

uint32_t __mspabi_srll(uint32_t value, uint16_t count) {
    while (count--) {
        value >>= 1;
    }
    return value;
}

int32_t __mspabi_sral(int32_t value, uint16_t count) {
    while (count--) {
        value >>= 1;
    }
    return value;
}

void *memcpy(void *to, const void *from, size_t count) {
    uint8_t *write = to;
    const uint8_t *read = from;
    while (count--) {
        *write++ = *read++;
    }
    return to;
}

void *memset(void *to, int byte, size_t count) {
    uint8_t *write = to;
    while (count--) {
        *write++ = byte;
    }
    return to;
}

void *memmove(void *to, const void *from, size_t count) {
    uint8_t *write = to;
    const uint8_t *read = from;
    if (write <= read) {
        return memcpy(to, from, count);
    }
    while (count--) {
        write[count] = read[count];
    }
    return to;
}

int memcmp(const void *left, const void *right, size_t count) {
    const uint8_t *first = left, *second = right;
    for (; count; count--, first++, second++) {
        if (*first != *second) {
            return *first - *second;
        }
    }
    return 0;
}

size_t strlen(const char *text) {
    size_t length = 0;
    while (text[length]) {
        length++;
    }
    return length;
}

void abort(void) {
    for (;;) {
        __asm__ volatile("dint\n bis #0x10, r2");  // sleeps for good
    }
}
