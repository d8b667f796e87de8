// Answers each request with a measurement that a verifier can believe, and sends what the
// attestation ROM decided on it.
#include "foldgneiss.h"

static uint8_t request[REQUEST_BYTES];
static uint8_t *volatile next = request;  // where the next byte goes

OUTPUT static uint16_t measurement;

INTERRUPT(SERIAL) void on_byte(void) {
    uint8_t byte = SRXD;
    if (next < request + sizeof request) {
        *next++ = byte;
    }
}

REGION void region(void) {
    measurement = P1IN;
}

int main(void) {
    SCTL = 1;
    enable_interrupts();
    for (;;) {
        while (next < request + sizeof request) {
        }
        enum decision decision = attest(request);
        next = request;
        STXD = decision;
    }
}
