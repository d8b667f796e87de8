// Sends each byte that it receives back, small letters as capitals, and sleeps in between.
#include "foldgneiss.h"

static uint16_t capital(uint16_t byte) {
    return byte >= 'a' && byte <= 'z' ? byte - ('a' - 'A') : byte;
}

INTERRUPT(SERIAL) void on_receive(void) {
    STXD = capital(SRXD);
}

void listen(void) {
    SCTL = 1;
    for (;;) {
        sleep();
    }
}

// There are no globals, so the stack is all that is to be set up.
__attribute__((naked, section(".start"))) void start(void) {
    __asm__("mov #stack_top, r1");
    __asm__("br #listen");
}
