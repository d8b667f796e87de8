// The samples, which come from the serial port.
#include "meter.h"

volatile struct meter meter;
volatile uint8_t fresh, taken;
static uint8_t next;

INTERRUPT(SERIAL) void on_sample(void) {
    meter.samples[next++] = SRXD;
    if (next == sizeof meter) {
        next = 0;
        taken = SAMPLES;
    }
    if (taken < SAMPLES) {
        taken++;
    }
    fresh = 1;
}
