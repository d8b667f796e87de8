// What is made of the samples.
#include "meter.h"

uint16_t average(uint16_t count) {
    uint16_t value = 0;
    for (uint16_t i = 0; i < count; i++) {
        value += meter.samples[i] / count;
    }
    return value;
}
