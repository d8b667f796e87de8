#include "foldgneiss.h"

#define SAMPLES 8

struct meter {
    uint8_t samples[SAMPLES];  // the last ones, in a ring
    void (*tell)(uint16_t);    // what is done with a value
};
extern volatile struct meter meter;
extern volatile uint8_t fresh;  // whether a sample came since the last value
extern volatile uint8_t taken;  // how many samples there are, up to all

uint16_t average(uint16_t count);
