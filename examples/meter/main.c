// A level meter: tells the average of the last samples where one came.
#include "meter.h"

static void send(uint16_t value) {
    STXD = value;
}

int main(void) {
    meter.tell = send;
    SCTL = 1;
    enable_interrupts();
    for (;;) {
        while (!fresh) {
        }
        fresh = 0;
        meter.tell(average(taken));
    }
}
