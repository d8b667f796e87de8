// An infusion pump: on each request it gives a dose and attests it.
#include "foldgneiss.h"

static uint8_t request[REQUEST_BYTES];

int main(void) {
    for (;;) {
        for (uint8_t *next = request; next < request + sizeof request; next++) {
            while (!(SSTAT & 1)) {
            }
            *next = SRXD;
        }
        attest(request);
    }
}
