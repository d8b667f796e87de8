// What the pump attests: a dose, and the emergency stop that ends it at once.
#include "foldgneiss.h"

// What was given: at most so many strokes of the motor, and whether a stop ended the dose.
OUTPUT static struct {
    uint16_t strokes;
    uint16_t stopped;
} given;

// What is sent to the motor next; the region writes it before it reads it. One instruction sends
// it, so that no stroke follows a stop.
FOREIGN static volatile uint16_t motor;
enum { STROKE = 'S', HALT = 'H' };

// The stop is any byte that arrives while a dose is given, and no byte that waited before.
INTERRUPT(SERIAL) REGION void on_stop(void) {
    (void)SRXD;
    motor = HALT;
    STXD = HALT;
}

// Gives as many strokes as the pins say.
REGION void region(void) {
    uint16_t dose = P1IN, strokes = 0;
    motor = STROKE;
    while (SSTAT & 1) {
        (void)SRXD;
    }
    SCTL = 1;
    enable_interrupts();
    while (strokes < dose && motor == STROKE) {
        strokes++;
        STXD = motor;
    }
    disable_interrupts();
    SCTL = 0;
    given.strokes = strokes;
    given.stopped = motor != STROKE;
    STXD = HALT;
}
