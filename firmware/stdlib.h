// Of the C library's <stdlib.h> what the kit has.
#ifndef FOLDGNEISS_STDLIB_H
#define FOLDGNEISS_STDLIB_H

_Noreturn void abort(void);  // sleeps for good, with interrupts off

#endif
