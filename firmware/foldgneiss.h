// The device for C firmware: registers, metadata, interrupts and attestation. docs/memory-map.md
// and docs/peripherals.md say what each place does.
#ifndef FOLDGNEISS_H
#define FOLDGNEISS_H

#include <stdint.h>

#define FOLDGNEISS_WORD(place) (*(volatile uint16_t *)(place))

#define P1IN FOLDGNEISS_WORD(0x0020)   // the 16 pins
#define SCTL FOLDGNEISS_WORD(0x0070)   // bit 0 enables the receive interrupt
#define SSTAT FOLDGNEISS_WORD(0x0072)  // bit 0: a byte waits; bit 1: a byte was dropped
#define SRXD FOLDGNEISS_WORD(0x0074)   // a read takes the oldest byte that waits
#define STXD FOLDGNEISS_WORD(0x0076)   // a write sends its low byte
#define TCTL FOLDGNEISS_WORD(0x0160)   // bit 0 runs the timer, bit 1 enables its interrupt
#define TCNT FOLDGNEISS_WORD(0x0162)   // the count
#define TCMP FOLDGNEISS_WORD(0x0164)   // the last number of the count
#define DCTL FOLDGNEISS_WORD(0x01E0)   // a write with bit 0 starts a transfer; 1 while it is active
#define DSRC FOLDGNEISS_WORD(0x01E2)   // its source, destination and number of words
#define DDST FOLDGNEISS_WORD(0x01E4)
#define DLEN FOLDGNEISS_WORD(0x01E6)

// In the metadata, 0240 to 028F, where every write clears both flags.
#define EXEC FOLDGNEISS_WORD(0x0268)            // the EXEC flag, which no write sets
#define AUX FOLDGNEISS_WORD(0x026A)             // the flag of a region with handlers, likewise
#define COUNTER (*(volatile uint32_t *)0x026C)  // the counter of the request
#define TOKEN foldgneiss_token                  // 32 bytes: its token
extern volatile uint8_t foldgneiss_token[32];   // (a name, so that a region may have an index)

#define MAC ((const volatile uint8_t *)0x0200)  // 32 bytes: the last call's MAC, or its decision

// A handler: INTERRUPT(SERIAL) void on_byte(void) { .. }
#define INTERRUPT(source) __attribute__((interrupt(source##_VECTOR)))
#define TIMER_VECTOR 9    // the word at FFF2
#define SERIAL_VECTOR 10  // the word at FFF4

#define FOLDGNEISS_INLINE static inline __attribute__((always_inline))  // into a region too
FOLDGNEISS_INLINE void enable_interrupts(void) { __asm__ volatile("bis #8, r2" ::: "memory"); }
FOLDGNEISS_INLINE void disable_interrupts(void) { __asm__ volatile("bic #8, r2" ::: "memory"); }

// Sleeps with interrupts enabled. A handler that returns sends the processor back to sleep.
FOLDGNEISS_INLINE void sleep(void) { __asm__ volatile("bis #0x18, r2" ::: "memory"); }

// The code whose run a report proves is `region`, which the firmware defines, and the functions
// that it calls, each with the word REGION. Its constants, and what it uses of the kit, are laid
// beside it. What it proves is the value of the variables with the word OUTPUT, which are 0 when it
// begins, and which only this code may write. Of all other variables it may use those with the word
// FOREIGN alone; of what stands there when it begins the report proves nothing. All else that is
// not set is 0 in it, in each program: registers and its stack, of REGION_STACK bytes, 128 unless
// set. Interrupts are off in it; examples/pump has one that allows them.
#define REGION __attribute__((section(".er"), noinline))
#define OUTPUT volatile __attribute__((section(".or")))
#define FOREIGN __attribute__((section(".foreign")))
void region(void);

// Begins a REGION function that calls itself, NEEDS_STACK(40); say: it leaves the region, so that
// both flags fall, where fewer bytes of its stack are free. The build sees that they suffice until
// the next NEEDS_STACK.
#define NEEDS_STACK(bytes) \
    __asm__ volatile("cmp #region_stack_end + " #bytes ", r1\n jhs 1f\n br #er_refuse\n1:" \
                     ::: "memory")

// A request as it comes from a verifier: a challenge of 32 bytes, a counter of 4, the low one
// first, and a token of 32.
#define REQUEST_BYTES 68

// What the attestation ROM decides on a request. It makes a report for the first alone.
enum decision { ATTESTS = 1, COUNTER_IS_OLD = 2, TOKEN_DIFFERS = 3 };

// Writes request and bounds into the metadata, runs `region` and calls the ROM, with interrupts off
// meanwhile, and tells what the ROM decided. No DMA transfer may be active.
//
// The ROM writes its decision to the first word of MAC, and then, if it attests, the MAC to all 16.
// So `attest` sets the others to 0 before the call, and takes the first for the decision where they
// still are. That is wrong only where a MAC ends in 30 zero bytes, one in 2^240.
enum decision attest(const uint8_t request[REQUEST_BYTES]);

#endif
