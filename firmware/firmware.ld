/* RAM from 0300 on is the firmware's: below stand MAC (0200 to 021F) and metadata (0240 to 028F).
   The region's stack comes first. The other grows down from the end of RAM. clang names the vector
   of an interrupt function of number N __interrupt_vector_N. link.py lays what the region uses into
   .er.own. */
ENTRY(start)
MEMORY
{
    ram : ORIGIN = 0x0300, LENGTH = 0x1F00
    program : ORIGIN = 0xC000, LENGTH = 0x3FE0
    vectors : ORIGIN = 0xFFE0, LENGTH = 0x20
}
SECTIONS
{
    .text : SUBALIGN(2) {
        *(.start) *(.start.kit) *(.text .text.* .runtime.*) *(.rodata .rodata.*)
        . = ALIGN(2);
    } > program
    .er DEFINED(er_place) ? er_place : . : SUBALIGN(2) {
        *(.er.guard) *(.er.entry) *(.er) *(.er.own.*)
        . = ALIGN(2);
        *(.er.exit)
    } > program
    .er_stack (NOLOAD) : { *(.er_stack) } > ram
    .or (NOLOAD) : ALIGN(2) { or_min = .; KEEP(*(.or)) . = ALIGN(2); or_max = . - 2; } > ram
    .data : ALIGN(2) {
        data_start = .;
        *(.foreign)
        foreign_end = .;
        *(.data .data.*)
        . = ALIGN(2);
        data_end = .;
    } > ram AT > program
    .bss (NOLOAD) : { *(.bss .bss.* COMMON) . = ALIGN(2); bss_end = .; } > ram
    data_values = LOADADDR(.data);
    stack_guard = bss_end;
    stack_top = 0x2200;
    foldgneiss_token = 0x0270;
    ASSERT(stack_top - stack_guard - 2 >= stack_bytes,
           "too little stack: fewer or smaller variables, or a smaller STACK (128 if unset)")
    .timer_vector 0xFFF2 : { KEEP(*(.timer_vector __interrupt_vector_9)) } > vectors
    .serial_vector 0xFFF4 : { KEEP(*(.serial_vector __interrupt_vector_10)) } > vectors
    .reset_vector 0xFFFE : { KEEP(*(.reset_vector)) } > vectors
    ASSERT(DEFINED(er_place) ? er_place >= ORIGIN(program) && er_place % 2 == 0 : 1,
           "er_place is no place for code: an even one from 0xC000 on")
    ASSERT(SIZEOF(.timer_vector) <= 2, "INTERRUPT(TIMER) has two handlers: leave one")
    ASSERT(SIZEOF(.serial_vector) <= 2, "INTERRUPT(SERIAL) has two handlers: leave one")
    /DISCARD/ : { *(.comment) *(.note*) }
}
