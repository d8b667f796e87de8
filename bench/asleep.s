; A load that sleeps 99 of 100 steps: the timer interrupts each 1,000 steps.
        .text
        .globl  start
start:  mov     #0x2200, r1
        mov     #999, &0x0164   ; TCMP
        mov     #3, &0x0160     ; TCTL: run, with interrupts
        bis     #0x18, sr       ; GIE and CPUOFF
tick:   inc     r8
        reti                    ; and sleeps on

        .section .timer_vector, "a"
        .word   tick
        .section .reset_vector, "a"
        .word   start
