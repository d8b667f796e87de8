; A peripheral-bound load: the program reads pins and timer and starts the DMA engine again and again,
; the timer interrupts each 100 steps, and each byte that arrives is sent back.
        .text
        .globl  start
start:  mov     #0x2200, r1
        mov     #99, &0x0164    ; TCMP
        mov     #3, &0x0160     ; TCTL: run, with interrupts
        mov     #1, &0x0070     ; SCTL: with interrupts
        mov     #0x0300, &0x01e2 ; DSRC
        mov     #0x0400, &0x01e4 ; DDST
        mov     #16, &0x01e6    ; DLEN
        eint
again:  mov     #1, &0x01e0     ; DCTL starts a transfer, where none is active
        mov     &0x0020, r5     ; P1IN
        mov     &0x0162, r6     ; TCNT
        mov.b   &0x0072, r7     ; SSTAT
        add     r5, r6
        jmp     again
tick:   inc     r8
        reti
byte:   mov     &0x0074, r9     ; SRXD
        mov     r9, &0x0076     ; STXD
        reti

        .section .timer_vector, "a"
        .word   tick
        .section .serial_vector, "a"
        .word   byte
        .section .reset_vector, "a"
        .word   start
