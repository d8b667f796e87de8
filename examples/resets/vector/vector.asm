; Means to send back each byte that arrives, by the interrupt of the serial port.
        .org 0xC000
start:  mov #0x2200, sp
        mov #1, &0x70           ; SCTL: the port may interrupt
        eint
wait:   jmp wait
echo:   mov.b &0x74, &0x76      ; SRXD to STXD
        reti
        .org 0xFFF2
        .word echo
        .org 0xFFFE
        .word start
