; Sends the letter A through the serial port, and then jumps to itself.
        .text
        .globl  start
start:  mov     #0x41, &0x0076          ; STXD
stop:   jmp     stop
