; Means to send the letter A by a routine.
        .org 0xC000
start:  mov #0x4400, sp
        call #send
stop:   jmp stop
send:   mov #0x41, &0x76        ; STXD
        ret
        .org 0xFFFE
        .word start
