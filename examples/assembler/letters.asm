; Sends the letters of a text over the serial port, again and again, and counts them.
        .equ SENDS, 0x76        ; the register that sends its low byte
        .org 0xC000
start:  mov #0x2200, sp
        clr r5
again:  mov #text, r4
next:   mov.b @r4+, r6
        tst.b r6
        jz again
        mov r6, &SENDS
        inc r5
        jmp next
text:   .ascii "AB"
        .byte 0
        .org 0xFFFE
        .word start
