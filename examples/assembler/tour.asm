; A tour of the assembler: each directive, each form of operand, and what may stand in an expression.
; The program adds up a table, sends the sum and a letter, and then sends back each byte that comes.

        .equ SCTL, 0x70                 ; the receive interrupt
        .equ SRXD, 0x74                 ; the byte that came
        .equ STXD, 0x76                 ; the byte that is sent

        .org 0x0300                     ; RAM
sum:    .word 0
last:   .word -1, sum+2, $              ; words: a number, a sum, and the statement's own address

        .org 0xC000                     ; the program
table:  .byte 1, 2, 0x10, -3+5
        .equ LENGTH, $-table            ; names of earlier lines
text:   .ascii "sum; not a comment"     ; 18 characters

start:  MOV.W #0x2200, SP               ; mnemonics and registers in any case
        clr sum                         ; symbolic: the distance is in the extension word
        mov #table, r4                  ; a name: an immediate word
        mov #LENGTH, r5
next:   mov.b @r4+, r6                  ; through a register, which goes on
        add r6, &sum                    ; absolute
        dec r5                          ; emulated: sub #1,r5
        jnz next                        ; jnz is jne
        mov.b sum, &STXD
        call #send                      ; the stack
        mov @sp, last+2(r3)             ; through a register, which stays; R3 as the base of an index is 0
        mov.b #1, &SCTL                 ; #1 is generated, with no extension word
idle:   bis #0x18, sr                   ; GIE and CPUOFF
        jmp idle

send:   push r4
        mov #text-1, r4
        mov.b 1(r4), &STXD              ; indexed: the letter s
        cmp #-1, last
        jeq $+4                         ; over the next word
        nop
        pop r4
        ret

arrived:
        mov.b &SRXD, &STXD
        reti

        .org 0xFFF4                     ; the vectors
        .word arrived
        .org 0xFFFE
        .word start
