; The processor-bound loop inside its own executable region: the EXEC flag is set from its first
; step on. Assembled by `./foldgneiss asm bench/exec.asm`.
        .org 0xC000
start:  mov #0x2200, r1
        dint
        mov #pass, &0x0260
        mov #last, &0x0262
        mov #0x0300, &0x0264
        mov #0x0500, &0x0266
        jmp pass
        .org 0xC100
pass:   mov #0x0300, r4
        mov #200, r6
turn:   mov @r4, r7
        add r7, r5
        adc r8
        xor r5, 2(r4)
        push r5
        call #mix
        pop r5
        bit #8, r7
        add.b r7, r9
        incd r4
        dec r6
        jne turn
        dec r10
        jmp pass
mix:    rra r7
        swpb r7
        ret
last:   jmp pass
        .org 0xFFFE
        .word start
