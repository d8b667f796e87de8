; Handlers within handlers: the timer interrupts each 300 steps, and a handler lets two more of its
; kind interrupt it before it ends. Assembled by `./foldgneiss asm bench/nested.asm`.
        .org 0xC000
start:  mov #0x2200, r1
        mov #299, &0x0164
        mov #3, &0x0160
        eint
again:  inc r5
        jmp again
tick:   cmp #3, r8
        jc done
        inc r8
        eint
        mov #100, r7
turn:   dec r7
        jnz turn
        dint
        dec r8
done:   reti
        .org 0xFFF2
        .word tick
        .org 0xFFFE
        .word start
