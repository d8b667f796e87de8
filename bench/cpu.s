; A processor-bound load: 6,000 passes over 200 words of RAM. Each of the 1,200,000 turns of the
; inner loop is 15 instructions and 24 bus steps, with register, indirect, indexed and stack operands.
        .text
        .globl  start
start:  mov     #0x2200, r1
        mov     #6000, r10
pass:   mov     #0x0300, r4
        mov     #200, r6
turn:   mov     @r4, r7         ; 2 steps
        add     r7, r5          ; 1
        adc     r8              ; 1
        xor     r5, 2(r4)       ; 4
        push    r5              ; 2
        call    #mix            ; 3, and what mix takes
        pop     r5              ; 2
        bit     #8, r7          ; 1
        add.b   r7, r9          ; 1
        incd    r4              ; 1
        dec     r6              ; 1
        jne     turn            ; 1
        dec     r10
        jne     pass
done:   jmp     done
mix:    rra     r7              ; 1
        swpb    r7              ; 1
        ret                     ; 2

        .section .reset_vector, "a"
        .word   start
