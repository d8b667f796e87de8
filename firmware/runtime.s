; What clang calls for products, quotients and shifts of 64 bits, by their names in the MSP430 ABI
; (Texas Instruments, SLAA534) and, for shifts, in GCC's library. The operands of a product or a
; quotient are in R8 to R11 and in R12 to R15, the result is in R12 to R15, the lowest word first.
; R4 to R10 stay.

        .macro  save
        push    r10
        push    r9
        push    r8
        push    r7
        push    r6
        push    r5
        push    r4
        .endm
        .macro  restore
        pop     r4
        pop     r5
        pop     r6
        pop     r7
        pop     r8
        pop     r9
        pop     r10
        .endm
        .macro  move a, b, c, d         ; to R12 to R15
        mov     \a, r12
        mov     \b, r13
        mov     \c, r14
        mov     \d, r15
        .endm
        .macro  negate a, b, c, d
        inv     \a
        inv     \b
        inv     \c
        inv     \d
        inc     \a
        adc     \b
        adc     \c
        adc     \d
        .endm

        .section .text.product_64, "ax"
        .globl  __mspabi_mpyll
__mspabi_mpyll:
        save
        clr     r4                      ; R4 to R7: the product
        clr     r5
        clr     r6
        clr     r7
        push    #64
.Lfactor:
        clrc
        rrc     r15
        rrc     r14
        rrc     r13
        rrc     r12
        jnc     .Ldouble
        add     r8, r4
        addc    r9, r5
        addc    r10, r6
        addc    r11, r7
.Ldouble:
        rla     r8
        rlc     r9
        rlc     r10
        rlc     r11
        dec     0(r1)
        jnz     .Lfactor
        incd    r1
        move    r4, r5, r6, r7
        restore
        ret

        .section .text.divide_64, "ax"
        .globl  __mspabi_divull, __mspabi_remull, __mspabi_divlli, __mspabi_remlli
__mspabi_divlli:
        save
        push    r11                     ; the quotient's sign
        xor     r15, 0(r1)
        call    #magnitudes
        jmp     .Lquotient
__mspabi_remlli:
        save
        push    r11                     ; the remainder has the dividend's sign
        call    #magnitudes
        jmp     .Lremainder
__mspabi_divull:
        save
        push    #0
.Lquotient:
        call    #divide_64
        move    r8, r9, r10, r11
        jmp     .Lsign
__mspabi_remull:
        save
        push    #0
.Lremainder:
        call    #divide_64
        move    r4, r5, r6, r7
.Lsign: tst     0(r1)
        jge     .Lsigned
        negate  r12, r13, r14, r15
.Lsigned:
        incd    r1
        restore
        ret

magnitudes:
        tst     r11
        jge     .Ldivisor
        negate  r8, r9, r10, r11
.Ldivisor:
        tst     r15
        jge     .Lpositive
        negate  r12, r13, r14, r15
.Lpositive:
        ret

divide_64:                              ; R8 to R11 by R12 to R15: the quotient in R8 to R11,
        clr     r4                      ; the remainder in R4 to R7
        clr     r5
        clr     r6
        clr     r7
        push    #64
.Lbit:  rla     r8
        rlc     r9
        rlc     r10
        rlc     r11
        rlc     r4
        rlc     r5
        rlc     r6
        rlc     r7
        sub     r12, r4
        subc    r13, r5
        subc    r14, r6
        subc    r15, r7
        jc      .Lfits
        add     r12, r4
        addc    r13, r5
        addc    r14, r6
        addc    r15, r7
        jmp     .Lnext
.Lfits: inc     r8
.Lnext: dec     0(r1)
        jnz     .Lbit
        incd    r1
        ret

; R12 to R15 shifted by the number on the stack.
        .macro  shift name, prepare, first, second, third, fourth
        .section .text.\name, "ax"
        .globl  \name
\name:  mov     2(r1), r11
.Lmore_\name:
        dec     r11
        jn      .Lend_\name
        \prepare
        \first
        \second
        \third
        \fourth
        jmp     .Lmore_\name
.Lend_\name:
        ret
        .endm
        shift   __ashldi3, "clrc", "rlc r12", "rlc r13", "rlc r14", "rlc r15"
        shift   __lshrdi3, "clrc", "rrc r15", "rrc r14", "rrc r13", "rrc r12"
        shift   __ashrdi3, "clrc", "rra r15", "rrc r14", "rrc r13", "rrc r12"
