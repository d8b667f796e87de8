; Sleeps, and is woken by the timer each 65,536 steps, the longest that it counts. Assembled by
; `./foldgneiss asm bench/days.asm`.
        .org 0xC000
start:  mov #0x2200, r1
        mov #65535, &0x0164
        mov #3, &0x0160
        bis #0x18, sr
tick:   inc r8
        reti
        .org 0xFFF2
        .word tick
        .org 0xFFFE
        .word start
