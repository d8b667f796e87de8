; Means to move a block of memory by DMA and then to have the ROM decide on a request, while a timer
; counts periods.
        .org 0xC000
start:  mov #0x2200, sp
        mov #99, &0x164         ; TCMP: a period has 100 steps
        mov #3, &0x160          ; TCTL: the timer runs and may interrupt
        eint
        mov #0x300, &0x1E2      ; DSRC
        mov #0x400, &0x1E4      ; DDST
        mov #8, &0x1E6          ; DLEN: words, each of two steps
        mov #1, &0x1E0          ; DCTL: the transfer starts
        call #0xA000
stop:   jmp stop
tick:   inc r5
        reti
        .org 0xFFF2
        .word tick
        .org 0xFFFE
        .word start
