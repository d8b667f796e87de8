; A program around the same region that wants six strokes believed without a dose: it writes the
; output itself, and has the timer interrupt the region so that it is left at once.

        .section .start, "ax"
        .globl  start
start:  mov     #0x2200, r1
        tst     &tried                  ; the guard leaves the region to here
        jne     report
        inc     &tried
        mov     #0x0240, r13            ; challenge,
        mov     #0x0260, r14
        call    #take
        mov     #er_min, &0x0260        ; bounds,
        mov     #er_max, &0x0262
        mov     #or_min, &0x0264
        mov     #or_max, &0x0266
        mov     #0x026c, r13            ; counter and token
        mov     #0x0290, r14
        call    #take
        mov     #6, &or_min
        clr     &or_max
        mov     #er_leave, &0xfff2      ; a handler in the region: its way out
        mov     r1, &caller_stack       ; which takes the stack pointer from here,
        decd    &caller_stack           ; with the return address of the call
        mov     #5, &0x0164
        mov     #3, &0x0160             ; the timer runs, with its interrupt
        eint
        call    #er_min
report: clr     &0x0160
        call    #0xa000                 ; the attestation ROM
ended:  jmp     ended

take:   bit     #1, &0x0072             ; bytes that arrive, to r13 and up to r14
        jz      take
        mov.b   &0x0074, 0(r13)
        inc     r13
        cmp     r14, r13
        jne     take
        ret

        .section .bss.tried, "aw", @nobits
tried:  .space  68                      ; as pump.c's request, so that the region is the same
