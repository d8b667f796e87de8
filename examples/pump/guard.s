; The first instructions of the region. Whoever calls it may have set the vectors and started the
; timer: it runs only where both vectors name the stop's handler, and takes the timer off, so that
; nothing but a byte at the serial port calls it.

        .section .er.guard, "ax"
        .globl  er_min
er_min: dint                            ; nothing interrupts until `region` allows it
        clr     &0x0160                 ; nor does the timer then
        cmp     #on_stop, &0xfff4
        jne     refused
        cmp     #on_stop, &0xfff2
        jne     refused
        br      #er_entry
refused:
        br      #0xc000                 ; left elsewhere than at its last: both flags fall

        .section .timer_vector, "a"
        .word   on_stop                 ; the timer is not used
