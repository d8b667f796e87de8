; What runs before main, and attest. A `start` of the firmware's own takes the place of this one.

        .section .start.kit, "ax"
        .weak   start
start:  mov     #stack_top, r1
        mov     #0x5afe, &stack_guard   ; below the stack, where no push has to come: stacks.py
        mov     #data_values, r12       ; after a reset too, so that globals begin anew
        mov     #data_start, r13
.Lcopy: cmp     #data_end, r13
        jhs     .Lcopied
        mov     @r12, 0(r13)
        incd    r12
        incd    r13
        jmp     .Lcopy
.Lcopied:
        cmp     #bss_end, r13           ; .bss follows .data
        jhs     .Lcleared
        clr     0(r13)
        incd    r13
        jmp     .Lcopied
.Lcleared:
        call    #main
.Lended:
        bis     #0x10, r2               ; sleeps after main
        jmp     .Lended

        .section .reset_vector, "a"
        .word   start

        .section .text.attest, "ax"
        .globl  attest
attest: push    r2
        dint
        .irp    register, r4, r5, r6, r7, r8, r9, r10
        push    \register              ; the region clears them, and would read what it pushes
        .endr
        mov     #0x0240, r13            ; the metadata: challenge,
        mov     #0x0260, r14
        call    #store
        mov     #er_min, &0x0260        ; bounds,
        mov     #er_max, &0x0262
        mov     #or_min, &0x0264
        mov     #or_max, &0x0266
        mov     #0x026c, r13            ; counter and token
        mov     #0x0290, r14
        call    #store
        call    #er_min                 ; a write to the metadata after this would clear EXEC
        mov     #0x0202, r13            ; the MAC behind its first word
.Lclear:
        clr     0(r13)
        incd    r13
        cmp     #0x0220, r13
        jne     .Lclear
        call    #0xa000                 ; the attestation ROM
        mov     #1, r12                 ; it attested where it wrote more than the first word
        mov     #0x0220, r13
.Lsearch:
        decd    r13
        tst     0(r13)
        jne     .Ldecided
        cmp     #0x0202, r13
        jne     .Lsearch
        mov     &0x0200, r12            ; else that word is its decision
.Ldecided:
        .irp    register, r10, r9, r8, r7, r6, r5, r4
        pop     \register
        .endr
        pop     r2
        ret

store:  mov.b   @r12, 0(r13)            ; bytes of the request, to r13 and up to r14
        inc     r12
        inc     r13
        cmp     r14, r13
        jne     store
        ret

; The executable region is entered at its first instruction alone, and left at its last. Nothing of
; its caller comes in: it has a stack of its own, which it clears, as it does its output, and all
; registers.
        .section .er.entry, "ax"
        .weak   er_min                  ; a guard in .er.guard takes this name, and goes to er_entry
        .globl  er_entry, er_leave, er_max, er_refuse
er_min:
er_entry:
        clr     r2
        mov     #region_stack_end, r4   ; the output follows the stack
        mov     #or_max + 2, r5
.Lclear_region:
        clr     0(r4)
        incd    r4
        cmp     r5, r4
        jne     .Lclear_region
        mov     r1, &caller_stack
        mov     #region_stack, r1
        .irp    register, r4, r5, r6, r7, r8, r9, r10, r11, r12, r13, r14, r15
        clr     \register
        .endr
        call    #region
er_leave:
        mov     &caller_stack, r1
        br      #er_max
er_refuse:                              ; out of the region elsewhere: both flags fall
        br      #0xc000

        .section .er.exit, "ax"
er_max: ret

        .if REGION_STACK < 2 || REGION_STACK % 2
        .error  "REGION_STACK has to be an even number of bytes from 2 on (128 if unset)"
        .endif
        .section .er_stack, "aw", @nobits
        .globl  region_stack_end, caller_stack
region_stack_end:
        .space  REGION_STACK
region_stack:
caller_stack:
        .space  2
