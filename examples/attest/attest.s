; Receives a request (challenge, counter and token), names the code and the output that it answers
; for, takes one measurement by that code, and calls the attestation ROM.
        .text
        .globl  start
start:  mov     #0x2200, r1             ; the stack grows down from the end of RAM
        mov     #0x0240, r4             ; the challenge: the first 32 bytes of the metadata
        mov     #0x0260, r5
        call    #receive
        mov     #0x026c, r4             ; counter and token: the last 36
        mov     #0x0290, r5
        call    #receive

        mov     #measure, &0x0260       ; ERmin: the first instruction of the region that runs
        mov     #measured, &0x0262      ; ERmax: its last instruction
        mov     #0x0300, &0x0264        ; ORmin and ORmax: the output is one word
        mov     #0x0300, &0x0266
        call    #measure
        call    #0xa000                 ; the attestation ROM decides on the request
stop:   jmp     stop

receive:                                ; bytes from the serial port to r4 and up to r5
        bit.b   #1, &0x0072             ; SSTAT: does a byte wait?
        jeq     receive
        mov.b   &0x0074, 0(r4)          ; SRXD
        inc     r4
        cmp     r5, r4
        jne     receive
        ret

measure:
        mov     &0x0020, r6             ; P1IN: the sensor
        mov     r6, &0x0300
measured:
        ret
