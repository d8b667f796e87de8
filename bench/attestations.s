; A load of attestations: for each request of attestations.py the program puts counter and token
; into the metadata, where the challenge is 0, and calls the attestation ROM. The program is its
; own executable region, the output one word. A request takes 456 bus steps, the call 158 of them.
        .text
        .globl  start
start:  mov     #0x2200, r1
        dint
        mov     #start, &0x0260 ; ERmin
        mov     #last, &0x0262  ; ERmax
        mov     #0x0300, &0x0264 ; ORmin
        mov     #0x0300, &0x0266 ; ORmax
        mov     #0x0290, r5     ; behind the token
again:  mov     #0x026C, r4     ; the counter
wait:   bit     #1, &0x0072     ; SSTAT
        jeq     wait
byte:   mov.b   &0x0074, 0(r4)  ; SRXD
        inc     r4
        cmp     r5, r4
        jne     byte
        call    #0xA000
last:   jmp     again

        .section .reset_vector, "a"
        .word   start
