; Receives the metadata of an attestation, copies the pins to the output, attests, and stops.

.equ status, 0x0072     ; SSTAT: bit 0 says that a byte waits
.equ receive, 0x0074    ; SRXD
.equ pins, 0x0020       ; P1IN
.equ metadata, 0x0240   ; challenge, bounds, the words of the flags, counter and token
.equ behind, 0x0290     ; the first place behind them
.equ output, 0x0300
.equ attest, 0xA000     ; where a call of the attestation ROM begins

start:  mov #0x2200, sp
        dint
        mov #metadata, r5
wait:   bit #1, &status
        jz wait
        mov.b &receive, 0(r5)
        inc r5
        cmp #behind, r5
        jnz wait
        call #measure
        call #attest
stop:   jmp stop

; The code that the report is on.
.org 0xC040
measure:
        mov &pins, &output
last:   ret

.org 0xFFFE
.word start
