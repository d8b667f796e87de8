"""Texts with what they are read as, by docs/formats.md and docs/assembler.md: made by hand, or by
another program that is named.
"""
LONG_NAME = b"a234567890123456789012345678901234567890123456789012345678901234"  # no name is longer

# The first fault of each text, by the kind of its file. In each @ of a key, a policy and reports
# stand as many zeros as its field has digits.
FAULTS = {
    "key": {
        "1: Extra": [b"@\r", b"@\n\n", b"@0", b"@\r\n\n"],
        "1: Missing": [b"a" * 126],
    },
    "image": {
        "0: NoEnd": [b""],
        "1: Check": [b":00000001FE", b":0000000600", b":0100000100FF", b":0101FF000100"],
        "1: Count": [
            b":", b":00000001F", b":0100000000", b":00000001FF00", b":00000006", b":0100000100FE",
            b":0100000200FD", b":020000030000FB", b":0400000400000000F8", b":00000005FB"],
        "1: Digit": [b":0000000G", b":00000001FF ", b":00 00001FF"],
        "1: NoColon": [b"x", b"00000001FF\n", b"\r"],
        "1: NoEnd": [b":02C00000B2404C\n"],
        "1: Place": [
            b":0101FF0001FE", b":0122000001DC", b":01BFFF000140", b":0221FF000102DB",
            b":02FFFF000102FD", b":0101FF0001FE\nx\n"],
        "1: RecordType": [b":00000006FA", b":010000FF01FF"],
        "2: AfterEnd": [b":00000001FF\n:00000001FF", b":00000001FF\n:0100000001FF"],
        "2: NoColon": [b"\n zz\n"],
        "2: NoEnd": [b"\n\r\n"],
        "2: Place": [b":020000040001F9\n:01C00000013E", b":020000021000EC\n:0102000001FC"],
        "2: RecordType": [b":01C00000013E\n:00000006FA\n:00000001FF\n"],
        "3: AfterEnd": [b":00000001FF\n\nx"],
    },
    "script": {
        "1: Count": [b"at 1 rx 414", b"at 1 p1 123", b"at 1 p1 12345"],
        "1: Digit": [
            b"at x reset", b"at -1 reset", b"at 1 rx 4g", b"at 1 rx 0x41", b"at +1 reset",
            b"at 0000000000000000000000000a reset"],
        "1: Extra": [b"at 1 reset now", b"at 1 rx 41 42", b"at 1 p1 1234 # no comment"],
        "1: Missing": [b"at", b"at 1", b"at 1 rx", b"at 1 p1", b"at 1 dma 0300 0302"],
        "1: Range": [b"at 10000000 reset", b"at 00000000001 reset", b"at 1 dma 0300 0302 65536"],
        "1: Utf8": [b"\xc3\n\xff"],
        "1: Word": [b"to 1 reset", b"at 1 wait", b"at 1 Reset"],
        "2: Count": [b"at 5 reset\nat 4 p1 123 5\nat x", b"at 5 reset\nat 4 dma 030 g302 x\nat x"],
        "2: Digit": [
            b"at 5 reset\nat x wait\nat x", b"at 5 reset\nat 4 rx 41g\nat x",
            b"at 5 reset\nat 4 p1 12g 5\nat x"],
        "2: Extra": [b"at 5 reset\nat 4 reset now\nat x"],
        "2: Missing": [b"at 5 reset\nat 4 rx\nat x"],
        "2: Order": [b"at 5 reset\nat 4 reset\nat x"],
        "2: Range": [
            b"at 5 reset\nat 10000000 wait\nat x", b"at 5 reset\nat 4 dma 0300 0302 70000 1\nat x"],
        "2: Utf8": [b"at x\n# \xff"],
        "2: Word": [b"at 5 reset\nto\nat x", b"at 5 reset\nat 4 wait 1\nat x"],
        "4: Utf8": [b"at 1 reset\nat 0 reset\n\n\xe2\x82"],
        "5: Order": [b"at 5 reset\r\n\n# at 1 reset\n \t\nat 4 reset\nat x"],
    },
    "policy": {
        "0: Missing": [b""],
        "1: Count": [b"er c02 c022", b"er c020 0c022"],
        "1: Digit": [b"er c02g c022", b"er c020 0xc022", b"version two"],
        "1: Extra": [b"er c020 c022 c024", b"version 2 2"],
        "1: Missing": [b"er c020 c022", b"er c020", b"er", b"or 0300", b"version"],
        "1: Order": [b"or 0300 0300", b"chal @"],
        "1: Range": [b"version 1", b"version 3\nversion 2"],
        "1: Word": [b"ER c020 c022", b"policy", b"flag exec"],
        "2: Bounds": [
            b"er c022 c020\nor 0300 0300", b"er c021 c022\nor 0300 0300",
            b"er c020 c022\nor c022 c022", b"er c020 ffde\nor ffde ffde"],
        "2: Missing": [
            b"# nothing\n\n", b"er c020 c022\n# or\n", b"er c020 c022\nor 0300",
            b"version 2\ner c020 c022"],
        "2: Order": [
            b"er c020 c022\ner c020 c022", b"er c020 c022\nchal @", b"version 2\nversion 2",
            b"version 2\nor 0300 0300", b"version 2\nflag exec", b"version 2\nask @ 1"],
        "2: Utf8": [b"or\n\xff"],
        "2: Word": [b"er c020 c022\nversion 2"],
        "3: Bounds": [
            b"er c020 c022\n\nor 0302 0300", b"version 2\ner c020 c022\nor 026c 026c",
            b"version 2\ner 0270 0272\nor 0300 0300"],
        "3: Count": [
            b"er c020 c022\nor 0300 0300\nchal 00", b"er c020 c022\nor 0300 0300\nchal @0"],
        "3: Extra": [b"er c020 c022\nor 0300 0300\nchal @ 1"],
        "3: Missing": [
            b"er c020 c022\nor 0300 0300\nchal", b"# two\n\nversion 2",
            b"version 2\ner c020 c022\nor 0300 0300\n"],
        "3: Order": [
            b"er c020 c022\nor 0300 0300\nor 0300 0300", b"version 2\ner c020 c022\nflag exec"],
        "3: Word": [
            b"er c020 c022\nor 0300 0300\nflag exec", b"er c020 c022\nor 0300 0300\nask @ 1"],
        "4: Extra": [b"version 2\ner c020 c022\nor 0300 0300\nflag exec 1"],
        "4: Missing": [b"version 2\ner c020 c022\nor 0300 0300\nflag"],
        "4: Order": [
            b"er c020 c022\nor 0300 0300\n\ner c020 c022",
            b"version 2\ner c020 c022\nor 0300 0300\nask @ 1"],
        "4: Word": [b"version 2\ner c020 c022\nor 0300 0300\nflag none"],
        "5: Count": [
            b"version 2\ner c020 c022\nor 0300 0300\nflag exec\nchal 0",
            b"version 2\ner c020 c022\nor 0300 0300\nflag exec\nask 00 1"],
        "5: Digit": [b"version 2\ner c020 c022\nor 0300 0300\nflag exec\nask @ one"],
        "5: Extra": [b"version 2\ner c020 c022\nor 0300 0300\nflag exec\nask @ 1 2"],
        "5: Missing": [b"version 2\ner c020 c022\nor 0300 0300\nflag aux\nask @"],
        "5: Order": [
            b"version 2\ner c020 c022\nor 0300 0300\nflag exec\nflag aux",
            b"version 2\ner c020 c022\nor 0300 0300\nflag exec\nchal @"],
        "5: Range": [
            b"version 2\ner c020 c022\nor 0300 0300\nflag exec\nask @ 0",
            b"version 2\ner c020 c022\nor 0300 0300\nflag exec\nask @ 4294967296"],
        "6: Twice": [b"version 2\ner c020 c022\nor 0300 0300\nflag exec\nask @ 1\nask @ 1"],
        "8: Twice": [
            b"version 2\ner c020 c022\nor 0300 0300\nflag exec\nask @ 1\nask @ 2\n\nask @ 01"],
    },
    "reports": {
        "1: Count": [
            b"report 1 exec 1 chal 00 er c020 c022 or 0300 0300 data 0000 mac @",
            b"report 1 exec 1 chal @ er c020 c22 or 0300 0300 data 0000 mac @",
            b"report 1 exec 1 chal @ er c020 c022 or 0300 0300 data 000 mac @",
            b"report 1 exec 1 chal @ er c020 c022 or 0300 0300 data 0000 mac 0000000000", b"tx 1 4",
            b"collision 00 0", b"end 5 pc c06 exec 0"],
        "1: Digit": [
            b"report2 1 exec 1 aux no",
            b"report x exec 1 chal @ er c020 c022 or 0300 0300 data 0000 mac @",
            b"report 1 exec y chal @ er c020 c022 or 0300 0300 data 0000 mac @",
            b"report 1 exec 1 chal " + b"0" * 63 + b"g er c020 c022 or 0300 0300 data 0000 mac @",
            b"report 1 exec 1 chal @ er c020 or 0300 0300 data 0000 mac @",
            b"report 1 exec 1 chal @ er c020 c022 or 0300 0300 data -- mac @", b"tx 1 4g",
            b"reset K1", b"collision 0x 00"],
        "1: Extra": [
            b"report2 1 exec 1 aux 1 count 1 chal @ er c020 c022 or 0300 0300 data 0000 mac @ 1",
            b"report 1 exec 1 chal @ er c020 c022 or 0300 0300 data 0000 mac @ 1", b"denied 1 2 3",
            b"tx 1 41 42"],
        "1: Missing": [
            b"report2 1 exec 1 aux 1 count",
            b"report 1 exec 1 chal @ er c020 c022 or 0300 0300 data 0000", b"denied 1", b"tx 1",
            b"verdict 1", b"collision 00"],
        "1: Output": [
            b"report2 1 exec 1 aux 1 count 1 chal @ er c020 c022 or 0300 0300 data - mac @",
            b"report2 1 exec 1 aux 1 count 1 chal @ er c020 c022 or 026c 026c data 0000 mac @",
            b"report 1 exec 1 chal @ er c020 c022 or 0300 0300 data - mac @",
            b"report 1 exec 1 chal @ er c020 c022 or 0300 0300 data 00000000 mac @",
            b"report 1 exec 1 chal @ er c020 c022 or 0302 0300 data 0000 mac @",
            b"report 1 exec 1 chal @ er c020 c022 or 0300 0300 data 00 mac @",
            b"report 1 exec 1 chal @ er c020 c022 or 026c 026c data - mac @"],
        "1: Range": [
            b"report2 1 exec 1 aux 2", b"report2 1 exec 1 aux 1 count 4294967296",
            b"report 4294967296 exec 1 chal @ er c020 c022 or 0300 0300 data 0000 mac @",
            b"report 1 exec 2 chal @ er c020 c022 or 0300 0300 data 0000 mac @", b"denied 1 1",
            b"denied 1 4", b"tx 4294967296 41", b"end 5 pc c006 exec 3"],
        "1: Word": [
            b"report2 1 exec 1 chal @", b"report2 1 exec 1 aux 1 chal @", b"note 1", b"Tx 1 41",
            b"report 1 EXEC 1 chal @ er c020 c022 or 0300 0300 data 0000 mac @",
            b"report 1 exec 1 er c020 c022 or 0300 0300 data 0000 mac @",
            b"report 1 exec 1 chal @ er c020 c022 or 0300 0300 0300 data 0000 mac @",
            b"report 1 exec 1 aux 0 count 1 chal @ er c020 c022 or 0300 0300 data 0000 mac @",
            b"report2 1 exec 1 chal @ er c020 c022 or 0300 0300 data 0000 mac @", b"reset 1 K7",
            b"reset 1 k1", b"verdict 1 accepted", b"end 5 cp c006 exec 0"],
        "2: Utf8": [b"or\n\xff"],
        "10: Missing": [
            b"tx 4 41\nreset 5 X0\ndenied 6 2\nverdict 0 count-differs\nverdict 1 aux-zero\n"
            b"collision 00 1122\nend 9 pc c006 exec 1\n# note\n\nend"],
    },
    "source": {
        "1: Mnemonic": [
            b"mvo r4,r5", b"r4 r5", b".orgy 5", b".org.w 5", b"mov.x r4,r5", b"mov.b.b r4,r5",
            b"swpb.b r4", b"sxt.B r4", b"call.b r4", b"reti.b", b"jmp.b $", b"br.b r4", b"clrc.b",
            b"ret.b", b"foo @r2"],
        "1: Operand": [
            b"mov r4;,r5\r", b"mov", b"mov r4", b"mov r4,r5,r6", b"mov r4,#5", b"mov r4,@r5",
            b"mov r4,@r5+", b"mov 5(r2),r4", b"mov 5(r3),r4", b"mov r4,5(sr)", b"mov @r2,r4",
            b"mov @r3+,r4", b"mov @pc+,r4", b"rrc #5", b"rra r3", b"sxt 5(r3)", b"swpb @pc+",
            b"push", b"push r4,r5", b"reti r4", b"jmp r4", b"jmp #5", b"jmp &5", b"clr #5",
            b"inc @r4", b"rla 5(r3)", b"rlc.b @r4", b"nop r4", b".org", b".org #5", b".org 5,6",
            b".word", b".word r4", b".byte 1,#2", b".ascii", b".ascii r4", b'.ascii "a","b"',
            b".equ a", b".equ r4,5", b".equ -a,5", b".equ 5,a", b".equ a,#5", b".equ a,5,6",
            b"sxt #5", b"rrc r3", b"rla 2(r3)", b"mov #1,#2"],
        "1: Range": [
            b"mov #65535+1,r5", b"mov #-32769,r5", b"mov.b #256,r5", b"mov.b #-129,r5",
            b"mov.b #65535,r5", b"push.b #256", b".byte 256", b".byte 1,-129", b".word 1,-32769",
            b".word 65535+1", b"mov &-1,r5", b"mov r5,&65535+1", b"mov -1,r5",
            b"mov r5,65535+1(r4)", b"jmp $+1", b"jmp $+1026", b"jmp $-1024", b"jmp -2", b".org -1",
            b".org 65535+1", b".equ a,65535+1", b".equ a,-32769", b"mov #65535+1,r5\nmov #x,r5"],
        "1: Syntax": [
            b"r4,r5 mov", b"5 r4", b",", b":", b"a: b: nop", b"r4: nop", b"PC: nop", b"5a: nop",
            b"a.b: nop", b"foo r4,", b"mov ,r4", b"mov r4 r5", b"mov #r5,r4", b"mov #,r4",
            b"mov 5(6),r4", b"mov (r4),r5", b"mov 5(r4,r5", b"mov 5 (r4)+,r5", b"mov @5,r4",
            b"mov @r4-,r5", b"mov #1+,r4", b"mov #+1,r4", b"mov #--1,r4", b"mov #1+-1,r4",
            b"mov #65536,r4", b"mov #0x10000,r4", b"mov #0x,r4", b"mov #0X10,r4", b"mov #12a,r4",
            b"mov #0xg,r4", b"mov #$$,r4", b'mov "a",r4', b'.byte "a"', b".word 1,,2", b'.ascii "a',
            b'.ascii "a\\n"', b'.ascii "\t"', b'.ascii "a" "b"', b'.ascii "a"+1', b"nop \\",
            b"nop\rnop", b"\xef\xbb\xbfnop", b"mov r4,",
            LONG_NAME + b"b: jmp $"],
        "1: Twice": [b"a: .equ a,1"],
        "1: Undefined": [
            b".org x", b".org late\nlate:", b".equ a,a", b"a: .equ b,a", b"a: .org a", b"mov #x,r5",
            b".word x", b".word 65535+1,x", b"mov #65535+1,x", b"jmp x", b".byte 256,x"],
        "1: Utf8": [b"; \xc3\nfoo\n\xff"],
        "2: Mnemonic": [b"nop\nfoo\nfoo,\nmov r4", b"mov #x,r5\nmvo r4,r5"],
        "2: Place": [
            b".org 0x01FF\n.byte 1", b".org 0x21FF\n.byte 1,2", b".org 0xBFFF\n.byte 1",
            b".org 0xFFFF\n.byte 1,2", b".org 0xFFFE\n.word 1,2", b".org 0xC001\nnop",
            b".byte 1\n.word 1", b".byte 1\nnop"],
        "2: Twice": [b"a:\na:", b".equ a,1\na:", b"a:\n.equ a,x"],
        "2: Utf8": [b"foo\r\n;\xc3\n"],
        "3: Operand": [b"a:\na:\nmov r4"],
        "3: Overlap": [b"nop\n.org 0xC000\nnop", b"nop\n.org 0xC001\n.byte 1"],
        "3: Place": [
            b".org 0xFFFF\n.byte 1\n.byte 2", b".byte 1\n.org 0xBFFF\n.byte 1,2",
            b"mov #x,r5\n.org 0\n.byte 1"],
        "3: Syntax": [b"\n\nfoo @r2,("],
        "3: Twice": [b"mov #x,r5\na:\na:"],
    },
}
ZEROS = {"key": 128, "policy": 64, "reports": 64}

# Lines that are read, though what they name may have no value.
READ_LINES = [
    b"", b" \t", b";", b"; mov", b"a:", b" a : ; b", b"_1: nop", b"mov: nop", b"r16: nop",
    b"rx: nop", b"mov r4,r5", b"MOV R4,R5", b"mov.w r4,r5", b"mov.B r4,r5", b"mov#5,r4",
    b"mov # 5 , r4", b"mov #-1,r4", b"mov #a+b-c+$-1,r4", b"mov &a,&b", b"mov a,b",
    b"mov -5(r4),6(r3)", b"mov @r4,r5", b"mov @sp+,pc", b"mov @pc,r4", b"mov 5(pc),r4",
    b"mov r3,r2", b"mov #0x00fF,r4", b"mov #065535,r4", b"mov #mov,r4", b"add.b r4,r5",
    b"addc r4,r5", b"subc r4,r5", b"sub r4,r5", b"cmp r4,r5", b"dadd r4,r5", b"bit r4,r5",
    b"bic r4,r5", b"bis r4,r5", b"xor r4,r5", b"and r4,r5", b"rrc.b @r4+", b"swpb r4", b"rra a",
    b"sxt &5", b"push #5", b"push.b r3", b"call #a", b"call @r4+", b"reti", b"jne a", b"jeq a",
    b"jnc a", b"jc a", b"jn a", b"jge a", b"jl a", b"jmp.w $", b"jnz a", b"jz a", b"jlo a",
    b"jhs a", b"adc.b r4", b"br #a", b"br @r4+", b"clr 5(r3)", b"clrc", b"clrn", b"clrz",
    b"dadc r4", b"dec r4", b"decd.b r4", b"dint", b"eint", b"inc r3", b"incd r4", b"inv r4", b"nop",
    b"pop pc", b"ret", b"rla r3", b"rlc.b a", b"sbc r4", b"setc", b"setn", b"setz", b"tst &5",
    b".org 0xC000", b".ORG $+2", b".word 1,-2,a", b".byte 1", b'.ascii ""',
    b'.ascii "a;b, \'c" ; d', b".equ a,-5", b".equ mov , 5", b"a: .equ a, 1",
    LONG_NAME + b": jmp " + LONG_NAME]

# What is no fault: bounds behind the metadata of version 1 alone, requests that differ in challenge
# or counter, a challenge that comes again in version 1, and lines with all that may stand in them.
READ_POLICIES = [
    b"er c020 c022\nor 026c 026c\n",
    b"version 2\ner c020 c022\nor 0290 0290\nflag plain\n",
    b"version 2\ner c020 c022\nor 0300 0300\nflag exec\nask @ 1\nask @ 2\nask " + b"f" * 64 + b" 1",
    b"er c020 c022\nor 0300 0300\nchal @\nchal @"]

# The words that a statement, or a few lines, are assembled to, from the program's first place on.
# By LLVM's assembler (`llvm-mc -triple=msp430`, 14.0.6) where the notation is its own too, and by
# hand from the tables of SLAU049.
WORDS = {
    # by llvm-mc: two operands
    b"mov r4, r5": "4405", b"mov.b r4, r5": "4445", b"add #0x1234, r6": "5036 1234",
    b"add.b #0x12, r6": "5076 0012", b"addc @r7, r8": "6728", b"subc @r9+, r10": "793a",
    b"sub 6(r5), 8(r6)": "8596 0006 0008", b"cmp &0x0200, r11": "921b 0200",
    b"dadd r12, &0x0204": "ac82 0204", b"bit #0x0100, r13": "b03d 0100",
    b"bic.b @r14+, 1(r15)": "ceff 0001", b"bis r4, 0x10(r1)": "d481 0010",
    b"xor #0x5555, &0x0300": "e0b2 5555 0300", b"and.b 3(r4), r5": "f455 0003",
    b"mov #0x2200, r1": "4031 2200", b"bis #0x10, r2": "d032 0010", b"mov.w r4, r5": "4405",
    b"mov r1, r4": "4104", b"mov r5,r3": "4503", b"mov r5,2(r3)": "4583 0002",
    b"mov -2(r4),r5": "4415 fffe", b"mov @pc,r5": "4025", b"MOV.W R4,PC": "4400",
    b"mov.B @SP+,sr": "4172",
    # by llvm-mc: constants and immediates
    b"mov #0, r5": "4305", b"mov #1, r5": "4315", b"mov #2, r5": "4325", b"mov #4, r5": "4225",
    b"mov #8, r5": "4235", b"mov #-1, r5": "4335", b"mov #3, r5": "4035 0003",
    b"mov.b #-1, r6": "4376", b"mov @r1+, r0": "4130", b"mov r3,r5": "4305",
    b"mov #255,r5": "4035 00ff", b"mov.b #-2,r5": "4075 fffe", b"mov.b #200,r5": "4075 00c8",
    b"mov #-2,r5": "4035 fffe", b"mov #-0,r5": "4305",
    # by llvm-mc: one operand
    b"rrc r5": "1005", b"rrc.b @r6": "1066", b"rra 4(r7)": "1117 0004",
    b"rra.b &0x0200": "1152 0200", b"swpb r8": "1088", b"sxt r9": "1189", b"sxt @r10+": "11ba",
    b"push r11": "120b", b"push #8": "1232", b"call #0xa000": "12b0 a000", b"call r5": "1285",
    b"call @r6": "12a6", b"call 2(r7)": "1297 0002", b"reti": "1300", b"push r3": "1203",
    # by llvm-mc: emulated instructions
    b"adc r5": "6305", b"adc.b 2(r6)": "63c6 0002", b"br #0xc000": "4030 c000", b"br r7": "4700",
    b"clr r5": "4305", b"clr.b &0x0202": "43c2 0202", b"clrc": "c312", b"clrn": "c222",
    b"clrz": "c322", b"dadc r6": "a306", b"dec r7": "8317", b"decd 2(r8)": "83a8 0002",
    b"dec.b r7": "8357", b"dint": "c232", b"eint": "d232", b"inc r9": "5319", b"incd.b r9": "5369",
    b"inv r10": "e33a", b"inv.b 1(r11)": "e3fb 0001", b"nop": "4303", b"pop r12": "413c",
    b"ret": "4130", b"rla r5": "5505", b"rla.b r5": "5545", b"rla 4(r6)": "5696 0004 0004",
    b"rlc r7": "6707", b"rlc.b &0x0200": "62d2 0200 0200", b"sbc r8": "7308", b"setc": "d312",
    b"setn": "d222", b"setz": "d322", b"tst r9": "9309", b"tst.b 1(r10)": "93ca 0001",
    b"br &0xFFFE": "4210 fffe",
    # by llvm-mc: values and text
    b".word 1,-1,0xFFFF": "0001 ffff ffff", b".byte 1,-1,255,-128": "ff01 80ff",
    b'.ascii "AB;C" ; a comment': "4241 433b", b".equ five,5\nmov #five,r5": "4035 0005",
    b".equ low,-5\n.word low,-low": "fffb 0005", b"back: nop\njmp back": "4303 3ffe",
    # by hand: the extension word is the address less that of the extension word itself
    b"mov 0xC010,r5": "4015 000e", b"mov r5,0xC010": "4580 000e",
    b"mov 0xC010,0xC010": "4090 000e 000c", b"rla 0xC010": "5090 000e 000c",
    b"rlc.b 0xC010": "60d0 000e 000c", b"mov #5,0xC010": "40b0 0005 000c",
    b"mov #1,0xC010": "4390 000e", b"br 0xC010": "4010 000e", b"call 0xC010": "1290 000e",
    # by hand: a lone number is a constant of the generators, a sum or a name is not
    b"mov #65535,r5": "4335", b"mov.b #255,r5": "4375", b"mov #1+0,r5": "4035 0001",
    b"mov #$,r5": "4035 c000", b"br #4": "4220", b"call #8": "12b2",
    # by hand: what another assembler lacks
    b"push.b #5": "1270 0005", b"push @r12+": "123c", b"push &0x0200": "1212 0200",
    b"pop.b r12": "417c", b"br @r5+": "4530",
    # by hand: half the way from the word after the jump, in ten bits
    b"jmp 0xC000": "3fff", b"jmp $+2": "3c00", b"jne $+4": "2001", b"jnz $+6": "2002",
    b"jeq $-2": "27fe", b"jz $": "27ff", b"jnc $+10": "2804", b"jlo $+2": "2800", b"jc $+2": "2c00",
    b"jhs $+4": "2c01", b"jn $+18": "3008", b"jge $+20": "3409", b"jl $-1022": "3a00",
    b"jmp $+1024": "3dff",
    # by hand: names and places
    b"x: .word x,$+2": "c000 c002", b"start: mov #start,r5": "4035 c000",
    b"mov #late,r5\nlate: nop": "4035 c004 4303",
    b".equ a,1\n.equ b,a+a\n.org 0xC000+b-2\n.word b": "0002", b'.ascii ""\nnop': "4303",
}

# The same bytes from a place on as other tools write them.
CODE = bytes.fromhex("b24041007600ff3f") + bytes(range(33))
IMAGES = {
    # GNU objcopy 2.40: records of 16 bytes and a start address of type 03
    b":10C00000B24041007600FF3F00010203040506072D\r\n"
    b":10C0100008090A0B0C0D0E0F101112131415161728\r\n"
    b":09C0200018191A1B1C1D1E1F201B\r\n"
    b":040000031000800069\r\n"
    b":00000001FF\r\n": 0xC000,
    # llvm-objcopy 14.0.6: a start address of type 05
    b":10C00000B24041007600FF3F00010203040506072D\n"
    b":10C0100008090A0B0C0D0E0F101112131415161728\n"
    b":09C0200018191A1B1C1D1E1F201B\n"
    b":04000005001234565B\n"
    b":00000001FF\n": 0xC000,
    # srec_cat 1.64: a base of type 02 and records of 32 bytes
    b":020000020000FC\n"
    b":20020000B24041007600FF3F000102030405060708090A0B0C0D0E0F1011121314151617E3\n"
    b":0902200018191A1B1C1D1E1F20D9\n"
    b":040000030000C00039\n"
    b":00000001FF\n": 0x0200,
    # srec_cat 1.64: a base of type 04
    b":020000040000fa\n"
    b":20020000b24041007600ff3f000102030405060708090a0b0c0d0e0f1011121314151617e3\n"
    b":0902200018191a1b1c1d1e1f20d9\n"
    b":040000050000c00037\n"
    b":00000001ff": 0x0200,
}

# The base 0C00 times 16, then 0 again; the byte that was placed last counts; a record of no bytes.
PLACED = (b":020000020C00F0\n:020000001122CB\n:020000040000FA\n:01C00100330B\n\n:0000000000\n"
          b":00000001FF\n")

# Three bytes across a multiple of 16, and one more behind a gap.
TORN = b".org 0x020F\n.byte 0xAB,1,2\n.org 0x0213\n.byte 3\n"
TORN_IMAGE = b":01020F00AB43\n:020210000102E9\n:0102130003E7\n:00000001FF\n"
