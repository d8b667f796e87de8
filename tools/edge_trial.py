"""Trials of plays at the edges of the rules: a statement, a transfer of the DMA engine beside a
loop, a transfer beside a region that runs and is attested, and vectors that name no code.
"""
import attestation_model
from readers import READERS
from sample_files import read

# A statement at C000, and what is printed before the end line.
STATEMENTS = {
    "mov.b &0x6A3F,r5": "reset 3 K1\n",
    "mov.b &0x6A40,r5": "",
    "mov.b &0x69FF,r5": "",
    "mov r5,&0x6A00": "",
    "mov &0x43FF,r5": "reset 3 K2\n",
    "mov.b &0x4400,r5": "",
    "mov.b r5,&0x3FFF": "",
    "mov.b r5,&0x4000": "reset 3 K2\n",
    "br #0x43FE": "reset 3 K2\n",
    "br #0xA002": "reset 3 A2\n",
    "br #0xBFFE": "reset 3 A2\n",
    "br #0x9FFE": "reset 3 I1\n",
    ".word 0x1301": "reset 1 I1\nreset 3 I1\n",
    ".word 0x0FFF": "reset 1 I1\nreset 3 I1\n",
}

# A script beside a loop at C000, and what is printed before the end line.
TRANSFERS = {
    "at 1 dma 69FE 0300 1\n": "",
    "at 1 dma 0300 6A3E 1\n": "reset 2 K4\n",
    "at 1 dma 43FE 0300 1\n": "reset 1 K5\n",
    "at 1 dma 4400 0300 1\n": "",
    "at 1 dma 0300 6A00 1\nat 2 reset\n": "reset 2 X0\n",
}

# Calls the code at C020, of two words, and then the ROM; the bounds of that code and of an output
# at 0300; the counter 1 and its token for a challenge of zeros, by HMAC of Python's library.
CALLER = b""":10C00000314000229243700032D2B01220C0B012F0
:04C0100000A0FF3F4E\n:06C03000564274000013EB\n:02FFF40030C01B
:04C020000343304165
:0802600020C022C000030003CE
:24026C0001000000BDC9E628DF034A9622B990040EBFEF509CC4202A94FBEFDB4C665EC913CAA5E955
:02FFFE0000C041
:00000001FF
"""
BOUNDS = 0xC020, 0xC022, 0x0300, 0x0300

# The region's code and its output, as they are and with the first word cleared.
REGION, CLEARED = bytes.fromhex("034330410000"), bytes.fromhex("000030410000")

# A script beside that region, both flags in the report, and what the call reads.
ATTESTED = (
    ("at 11 dma 0400 0402 1", 0, REGION),
    ("at 13 dma 0400 0402 1", 1, REGION),
    ("at 13 dma 0400 C020 1", 0, CLEARED),
    ("at 13 dma 0400 0240 1", 0, REGION),
    ("at 13 dma 0240 0400 1", 1, REGION),
    ("at 13 dma 0302 0400 1", 1, REGION),
    ("at 13 dma 02FE 0400 1", 1, REGION),
    ("at 13 dma C024 0400 1", 1, REGION),
    ("at 13 dma C022 0400 1", 0, REGION),
    ("at 9 dma C020 0400 1", 0, REGION),
    ("at 8 dma C020 0400 1", 1, REGION),
)

# An image, the number of steps, and what is printed: one without a byte, and one whose reset vector
# is a place of the ROM.
VECTORS = (
    (b":00000001FF\n", "4", b"reset 1 I1\nreset 3 I1\nend 4 pc 0000 exec 0\n"),
    (b":02FFFE0002A05F\n:00000001FF\n", "2", b"reset 1 A2\nend 2 pc 0000 exec 0\n"),
)


def plays(trial, files, text, image, script, steps):
    trial.prints(text, "play", files.add("edge.hex", image),
                 files.add("edge.script", script.encode()), files.key, steps)


def assembled(trial, files, statement):
    """The image of a statement at C000 and a loop behind it."""
    source = f"{statement}\nstop: jmp stop\n.org 0xFFFE\n.word 0xC000\n"
    return trial.expect(0, "", "asm", files.add("edge.asm", source.encode()))


def attested_text(key, flag, region):
    """What is printed where both flags are this one and the call reads these bytes."""
    metadata = attestation_model.request(key, bytes(32), BOUNDS, 1, (flag, flag))
    mac = attestation_model.mac(key, metadata, region)
    return (f"report2 144 exec {flag} aux {flag} count 1 chal {bytes(32).hex()} er c020 c022 "
            f"or 0300 0300 data 0000 mac {mac.hex()}\nend 146 pc c012 exec {flag}\n").encode()


def edges(trial, files):
    for statement, resets in STATEMENTS.items():
        text = f"{resets}end 4 pc {'0000' if resets else 'c004'} exec 0\n".encode()
        plays(trial, files, text, assembled(trial, files, statement), "", "4")
    loop = assembled(trial, files, "")
    for script, resets in TRANSFERS.items():
        plays(trial, files, f"{resets}end 4 pc c000 exec 0\n".encode(), loop, script, "4")
    key = READERS["key"](read(files.key))
    for script, flag, region in ATTESTED:
        plays(trial, files, attested_text(key, flag, region), CALLER, script, "146")
    for image, steps, text in VECTORS:
        plays(trial, files, text, image, "", steps)
