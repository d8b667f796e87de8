"""Programs that lie, around the region of examples/pump: no report may tell what was not so."""
import re

from file_readers import image_text
from readers import READERS
from reference import SERIAL_VECTOR
from sample_files import EXAMPLES, read, sent_bytes

# Values of TCMP: those that interrupt the region's first steps, and those up to one that a dose is
# shorter than. Between them the region clears its stack, with interrupts off. Where interrupts are
# allowed before the region it is entered only at those from LEAST on: a shorter period leaves no
# step between two.
LEAST, FIRST_STEPS, PERIODS = 4, range(1, 30), range(400, 540)
DOSE = 6
AT_ONCE = 20  # so many handlers are tried in one play
# Enters the region once for each period and each of these handlers of the timer, with the output of
# a whole dose already written. Where AUX is 1 behind it, sends A and what the report would tell,
# else N, and E at the end.
SOURCE = """
        .equ caller, {or_min} - 2       ; from where the way out takes the stack pointer
        .equ period, 0x1000
        .equ handler, 0x1002
        .equ begun, 0x1004
        mov #0x2200, sp
        tst &begun                      ; the guard, or a reset, leaves the region to here
        jne told
        mov #{er_min}, &0x0260
        mov #{er_max}, &0x0262
        mov #{or_min}, &0x0264
        mov #{or_max}, &0x0266
        mov #{first}, &handler
        inc &begun
anew:   mov #{least}, &period
try:    mov &handler, &0xFFF2
        mov #{dose}, &{or_min}
        clr &{or_min}+2
        mov #{dose}, r12                ; what the region keeps in registers: a loop that is
        clr r13                         ; entered in its midst ends
        mov #0x21FE, &caller
        {wait}
        mov &period, &0x0164
        mov #3, &0x0160                 ; the timer runs, with its interrupt
        {allow}
        call #{er_min}
told:   dint
        clr &0x0160
        mov #0x2200, sp
        tst &0x026A                     ; AUX
        jeq none
        mov.b #0x41, &0x76
        mov.b &{or_min}, &0x76
        mov.b &{or_min}+2, &0x76
        jmp next
none:   mov.b #0x4E, &0x76
next:   inc &period
        cmp #{most}, &period
        jne try
        incd &handler
        cmp #{past}, &handler
        jne anew
        mov.b #0x45, &0x76
end:    jmp end
        .org 0xFFF4
        .word {serial}
        .org 0xFFFE
        .word 0xC000
"""
WAIT = "bit #1, &0x72\n        jz $-4"  # for a byte, that waits then


class Region:
    """The region of an image of examples/pump, with its output and its handler."""

    def __init__(self, name):
        folder = f"{EXAMPLES}/pump/{name}"
        self.bounds = READERS["policy"](read(f"{folder}/policy.txt")).bounds
        image = READERS["image"](read(f"{folder}/image.hex"))
        first, last = self.bounds[:2]
        self.code = {place: image[place] for place in range(first, last + 2)}
        self.handler = image[SERIAL_VECTOR] + 256 * image[SERIAL_VECTOR + 1]

    def leave(self):
        """The way out behind the first call, that of `region`."""
        return next(place + 4 for place in sorted(self.code)[::2]
                    if (self.code[place], self.code[place + 1]) == (0xB0, 0x12))


def attempts(trial, files, region, handlers, allow="eint", waits=False):
    """Of each attempt how many strokes were sent, and where AUX is 1 the two words of the output.
    With `waits` a byte stands at the serial port before each.
    """
    told = []
    for first in range(0, len(handlers), AT_ONCE):
        for periods in (FIRST_STEPS[LEAST - 1:] if allow else FIRST_STEPS, PERIODS):
            told += played(trial, files, region, handlers[first:first + AT_ONCE], periods, allow,
                           waits)
    return told


def played(trial, files, region, handlers, periods, allow, waits):
    """The attempts with these handlers and periods, in one play."""
    names = dict(zip(("er_min", "er_max", "or_min", "or_max"), region.bounds))
    source = SOURCE.format(**names, first=handlers[0], past=handlers[-1] + 2, dose=DOSE,
                           least=periods.start, most=periods.stop, serial=region.handler,
                           allow=allow, wait=WAIT if waits else "")
    image = trial.expect(0, "", "asm", files.add("pump.asm", source.encode()))
    image = files.add("pump.hex", image_text({**READERS["image"](image), **region.code}))
    events = [b"at 0 p1 %04x\n" % DOSE]
    events += [b"at %d rx 00\n" % (1000 * number) for number in range(1, 540)] * waits
    text = trial.expect(0, "", "play", image, files.add("pump.txt", b"".join(events)), files.key,
                        str(1200 * (len(handlers) * len(periods) + 100)))
    sent = sent_bytes(text)
    told = [(strokes.count(b"S"), tuple(told) if told else None) for strokes, told
            in re.findall(rb"([^AN]*)(?:A(..)|N)", sent, re.S)]
    if not sent.endswith(b"E") or len(told) != len(handlers) * len(periods):
        trial.fault(f"pump: {len(told)} attempts of {len(handlers)} handlers, {periods}")
    return told


def is_lie(attempt):
    """No stop came, so that only a whole dose is true."""
    strokes, told = attempt
    return told is not None and (told != (DOSE, 0) or strokes != DOSE)


def pump(trial, files):
    """With its guard the region tells the truth whatever the timer does, at each of these periods
    and with each place of the region as the timer's handler, and where a byte waited before;
    without the guard it does not.
    """
    region = Region("guarded")
    own, every = [region.handler], [*range(region.bounds[0], region.bounds[1] + 2, 2)]
    tries = {"with its own handler": (own, "eint", False), "where a byte waited": (own, "", True),
             "with every handler": (every, "eint", False), "without interrupts": (every, "", False)}
    for name, (handlers, allow, waits) in tries.items():
        told = attempts(trial, files, region, handlers, allow, waits)
        lies = [*filter(is_lie, told)]
        if lies or (DOSE, (DOSE, 0)) not in told:
            trial.fault(f"pump, {name}: {len(lies)} of {len(told)} are lies: {lies[:1]}")
    region = Region("forged")
    if not any(map(is_lie, attempts(trial, files, region, [region.leave()]))):
        trial.fault("pump, without its guard: no lie is found")
