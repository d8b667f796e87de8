"""Programs that lie around a region of the kit in firmware/, where clang is: each leaves what it
likes in registers, RAM, timer and program. A report tells of it only where the region reads what it
may believe: the region is the same for an honest program, or it is refused.
"""
import glob
import os
import re
import shutil

from firmware_trial import MAKE, PLACE, folder_of, image_of, is_compiler_there
from region_trial import HEADER, MAIN, Device, attestable
from sample_files import EXAMPLES, read
from trial import ROOT

LEVELS = ("-O0", "-Os", "-O2", "-O3", "-Os -flto")
# Takes a request, with another end of the output where the highest pin is 1, and a byte more,
# leaves 5A5A in all registers, in RAM and at FF00, has the timer count, and runs the region.
LIAR = b"""
        .section .start, "ax"
        .globl  start
start:  mov     #0x2200, r1
        mov     #0x0240, r13
        mov     #0x0260, r14
        call    #take
        mov     #er_min, &0x0260
        mov     #er_max, &0x0262
        mov     #or_min, &0x0264
        mov     #or_max, &0x0266
        tst     &0x0020
        jge     counter
        decd    &0x0266
counter:
        mov     #0x026c, r13
        mov     #0x0290, r14
        call    #take
        mov     &0x0074, r12
        mov     #0x0300, r12
fill:   mov     #0x5a5a, 0(r12)
        incd    r12
        cmp     #0x2000, r12
        jne     fill
        mov     #0x5a5a, &0xff00
        mov     #0xffff, &0x0164
        mov     #1, &0x0160
        .irp    register, r4, r5, r6, r7, r8, r9, r10, r11, r12, r13, r14, r15
        mov     #0x5a5a, \\register
        .endr
        setc
        call    #er_min
        call    #0xa000
ended:  jmp     ended

take:   bit     #1, &0x0072
        jz      take
        mov.b   &0x0074, 0(r13)
        inc     r13
        cmp     r14, r13
        jne     take
        ret
"""
# A region with a way for each number of its upper pins. The first ones read what they did not set:
# a list that is filled in part, a variable that is set under a condition, the padding of a struct,
# and an array of 600 bytes, behind a chain of calls. The others read what a region may: a FOREIGN
# variable, received bytes, a register, and metadata.
WAYS = HEADER + b"""
struct sample {
    uint8_t kind;
    uint16_t value;
};
OUTPUT static uint16_t results[300];
FOREIGN static volatile uint16_t limit;
REGION static void keep(const uint16_t *samples, uint16_t count) {
    for (uint16_t place = 0; place < count; place++) {
        results[place] = samples[place];
    }
}
REGION static void in_part(void) {
    uint16_t samples[8];
    for (uint16_t place = 0; place < (P1IN & 3); place++) {
        samples[place] = P1IN;
    }
    for (uint16_t place = 0; place < 8; place++) {
        results[place] = samples[place];
    }
}
REGION static void set_limit(uint16_t *value) {
    if (P1IN & 0x0100) {
        *value = 7;
    }
}
REGION static void conditional(void) {
    uint16_t value;
    set_limit(&value);
    results[0] = value;
}
REGION static void send(const struct sample *sample) {
    for (uint16_t place = 0; place < sizeof *sample; place++) {
        results[place] = ((const uint8_t *)sample)[place];
    }
}
REGION static void padded(void) {
    struct sample sample;
    sample.kind = P1IN;
    sample.value = P1IN;
    send(&sample);
}
REGION static void deep(void) {
    uint16_t samples[300];
    samples[P1IN & 1] = 1;
    keep(samples, 300);
}
REGION static uint16_t received(void) {
    while (!(SSTAT & 1)) {
    }
    return SRXD;
}
REGION void region(void) {
    switch (P1IN >> 12) {
    case 0: in_part(); break;
    case 1: conditional(); break;
    case 2: padded(); break;
    case 3: deep(); break;
    case 4: results[0] = limit; break;
    case 5: results[0] = received(); break;
    case 6: results[0] = TCNT; break;
    default: results[0] = FOLDGNEISS_WORD(0x0266);
    }
}
"""
# For the pins of each way, whether the liar has other data, and whether its report is accepted.
SAME, BELIEVED, REFUSED = (False, True), (True, True), (True, False)
LIES = {0x0017: SAME, 0x1017: SAME, 0x2017: SAME, 0x3017: SAME, 0x4017: BELIEVED,
        0x5017: BELIEVED, 0x6017: BELIEVED, 0x8017: REFUSED}
# What the build says of the stack of that region, unless it is given.
DEEP = (r"error: the region's stack has 128 bytes, and needs (\d+): "
        r"(er_min \d+, region \d+, deep 6\d\d(?:, keep \d+)?): .*, or (REGION_STACK=\1)$")
# One in assembler, which reads the registers of its caller, and each word of its stack.
UNSET_REGISTERS = b"""
        .section .er, "ax"
        .globl  region
region: mov     r2, &measured
        .irp    register, 4, 5, 6, 7, 8, 9, 10, 11, 12, 13, 14, 15
        mov     r\\register, &measured + 2 * (\\register - 3)
        .endr
        sub     #126, r1
        mov     r1, r12
        mov     #measured + 26, r13
next:   mov     @r12+, r14
        mov     r14, 0(r13)
        incd    r13
        cmp     #measured + 152, r13
        jne     next
        add     #126, r1
        ret
        .section .or, "aw", @nobits
measured:
        .space  152
"""
# A region that is whole, with tables of structs, of functions and of texts, structs as results, an
# argument on the stack, numbers of 32 and 64 bits, a switch, and a handler with its guard.
WHOLE = b"#include <string.h>\n" + HEADER + b"""struct pair { uint16_t low, high; };
struct sensor { const uint16_t *curve; uint16_t count; uint16_t (*read)(uint16_t); };
OUTPUT static struct { struct pair range; uint32_t sums[3]; uint8_t name[6]; uint16_t stops; } told;
FOREIGN static volatile uint16_t stops;
REGION static uint16_t plain(uint16_t place) { return P1IN + place; }
REGION static uint16_t scaled(uint16_t place) { return P1IN * place; }
static const uint16_t low[] = {300, 313, 329}, high[] = {410, 451, 502, 561};
static const struct sensor sensors[] = {{low, 3, plain}, {high, 4, scaled}};
static const char *const names[] = {"lower", "upper"};
REGION static struct pair range_of(const uint16_t *values, uint16_t count) {
    struct pair range = {0xFFFF, 0};
    for (const uint16_t *value = values; value < values + count; value++) {
        range.low = *value < range.low ? *value : range.low;
        range.high = *value > range.high ? *value : range.high;
    }
    return range;
}
REGION static uint32_t weighed(uint16_t a, uint16_t b, uint16_t c, uint16_t d, const uint16_t *of) {
    return (uint32_t)a * of[0] + (uint32_t)b * of[1] + (uint64_t)c * of[2] / (d | 1);
}
INTERRUPT(SERIAL) REGION void on_byte(void) {
    (void)SRXD;
    stops++;
}
REGION void region(void) {
    uint16_t values[8];
    stops = 0;
    SCTL = 1;
    enable_interrupts();
    for (int i = 0; i < 8; i++) {
        const struct sensor *sensor = &sensors[i & 1];
        values[i] = sensor->read(i) + sensor->curve[i % sensor->count];
    }
    disable_interrupts();
    told.range = range_of(values, 8);
    for (int i = 0; i < 3; i++) {
        told.sums[i] = weighed(values[0], values[1], values[2], values[3], values + i);
    }
    switch (P1IN & 7) {
    case 0: told.sums[0] = told.sums[1] << (P1IN & 15); break;
    case 1: told.sums[1] = told.sums[2] >> (P1IN & 15); break;
    case 2: told.sums[2] = (uint64_t)told.sums[0] << (P1IN & 31) >> 16; break;
    case 3: told.sums[0] = told.sums[1] % told.sums[2]; break;
    case 4: told.sums[0] = told.sums[1] * told.sums[2]; break;
    default: told.sums[0] = strlen(names[P1IN & 1]);
    }
    memcpy((uint8_t *)told.name, names[P1IN & 1], sizeof told.name);
    told.stops = stops;
}
"""
GUARD = read(f"{EXAMPLES}/pump/guard.s").replace(b"on_stop", b"on_byte")
# Functions of a region that reach places outside of it, and what is said of them, at any level.
STRAY = HEADER + b"""
typedef const volatile uint16_t *place_t;
typedef uint16_t (*function_t)(void);
OUTPUT static uint16_t results[2];
REGION uint16_t at(place_t place) { return *place; }
REGION uint16_t handed(void) { return at((place_t)0x1000); }
REGION uint16_t at_first(place_t const *places) { return *places[0]; }
REGION uint16_t stored(void) { place_t places[] = {(place_t)0x1002}; return at_first(places); }
static const place_t table[] = {(place_t)0x1004, results};
REGION uint16_t listed(void) { return *table[P1IN & 1]; }
REGION uint16_t indexed(void) { return ((place_t)0x1008)[P1IN & 3]; }
REGION uint16_t kept(void) { place_t volatile place = (place_t)0x100a; return *place; }
REGION place_t far(void) { return (place_t)0x100c; }
REGION uint16_t returned(void) { return *far(); }
REGION uint16_t fifth(int a, int b, int c, int d, place_t place) { return a + b + c + d + *place; }
REGION uint16_t on_stack(void) { return fifth(P1IN, P1IN, P1IN, P1IN, (place_t)0x100e); }
REGION uint16_t named(void) { return *(place_t)0xff00; }
FOREIGN static place_t volatile pointer;
REGION uint16_t foreign(void) { return *pointer; }
REGION uint16_t pins(void) { return *(place_t)P1IN; }
REGION uint16_t moved(void) { volatile uint8_t of[P1IN & 7]; of[0] = 1; return of[P1IN & 1]; }
FOREIGN static function_t volatile function;
REGION uint16_t called(void) { return function(); }
REGION void region(void) {
    results[0] = handed() + stored() + listed() + indexed() + kept() + returned() + on_stack();
    results[1] = named() + foreign() + pins();
    if (P1IN & 1) {
        results[1] += moved();
    }
    if (P1IN & 2) {
        results[1] += called();
    }
}
"""
STRAY_TEXTS = (
    *(f"the region refers to the place {place}, "
      for place in ("1000", "1002", "1004", "100a", "100c", "100e", "ff00")),
    "the region refers to the place 1008, |can't follow the address that 'indexed' reads: ",
    "can't follow the address that 'foreign' reads: ",
    "can't follow the address that 'pins' reads: ",
    "can't follow the stack of 'moved': ", "can't follow a call of 'called', ")
# Ways to such places in assembler, and what is said of each.
STRAY_CODE = (
    ("mov #0x1000, r12\n mov @r12, r13", "the region refers to the place 1000, "),
    ("clr r12\n mov -0x100(r12), r13", "the region refers to the place ff00, "),
    ("mov 0x9002, r13", "'{}' reads at the distance -"),
    ("mov &0x1004, r13", "the region refers to the place 1004, "),
    ("push #0x1006\n pop r12\n mov @r12+, r13", "the region refers to the place 1006, "),
    ("mov #0x1006, r12\n incd r12\n mov r13, 0(r12)", "the region refers to the place 1008, "),
    ("mov #0x0805, r12\n rla r12\n mov @r12, r13", "the region refers to the place 100a, "),
    ("mov #measured + 0x7000, r12\n mov @r12, r13", "'{}' reads at the distance 28672 from "),
    ("mov &measured - 2, r13", "'{}' reads at the distance -2 from the beginning of .or, "),
    ("mov #0x1000, r12\n sub #measured, r12\n add #measured, r12\n mov @r12, r13",
     "can't follow the address that '{}' reads: it is not made of a name and an index: "),
    ("mov #0x0010, r12\n swpb r12\n mov @r12, r13",
     "can't follow the address that '{}' reads: it was computed or read: "),
    ("mov -300(r1), r13", "can't follow the stack: what '{}' reads is no local variable "),
    ("mov 2(r1), r13", "can't follow the stack: what '{}' reads is no local variable "),
    ("mov #region_stack_end, r12\n mov 2(r12), r13", "'{}' names the region's stack: "),
    ("mov &0x0020, r12\n call r12", "can't follow a call of '{}', which may lead anywhere: "),
    ("mov &0x0020, r12\n br r12", "can't follow a jump of '{}', which may lead anywhere: "),
    ("add &0x0020, r1", "can't follow the stack of '{}': a variable moves it: "),
    ("push #measured", "can't follow the return of '{}': "),
    ("jmp after_{}\n .word 0\nafter_{}: .word 0", "can't follow '{}': it leads to where no "))


def assembler_of(bodies):
    """A region in assembler with functions of these bodies, way_0 and so on."""
    calls = "".join(f"bit #1, &0x0020\n jz next_{number}\n call #way_{number}\nnext_{number}:\n"
                    for number in range(len(bodies)))
    ways = "".join(f"way_{number}: {body.replace('{}', f'way_{number}')}\n ret\n"
                   for number, body in enumerate(bodies))
    return f"""
        .section .er, "ax"
        .globl  region
region:
{calls} ret
{ways}
        .section .or, "aw", @nobits
measured:
        .space  2
""".encode()


def toolchains():
    """The tools that are found first, and the newest LLVM beside them, each as an option of make.
    """
    newer = sorted(glob.glob("/usr/lib/llvm-*/bin/clang"), key=lambda path: (len(path), path))
    return [(), *((f"PATH={os.path.dirname(path)}:{os.environ['PATH']}",) for path in newer[-1:])]


def code_of(trial, files, region, level, tools):
    """What clang makes of a region at this level, as text."""
    clang = shutil.which("clang", path="".join(tools)[len("PATH="):] or None)
    code = trial.expect(0, "", "--target=msp430", "-S", "-ffreestanding", "-fno-ident",
                        f"-I{ROOT}/firmware", *level.split(), "-o", "-",
                        files.add("region.c", region), command=[clang])
    return code.replace(b"\t.p2align\t1, 0x0\n", b"\t.p2align\t1\n")  # (as LLVM 16 writes it)


def told_lies(trial, files, name, region, all_pins, *options):
    """For each of these pins whether the report of the liar has other data than that of an honest
    program around the same region, and whether the policy for the honest image accepts it.
    """
    honest = Device(trial, files, HEADER + MAIN, *options, PLACE, **{name: region})
    image, _ = attestable(trial, {name: region, "liar.s": LIAR}, *options, PLACE)
    liar = files.add("liar.hex", image)
    lies = {}
    for pins in all_pins:
        text, lie = (honest.played("play", program, pins) for program in (honest.image, liar))
        if not honest.accepts(text) or not honest.data(lie):
            trial.fault(f"lies: {options}: {name}: {pins:04x}: {text} {lie}")
        lies[pins] = honest.data(lie) != honest.data(text), honest.accepts(lie)
    return lies


def ways(trial, files, *options):
    """What a region does not set is 0 in each program around it, however deep its stack; what it
    believes is another's; and other metadata are refused.
    """
    with folder_of({"region.c": WAYS, "main.c": HEADER + MAIN}) as folder:
        answer = trial.call(folder, *options, command=MAKE)
    deep = re.search(DEEP, answer.line, re.M)
    if not deep or int(deep[1]) != sum(map(int, re.findall(r" (\d+)", deep[2]))):
        return trial.fault(f"lies: {options}: the stack of a deep region: {answer}")
    told = told_lies(trial, files, "region.c", WAYS, LIES, *options, deep[3])
    if told != LIES:
        trial.fault(f"lies: {options}: {told}")


def stray(trial, name, region, texts, *options):
    """Each of these texts is a line of its own, and there are no others."""
    with folder_of({name: region, "main.c": HEADER + MAIN}) as folder:
        answer = trial.call(folder, *options, command=MAKE)
    lines = re.findall(r"^(\S+):\d+: error: (.*)$", answer.line, re.M)
    missing = [text for text in texts
               if not any(re.match(text, line) and path == name for path, line in lines)]
    if answer.status != 2 or missing or len(lines) != len(texts):
        trial.fault(f"lies: {options}: {name}: {len(lines)} lines, not {missing}: {answer.line}")


def whole(trial, files, *options):
    """A region that is whole is linked."""
    image_of(trial, {"region.c": WHOLE, "guard.s": GUARD, "main.c": HEADER + MAIN}, *options,
             "REGION_STACK=300")


def strays(trial, files, *options):
    stray(trial, "region.c", STRAY, STRAY_TEXTS, *options)


def assembler(trial, files, *options):
    """A region in assembler is refused its ways outside, and reads nothing of its caller."""
    texts = [re.escape(text.replace("{}", f"way_{number}"))
             for number, (_, text) in enumerate(STRAY_CODE)]
    stray(trial, "region.s", assembler_of([body for body, _ in STRAY_CODE]), texts, *options)
    told = told_lies(trial, files, "region.s", UNSET_REGISTERS, [0x0017], *options)
    if told != {0x0017: SAME}:
        trial.fault(f"lies: {options}: a region in assembler: {told}")


def lies(trial, files):
    """Each region in C is tried where its code is another than at the levels before."""
    if not is_compiler_there(trial):
        return
    seen = set()
    for tools in toolchains():
        assembler(trial, files, *tools)
        for level in LEVELS:
            for region, tried in ((WHOLE, whole), (STRAY, strays), (WAYS, ways)):
                code = code_of(trial, files, region, level, tools)
                if code not in seen:
                    seen.add(code)
                    tried(trial, files, *tools, f"CFLAGS={level}")
