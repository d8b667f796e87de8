"""Trials of the regions that the kit in firmware/ makes, and of what it refuses, where clang is."""
import re
import tempfile

import attestation_model
from file_readers import image_text, read_image, read_reports
from firmware_trial import MAKE, PLACE, folder_of, is_compiler_there, made_image
from reference import VECTORS
from runtime_trial import LEVELS
from sample_files import read, write

HEADER = b'#include "foldgneiss.h"\n'
# A region with a switch, a table, a text, products, quotients and a copied struct.
OWN = rb"""struct samples { uint16_t of[12]; };
OUTPUT static uint16_t measurement;
static const uint16_t curve[] = {300, 313, 329, 350, 377, 410, 451, 502, 561};
REGION static uint16_t scaled(uint16_t kind, uint16_t value) {
    switch (kind) {
    case 0: return value;
    case 1: return value * curve[value & 7];
    case 2: return value / curve[value & 7];
    case 3: STXD = 'C'; return value << (value & 7);
    case 4: STXD = 'D'; return value * 7 + 1;
    case 5: STXD = 'E'; return curve[value % 8];
    default: return "of an odd length"[value & 7];
    }
}
REGION static void keep(struct samples *to, const struct samples *from) { *to = *from; }
REGION void region(void) {
    struct samples first, second;
    disable_interrupts();
    for (int i = 0; i < 12; i++) {
        first.of[i] = P1IN + i;
    }
    keep(&second, &first);
    uint64_t sum = 0;
    for (int i = 0; i < 12; i++) {
        sum += (uint64_t)scaled(i % 7, second.of[i]) * second.of[11 - i];
    }
    measurement = sum / 3;
}
"""
# A program around it that attests each request.
MAIN = rb"""static uint8_t request[REQUEST_BYTES];
int main(void) {
    for (;;) {
        for (uint8_t *next = request; next < request + sizeof request; next++) {
            while (!(SSTAT & 1)) {
            }
            *next = SRXD;
        }
        STXD = attest(request);
    }
}
"""
CLOSED = HEADER + OWN + MAIN
# A region and its output in assembler, with a constant.
ASSEMBLER = b"""
        .section .rodata.values, "a"
values: .byte   3, 4, 5
        .section .er, "ax"
        .globl  region
region: mov     &0x0020, r12
        and     #1, r12
        mov.b   values(r12), &measured
        ret
        .section .or, "aw", @nobits
measured:
        .space  2
"""
# A function of another program, with a text, a table, variables and functions of the kit.
OTHER = rb"""static const char *volatile said = "other text";
static long seconds = 60;
static const uint16_t rates[] = {5, 6, 8, 11, 17};
static uint16_t other(uint16_t by) {
    return said[by & 7] / by * (int)++seconds + rates[by % 5];
}
"""
# A chain of calls with what each function has of the stack: 10 bytes and a call; a push and a call;
# and two pushes. And a guard, with a handler that has a push and a call.
CHAIN = b"""
        .section .er, "ax"
        .globl  region
region: sub     #10, r1
        ; eint
        call    #outer
        dint
        mov     #7, &measured
        add     #10, r1
        ret
outer:  push    r10
        call    #inner
        pop     r10
        ret
inner:  push    r10
        push    r9
        pop     r9
        pop     r10
        ret
        .section .or, "aw", @nobits
measured:
        .space  2
"""
GUARDED = b"""
        .section .er.guard, "ax"
        .globl  er_min
er_min: br      #er_entry
        .section .er, "ax"
on_byte:
        push    r12
        call    #quiet
        pop     r12
        reti
quiet:  ret
        .section .timer_vector, "a"
        .word   on_byte
        .section .serial_vector, "a"
        .word   on_byte
"""
GUARD = b"stack_guard: 5afe at 0384\n"
STEPS = 100_000
BOUND_LEVELS = ("-O0", "-Os", "-Os -flto")
# A function that nests, and fills 16 bytes of stack and more each time.
NESTS = """%s uint16_t nests(uint16_t times) {
    volatile uint16_t of[8];
    for (int place = 0; place < 8; place++) {
        of[place] = times;
    }
    return times ? nests(times - 1) + of[7] : 0;
}"""
NEEDS = (NESTS % "REGION static").replace("{", "{ NEEDS_STACK(40);", 1)

# Firmware with a region that is whole; what makes it another stands in {}.
FIRMWARE = """#include "foldgneiss.h"
{before}
OUTPUT static uint16_t measurement{first};
{region} {{
    measurement = P1IN{value};
}}
{behind}
int main(void) {{
    {main}
    for (;;) {{
    }}
}}
"""
WHOLE = {"before": "", "first": "", "region": "REGION void region(void)", "value": "", "behind": "",
         "main": "attest((const uint8_t *)0x0300);"}
OUTSIDE = "say REGION before its definition"
UNNAMED = ("make it a local variable of a function, or OUTPUT if it is a result, or say FOREIGN "
           "before its definition if the region may believe whatever stands there")
HANDLER = "INTERRUPT(SERIAL) void on_byte(void) { %s }"
# What is wrong with a firmware, and what the build says of it.
WRONG = {
    "function": (
        {"before": "__attribute__((noinline)) static uint16_t twice(void) { return P1IN; }",
         "value": " + twice()"},
        "main.c:5: error: the region calls or names the function 'twice', which lies outside it: "
        f"{OUTSIDE}"),
    "pointers": (
        {"before": "static uint16_t twice(void) { return P1IN; } "
                   "static uint16_t (*const table[])(void) = {twice, twice};",
         "value": " + table[P1IN]()"},
        "main.c:2: error: the region calls or names the function 'twice', which lies outside it: "
        f"{OUTSIDE}"),
    "own section": (
        {"before": '__attribute__((section(".er.mine"), noinline)) '
                   "static uint16_t twice(void) { return P1IN; }", "value": " + twice()"},
        "main.c:5: error: the region calls or names the function 'twice', which lies outside it: "
        f"{OUTSIDE}"),
    "variable": (
        {"before": "volatile uint16_t scale = 3;", "value": " * scale"},
        f"main.c:5: error: the region refers to 'scale', which lies outside it: {UNNAMED}"),
    "static variable": (
        {"before": "REGION uint16_t times(void) { static uint16_t runs; return ++runs; }",
         "value": " + times()"},
        f"main.c:2: error: the region refers to 'times.runs', which lies outside it: {UNNAMED}"),
    "table behind a variable": (
        {"before": 'static const char *volatile text = "text";', "value": " + *text"},
        f"main.c:5: error: the region refers to 'text', which lies outside it: {UNNAMED}"),
    "place of the linker": (
        {"before": "extern volatile uint16_t stack_guard;", "value": " + stack_guard"},
        f"main.c:5: error: the region refers to 'stack_guard', which lies outside it: {UNNAMED}"),
    "table with the word": (
        {"before": "REGION const uint16_t table[] = {1, 2};", "region": "void other(void)",
         "main": ""},
        "main.c:2: error: the variable 'table' has the word REGION, which is for functions: "
        "a static const table needs no word; say OUTPUT or FOREIGN before another one"),
    "number": (
        {"value": " + FOLDGNEISS_WORD(0xC000)"},
        "main.c:5: error: the region refers to the place c000, which lies outside it: "
        "define a variable, with FOREIGN before its definition"),
    "array at a number": (
        {"value": " + MAC[P1IN]"},
        "main.c:5: error: the region refers to the place 0200, which lies outside it: "
        "define a variable, with FOREIGN before its definition"),
    "number by a name": (
        {"before": 'extern volatile uint16_t far; __asm__(".globl far\\nfar = 0xc000");',
         "value": " + far"},
        "main.c:5: error: the region refers to the place c000, which lies outside it: "
        "define a variable, with FOREIGN before its definition"),
    "attest in a region": (
        {"value": " + attest((const uint8_t *)0x0300)"},
        "main.c:5: error: the region calls attest, which runs the region: call it from main"),
    "interrupts without a guard": (
        {"value": "; enable_interrupts(); disable_interrupts()"},
        "main.c:5: error: the region allows interrupts, and has no guard, which looks at the "
        "vectors: put one into .er.guard, as examples/pump does (docs/monitors.md says why)"),
    "recursion": (
        {"before": NESTS % "REGION static", "value": " + nests(2)"},
        "main.c:2: error: the region's stack has no bound: nests calls nests: make it a loop, or "
        "begin nests with NEEDS_STACK(bytes), by which the region is left where they are not free"),
    "too few bytes": (
        {"before": (NESTS % "REGION static").replace("{", "{ NEEDS_STACK(2);", 1),
         "value": " + nests(2)"},
        "main.c:7: error: NEEDS_STACK of 'nests' names too few bytes: at least 16 more"),
    "output": (
        {"first": " = 5"},
        "main.c:3: error: the output 'measurement' has an initializer, and nothing lays it there: "
        "have the region write it"),
    "output with an address": (
        {"before": "static uint8_t held;", "first": " = (uint16_t)&held"},
        "main.c:3: error: the output 'measurement' has an initializer, and nothing lays it there: "
        "have the region write it"),
    "vector": (
        {"before": "__attribute__((interrupt(5))) void on_five(void) { STXD = 5; }"},
        "main.c:2: error: the interrupt 5 of 'on_five' has no vector: "
        "INTERRUPT(TIMER) and INTERRUPT(SERIAL) have"),
    "region of a handler": (
        {"before": "__attribute__((noinline)) void answer(void) { region(); }\n"
                   + HANDLER % "answer();"},
        "main.c:2: error: the interrupt handler 'on_byte' leads to 'region': "
        "have it set a variable, and main call attest where that is set"),
    "attest of a handler": (
        {"behind": HANDLER % "attest((const uint8_t *)0x0300);"},
        "main.c:7: error: the interrupt handler 'on_byte' leads to 'attest': "
        "have it set a variable, and main call attest where that is set"),
    "region as a handler": (
        {"region": "INTERRUPT(SERIAL) REGION void region(void)"},
        "main.c:4: error: 'region' is called by an interrupt, and attest alone runs the region: "
        "take another function for the handler"),
    "handlers": (
        {"before": HANDLER % "STXD = 1;",
         "behind": "INTERRUPT(SERIAL) void on_other(void) { STXD = 2; }"},
        "ld.lld: error: INTERRUPT(SERIAL) has two handlers: leave one"),
    "timer's handlers": (
        {"before": "INTERRUPT(TIMER) void on_time(void) { STXD = 1; }",
         "behind": "INTERRUPT(TIMER) void on_other(void) { STXD = 2; }"},
        "ld.lld: error: INTERRUPT(TIMER) has two handlers: leave one"),
    "stack": (
        {"before": "static volatile uint8_t log[7806];", "main": "log[P1IN] = 1;"},
        "ld.lld: error: too little stack: fewer or smaller variables, "
        "or a smaller STACK (128 if unset)"),
    "floating point": (
        {"value": " * 1.5f"},
        "error: floating point is not in the kit: count in integers (firmware/README.md)"),
    "no region": (
        {"region": "void other(void)"},
        "error: attest runs a function of the firmware: write REGION void region(void) { .. }"),
}
# Changes that leave the region whole.
RIGHT = (
    {}, {"value": " + P1IN % 7 * (uint16_t)COUNTER + TOKEN[P1IN]"},
    {"before": "FOREIGN uint8_t held[1000]; "
               "REGION uint8_t at(const uint8_t *of) { return of[P1IN - 300] + of[300]; }",
     "value": " + at(held) + held[P1IN + 700]"},
    {"before": "REGION static uint16_t twice(void) { return P1IN + P1IN; }", "value": "+ twice()"},
    {"before": "FOREIGN volatile uint16_t scale = 3;", "value": " * scale"},
    {"before": 'static const char *const words[] = {"one", "two"};', "value": " + words[P1IN][1]"},
    {"before": NEEDS, "value": " + nests(2)"},
    {"before": HANDLER % "STXD = SRXD;", "behind": "REGION void other(void) { region(); }"},
    {"before": "static volatile uint8_t log[7804];", "main": "log[P1IN] = 1;"},
)


def attestable(trial, sources, *options):
    """The image that the kit makes of these sources, and the lines of its regions, both empty where
    it makes none.
    """
    with folder_of(sources) as folder:
        image = made_image(trial, folder, "image.hex", "regions.txt", *options)
        return (image, read(f"{folder}/regions.txt")) if image else (b":00000001FF\n", b"")


def bounds_of(regions):
    return [int(word, 16) for word in re.findall(rb"[0-9a-f]{4}", regions)] or [0, 0, 0, 0]


class Device:
    """A device with the image that the kit makes of a source, and of others beside it, a request,
    two bytes behind it, and the policy for it.
    """

    def __init__(self, trial, files, source, *options, **others):
        self.trial, self.files = trial, files
        image, regions = attestable(trial, {"main.c": source, **others}, *options)
        self.memory, self.image = read_image(image), files.add("attested.hex", image)
        challenge = bytes(range(32))
        token = attestation_model.token(bytes.fromhex(read(files.key).decode()), challenge, 1)
        self.sent = f"at 1000 rx {challenge.hex()}01000000\nat 2500 rx {token.hex()}4142\n"
        self.policy = files.add("attested.policy", b"version 2\n%sflag exec\nask %s 1\n" % (
            regions, challenge.hex().encode()))
        self.bounds = bounds_of(regions)

    def played(self, command, image, pins=0x0017):
        script = self.files.add("attested.script", f"at 0 p1 {pins:04x}\n{self.sent}".encode())
        return self.trial.expect(0, "", command, image, script, self.files.key, str(STEPS))

    def data(self, text):
        """The output of the first report in this text, None where there is none."""
        reports = read_reports(text)
        return reports[0].output if reports else None

    def accepts(self, text):
        printed = self.files.add("attested.printed", text)
        return self.trial.call("verify", self.image, self.policy, self.files.key,
                               printed).output == b"verdict 1 accept\n"

    def unattested(self):
        """The bytes of the image outside of both regions that a run reads."""
        er_min, er_max, or_min, or_max = self.bounds
        places = set()
        for letter, word in re.findall(rb"^t \d+ \w+ \w+ ([frb])([0-9a-f]{4})",
                                       self.played("trace", self.image), re.M):
            place = int(word, 16)
            places |= {place} if letter == b"b" else {place, place + 1}
        return [place for place in sorted(places) if place in self.memory
                and not er_min <= place <= er_max + 1 and not or_min <= place <= or_max + 1]

    def lies(self, places):
        """Those of these bytes that, when they are others, leave a report with other data that is
        accepted.
        """
        data, lies = self.data(self.played("play", self.image)), set()
        for place in places:
            for change in (0x01, 0xFF):
                memory = {**self.memory, place: self.memory[place] ^ change}
                text = self.played("play", self.files.add("changed.hex", image_text(memory)))
                if self.data(text) not in (None, data) and self.accepts(text):
                    lies.add(place)
        return lies


def same_region(trial):
    """A region in a file of its own is the same in each program."""
    codes = set()
    for text in (MAIN, OTHER + MAIN.replace(b"STXD = a", b"STXD = other(P1IN) + a")):
        image, regions = attestable(
            trial, {"curve.c": HEADER + OWN, "main.c": HEADER + text}, PLACE)
        er_min, er_max, *_ = bounds_of(regions)
        memory = read_image(image)
        codes.add(bytes(memory.get(place, 0) for place in range(er_min, er_max + 2)))
    if len(codes) != 1:
        trial.fault("firmware: a region is another in another program")


def accepted(trial, files):
    """At each level of optimization a region with all that clang lays elsewhere is accepted, at
    some of them in `bounds`, and so is one that ends with an odd number of bytes, and one in
    assembler.
    """
    def is_accepted(source, *options, **others):
        device = Device(trial, files, source, *options, **others)
        return device.accepts(device.played("play", device.image))
    for level in set(LEVELS) - set(BOUND_LEVELS):
        if not is_accepted(CLOSED, f"CFLAGS={level} -Wall -Wextra"):
            trial.fault(f"firmware: {level}: a closed region is not accepted")
    text = (b'OUTPUT static uint16_t measurement;\n'
            b'REGION void region(void) { measurement = "text"[P1IN & 3]; }\n')
    if not is_accepted(HEADER + text + MAIN):
        trial.fault("firmware: a region with a text is not accepted")
    if not is_accepted(HEADER + MAIN, **{"region.s": ASSEMBLER}):
        trial.fault("firmware: a region in assembler is not accepted")


def cleared(trial, files):
    """What a region does not write of its output is 0."""
    unwritten = CLOSED.replace(b"measurement = sum / 3", b"if (!P1IN) { measurement = sum; }")
    device = Device(trial, files, unwritten.replace(
        b"STXD = attest", b"measurement = 0x1234; STXD = attest"))
    if device.data(device.played("play", device.image)) != b"\0\0":
        trial.fault("firmware: an output that the region does not write is not 0")


def attested(trial, files):
    """No byte outside of a region can change what it says; those of a FOREIGN table can."""
    device = Device(trial, files, CLOSED)
    lies = device.lies(device.unattested())
    if lies:
        trial.fault(f"firmware: other data are accepted where these differ: {lies}")
    foreign = CLOSED.replace(b"static const uint16_t curve", b"FOREIGN static uint16_t curve")
    device = Device(trial, files, foreign)
    er_max = device.bounds[1]
    if not device.lies(place for place in device.unattested() if er_max < place < VECTORS.first):
        trial.fault("firmware: no change of a FOREIGN table was accepted")


def built(trial, folder, changes, *options):
    """What the Makefile answers on the firmware with these changes."""
    write(f"{folder}/main.c", FIRMWARE.format(**{**WHOLE, **changes}).encode())
    return trial.call(folder, *options, command=MAKE)


def refusals(trial):
    with tempfile.TemporaryDirectory() as folder:
        for changes in RIGHT:
            answer = built(trial, folder, changes)
            if answer.ending != (0, ""):
                trial.fault(f"firmware: {changes}: {answer}")
        for name, (changes, text) in WRONG.items():
            answer = built(trial, folder, changes)
            if answer.status != 2 or text not in answer.line.split("\n"):
                trial.fault(f"firmware: {name}: {answer}, not '{text}'")


def checked(trial, files, changes):
    """What `make check` answers on the firmware with these changes."""
    with tempfile.TemporaryDirectory() as folder:
        return built(trial, folder, changes, "check", f"FOLDGNEISS={trial.program}",
                     f"SCRIPT={files.script}", f"KEY={files.key}", f"STEPS={STEPS}")


def stacks(trial, files):
    """The build's check tells a stack that met the data, and no other."""
    nests = NESTS % "static __attribute__((noinline))"
    met = "error: stack_guard: the stack met the data: "
    for changes, words in (({}, None), ({"before": nests, "main": "STXD = nests(430);"}, None),
                           ({"before": nests, "main": "STXD = nests(442);"}, met)):
        answer = checked(trial, files, changes)
        is_told = answer.status == 2 and answer.line.startswith(words) if words else (
            answer.ending == (0, ""))
        if not is_told or not changes and not answer.output.startswith(GUARD):
            trial.fault(f"firmware: check of {changes}: {answer}")


def needs(trial, sources, count, told):
    """A region needs so many bytes of stack, and where it has two less the build says so, and of
    which functions they are.
    """
    with folder_of(sources) as folder:
        for size, ending in ((count, (0, "")), (count - 2, (2, told))):
            answer = trial.call(folder, f"REGION_STACK={size}", command=MAKE)
            line = answer.line.split("\n")[0]
            if (answer.status, line) != ending:
                trial.fault(f"firmware: with {size} bytes of stack: {answer}, not {ending}")


def below_stack(trace):
    """Whether what lies below the region's stack, and over the metadata, is accessed."""
    return re.search(rb"^t .* [rwb]02[9a-f][0-9a-f]", trace, re.M)


def bounds(trial, files):
    """The bound of a region's stack counts frames, pushes, calls and a handler, and holds in a run
    with no byte more.
    """
    main = {"main.c": HEADER + MAIN}
    needs(trial, {"chain.s": CHAIN, **main}, 22,
          "chain.s:4: error: the region's stack has 20 bytes, and needs 22: er_min 2, "
          "region 12, outer 4, inner 4: smaller arrays, fewer nested calls, or REGION_STACK=22")
    needs(trial, {"chain.s": CHAIN.replace(b"; eint", b"eint"), "guard.s": GUARDED, **main}, 30,
          "chain.s:4: error: the region's stack has 28 bytes, and needs 30: er_min 2, region 12, "
          "outer 4, inner 4, an interrupt 4, on_byte 4: smaller arrays, fewer nested "
          "calls, or REGION_STACK=30")
    for level in BOUND_LEVELS:
        options = f"CFLAGS={level} -Wall -Wextra"
        with folder_of({"main.c": CLOSED}) as folder:
            answer = trial.call(folder, options, "REGION_STACK=2", command=MAKE)
        size = re.search(r"or (REGION_STACK=\d+)$", answer.line, re.M)
        device = Device(trial, files, CLOSED, options, size[1] if size else "")
        below = below_stack(device.played("trace", device.image))
        if not size or below or not device.accepts(device.played("play", device.image)):
            trial.fault(f"firmware: {level}: {size}: the region's stack grows out of its place")


def nested(trial, files):
    """A region with NEEDS_STACK is accepted where its stack suffices in a run; where it does not it
    is left before that, and there is no report.
    """
    source = (HEADER + b"OUTPUT static uint16_t measurement;\n" + NEEDS.encode()
              + b"\nREGION void region(void) { measurement = nests(P1IN); }\n" + MAIN)
    for level in ("-O0", "-Os"):
        device = Device(trial, files, source, f"CFLAGS={level}")
        for pins, is_accepted in ((2, True), (40, False)):
            text = device.played("play", device.image, pins)
            if (device.accepts(text), device.data(text) is not None) != (is_accepted,) * 2:
                trial.fault(f"firmware: {level}: a region that nests {pins} times: {text}")
            if below_stack(device.played("trace", device.image, pins)):
                trial.fault(f"firmware: {level}: a region that nests {pins} times leaves its stack")


def region(trial, files):
    if is_compiler_there(trial):
        refusals(trial)
        same_region(trial)
        for group in (accepted, cleared, attested, stacks, bounds, nested):
            group(trial, files)
