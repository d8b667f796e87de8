"""Trials of the kit in firmware/, where clang is."""
import contextlib
import os
import re
import shutil
import tempfile

from readers import READERS, first_fault
from reference import TIMER_VECTOR, VECTORS
from sample_files import EXAMPLES, read, write
from trial import ROOT

# The folders of examples/pump with the sources of their images.
PUMPS = {"stop": ("dose.c", "guard.s", "pump.c"), "forged": ("dose.c", "forger.s", "no_guard.s"),
         "guarded": ("dose.c", "forger.s", "guard.s")}
# Firmware that sends a byte of a header, and some that attests without an output.
LETTER = b'#include "letter.h"\nint main(void) { *(volatile char *)0x76 = LETTER; for (;;) { } }\n'
NO_OUTPUT = b"""
#include "foldgneiss.h"
REGION void region(void) { }
int main(void) { attest((const uint8_t *)0x0300); for (;;) { } }
"""
# Firmware whose program has so many bytes more; and with an output of three bytes.
FILLED = b'.section .text.filled, "ax"\n.globl main\nmain: jmp main\n.space %d\n'
THREE_BYTES = b"""
#include "foldgneiss.h"
OUTPUT static uint8_t three[3];
REGION void region(void) { three[2] = 7; }
int main(void) { attest((const uint8_t *)0x0300); for (;;) { } }
"""
# Firmware of sources in sub-folders, some named as folders of the build; it sends their sum.
NESTED = {
    "main.c": b"int a(void), b(void), c(void);\n"
              b"int main(void) { for (;;) { *(volatile char *)0x76 = a() + b() + c(); } }\n",
    "src/a.S": b'#include "a.h"\n.section .text.a, "ax"\n.globl a\na: mov #ONE, r12\n ret\n',
    "src/a.h": b"#define ONE 1\n",
    "kit/crt0.s": b'.section .text.b, "ax"\n.globl b\nb: mov #2, r12\n ret\n',
    "foldgneiss/c.c": b"int c(void) { return 60; }\n",
    ".hidden/d.c": b"#error\n", ".#main.c": b"#error\n", "tests.cpp": b"#error\n"}
# Names that a shell or a tool takes for something else.
ODD_NAMES = ("a b.c", "a&b.c", "a;touch made.c", "$(touch made).c", "`touch made`.c", "a'b.c",
             'a"b.c', "-x.c", "@a.c", "a,b.c", "a\nb.c")
# A memcpy of the firmware's own, in the region or outside, and firmware that attests with it.
OWN_COPY = b"""#include <string.h>
#include "foldgneiss.h"
%s void *memcpy(void *to, const void *from, size_t count) {
    for (char *next = to; count--; next++, from = (const char *)from + 1) {
        *next = *(const char *)from;
    }
    return to;
}
"""
COPIES = b"""#include <string.h>
#include "foldgneiss.h"
OUTPUT static struct { uint16_t of[20]; } given;
FOREIGN static uint16_t taken[20];
REGION void region(void) { memcpy((void *)&given, taken, P1IN); }
int main(void) { attest((const uint8_t *)0x1000); for (;;) { } }
"""
MAKE = ["make", "-s", "-f", f"{ROOT}/firmware/Makefile", "-C"]
TOOLS = ("make", "clang", "ld.lld", "llvm-dwarfdump", "llvm-nm", "llvm-objcopy", "llvm-objdump",
         "llvm-readelf", "llvm-symbolizer")
PLACE = "LDFLAGS=--defsym=er_place=0xD000"
SCRIPT_AND_KEY = [f"{EXAMPLES}/letter-a/{name}.txt" for name in ("script", "key")]


def is_compiler_there(trial):
    """Whether the kit's tools are there; a line says so where they are not."""
    missing = [tool for tool in TOOLS if not shutil.which(tool)]
    if missing:
        print(f"{trial.name}: firmware in C is not tried: no {', '.join(missing)}")
    return not missing


def made_image(trial, folder, *options):
    """The image that the Makefile makes in this folder, or None."""
    trial.expect(0, "", folder, *options, command=MAKE)
    return image_in(folder)


def image_in(folder):
    name = f"{folder}/image.hex"
    return read(name) if os.path.exists(name) else None


@contextlib.contextmanager
def folder_of(sources):
    """A folder with these sources."""
    with tempfile.TemporaryDirectory() as folder:
        for name, text in sources.items():
            os.makedirs(os.path.dirname(f"{folder}/{name}"), exist_ok=True)
            write(f"{folder}/{name}", text)
        yield folder


def image_of(trial, sources, *options):
    """The image that the Makefile makes of these sources, or None."""
    with folder_of(sources) as folder:
        return made_image(trial, folder, *options)


# The words of the script that README's lines use, over a program and a folder.
FOLDGNEISS = '''
foldgneiss() { if [ "$1" = folder ]; then echo "$folder"; else "$program" "$@"; fi; }
program=$0 folder=$1
'''


def readme_lines():
    """README's lines that build and run firmware, and what it quotes of what they print."""
    text = read(f"{ROOT}/README.md").decode()
    code, told = text[text.index('    cp "$(foldgneiss folder)'):].split("\n\n", 2)[:2]
    return code, re.findall(r"`((?:report2|verdict) .*?)(?: \.\.)?`", told)


def lacks_quoted(printed, quoted):
    return [line for line in quoted if not re.search(f"^{re.escape(line)}\\b", printed, re.M)]


def readme(trial, files):
    """README's lines that build and run firmware print what it quotes of a report and a verdict
    behind them.
    """
    code, quoted = readme_lines()
    os.mkdir(files["mine"])
    printed = trial.expect(0, "", f"{FOLDGNEISS}{code}", trial.program, ROOT, cwd=files["mine"],
                           command=["bash", "-e", "-c"]).decode()
    lines = len(code.split("\n"))
    if lines != 10 or not quoted or lacks_quoted(printed, quoted):
        trial.fault(f"README's {lines} lines: printed {printed}")


def examples(trial):
    """Each example's image is what the kit makes of its sources."""
    def try_image(name, folder, names, *options):
        sources = {source: read(f"{EXAMPLES}/{folder}/{source}") for source in names}
        if image_of(trial, sources, *options) != read(f"{EXAMPLES}/{name}/image.hex"):
            trial.fault(f"{name}: not the image that firmware/Makefile makes")
    for name in ("letter-a", "echo", "attest", "sensor", "meter"):
        try_image(name, name, [source for source in os.listdir(f"{EXAMPLES}/{name}")
                               if source.endswith((".c", ".h", ".s"))])
    try_image("tour", "tour", ["tour.c"], "CFLAGS=-O0")
    source = read(f"{EXAMPLES}/sensor/sensor.c").replace(b"= P1IN", b"= P1IN * 10")
    if image_of(trial, {"sensor.c": source}) != read(f"{EXAMPLES}/fleet/next/image.hex"):
        trial.fault("fleet/next: not the image that firmware/Makefile makes")
    for name, names in PUMPS.items():
        try_image(f"pump/{name}", "pump", names, PLACE)


def stale_images(trial):
    """An image is made anew where sources, a header or the flags are others than before."""
    with tempfile.TemporaryDirectory() as folder:
        for name in PUMPS["guarded"]:
            shutil.copy(f"{EXAMPLES}/pump/{name}", folder)
        images = [made_image(trial, folder, PLACE)]
        os.remove(f"{folder}/guard.s")
        shutil.copy(f"{EXAMPLES}/pump/no_guard.s", folder)
        made_image(trial, folder)
        images.append(made_image(trial, folder, PLACE))
        if images != [read(f"{EXAMPLES}/pump/{name}/image.hex") for name in ("guarded", "forged")]:
            trial.fault("firmware: an image of other sources or flags than the last")
    with folder_of({"main.c": LETTER, "runtime.c": b""}) as folder:  # (the kit has the latter too)
        images = []
        for letter in (b"A", b"B"):
            write(f"{folder}/letter.h", b"#define LETTER '%s'\n" % letter)
            images.append(made_image(trial, folder))
        if None in images or images[0] == images[1]:
            trial.fault("firmware: an image of another header than the last")


def regions(trial):
    """There are no regions of firmware without a region, or without an output."""
    for text in (b"int main(void) { for (;;) { } }\n", NO_OUTPUT):
        with folder_of({"main.c": text}) as folder:
            answer = trial.call(folder, "regions.txt", command=MAKE)
            if (answer.status != 2 or not answer.line.startswith("no regions.txt: ")
                    or os.path.exists(f"{folder}/regions.txt")):
                trial.fault(f"firmware: regions.txt of {text}: {answer}")


def full_program(trial):
    """A program up to the vectors is linked, and a longer one is not."""
    def end_of(image):
        return max(place for place in READERS["image"](image) if place < TIMER_VECTOR) + 1
    image = image_of(trial, {"filled.s": FILLED % 0})
    space = VECTORS.first - end_of(image) if image else 0
    image = image_of(trial, {"filled.s": FILLED % space})
    if not space or image is None or end_of(image) != VECTORS.first:
        return trial.fault("firmware: a program up to the vectors is not linked")
    with folder_of({"filled.s": FILLED % (space + 2)}) as folder:
        answer = trial.call(folder, command=MAKE)
        if answer.status != 2 or os.path.exists(f"{folder}/image.hex"):
            trial.fault(f"firmware: a program into the vectors: {answer}")


def odd_output(trial):
    """The region of an output of three bytes has four, whose words a policy takes."""
    with folder_of({"main.c": THREE_BYTES}) as folder:
        trial.expect(0, "", folder, "regions.txt", command=MAKE)
        policy = b"version 2\n" + read(f"{folder}/regions.txt") + b"flag exec\n"
    bounds = [] if first_fault("policy", policy) else READERS["policy"](policy).bounds
    if not bounds or bounds[3] != bounds[2] + 2:
        trial.fault(f"firmware: an output of three bytes: {policy}")


def paths(trial):
    """The kit and the sources may lie in folders with a blank in their names, and a Makefile may
    include the kit's.
    """
    with tempfile.TemporaryDirectory(prefix="fold gneiss ") as folder:
        for part in ("firmware", "python"):
            shutil.copytree(f"{ROOT}/{part}", f"{folder}/the kit's/{part}")
        own = f"{folder}/my own"
        os.mkdir(own)
        write(f"{own}/Makefile", f"include {ROOT}/firmware/Makefile\n".encode())
        shutil.copy(f"{EXAMPLES}/sensor/sensor.c", own)
        for words in (("-f", f"{folder}/the kit's/firmware/Makefile"), ()):
            trial.expect(0, "", "-s", "-C", own, *words, command=["make"])
            if image_in(own) != read(f"{EXAMPLES}/sensor/image.hex"):
                trial.fault("firmware: another image where paths have blanks")


def odd_names(trial):
    """A source with a name that a shell or a tool would not take as it stands is refused."""
    for name in ODD_NAMES:
        with folder_of({"main.c": LETTER, name: b""}) as folder:
            answer = trial.call(folder, command=MAKE)
            if answer.status != 2 or not answer.line.startswith(
                    f"error: {name!r}: a source's name has letters, digits and any of _ . + - "
                    "alone: rename it\n") or os.path.exists(f"{folder}/made"):
                trial.fault(f"firmware: a source {name!r}: {answer}")


def nested_sources(trial):
    """Sources of sub-folders and .S are taken, or those that are named, and no others; C++ is named
    as what is not.
    """
    with folder_of(NESTED) as folder:
        trial.expect(0, "'tests.cpp' is not taken: the kit has no C++", folder, command=MAKE)
        sent = trial.expect(0, "", "play", f"{folder}/image.hex", *SCRIPT_AND_KEY, "60")
        if b" 3f\n" not in sent:
            trial.fault(f"firmware: sources in sub-folders: {sent}")
        image = image_in(folder)
        write(f"{folder}/src/a.h", b"#define ONE 7\n")
        if made_image(trial, folder, "SOURCES=main.c src/a.S kit/crt0.s foldgneiss/c.c") == image:
            trial.fault("firmware: an image of another header than the last of a .S")
        for source, text in (("../x.c", "a source has to lie in this folder, or in one below it"),
                             ("tests.cpp", "a source ends in .c, .s or .S")):
            answer = trial.call(folder, f"SOURCES={source}", command=MAKE)
            if answer.status != 2 or f"error: {source!r}: {text}\n" not in answer.line:
                trial.fault(f"firmware: SOURCES={source}: {answer}")


def mixed_builds(trial):
    """Image and regions are of one build: both are made anew, or the goal is refused with the flags
    of both.
    """
    with folder_of({"main.c": THREE_BYTES}) as folder:
        image = made_image(trial, folder, "image.hex", "regions.txt")
        told = read(f"{folder}/regions.txt")
        for goal in ("regions.txt", "stack"):
            answer = trial.call(folder, goal, "CFLAGS=-O0", command=MAKE)
            others = "LDFLAGS= STACK=128 REGION_STACK=128"
            lines = (f"error: image.hex was made with CFLAGS=-Os -Wall -Wextra {others},\n"
                     f"and this call has CFLAGS=-O0 {others}: give the same, "
                     "or make image.hex by it too\n")
            if (answer.status != 2 or not answer.line.startswith(lines)
                    or (image_in(folder), read(f"{folder}/regions.txt")) != (image, told)):
                trial.fault(f"firmware: {goal} of other flags: {answer}")
        made_image(trial, folder, "CFLAGS=-O0")
        other = read(f"{folder}/regions.txt")
        os.remove(f"{folder}/regions.txt")
        trial.expect(0, "", folder, "regions.txt", "CFLAGS=-O0", command=MAKE)
        if other == told or other != read(f"{folder}/regions.txt"):
            trial.fault("firmware: regions.txt is not of the image beside it")
        image = image_in(folder)
        write(f"{folder}/main.c", THREE_BYTES.replace(b"= 7", b"= P1IN + 7"))
        trial.expect(0, "", folder, "regions.txt", "CFLAGS=-O0", command=MAKE)
        if image_in(folder) == image:
            trial.fault("firmware: image.hex is not of the sources that regions.txt is of")
        write(f"{folder}/main.c", b"int main(void) { for (;;) { } }\n")
        made_image(trial, folder, "CFLAGS=-O0")
        if os.path.exists(f"{folder}/regions.txt"):
            trial.fault("firmware: regions.txt stays without a region")


def clean_and_help(trial):
    """`make clean` leaves the sources alone, before a build too; `make help` names each goal."""
    with folder_of({"main.c": LETTER, "letter.h": b"#define LETTER 'A'\n"}) as folder:
        image = made_image(trial, folder)
        if made_image(trial, folder, "clean", "image.hex") != image or not image:
            trial.fault("firmware: no image after make clean")
        trial.expect(0, "", folder, "clean", command=MAKE)
        if sorted(os.listdir(folder)) != ["letter.h", "main.c"]:
            trial.fault(f"firmware: make clean left {os.listdir(folder)}")
        told = trial.expect(0, "", folder, "help", command=MAKE).decode()
        if sorted(os.listdir(folder)) != ["letter.h", "main.c"]:
            trial.fault(f"firmware: make help made {os.listdir(folder)}")
    goals = re.search(r"^USES = (.*)$", read(f"{ROOT}/firmware/Makefile").decode(), re.M)[1]
    for goal in ("clean", "help", *goals.split()):
        if not re.search(rf"/Makefile {goal} +\S", told):
            trial.fault(f"firmware: make help does not name {goal}")


def linked_otherwise(trial):
    """A multiplier that is not there, and a region that cannot lie where it should, are named; a
    function of the kit's name takes its place, and the region's has to be REGION.
    """
    with folder_of({"main.c": COPIES, "copy.c": OWN_COPY % b"REGION"}) as folder:
        image = made_image(trial, folder)
        places = trial.expect(0, "", f"{folder}/build/firmware.elf", command=["llvm-nm"]).decode()
        if not image or len(re.findall(" memcpy$", places, re.M)) != 1:
            trial.fault(f"firmware: a memcpy of its own: {places}")
        write(f"{folder}/copy.c", OWN_COPY % b"")
        for option, text in (
                ("", "main.c:5: error: the region calls or names the function 'memcpy', which "
                     "lies outside it: say REGION before its definition"),
                ("LDFLAGS=--defsym=er_place=0x1000",
                 "ld.lld: error: er_place is no place for code: an even one from 0xC000 on"),
                ("LDFLAGS=--defsym=er_place=0xD001",
                 "ld.lld: error: er_place is no place for code: an even one from 0xC000 on")):
            answer = trial.call(folder, *filter(None, [option]), command=MAKE)
            if answer.status != 2 or text not in answer.line.split("\n"):
                trial.fault(f"firmware: {option or 'memcpy'}: {answer}")
        os.remove(f"{folder}/copy.c")
        write(f"{folder}/main.c", b"int main(void) { for (;;) { *(volatile int *)0x76 *= 3; } }\n")
        answer = trial.call(folder, "CFLAGS=-O0 -mhwmult=16bit", command=MAKE)
        text = "error: the device has no multiplier: leave -mhwmult, and -mmcu, out of CFLAGS"
        if answer.status != 2 or text not in answer.line.split("\n"):
            trial.fault(f"firmware: -mhwmult: {answer}")


def firmware(trial, files):
    if is_compiler_there(trial):
        examples(trial)
        stale_images(trial)
        odd_names(trial)
        nested_sources(trial)
        mixed_builds(trial)
        clean_and_help(trial)
        linked_otherwise(trial)
        regions(trial)
        full_program(trial)
        odd_output(trial)
        readme(trial, files)
        paths(trial)
