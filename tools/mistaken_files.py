"""What a file or a number is that was given in the place of another, and the line that mends it."""
import re
import shlex
from typing import NamedTuple

from assembler_model import MNEMONICS
from reference import FILES

# The forms of an image by how they begin.
OTHER_IMAGES = {
    "an ELF file": rb"\x7fELF",
    "a file of S-records": rb"S[0-9][0-9A-Fa-f]{2}",
    "a TI-TXT file": rb"@[0-9A-Fa-f]{4}\s",
}
MARKS = (b"\xef\xbb\xbf", b"\xff\xfe", b"\xfe\xff")  # byte order marks
START = 1 << 16  # of a file, in which a line tells of what kind it is
# What is said here and in the page.
SAID = {
    "marked": "it begins with a byte order mark, which no file here has",
    "utf16": "it is UTF-16, and UTF-8 is wanted",
    "hex": "it is {}, and Intel HEX is wanted",
    "misplaced": "{} is {}, in the place of {}",
    "key_in_bytes": "it is a key in bytes, and the digits of them are wanted",
    "bytes": "it is no text and has {} bytes, and a key has 64",
    "digits": "it has {} digits{}, and a key has 128, of 64 bytes",
    "beside": "it has {}; the digits alone stand in one line",
    "version": "with `flag` and `ask` a policy is of version 2, and begins so",
}


class Form(NamedTuple):
    """What a file of a kind is called, and how a line of it begins."""
    name: str
    line: bytes


def keywords(*words):
    return rb"[ \t]*(?:%s)(?:\s|$)" % b"|".join(word.encode() for word in words)


# A label, and a directive, an instruction, or a short word before an operand. Digits and what may
# stand between them are none, also where they spell an instruction: they may be those of a key.
STATEMENT = rb"""(?xi) (?! [0-9a-fx:,\s]* $) \s* (?: [a-z_]\w* : \s* )?
    (?: $ | \.[a-z]+ (?: \s | $) | (?: %s) (?: \.[bw])? (?: \s | $)
      | [a-z]{1,6} (?: \.[bw])? \s+ (?: [#&@] | r[0-9]))""" % "|".join(sorted(MNEMONICS)).encode()
FORMS = {
    "key": Form("a key", rb"[0-9A-Fa-f]{128}\s*$"),
    "keys": Form("a file of keys", keywords("device")),
    "image": Form("an image", rb":[0-9A-Fa-f]{8}"),
    "script": Form("a script", keywords("at")),
    "policy": Form("a policy", keywords("version", "er", "or", "flag", "ask", "chal")),
    "reports": Form("a file of reports", keywords(
        "report2?", "tx", "reset", "denied", "verdict", "collision", "end")),
    "trace": Form("a trace", rb"t[ \t]+[0-9]"),
    "states": Form("a text of states", keywords("state2?")),
    "moved": Form("a text of moves", keywords("moved")),
    "source": Form("a source", STATEMENT),
}


OTHERS_IN = {"states": ("moved",)}  # what lines may stand in a file of a kind, of another one


def begins_as(kind, line):
    """Whether this may be a line of a file of this kind, by how it begins."""
    return any(re.match(FORMS[form].line, line) for form in (kind, *OTHERS_IN.get(kind, ())))


def kind_of(text):
    """The kind of a file, by the first line that says something; None where it is not known."""
    lines = (line for line in text.split(b"\n") if line.strip() and line.lstrip()[:1] not in b"#;")
    line = next(lines, b"")
    return next((kind for kind in FORMS if re.match(FORMS[kind].line, line)), None)


def in_digits(word):
    """A number that is written with an exponent, with marks or in hexadecimal digits, as a decimal;
    of any other word nothing.
    """
    match = re.fullmatch("([0-9]+)[eE]([0-9]{1,2})", word)
    if match:
        return match[1] + "0" * int(match[2])
    if re.fullmatch("0[xX][0-9A-Fa-f]+", word):
        return str(int(word, 16))
    return re.sub("[_,' .]", "", word) if re.fullmatch("[0-9]{1,3}([_,' .][0-9]{3})+", word) else ""


def about_mark(name, text):
    """What a text is that begins with a byte order mark."""
    mark = next((mark for mark in MARKS if text.startswith(mark)), b"")
    if not mark:
        return None
    if len(mark) == 3:
        return f"{SAID['marked']}: sed -i '1s/^\\xef\\xbb\\xbf//' {name}"
    return f"{SAID['utf16']}: iconv -f UTF-16 -t UTF-8 {name} > utf8.txt"


def about_image(name, text):
    """What an image is that is no Intel HEX."""
    for form, beginning in OTHER_IMAGES.items():
        if re.match(beginning, text):
            elf = name if form == "an ELF file" else "firmware.elf"
            source = "" if form == "an ELF file" else ", of the ELF file that it was made of"
            return (f"{SAID['hex'].format(form)}{source}: "
                    f"llvm-objcopy -O ihex {elf} image.hex")
    return None


def about_key(name, text):
    """Why a file is no key that has the bytes of one, or how many it has."""
    if len(text) > FILES["key"].limit:
        return None
    if re.search(rb"[^\t-\r -~]", text):
        if len(text) != 64:
            return SAID["bytes"].format(len(text))
        return f"{SAID['key_in_bytes']}: (umask 077; xxd -p -c 64 {name} > new.txt)"
    digits = re.sub(rb"^0[xX]|[\s:]", b"", text.strip())
    if not digits or re.search(rb"[^0-9A-Fa-f]", digits):
        return None
    if len(digits) != 128:
        count = f", {len(digits) // 2} bytes" if len(digits) % 2 == 0 else ""
        return SAID["digits"].format(len(digits), count)
    lines = len(text.splitlines())
    faults = {"a 0x in front": re.match(rb"\s*0[xX]", text),
              f"{lines} lines": lines > 1, "a blank": re.search(rb"[ \t]", text),
              "a colon": b":" in text}
    found = " and ".join(fault for fault, holds in faults.items() if holds)
    return (f"{SAID['beside'].format(found)}: (umask 077; sed 's/^0[xX]//' {name} | "
            "tr -d ': \\t\\r\\n' > new.txt)")


def about_policy(name, text):
    """Why the lines of a policy of version 2 are none."""
    firsts = [line.split()[0] for line in text.split(b"\n") if line.strip()]
    if b"version" in firsts or not {b"flag", b"ask"} & {*firsts}:
        return None
    return f"{SAID['version']}: sed -i '1i version 2' {name}"


ABOUT = {"image": about_image, "key": about_key, "policy": about_policy}


def hints(kind, name, text):
    """Lines on what a file with a fault is, if it is something that is known."""
    name = shlex.quote(name)
    found = about_mark(name, text) or kind in ABOUT and ABOUT[kind](name, text)
    return [found] if found else []
