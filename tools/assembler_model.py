"""The assembler and the listing for tools/fuzz, written from docs/assembler.md and docs/formats.md
and apart from the program's own.

`assemble` gives the image of a source by its places, or raises Fault with the first fault's line
and kind; `listing` gives the printed text of an image.
"""
import re

from file_readers import Fault, is_place, lines_of, within_limit
from reference import FILES, PROGRAM, VECTORS

REGISTERS = {"pc": 0, "sp": 1, "sr": 2, **{f"r{number}": number for number in range(16)}}
TWO = "mov add addc subc sub cmp dadd bit bic bis xor and".split()
ONE = "rrc swpb rra sxt push call".split()
JUMPS = "jne jeq jnc jc jn jge jl jmp".split()
OTHER_JUMPS = {"jnz": "jne", "jz": "jeq", "jlo": "jnc", "jhs": "jc"}
# Emulated instructions: of a destination, of no operand.
ON_DESTINATION = {"adc": ("addc", 0), "clr": ("mov", 0), "dadc": ("dadd", 0), "dec": ("sub", 1),
                  "decd": ("sub", 2), "inc": ("add", 1), "incd": ("add", 2), "inv": ("xor", -1),
                  "sbc": ("subc", 0), "tst": ("cmp", 0)}
ON_STATUS = {"clrc": ("bic", 1), "clrn": ("bic", 4), "clrz": ("bic", 2), "dint": ("bic", 8),
             "eint": ("bis", 8), "setc": ("bis", 1), "setn": ("bis", 4), "setz": ("bis", 2)}
WORDS = {"reti": 0x1300, "ret": 0x4130, "nop": 0x4303}
WITH_BYTE_FORM = {*TWO, "rrc", "rra", "push", *ON_DESTINATION, "pop", "rla", "rlc"}
MNEMONICS = {*TWO, *ONE, *JUMPS, *OTHER_JUMPS, *ON_DESTINATION, *ON_STATUS, *WORDS,
             "pop", "rla", "rlc", "br"}
CONSTANTS = {0: (3, 0), 1: (3, 1), 2: (3, 2), -1: (3, 3), 4: (2, 2), 8: (2, 3)}
TOKEN = re.compile(r"[ \t]*(?:(?P<word>[A-Za-z_.][A-Za-z0-9_.]*)"
                   r"|(?P<number>0x[0-9A-Fa-f]+|[0-9]+)(?![A-Za-z0-9_.])"
                   r"|(?P<mark>[#&()@+,:$-])|\"(?P<text>[ !#-\[\]-~]*)\")")


class Unreadable(Exception):
    pass


def tokens_of(line):
    tokens, at = [], 0
    while line[at:].strip(" \t") and line[at:].lstrip(" \t")[0] != ";":
        match = TOKEN.match(line, at)
        if not match:
            raise Unreadable
        kind = match.lastgroup
        value = match[kind]
        if kind == "number":
            value = int(value, 16 if value.startswith("0x") else 10)
            if value > 65535:
                raise Unreadable
        tokens.append((kind, value))
        at = match.end()
    return tokens


def is_name(token):
    kind, word = token
    return kind == "word" and "." not in word and len(word) <= 64 and word.lower() not in REGISTERS


class Operands:
    """The operands of a statement, read from its tokens."""

    def __init__(self, tokens):
        self.tokens = tokens

    def passes(self, mark):
        if self.tokens[:1] != [("mark", mark)]:
            return False
        del self.tokens[0]
        return True

    def take(self):
        if not self.tokens:
            raise Unreadable
        return self.tokens.pop(0)

    def register(self):
        kind, word = self.take()
        if kind != "word" or word.lower() not in REGISTERS:
            raise Unreadable
        return REGISTERS[word.lower()]

    def expression(self):
        """Terms with their signs."""
        terms, sign = [], -1 if self.passes("-") else 1
        while True:
            token = self.take()
            if not (token[0] == "number" or token == ("mark", "$") or is_name(token)):
                raise Unreadable
            terms.append((sign, token[1]))
            if self.passes("+"):
                sign = 1
            elif self.passes("-"):
                sign = -1
            else:
                return terms

    def operand(self):
        """Its form with its expression and its register."""
        if not self.tokens:
            raise Unreadable
        kind, word = self.tokens[0]
        if kind == "text":
            return self.take()[0], word, None
        if kind == "word" and word.lower() in REGISTERS:
            return "register", None, self.register()
        if self.passes("#"):
            return "immediate", self.expression(), None
        if self.passes("&"):
            return "absolute", self.expression(), None
        if self.passes("@"):
            register = self.register()
            return "increment" if self.passes("+") else "indirect", None, register
        terms = self.expression()
        if not self.passes("("):
            return "symbolic", terms, None
        register = self.register()
        if not self.passes(")"):
            raise Unreadable
        return "indexed", terms, register

    def all(self):
        operands = []
        if self.tokens:
            operands.append(self.operand())
            while self.passes(","):
                operands.append(self.operand())
        if self.tokens:
            raise Unreadable
        return operands


def is_destination(operand):
    form, _, register = operand
    return form in ("register", "absolute", "symbolic") or form == "indexed" and register != 2


def is_source(operand):
    form, _, register = operand
    return (form in ("register", "absolute", "symbolic", "immediate")
            or form in ("indexed", "indirect") and register not in (2, 3)
            or form == "increment" and register not in (0, 2, 3))


def constant(value):
    return "immediate", [(1 if value >= 0 else -1, abs(value))], None


def directive(name, operands):
    """The statement of a directive, or None where an operand has another number or form."""
    forms = [form for form, _, _ in operands]
    if name == "ascii":
        return ("text", operands[0][1].encode()) if forms == ["text"] else None
    if not forms or set(forms) != {"symbolic"}:
        return None
    terms = [terms for _, terms, _ in operands]
    if name in ("word", "byte"):
        return name, terms
    if name == "org":
        return (name, terms[0]) if len(terms) == 1 else None
    is_lone_term = len(terms) == 2 and len(terms[0]) == 1 and terms[0][0][0] == 1
    if not is_lone_term or not isinstance(terms[0][0][1], str) or terms[0][0][1] == "$":
        return None
    return "equ", (terms[0][0][1], terms[1])


def instruction(name, is_byte, operands):
    """The statement of an instruction, likewise."""
    first, second = (operands + [None, None])[:2]
    if name in TWO:
        fits = len(operands) == 2 and is_source(first) and is_destination(second)
        return ("two", (TWO.index(name), is_byte, first, second)) if fits else None
    if name in ON_STATUS or name in WORDS:
        if operands:
            return None
        if name in WORDS:
            return "code", WORDS[name]
        core, value = ON_STATUS[name]
        return "two", (TWO.index(core), False, constant(value), ("register", None, 2))
    if len(operands) != 1:
        return None
    if name in JUMPS:
        return ("jump", (JUMPS.index(name), first[1])) if first[0] == "symbolic" else None
    if name in ("push", "call"):
        return ("one", (ONE.index(name), is_byte, first)) if is_source(first) else None
    if name == "br":
        return ("two", (0, False, first, ("register", None, 0))) if is_source(first) else None
    if name in ONE:
        fits = is_destination(first) or first[0] in ("indirect", "increment") and is_source(first)
        return ("one", (ONE.index(name), is_byte, first)) if fits and first[2] != 3 else None
    if not is_destination(first):
        return None
    if name == "pop":
        return "two", (0, is_byte, ("increment", None, 1), first)
    if name in ("rla", "rlc"):
        is_open = first[0] == "indexed" and first[2] == 3
        return None if is_open else (
            "two", (TWO.index("add" if name == "rla" else "addc"), is_byte, first, first))
    core, value = ON_DESTINATION[name]
    return "two", (TWO.index(core), is_byte, constant(value), first)


def statement_of(number, line):
    """The label and the statement of a line, each None where there is none."""
    label = None
    try:
        tokens = tokens_of(line)
        if tokens[1:2] == [("mark", ":")]:
            if not is_name(tokens[0]):
                raise Unreadable
            label = tokens[0][1]
            del tokens[:2]
        if not tokens:
            return label, None
        kind, word = tokens.pop(0)
        if kind != "word":
            raise Unreadable
        word = word.lower()
        operands = Operands(tokens).all()
        if any(form == "text" for form, _, _ in operands) and word != ".ascii":
            raise Unreadable
    except Unreadable:
        raise Fault(number, "Syntax") from None
    if word.startswith("."):
        if word not in (".org", ".word", ".byte", ".ascii", ".equ"):
            raise Fault(number, "Mnemonic")
        statement = directive(word[1:], operands)
    else:
        name, dot, suffix = word.partition(".")
        if (name not in MNEMONICS or dot and suffix not in ("b", "w")
                or suffix == "b" and name not in WITH_BYTE_FORM):
            raise Fault(number, "Mnemonic")
        statement = instruction(OTHER_JUMPS.get(name, name), suffix == "b", operands)
    if statement is None:
        raise Fault(number, "Operand")
    return label, statement


def constant_form(operand, is_byte):
    """Register and mode of the constant generator, where it makes the operand."""
    form, terms, _ = operand
    if form != "immediate" or len(terms) != 1 or not isinstance(terms[0][1], int):
        return None
    value = terms[0][0] * terms[0][1]
    return CONSTANTS.get(-1 if value == (255 if is_byte else 65535) else value)


def size_of(statement):
    kind, parts = statement
    if kind in ("code", "jump"):
        return 2
    if kind in ("byte", "text"):
        return len(parts)
    if kind == "word":
        return 2 * len(parts)
    is_byte, operands = parts[1], parts[2:]
    with_words = [operand for operand in operands
                  if operand[0] not in ("register", "indirect", "increment")
                  and not constant_form(operand, is_byte)]
    return 2 + 2 * len(with_words)


class Scope:
    """The names that have a value at a line, whose statement begins at a place."""

    def __init__(self, number, names, place):
        self.number, self.names, self.place = number, names, place
        self.is_out_of_range = False

    def value(self, terms, least, most):
        total = 0
        for sign, term in terms:
            if term == "$":
                term = self.place
            elif isinstance(term, str):
                if term not in self.names:
                    raise Fault(self.number, "Undefined")
                term = self.names[term]
            total += sign * term
        self.is_out_of_range |= not least <= total <= most
        return total

    def in_range(self, value):
        """The value, where all so far were in their ranges."""
        if self.is_out_of_range:
            raise Fault(self.number, "Range")
        return value

    def encoding_of(self, operand, is_byte, place):
        """Register, mode and extension words of an operand whose extension word stands at this
        place.
        """
        form, terms, register = operand
        if form in ("register", "indirect", "increment"):
            return register, {"register": 0, "indirect": 2, "increment": 3}[form], []
        if constant_form(operand, is_byte):
            return *constant_form(operand, is_byte), []
        if form == "immediate":
            return 0, 3, [self.value(terms, *((-128, 255) if is_byte else (-32768, 65535)))]
        if form == "absolute":
            return 2, 1, [self.value(terms, 0, 65535)]
        if form == "indexed":
            return register, 1, [self.value(terms, -32768, 65535)]
        return 0, 1, [self.value(terms, 0, 65535) - place]

    def words_of(self, kind, parts):
        if kind == "word":
            return [self.value(terms, -32768, 65535) for terms in parts]
        if kind == "code":
            return [parts]
        if kind == "jump":
            condition, terms = parts
            distance = self.value(terms, 0, 65535) - self.place - 2
            self.is_out_of_range |= distance % 2 == 1 or not -512 <= distance // 2 <= 511
            return [0x2000 | condition << 10 | distance // 2 % 1024]
        opcode, is_byte, first = parts[:3]
        register, mode, words = self.encoding_of(first, is_byte, self.place + 2)
        if kind == "one":
            return [0x1000 | opcode << 7 | is_byte << 6 | mode << 4 | register, *words]
        place = self.place + 2 + 2 * len(words)
        other, is_memory, more = self.encoding_of(parts[3], is_byte, place)
        head = opcode + 4 << 12 | register << 8 | is_memory << 7 | is_byte << 6 | mode << 4 | other
        return [head, *words, *more]

    def bytes_of(self, statement):
        kind, parts = statement
        if kind == "text":
            return parts
        if kind == "byte":
            values = [self.value(terms, -128, 255) for terms in parts]
            return self.in_range(bytes(value % 256 for value in values))
        return self.in_range(b"".join(
            (word % 65536).to_bytes(2, "little") for word in self.words_of(kind, parts)))


def placement_of(statements):
    """The first pass: the names, and the statements that give bytes with their lines and places."""
    names, occupancy, bodies, place = {}, set(), [], PROGRAM.first
    for number, (label, statement) in statements:
        scope = Scope(number, dict(names), place)
        kind, parts = statement or (None, None)
        for name in (label, parts[0] if kind == "equ" else None):
            if name is not None and name in names:
                raise Fault(number, "Twice")
            if name is not None:
                names[name] = place
        if kind == "equ":
            names[parts[0]] = scope.in_range(scope.value(parts[1], -32768, 65535))
        elif kind == "org":
            place = scope.in_range(scope.value(parts, 0, 65535))
        elif kind:
            places = range(place, place + size_of(statement))
            if (places and kind not in ("byte", "text") and place % 2
                    or not all(map(is_place, places))):
                raise Fault(number, "Place")
            if not occupancy.isdisjoint(places):
                raise Fault(number, "Overlap")
            occupancy.update(places)
            bodies.append((number, statement, place))
            place += len(places)
    return names, bodies


def assemble(text):
    """The bytes of the image by their places."""
    lines = lines_of(within_limit(text, FILES["source"].limit))
    for number, line in lines:
        try:
            line.decode()
        except UnicodeDecodeError:
            raise Fault(number, "Utf8") from None
    statements = [(number, statement_of(number, line.decode())) for number, line in lines]
    names, bodies = placement_of(statements)
    image = {}
    for number, statement, place in bodies:
        image.update(enumerate(Scope(number, names, place).bytes_of(statement), place))
    return image


def is_illegal(word):
    if word < 0x1000 or 0x1301 <= word <= 0x1FFF:
        return True
    if word >= 0x1300:
        return False
    opcode, is_byte, mode, register = word >> 7 & 7, word >> 6 & 1, word >> 4 & 3, word & 15
    has_constant = register == 0 and mode == 3 or register == 2 and mode >= 2 or register == 3
    return opcode in (1, 3, 5) and is_byte == 1 or opcode < 4 and has_constant


class Item:
    """The words of an item of a listing."""

    def __init__(self, image, place):
        self.image, self.place = image, place

    def next_word(self):
        if not {self.place, self.place + 1} <= self.image.keys():
            raise Unreadable
        self.place += 2
        return self.image[self.place - 2] | self.image[self.place - 1] << 8

    def memory(self, register):
        word = self.next_word()
        return f"&0x{word:04x}" if register == 2 else f"0x{word:04x}(r{register})"

    def source(self, register, mode):
        for value, form in CONSTANTS.items():
            if form == (register, mode):
                return f"#{value}"
        if mode == 0:
            return f"r{register}"
        if mode == 1:
            return self.memory(register)
        if mode == 3 and register == 0:
            return f"#0x{self.next_word():04x}"
        return f"@r{register}" + "+" * (mode == 3)

    def instruction(self):
        word = self.next_word()
        if is_illegal(word):
            raise Unreadable
        if word == 0x1300:
            return "reti"
        suffix = ".b" if word & 0x40 else ""
        if word < 0x2000:
            return f"{ONE[word >> 7 & 7]}{suffix} {self.source(word & 15, word >> 4 & 3)}"
        if word < 0x4000:
            offset = (word & 1023) - (1024 if word & 512 else 0)
            return f"{JUMPS[word >> 10 & 7]} 0x{(self.place + 2 * offset) % 65536:04x}"
        source = self.source(word >> 8 & 15, word >> 4 & 3)
        destination = self.memory(word & 15) if word & 0x80 else f"r{word & 15}"
        return f"{TWO[(word >> 12) - 4]}{suffix} {source},{destination}"


def listing(image):
    """The listing as it is printed."""
    lines, next_place = [], 0
    for place in sorted(image):
        if place < next_place:
            continue
        item, next_place = Item(image, place), place + 2
        if place % 2 or place + 1 not in image:
            text, next_place = f".byte 0x{image[place]:02x}", place + 1
        else:
            text = f".word 0x{image[place] | image[place + 1] << 8:04x}"
            try:
                if place < VECTORS.first:
                    text, next_place = item.instruction(), item.place
            except Unreadable:
                pass
        lines.append(f"{place:04x}: {text}\n")
    return "".join(lines).encode()
