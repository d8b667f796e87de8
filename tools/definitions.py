"""The definitions of the proved programs, and what each of them cites: definitions of specs/, and
of src/ the declarations of types with their views, the ghost members of traits, and the contracts
of functions. What the standard library and the kit's crates define is none of them.
"""
import glob
import os
import re

from citations import equation_citations, term_citations

DEFINED = re.compile(r" *(?:abbrev|unfoldable|pub record|pub data)(?: pub)? ([^\s:]+)"
                     r"|pub (?!mod)(\S+) :")
VARIANT = re.compile(r" +([^\s:]+) :")
DECLARED = re.compile(r"pub (?:struct|enum|trait|type|const) (\w+)")
VIEWED = re.compile(r"impl(?:<.*>)? Model for (\w+)")
GHOST = re.compile(r"    ghost (?!use )")
CLAUSE = re.compile(r"    (?:ensures|requires) (?:(\w+) )?\{")
WORD = re.compile(r"[^\W\d]\w*")
USED = re.compile(r"^ *(?:pub )?(?:ghost )?use ([^;{\s]+?)(?:(?:\.|::)\{((?s:.*?))\}(?=;?$))?"
                  r"(?: as ([^;\s]+))?;?$", re.M)
FUNCTION = r' *pub (?:extern "C" )?fn {}[<(]'  # of a name
ROOT = os.path.dirname(os.path.dirname(os.path.realpath(__file__)))
COMMENTS = ("--", "//", "#[")


def grouped(text, inner=()):
    """The names of a group of an import, each with its path in it: `a, B.{c, D.e}`."""
    depth, names = 0, ""
    for sign in text:
        depth += (sign == "{") - (sign == "}")
        names += "\n" if sign == "," and depth == 0 else " " if sign == "\n" else sign
    for head, brace, rest in (part.strip().partition("{") for part in names.split("\n")):
        if brace:
            yield from grouped(rest[:-1], (*inner, *head.rstrip(".").split(".")))
        elif head:
            plain, as_, other = head.partition(" as ")
            *more, name = plain.split(".") if plain.strip(".") else [plain]
            yield (*inner, *more), name + as_ + other


class Definition:
    """A definition in a file: its lines, those of its comment, and words that may cite others."""

    def __init__(self, file, name):
        self.file, self.name, self.lines, self.comment, self.words = file, name, [], [], []

    def place(self):
        return f"{self.file.path}:{self.all_lines()[0] + 1}"

    def all_lines(self):
        return sorted(self.comment + self.lines)

    def cited(self):
        """The definitions that it cites."""
        found = map(self.file.find, self.words)
        return [*dict.fromkeys(one for one in found if one and one is not self)]


class File:
    """The lines of a file, the definitions in it, and the names that it imports."""

    def __init__(self, crates, crate, path):
        self.crates, self.crate, self.path = crates, crate, path
        with open(f"{crates.root}/{path}", encoding="utf-8") as file:
            self.lines = file.read().split("\n")
        self.definitions, self.variants, self.imports = {}, {}, {}
        for used, items, alias in USED.findall("\n".join(self.lines)):
            self.read_import(re.split(r"\.|::", used), items, alias)
        self.read()

    def read_import(self, path, items, alias):
        if alias:
            self.imports[alias] = (path, None)
        elif not items:
            self.imports[path[-1]] = (path[:-1], path[-1])
        for inner, item in grouped(items):
            name, _, other = item.partition(" as ")
            self.imports[other or name] = ([*path, *inner], name)

    def add(self, name, lines):
        """Adds lines to a definition, and the comment directly above them."""
        definition = self.definitions.setdefault(name, Definition(self, name))
        definition.comment += self.comment_above(lines[0])
        definition.lines += lines
        return definition

    def comment_above(self, line):
        first = line
        while first > 0 and self.lines[first - 1].strip().startswith(COMMENTS):
            first -= 1
        return [*range(first, line)]

    def text_of(self, lines):
        return "\n".join(self.lines[line] for line in lines)

    def find(self, word):
        """The definition that a word cites, or None where it cites none of the repository. An
        operator stands between its arguments, and `>>=` in each line of a `do`.
        """
        name, *fields = ["◌>>=◌"] if word == "do" else word.split(".")
        name = self.variants.get(name, name)
        if f"◌{name}◌" in self.imports or f"◌{name}◌" in self.definitions:
            name = f"◌{name}◌"
        if name in self.definitions:
            return self.definitions[name]
        path, item = self.imports.get(name, ([], ""))
        if item is None and not (fields and fields[0][:1].isupper()):
            return None  # (a variable that is called as a module is)
        return self.crates.find(self.crate, path, item or (fields or [""])[0]) if path else None


class SpecsFile(File):
    """A file of specs/. Its definitions begin at the margin, or in `module _ .. where` below it."""

    def read(self):
        name, lines, margin = None, [], ""
        for number, line in enumerate([*self.lines, ""]):
            begins = DEFINED.match(line) if re.match(margin + r"\S", line) else None
            if lines and (begins or not line):
                self.read_definition(name, lines)
                lines = []
            if begins:
                name = begins.group(1) or begins.group(2)
            if begins or lines:
                lines.append(number)
            if line.startswith("module "):
                margin = "  "

    def read_definition(self, name, lines):
        while self.lines[lines[-1]].startswith("--"):
            lines.pop()
        definition = self.add(name, lines)
        if self.lines[lines[0]].startswith("pub data "):
            for line in lines[1:]:
                found = VARIANT.match(self.lines[line])
                if found:
                    self.variants[found.group(1)] = name
        margin = re.match(" *", self.lines[lines[0]]).group()
        parts = re.split(rf"\n(?={margin}\S)", self.text_of(lines))
        declared = DEFINED.sub("", parts[0], 1)
        definition.words = term_citations(declared, self.is_variant)
        for equation in parts[1:]:
            definition.words += equation_citations(equation, self.is_variant)

    def is_variant(self, name):
        """Whether this is of a variant: by its import, or among those of a `data`."""
        path, item = self.imports.get(name.split(".")[0], ([], ""))
        return name in self.variants or "TheVariants" in path or (
            self.crates.has_variant(path, item))


class SourceFile(File):
    """A file of src/."""

    def read(self):
        for number, line in enumerate(self.lines):
            declared = DECLARED.match(line) or VIEWED.match(line)
            if declared:
                name, lines = declared.group(1), self.item(number)
                if " trait " in line:
                    self.read_trait(name, lines)
                else:
                    self.read_words(self.add(name, lines))

    def item(self, first, margin=""):
        """The lines of an item: one, or up to one that closes it at the margin, or ends a text."""
        last = first
        while not re.search(rf'^{margin}[^ ].*(;|\}})$|^{margin}[\]}})];?$|";$', self.lines[last]):
            last += 1
        return [*range(first, last + 1)]

    def read_trait(self, name, lines):
        """Its first line, and its ghost members."""
        self.read_words(self.add(name, lines[:1]))
        for line in lines:
            if GHOST.match(self.lines[line]):
                self.read_words(self.add(name, self.item(line, " " * 4)))

    def read_words(self, definition):
        text = re.sub(r"//.*", "", self.text_of(definition.lines))
        definition.words = [*dict.fromkeys(WORD.findall(text))]

    def contract(self, name, labels=()):
        """The contract of a function as a definition, with these of its clauses, or with all."""
        first = next(number for number, line in enumerate(self.lines)
                     if re.match(FUNCTION.format(name), line))
        last = first
        while self.lines[last].strip() not in ("{", "{}"):
            last += 1
        begins = [line for line in range(first, last) if CLAUSE.match(self.lines[line])]
        named = [CLAUSE.match(self.lines[line]).group(1) for line in begins]
        if not {*labels} <= {*named}:
            raise SystemExit(f"{self.path}: {name} has no clauses {labels}")
        contract = Definition(self, name)
        contract.lines = [*range(first, begins[0])]
        contract.comment = self.comment_above(first)
        self.read_words(contract)
        for label, clause, behind in zip(named, begins, [*begins[1:], last]):
            if not labels or label in labels:
                self.add_clause(contract, clause, behind)
        return contract

    def add_clause(self, contract, first, behind):
        """The lines of a clause, but for the comment of the next; parameters cite nothing."""
        while not self.lines[behind - 1].strip() or (
                self.lines[behind - 1].strip().startswith(COMMENTS)):
            behind -= 1
        parameters = re.findall(r"(\w+):", self.text_of(contract.lines))
        clause = self.text_of(range(first, behind)).split("{", 1)[1]
        contract.words += term_citations(clause, lambda name: False, parameters)
        contract.comment += self.comment_above(first)
        contract.lines += range(first, behind)


class Crates:
    """The definitions of all crates of a repository."""

    def __init__(self, root=ROOT):
        self.root, self.files = root, {}
        self.names = sorted(os.listdir(f"{root}/crates"))

    def file(self, kind, crate, path):
        """A file of a crate, or None where there is no such file."""
        path = f"crates/{crate}/{path}"
        if path not in self.files:
            known = os.path.exists(f"{self.root}/{path}")
            self.files[path] = kind(self, crate, path) if known else None
        return self.files[path]

    def specs(self, crate, module):
        return self.file(SpecsFile, crate, f"specs/{module}.antt")

    def source(self, crate, path):
        return self.file(SourceFile, crate, f"src/{path}.rt")

    def find(self, crate, path, name):
        """The definition of this name under the path of an import in a file of a crate."""
        crate, *path = [crate if part == "crate" else part for part in path if part != "Rattle"]
        if crate not in self.names:
            return None
        if path[:1] == ["specs"] and path[1:2] != ["declared"]:
            file = self.specs(crate, path[1])
            return file.definitions[file.variants.get(name, name)]
        path = [part for part in path if part not in ("specs", "declared", "TheConstants")]
        if path[-1:] == ["TheVariants"]:
            path, name = path[:-2], path[-2]
        return self.declared(crate, path, name)

    def declared(self, crate, path, name):
        """The declaration of a type: in the file of its path, or of the path without an item."""
        for path, name in ((path, name), (path[:-1], name), (path[:-1], (path or [""])[-1])):
            file = self.source(crate, "/".join(path) or "lib")
            if file and name in file.definitions:
                return file.definitions[name]
        return self.exported(crate, name)

    def exported(self, crate, name):
        """The declaration of a type that a crate exports at its top, from any of its files."""
        root = f"{self.root}/crates/{crate}/src/"
        for path in sorted(glob.glob(f"{root}**/*.rt", recursive=True)):
            file = self.source(crate, path[len(root):-3])
            if name in file.definitions:
                return file.definitions[name]
        return None

    def function(self, crate, name, labels=()):
        """The contract of a function of a crate, with these of its clauses, or with all."""
        root = f"{self.root}/crates/{crate}/src/"
        for path in sorted(glob.glob(f"{root}**/*.rt", recursive=True)):
            file = self.source(crate, path[len(root):-3])
            if re.search(f"^{FUNCTION.format(name)}", "\n".join(file.lines), re.M):
                return file.contract(name, labels)
        raise SystemExit(f"reading-list: no function {name} in {crate}")

    def has_variant(self, path, name):
        """Whether this name, imported by this path, is of a variant of a `data`."""
        if len(path) < 4 or path[1] not in self.names or path[3] == "declared":
            return False
        return name in self.specs(path[1], path[3]).variants
