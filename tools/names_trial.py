"""Trials of the documents, without the programs: that each name which they have in backticks is one
of the repository, that the lines which a reader types call what is there, that links lead
somewhere, that docs/architecture.md has each crate, and that docs/proved.md names each law, each
clause in the file that declares it, and each edit that the prover has to refuse beside a clause of
its crate, and that no entry of docs/DECISIONS.md is too long.

In `single backticks` a document names what the repository has. What another project has, as a wire
of openMSP430, a package or a setting of GDB, stands in ``two``, which look the same. Of a span
these are looked at: a path, of which one in src/, specs/ or proofs/ is of a crate that its section
names; a name of four letters or more that is the whole of it; an option. Of spans and of lines that
are set in: what follows foldgneiss, make and --only; what rt check --only names is of a crate that
its section names. Of the pictures of docs/architecture.md a word with _ or :: in it. Lines that are
printed, numbers and signs are no names. What a build makes (build/, out/) is no file of the
repository.
"""
import glob
import os
import re
import subprocess

from reference import SCRIPT_COMMANDS
from sample_files import read
from trial import ROOT

PROVED, CRATES = "docs/proved.md", "docs/architecture.md"
DECISIONS, MOST_WORDS = "docs/DECISIONS.md", 60  # (of an entry)
TELLS_THE_PAST = ("CHANGELOG.md",)
SPAN = re.compile(r"(?<!`)`([^`\n]+)`(?!`)")
PART = r"[\w'◌-]"  # (of a name)
NAME = re.compile(rf"(?![0-9a-f]{{8,}}$)[A-Za-z_◌]{PART}{{2,}}[\w'◌](?:(?:::|\.){PART}+)*(?:\(\))?"
                  rf"|\w+(?:::{PART}+)+")
PATH = re.compile(r"(?:\./|\.\./)*[\w.*@-]+(?:/[\w.*@-]+)*/?")
OF_CRATE = re.compile(r"(?:src|specs|proofs)/[\w/]+\.\w+")  # (a path in a crate)
OPTION = re.compile(r"--[a-z-]+")
COMMAND = re.compile(r"(?<![\w/-])(?:\./)?foldgneiss +([^\s|;)&`,]+)")
GOALS = re.compile(r"\bmake (?:-f \S+ )?([a-z.]+(?: [a-z.]+)*)$", re.M)
GROUPS = re.compile(r"check-program --only ([a-z_,]+)")
FUNCTION = re.compile(r"rt check --only (\w+(?:::\w+)*)")
BARE = re.compile(r"\b\w+(?:::\w+)+|\b[A-Za-z]+_\w+")  # (a name without backticks)
# What a file of a crate declares: functions, types, members, the labels of clauses; definitions and
# their fields. A variant, or a field of a type, begins its line.
DECLARED = {".rt": re.compile(r"\b(?:fn|struct|enum|trait|type|const|static|mod|impl|for|ensures"
                              rf"|requires|ghost)\s+({PART}+)"),
            ".antt": re.compile(r"^\s*(?:(?:abbrev|unfoldable|record|data|pub)\s+)*"
                                rf"({PART}+)(?=\s+[{{(:]|\s*$)", re.M)}
MEMBER = re.compile(rf"^\s*(?:pub )?(?!\d)({PART}+)\s*(?:[,({{:]|$)", re.M)
SOURCES = tuple(".antt .c .css .edit .h .js .ld .md .mjs .py .rt .s .service .svg .v".split())
FOLDERS = ("bench/", "conformance/", "crates/", "docs/", "examples/", "firmware/", "page/",
           "python/", "rtl/", "specs/", "src/", "proofs/", "tools/")
SCRIPT_WORDS = {*SCRIPT_COMMANDS, "build", "folder", "help", "COMMAND", "..", "--help", "--version"}
ROW = re.compile(r"^\| (.*) \|$", re.M)


def prose(text):
    """A document without its blocks of code, each of which is of lines set in."""
    return "\n".join(line for line in text.split("\n") if not line.startswith("    "))


def blocks(text):
    return "\n".join(line for line in text.split("\n") if line.startswith("    "))


def declared(name):
    """What a file of the crates declares; nothing where there is no such file."""
    path, names = f"{ROOT}/crates/{name}", DECLARED[os.path.splitext(name)[1]]
    return {*names.findall(read(path).decode())} if os.path.exists(path) else set()


def words_of(text):
    """The words of a text, and what a `-` joins of them; no line that is a comment has any."""
    lines = (line for line in text.split("\n")
             if not line.lstrip().startswith(("// ", "/// ", "//! ", "-- ", "# ")))
    text = "\n".join(lines)
    return {*re.findall(r"\w+", text), *re.findall(r"[\w'◌][\w'◌-]*", text)}


class Names:
    """The paths of the repository, and the words of its files but for documents and edits; of the
    sources of crates what they declare.
    """

    def __init__(self):
        listed = subprocess.run(["git", "ls-files", "-co", "--exclude-standard"], cwd=ROOT,
                                capture_output=True, check=True).stdout.decode()
        self.files = [name for name in listed.split() if os.path.isfile(f"{ROOT}/{name}")]
        folders = {os.path.dirname(name) for name in self.files}
        folders |= {up for name in folders for up in above(name)}
        self.endings = {end for name in (*self.files, *folders) for end in endings(name)}
        self.documents = [name for name in self.files
                          if name.endswith(".md") and name not in TELLS_THE_PAST]
        self.words, self.of_file, self.of_crate, self.options = set(), [], {}, set()
        self.goals = {goal for line in re.findall(
            r"^([^\s#=].*?):", read(f"{ROOT}/firmware/Makefile").decode(), re.M)
            for goal in line.split()}
        for name in self.files:
            if not name.endswith((".md", ".png", ".svg", ".1", ".hex")):
                self.read(name)

    def read(self, name):
        """The words of a file and of its path; an edit may have old ones in it."""
        words = {*re.split(r"[/.]", name)}
        if not name.endswith(".edit"):
            text = read(f"{ROOT}/{name}").decode("utf-8", "replace")
            self.options.update(OPTION.findall(text))
            if name.startswith("crates/") and name.endswith((*DECLARED,)):
                words |= {*declared(name[len("crates/"):]), *MEMBER.findall(text)}
            else:
                words |= words_of(text)
        self.words |= words
        self.of_file.append(words)
        if name.startswith("crates/"):
            self.of_crate.setdefault(name.split("/")[1], set()).update(words)

    def has_path(self, path):
        """Whether a file or a folder ends so; a part of capitals, or `*`, stands for any."""
        text = re.sub(r"^(?:\.{1,2}/)+|/$", "", path)
        if text in self.endings:
            return True
        form = re.compile(re.sub(r"\\\*|\b[A-Z]+\b", "[^/]+", re.escape(text)))
        return form.pattern != re.escape(text) and any(map(form.fullmatch, self.endings))

    def has_name(self, name):
        """Whether it is known; of `CRATE::NAME` in the crate, of `TYPE::NAME` both in one file."""
        first, *rest = [part for part in re.split(r"::|\.", name.rstrip("()")) if part]
        if not rest:
            return first in self.words
        if first in self.of_crate:
            return {*rest} <= self.of_crate[first]
        return any({first, *rest} <= words for words in self.of_file)

    def typed_faults(self, text):
        """What is typed in vain: commands of ./foldgneiss, goals of the kit's make, and groups of
        tools/check-program.
        """
        goals = (goal for goals in GOALS.findall(text) for goal in goals.split())
        groups = (group for groups in GROUPS.findall(text) for group in groups.split(","))
        yield from (f"no command {one}" for one in COMMAND.findall(text) if one not in SCRIPT_WORDS)
        yield from (f"no goal {one}" for one in goals if one not in self.goals)
        yield from (f"no group {one}" for one in groups if one not in self.words)

    def fault(self, span):
        """What is wrong with a span in backticks; None where nothing is."""
        for word in span.split(" "):
            if is_path(word, span) and not self.has_path(word):
                return f"no file {word}"
        if OPTION.fullmatch(span) and span not in self.options:
            return f"no option {span}"
        if NAME.fullmatch(span) and not self.has_path(span) and not self.has_name(span) and (
                not os.path.splitext(span)[1]):
            return f"no name {span}"
        return next(self.typed_faults(span), None)


def above(folder):
    """The folders that a folder lies in, and itself."""
    while folder:
        yield folder
        folder = os.path.dirname(folder)


def endings(path):
    """A path, and what is left of it behind each of its folders."""
    parts = path.split("/")
    return ("/".join(parts[at:]) for at in range(len(parts)))


def is_path(word, span):
    """Whether a word of a span names a file: one in a folder of the repository, or a source that
    is the whole span.
    """
    if not PATH.fullmatch(word) or {"build", "out"} & {*word.split("/")} or word in SOURCES:
        return False
    return word.lstrip("./").startswith(FOLDERS) or word == span and word.endswith(SOURCES)


def spans(trial, names, document, text):
    for span in dict.fromkeys(SPAN.findall(prose(text))):
        trial.tries += 1
        fault = names.fault(span)
        if fault:
            trial.fault(f"{document}: {fault}")


def lines_to_type(trial, names, document, text):
    """The blocks of a document: its commands, and the paths of the repository in them."""
    text = blocks(text)
    for fault in names.typed_faults(text):
        trial.fault(f"{document}: {fault}")
    for path in PATH.findall(re.sub(r"[^\w\s.*@/-]+/?", " ", text)):
        if path.startswith(FOLDERS) and is_path(path, "") and not names.has_path(path):
            trial.fault(f"{document}: no file {path}")


def paths_in_crates(trial, names, document, text):
    """A path in src/, specs/ or proofs/ is of a crate that its section names."""
    for section in re.split(r"^#+ ", prose(text), flags=re.M):
        named = SPAN.findall(section)
        crates = {part for span in named for part in re.split(r"[/:]", span)} & {*names.of_crate}
        for path in filter(OF_CRATE.fullmatch, named):
            if crates and not any(names.has_path(f"{crate}/{path}") for crate in crates):
                trial.fault(f"{document}: no {path} in {', '.join(sorted(crates))}")


def functions_to_check(trial, names, document, text):
    """A function that rt check --only names is of a crate that its section names."""
    for section in re.split(r"^#+ ", text, flags=re.M):
        crates = {*re.findall(r"\w+", section)} & {*names.of_crate}
        for function in FUNCTION.findall(section):
            trial.tries += 1
            if not any({*function.split("::")} <= names.of_crate[crate] for crate in crates):
                trial.fault(f"{document}: no {function} in {', '.join(sorted(crates))}")


def bare_names(trial, names, text):
    """In the document that says which crate is what, each name in a picture is there too."""
    for name in dict.fromkeys(BARE.findall(re.sub(r"[\w.*-]+/[\w.*/-]+", "", blocks(text)))):
        trial.tries += 1
        if not names.has_name(name):
            trial.fault(f"{CRATES}: no name {name}")


def crates_named(trial, names, document, text):
    """In `CRATE`: `A`, `B` and in `A` of `CRATE` the names are of that crate."""
    named = [(crate, name) for crate, list_of in
             re.findall(r"`(\w+)`: ((?:`[^`]+`(?:, | and |, and )?)+)", text)
             for name in SPAN.findall(list_of)]
    named += [(crate, name) for name, crate in re.findall(r"`([^`]+)` of `(\w+)`", text)]
    for crate, name in named:
        known = names.of_crate.get(crate)
        if known and NAME.fullmatch(name) and not {*re.split(r"::|\.", name)} <= known | {crate}:
            trial.fault(f"{document}: no {name} in {crate}")


def anchor(headline):
    """The anchor of a headline, as pages of Markdown have it."""
    return re.sub(r"[^\w\- ]", "", headline.lower()).replace(" ", "-")


def links(trial, document, text):
    for link in re.findall(r"\]\(([^)\s]+)\)", prose(text)):
        path, _, part = link.partition("#")
        name = os.path.normpath(os.path.join(ROOT, os.path.dirname(document), path))
        if "://" in link:
            continue
        if path and not os.path.exists(name):
            trial.fault(f"{document}: no file {link}")
        elif part:
            target = read(name if path else f"{ROOT}/{document}").decode()
            if part not in map(anchor, re.findall(r"^#+ (.*)$", target, re.M)):
                trial.fault(f"{document}: no part {link}")


def clauses(trial, cell):
    """Each name behind the name of a file is declared in that file of the crates."""
    known = set()
    for span in SPAN.findall(cell):
        if span.endswith((".rt", ".antt")):
            known = declared(span)
        elif not {*re.split(r"::|\.", span)} <= known:
            trial.fault(f"{PROVED}: {span} stands not where it is said to: {cell}")


def statements(trial, text):
    """The table of statements: its clauses, and that its edits are those of the tree, each beside a
    clause of its crate.
    """
    edits = {os.path.basename(name)[:-len(".edit")]: name.split("/")[-3]
             for name in glob.glob(f"{ROOT}/crates/*/*/*.edit")}
    named = set()
    for row in ROW.findall(text):
        cells = row.split(" | ")
        if len(cells) == 3 and re.search(r"\.(rt|antt)`", cells[1]):
            clauses(trial, cells[1])
            crates = re.findall(r"`(\w+)/", cells[1])
            for name in SPAN.findall(cells[2]):
                named.add(name)
                if edits.get(name) not in crates:
                    trial.fault(f"{PROVED}: the edit {name} is of none of {', '.join(crates)}")
    for name in sorted({*edits} - named):
        trial.fault(f"{PROVED}: nothing of the edit {name}")
    trial.tries += len(edits)
    laws(trial, text)


def laws(trial, text):
    """The table has each law; a file of laws that stands alone stands for all of them."""
    named, alone = {*SPAN.findall(text)}, {*re.findall(r"`(\w+/src/\w*law\.rt)`(?!:)", text)}
    for path in sorted(glob.glob(f"{ROOT}/crates/*/src/*law.rt")):
        name = "/".join(path.split("/")[-3:])
        for law in re.findall(r"^pub fn (\w+)\(\)", read(path).decode(), re.M):
            trial.tries += 1
            if name not in alone and law not in named:
                trial.fault(f"{PROVED}: nothing of the law {law} of {name}")


def crates_told(trial, text):
    """Each crate of crates.txt has its place in the document that says which is what."""
    for crate in re.findall(r"^(\w+)(?: \w+)?:", read(f"{ROOT}/crates.txt").decode(), re.M):
        if f"`{crate}`" not in text:
            trial.fault(f"{CRATES}: nothing of {crate}")


def short_decisions(trial, text):
    """No entry of the decisions is too long."""
    for entry in re.findall(r"^- (.*)", text, re.M):
        trial.tries += 1
        if len(entry.split()) > MOST_WORDS:
            trial.fault(f"{DECISIONS}: more than {MOST_WORDS} words: {entry[:60]}")


def names(trial, files):
    """Each name, link, clause and edit of the documents is there."""
    known = Names()
    for document in known.documents:
        text = read(f"{ROOT}/{document}").decode()
        spans(trial, known, document, text)
        lines_to_type(trial, known, document, text)
        paths_in_crates(trial, known, document, text)
        functions_to_check(trial, known, document, text)
        crates_named(trial, known, document, text)
        links(trial, document, text)
    told = read(f"{ROOT}/{CRATES}").decode()
    bare_names(trial, known, told)
    crates_told(trial, told)
    short_decisions(trial, read(f"{ROOT}/{DECISIONS}").decode())
    statements(trial, read(f"{ROOT}/{PROVED}").decode())
