#!/usr/bin/env python3
"""tools/page_file.py MODULE.wasm PAGE.html

Writes the page with this module of the device: the sources of page/ in one file, with the tables of
reference.py, sentences of docs/, and the examples.
"""
import base64
import hashlib
import json
import os
import re
import sys
import zlib
from typing import Any, Dict, List, Tuple

sys.dont_write_bytecode = True
import mistaken_files  # noqa: E402
from file_readers import lines_in  # noqa: E402
from reference import (FAULTS, FILES, REGIONS, RULES, STATUSES, VERSION,  # noqa: E402
                       said_of)

ROOT = os.path.dirname(os.path.dirname(os.path.realpath(__file__)))
SCRIPTS = ("bytes", "wave", "device", "events", "strip", "step", "memory", "files", "judge", "page")
# The first is shown at once, so it is a short one.
EXAMPLES = ("round", "sensor", "letter-a", "echo", "attest", "meter", "tour", "pump/guarded",
            "pump/forged", "pump/stop", "resets/vector", "resets/stack", "resets/attest")
SHOWN = 200000  # steps at most of a run, with signals and registers
GZIP = 16  # to be added to the window's bits
KINDS = ("image", "script", "key", "policy")  # the files of an example
COMMANDS = {"play", "dump", "round", "wave", "list", "asm", "verify"}  # that the page gives
POLICY = ("default-src 'none'; script-src {} 'wasm-unsafe-eval'; style-src {}; worker-src blob:; "
          "base-uri 'none'; form-action 'none'")


def text_of(name: str) -> str:
    with open(f"{ROOT}/{name}", encoding="utf-8") as file:
        return file.read()


def source(name: str) -> str:
    return text_of(f"page/{name}")


def table(name: str, head: Tuple[str, ...]) -> List[List[str]]:
    """The rows of the table in this document whose first row has these heads."""
    lines = text_of(name).split("\n")
    first = lines.index(f"| {' | '.join(head)} |") + 2
    rows = []
    for line in lines[first:]:
        if not line.startswith("|"):
            break
        rows.append([cell.strip() for cell in line[1:-1].split("|")])
    return rows


def paragraph(name: str, head: str) -> str:
    """The first one below this head of a document."""
    return text_of(name).split(f"## {head}\n\n")[1].split("\n\n")[0]


def plain(text: str) -> str:
    """A sentence without the marks of code and emphasis, with a capital letter where no code is."""
    text = text[:1].upper() + text[1:]
    return re.sub(r"\*\*|`", "", text)


def resets() -> Dict[str, Any]:
    """What docs/resets.md says of each rule, and of an image without a reset vector."""
    rows = table("docs/resets.md", ("Line", "Usual cause", "In the trace", "Remedy"))
    said = {rule: (cause, remedy) for names, cause, _, remedy in rows
            for rule in re.findall(r"`(\w\d)`", names)}
    for rule, (cause, remedy) in said.items():
        said[rule] = cause, said[remedy[3:]][1] if remedy.startswith("as ") else remedy
    no_vector = next(row for row in rows if row[0].startswith("`reset 1 I1`"))
    rules = {rule: {"about": plain(about), "cause": plain(said[rule][0]),
                    "remedy": plain(said[rule][1])} for rule, about in RULES.items()}
    return {"rules": rules, "no_vector": {"cause": plain(no_vector[1]),
                                          "remedy": plain(no_vector[3])}}


def sentences() -> Dict[str, Any]:
    """What docs/ say of printed lines, denials and verdicts."""
    judged = table("docs/verifier.md", ("Line", "Means", "Do"))
    lines = {re.match(r"`(report2|denied S \d)", line)[1]: [plain(means), plain(what)]
             for line, means, what in judged}
    verdicts = {name.strip("`"): [plain(means), plain(what)] for name, means, what in
                table("docs/verifier.md", ("Verdict", "Means", "Do"))}
    verdicts["accept"][0] = plain(paragraph("docs/for-operators.md", "What an `accept` says"))
    printed = {re.match(r"`(\w+)", line)[1]: plain(when)
               for line, when in table("docs/formats.md", ("Line", "When"))
               if re.match(r"`(tx|end|collision|unanswered) ", line)}
    return {"lines": lines, "verdicts": verdicts, "printed": printed}


def form_of(pattern: bytes) -> Dict[str, str]:
    """A pattern of mistaken_files.py as JavaScript takes it."""
    text = pattern.decode()
    if text.startswith("(?xi)"):
        return {"line": re.sub(r"\s+", "", text[5:]), "flags": "i"}
    return {"line": text, "flags": ""}


def faults() -> Dict[str, Any]:
    """The tables by which a file with a fault is spoken of."""
    return {
        "faults": {kind: {fault: said_of(COMMANDS, text) for fault, text in each.items()}
                   for kind, each in FAULTS.items()},
        "files": {kind: {"limit": file.limit, "about": plain(file.about)}
                  for kind, file in FILES.items()},
        "statuses": {code: {"line": status.line, "cause": plain(said_of(COMMANDS, status.cause)),
                            "remedy": said_of(COMMANDS, status.remedy).replace("`", "")}
                     for code, status in STATUSES.items()},
        "forms": {kind: {"name": form.name, **form_of(form.line)}
                  for kind, form in mistaken_files.FORMS.items()},
        "images": [[name, form.decode("latin-1")]
                   for name, form in mistaken_files.OTHER_IMAGES.items()],
        "marks": [[*mark] for mark in mistaken_files.MARKS],
        "mistaken": {name: text.replace("`", "") for name, text in mistaken_files.SAID.items()},
    }


def example(name: str) -> Dict[str, Any]:
    """An example's files, its steps, and what README.md says of it."""
    folder = f"examples/{name}"
    files = {kind: f"{folder}/{kind}.{'hex' if kind == 'image' else 'txt'}" for kind in KINDS}
    end = lines_in(text_of(f"{folder}/expected.txt").encode())[-1].split()
    told = re.search(rf"`examples/{name.split('/')[0]}`, ([^;]+?)(?: \(`[^)]*\))?[;.]",
                     text_of("README.md"))
    return {"name": name, "steps": int(end[1]), "about": plain(told[1] + ".") if told else "",
            **{kind: text_of(file) for kind, file in files.items()
               if os.path.exists(f"{ROOT}/{file}")}}


def caveats() -> List[str]:
    """The points of page/README.md on what is not proved."""
    part = source("README.md").split("## What is not proved\n")[1].split("\n## ")[0]
    return [plain(line[2:]) for line in part.split("\n") if line.startswith("- ")]


def tables() -> Dict[str, Any]:
    regions = {name: [region.first, region.last] for name, region in REGIONS.items()}
    return {"version": VERSION, **resets(), **sentences(), **faults(), "regions": regions,
            "caveats": caveats(), "shown": SHOWN}


def packed(content: bytes) -> str:
    """The base64 of a gzip, the same each time (which that of Python's gzip is not)."""
    deflating = zlib.compressobj(9, zlib.DEFLATED, zlib.MAX_WBITS + GZIP)
    return base64.b64encode(deflating.compress(content) + deflating.flush()).decode()


def hashed(text: str) -> str:
    digest = hashlib.sha256(text.encode()).digest()
    return f"'sha256-{base64.b64encode(digest).decode()}'"


def page_of(data: Dict[str, Any], module: bytes = b"") -> str:
    """The page of this data; without a module that of a picture."""
    script = '"use strict";\n' + "".join(source(f"{name}.js") for name in SCRIPTS)
    style = source("page.css")
    parts = {"policy": POLICY.format(hashed(script), hashed(style)), "style": style,
             "data": json.dumps(data, sort_keys=True).replace("<", "\\u003c"),
             "module": packed(module) if module else "",
             "worker": '"use strict";\n' + source("wave.js") + source("worker.js"),
             "script": script}
    return re.sub("@(policy|style|data|module|worker|script)@", lambda match: parts[match[1]],
                  source("page.html"))


def main(arguments: List[str]) -> int:
    if len(arguments) != 2:
        sys.exit(__doc__)
    module, page = arguments
    with open(module, "rb") as file:
        content = file.read()
    text = page_of({**tables(), "examples": [example(name) for name in EXAMPLES]}, content)
    with open(page, "w", encoding="utf-8", newline="\n") as file:
        file.write(text)
    return 0


if __name__ == "__main__":
    sys.exit(main(sys.argv[1:]))
