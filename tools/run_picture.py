#!/usr/bin/env python3
"""tools/run_picture.py PROGRAM picture IMAGE SCRIPT KEY STEPS [POLICY]

Prints a page that shows one run: what PROGRAM, that of the device, prints of it, with the sources
of page/. It ends as a play of these files does, or with a policy a round, and where that prints
nothing its line on standard error is the program's.
"""
import os
import subprocess
import sys
from typing import Any, Dict, List, Tuple

sys.dont_write_bytecode = True
import page_file  # noqa: E402
from reference import STATUSES  # noqa: E402


class Refused(Exception):
    """An exit status and its line."""


def answer(program: str, *words: str) -> Tuple[int, bytes]:
    """The exit status of a run that printed its text, and the text."""
    ran = subprocess.run([program, *words], stdin=subprocess.DEVNULL, stdout=subprocess.PIPE,
                         stderr=subprocess.PIPE)
    if ran.returncode > 1 or ran.returncode < 0:
        raise Refused(ran.returncode, ran.stderr)
    return ran.returncode, ran.stdout


def run_of(program: str, image: str, script: str, key: str, steps: str,
           *policy: str) -> Dict[str, Any]:
    """What the page is told of a run."""
    files = image, script, key
    words = ("round", *files, *policy, steps) if policy else ("play", *files, steps)
    status, text = answer(program, *words)
    dumped = answer(program, "dump", *files, steps)[1]
    shown = min(int(steps), page_file.SHOWN)
    wave = answer(program, "wave", *files, str(shown))[1]
    return {"words": " ".join(["foldgneiss", words[0], *map(os.path.basename, words[1:])]),
            "steps": int(steps), "shown": shown, "status": status, "text": text.decode(),
            "memory": dumped[dumped.index(b":"):].decode(), "wave": page_file.packed(wave),
            "listing": answer(program, "list", image)[1].decode()}


def main(arguments: List[str]) -> int:
    program, _, *words = arguments
    try:
        if len(words) not in (4, 5):
            raise Refused(2, f"{STATUSES[2].line}\n".encode())
        run = run_of(program, *words)
        page = page_file.page_of({**page_file.tables(), "examples": [], "run": run})
    except Refused as refused:
        status, line = refused.args
        os.write(2, line)
        return status
    try:
        with open(1, "wb", closefd=False) as output:
            output.write(page.encode())
    except OSError:
        os.write(2, f"{STATUSES[5].line}\n".encode())
        return 5
    return run["status"]


if __name__ == "__main__":
    sys.exit(main(sys.argv[1:]))
