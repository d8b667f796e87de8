"""Trials of the edits that the prover has to refuse, without the prover: how many the gate tries,
and that each, of these and of those that tools/try-edits tries, is one of code and applies.
"""
import glob
import os
import re

from sample_files import read
from trial import ROOT

MOST_OF_A_CRATE, MOST, MOST_OUTSIDE = 5, 90, 20


def fault_of(crate, text):
    """What is wrong with the text of an edit of a crate; None where nothing is."""
    lines = [re.fullmatch("(file|old|new): ?(.*)", line) for line in text.splitlines()]
    words = [line and line[1] for line in lines]
    if len(lines) < 3 or words != ["file", *["old", "new"] * (len(lines) // 2)]:
        return "it is no line `file:` with lines `old:` and `new:`"
    name, *texts = (line[2] for line in lines)
    if not name.startswith("src/") or not os.path.exists(f"{crate}/{name}"):
        return f"there is no code {name}"
    code = read(f"{crate}/{name}").decode()
    for old, new in zip(texts[::2], texts[1::2]):
        if code.count(old) != 1:
            return f"{name} has {code.count(old)} times: {old}"
        code = code.replace(old, new)
    return None


def edits(trial, files):
    """No crate has more of them than CONTRIBUTING.md says, nor has the gate, and each applies."""
    count = 0
    for crate in sorted(glob.glob(f"{ROOT}/crates/*")):
        names = sorted(glob.glob(f"{crate}/must-fail/*.edit"))
        later = sorted(glob.glob(f"{crate}/edits/*.edit"))
        if len(names) > MOST_OF_A_CRATE or len(later) > MOST_OUTSIDE:
            trial.fault(f"{os.path.relpath(crate, ROOT)}: {len(names)} and {len(later)} edits")
        for name in names + later:
            fault = fault_of(crate, read(name).decode())
            if fault:
                trial.fault(f"{os.path.relpath(name, ROOT)}: {fault}")
        trial.tries += len(names + later)
        count += len(names)
    if not 0 < count <= MOST:
        trial.fault(f"{count} edits in the gate, where there may be {MOST}")
