"""sources.py REPOSITORY [SOURCE..]

Prints the sources of a firmware, in the order in which they are linked: all of this folder and its
sub-folders, but for build/, the repository and what begins with a dot, or those that are named. A
name that a shell or a tool would not take as it stands is an error.
"""
import os
import re
import sys

KINDS = (".c", ".s", ".S")
NOT_TAKEN = {**dict.fromkeys((".cpp", ".cc", ".cxx", ".c++", ".C"), "the kit has no C++"),
             ".asm": "foldgneiss asm makes an image of it alone"}
PLAIN = re.compile(r"(?!-)[\w.+/-]+")


def ending(name):
    return os.path.splitext(name)[1]


def files(repository):
    """All files below this folder that may be sources."""
    for folder, folders, names in os.walk("."):
        folders[:] = [name for name in folders if name[0] != "."
                      and os.path.join(folder, name) != "./build"
                      and not os.path.samefile(os.path.join(folder, name), repository)]
        for name in names:
            if name[0] != ".":
                yield os.path.normpath(os.path.join(folder, name))


def fault(name):
    """What is wrong with the name of a source, "" where nothing is."""
    if not PLAIN.fullmatch(name):
        return "a source's name has letters, digits and any of _ . + - alone: rename it"
    if os.path.isabs(name) or os.pardir in name.split("/"):
        return "a source has to lie in this folder, or in one below it"
    return "" if ending(name) in KINDS else "a source ends in .c, .s or .S"


def main():
    repository, *named = sys.argv[1:]
    found = named or [name for name in files(repository) if ending(name) in KINDS]
    faults = [f"error: {name!r}: {fault(name)}" for name in sorted(found) if fault(name)]
    if faults:
        sys.exit("\n".join(faults))
    if not named:
        for name in sorted(files(repository)):
            if ending(name) in NOT_TAKEN:
                print(f"{name!r} is not taken: {NOT_TAKEN[ending(name)]}", file=sys.stderr)
    print(*sorted(found, key=lambda name: (KINDS.index(ending(name)), name)))


if __name__ == "__main__":
    main()
