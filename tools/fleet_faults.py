"""Faults that are planted in the parties of a fleet: tools/try-fleet has to find each."""
import os
from typing import NamedTuple

from sample_files import read, write


class Plant(NamedTuple):
    """Edits of the files of examples/fleet."""
    edits: tuple = ()  # a file, a text that it has once, and what takes its place

    def copy(self, source, target):
        """Copies a file with the edits."""
        text = read(source).decode()
        for name, old, new in self.edits:
            if name == os.path.basename(source):
                if text.count(old) != 1:
                    raise ValueError(f"{source} has {text.count(old)} times: {old}")
                text = text.replace(old, new)
        write(target, text.encode())
        os.chmod(target, 0o755)


SERVES = '"$desk" desk keys.txt image.hex policy.txt memory'
NONE = Plant()
PLANTS = {
    "none": NONE,
    # A gateway gives a line that it repeats a new number.
    "new-numbers": Plant((("gateway.py", "                self.repeats += 1\n", """
                self.repeats += 1
                verb, name, number, *rest = device.line.split()
                device.number = int(number) + 1
                device.line = " ".join((verb, name, str(device.number), *rest))
                self.journal.add("line", device.image, device.line)
                self.journal.keep()
"""),)),
    # A gateway keeps its lines behind their sending, some time later.
    "late-journal": Plant((("gateway.py", "            self.journal.keep()\n        for",
                            "            pass\n        for"),)),
    # A desk begins anew at each start.
    "no-memory": Plant((("desk.sh", SERVES, """
rm -f memory*
"$desk" found memory "$(basename "$PWD")"
""" + SERVES),)),
    # A desk goes back to the memory of its last start.
    "older-memory": Plant((("desk.sh", SERVES, """
[ ! -e backup ] || { rm -f memory-wal; cp backup memory; }
cp memory backup
""" + SERVES),)),
    # A desk replies, and keeps a moment later what it replied.
    "late-memory": Plant((("desk.sh", SERVES, """
rm -rf fast; mkdir fast; cp memory fast
while sleep 0.5; do
    cp fast/memory copy && mv copy memory
done 2>/dev/null &
""" + SERVES.replace("txt memory", "txt fast/memory")),)),
    # A bridge gives each reply once, also where it was lost.
    "lost-replies": Plant((("desk.sh", "<replies", """< <(
    while IFS= read -r reply; do
        grep -qxF -- "$reply" given.txt 2>/dev/null ||
            printf '%s\\n' "$reply" | tee -a given.txt
    done <replies)"""),)),
    # Who may send lines may send replies too.
    "open-replies": Plant((("acl.txt", "pattern write desk/%u/replies", """
pattern write desk/%u/replies
pattern write desk/+/replies"""),)),
    # Two desks have a device, and the old memory does not keep that it is gone.
    "two-desks": Plant((
        ("move.sh", 'put "$old/keys.txt" <<<"$staying"', "true"),
        ("move.sh", "while read -r _ each _; do", """
cp "$old/memory" "$old/copy"
while read -r _ each _; do"""),
        ("move.sh", '"$desk" move "$old/memory"', '"$desk" move "$old/copy"'),
        ("move.sh", 'refuse_any "$(with "$has" <"$old/keys.txt")" "both desks have"', ""))),
    # A device comes to the new desk without its state.
    "no-state": Plant((("move.sh", '"$desk" adopt "$new/moved.txt" "$new/memory"', "true"),)),
}
