"""What is wrong with the file MEMORY of a desk, and what mends it."""
import os
import resource
import shlex
import stat

from desk_model import key_mark
from file_readers import Fault
from mistaken_files import FORMS, START, kind_of
from memory_log import is_alone, is_begun
from old_memory import is_old
from readers import READERS
from reference import (ABSENT, AS_OFTEN, DAMAGED, ELSEWHERE, FILES, FOUNDED, GONE, NO_DEVICE,
                       OTHER_LOG, OWN_DESK, STATUSES, TAKEN, UNFOUNDED, VALUES, WITH_MEMORY)
from sqlite_rows import rows

OWN_STATUSES = [code for code, status in STATUSES.items() if status.commands == WITH_MEMORY]
ROOM = 1 << 16  # what a commit takes at most, and the log beside it
DATABASE = b"SQLite format 3\0"
PAGE = "docs/desk.md, 'Restore'"


def wrong_place(name):
    """Why no memory can be there."""
    if not name:
        return "a name is wanted"
    path = os.path.realpath(name)
    folder = os.path.dirname(path)
    if os.path.isdir(path):
        return f"it is a folder; name a file in it, as {shlex.quote(os.path.join(name, 'memory'))}"
    if not os.path.isdir(folder):
        return f"there is no folder {folder}: mkdir -p {shlex.quote(folder)}"
    if os.path.exists(path) and not stat.S_ISREG(os.stat(path).st_mode):
        return "it is no file on a disk, but a pipe or a device"
    if os.path.exists(path) and os.stat(path).st_nlink > 1:
        return "it has a second name, a hard link, which has to go; name it by one name for good"
    if os.path.islink(f"{path}-wal"):
        return f"{path}-wal is a link, which has to go"
    if os.path.exists(f"{path}-journal"):
        return f"another program wrote it, and left {path}-journal; no desk opens it: {PAGE}"
    return None


def no_access(name):
    """Why this user cannot write it."""
    path = os.path.realpath(name)
    folder = os.path.dirname(path)
    if os.statvfs(folder).f_flag & os.ST_RDONLY:
        return f"the file system of {folder} can only be read: mount it to be written"
    user = f"the user {os.geteuid()}"
    if not os.access(folder, os.W_OK | os.X_OK):
        return (f"{user} may not write in {folder}, where {os.path.basename(path)}-wal stands "
                "beside it: run the desk as the owner of the folder")
    for each in (path, f"{path}-wal"):
        if os.path.exists(each) and not os.access(each, os.R_OK | os.W_OK):
            return f"{user} may not read and write {each}: run the desk as its owner"
    return None


def no_room(name):
    folder = os.path.dirname(os.path.realpath(name))
    room = os.statvfs(folder)
    if not room.f_blocks:
        return f"{folder} has no files on a disk: name another folder"
    if room.f_bavail * room.f_frsize < ROOM:
        return f"the disk of {folder} is full: make room, and start the desk anew"
    limit, _ = resource.getrlimit(resource.RLIMIT_FSIZE)
    if limit != resource.RLIM_INFINITY:
        return f"files may have {limit} bytes here: ulimit -f unlimited, and start the desk anew"
    return None


def what_database(name):
    if is_old(name):
        tool = os.path.join(os.path.dirname(os.path.realpath(__file__)), "old-states")
        return (f"it is of version 1, an earlier program's: {shlex.quote(tool)} "
                f"{shlex.quote(name)} > states.txt, then foldgneiss remember states.txt NEW DESK")
    tables = rows(name, "select name from sqlite_schema where type = 'table' order by name")
    if tables is not None and tables != [("desk",), ("device",)]:
        names = ", ".join(table for (table,) in tables) or "none"
        return f"it is another database, and no memory of a desk (its tables: {names})"
    return ("it is damaged, or another program wrote it, and no desk starts with it; keep it, and "
            f"begin no new one with the same keys: {PAGE}")


def what_file(name):
    """What the file is that is no memory."""
    with open(name, "rb") as file:
        text = file.read(START)
    if text.startswith(DATABASE):
        return what_database(name)
    if kind := kind_of(text):
        return (f"it is {FORMS[kind].name}, and no memory; the order is KEYS IMAGE POLICY "
                "MEMORY")
    return "it is no memory of a desk; name one"


def log_of(name):
    """Where the log of a memory stands."""
    return f"{os.path.realpath(name) if os.path.islink(name) else name}-wal"


def bytes_of(name):
    """Those of a file, None where it can't be read."""
    try:
        with open(name, "rb") as file:
            return file.read()
    except OSError:
        return None


def with_new(name, what):
    """What a memory is that was not founded, and how a desk comes to one."""
    if is_alone(bytes_of(name), bytes_of(log_of(name))):
        return f"{what}, and {log_of(name)} is of one that is lost: bring that back, or see {PAGE}"
    return (f"{what}; a new desk begins with foldgneiss found {shlex.quote(name)} DESK, and one "
            f"that served before as {PAGE} says")


def what_log(name):
    file, log = bytes_of(name), log_of(name)
    if is_alone(file, bytes_of(log)):
        return with_new(name, "it is empty or cut off")
    if is_begun(file, bytes_of(log)):
        return "its making was cut off: make it again, by the same foldgneiss found or remember"
    return (f"{log} is of another memory, or of another time; if remember made {name} since, "
            f"mv {shlex.quote(log)} away; if {name} is a copy, it is an older one: {PAGE}")


def device_of(keys, number):
    """The name of a device by its number in a file of keys, and its key."""
    with open(keys, "rb") as file:
        return [*READERS["keys"](file.read(FILES["keys"].limit)).items()][number - 1]


def owner_of(name, mark):
    """The name under which a memory has a key; None where that is not known."""
    entries = rows(name, "select name, key from device order by place") or []
    return next((owner for owner, key in entries if key == mark), None)


def desk_that_has(name, device):
    """The desk that a device has gone to, as a memory has it, or where that stands."""
    gone = [desk for each, desk in rows(name, "select name, gone from device order by place") or []
            if each == device]
    return gone[-1] if gone and gone[-1] else f"the desk that foldgneiss states {name} names"


def taken_key(names, number):
    """The device of KEYS with a key that is another's."""
    device, key = device_of(names["keys"], number)
    memory, owner = names["memory"], owner_of(names["memory"], key_mark(key))
    if owner in (None, device.decode()):
        return f"{names['keys']}: {device.decode()} has a key that is another's in {memory}"
    return (f"{names['keys']}: {device.decode()} has the key that {owner} has in {memory}; give "
            "it a key of its own, or its old name")


def gone_device(names, number):
    """The device of KEYS that another desk has."""
    device = device_of(names["keys"], number)[0].decode()
    return (f"{names['keys']}: {device} has gone to {desk_that_has(names['memory'], device)}: take "
            f"its line out, or adopt it from there")


def about_move(line, names):
    """Why a device does not move."""
    device, memory = names["name"], names["memory"]
    if line == NO_DEVICE:
        return (f"it has no {device}, see foldgneiss states {shlex.quote(memory)}; one that was "
                "never asked at this desk needs no move")
    if line == OWN_DESK:
        return f"it is that of {names['desk']} itself; name the desk that gets {device}"
    if line == AS_OFTEN:
        return f"{device} moved {VALUES['counter'].most} times; give it another name and key"
    gone = desk_that_has(memory, device)
    return f"{device} has gone to {gone}, which alone can let it go on"


def hints(kind, fault, text, names):
    """What a line of moves is of that is taken by another desk alone."""
    if (kind, fault.kind) != ("moved", "Place"):
        return []
    words = text.split(b"\n")[fault.line - 1].split()
    own = rows(names["memory"], "select name from desk") or [("another desk",)]
    return [f"it says that {words[1].decode()} is gone to {words[3].decode()}, and "
            f"{names['memory']} is the memory of {own[0][0]}"] if words[:1] == [b"moved"] else []


def number_in(line, form):
    """The number of a device in a line of this form; None of another line."""
    begin, end = form.split("{}")
    number = line[len(begin):len(line) - len(end)]
    return int(number) if line == form.format(number) and number.isdigit() else None


def about_memory(line, names):
    """What is wrong with a memory that was refused with a line of its own, and what mends it."""
    name = names["memory"]
    if line == OTHER_LOG:
        return what_log(name)
    if line == FOUNDED:
        return "it is there already; name a file that is not, for the new memory"
    if line in (NO_DEVICE, OWN_DESK, AS_OFTEN, ELSEWHERE):
        return about_move(line, names)
    if where := wrong_place(name) or no_access(name):
        return where
    if line == ABSENT:
        return with_new(name, "there is no such file")
    if line == UNFOUNDED:
        return with_new(name, "it is empty, or its making was cut off")
    return what_file(name) if line == DAMAGED else None


def explanation(status, line, names):
    """The lines on a run that was refused for its memory; the names of its files by their kinds."""
    name = names["memory"]
    if status == 17:
        return [f"MEMORY {name}: another program has it open, a desk or sqlite3; "
                f"fuser {shlex.quote(name)} names it"]
    try:
        for form, about in ((TAKEN, taken_key), (GONE, gone_device)):
            if number := number_in(line, form):
                return [about(names, number)]
        what = about_memory(line, names) if status == 16 else (
            wrong_place(name) or no_access(name) or no_room(name)
            or "the disk failed; dmesg may say why")
        return [what and f"MEMORY {name or repr(name)}: {what}"]
    except (OSError, Fault) as error:
        return [f"MEMORY {name or repr(name)}: {error}"]
