"""What recovery takes of the log beside a memory, and whether it is that of the memory's last
opening, by SQLite's formats of databases and logs, and by docs/formats.md.
"""
import struct

PAGE = 4096
SUM = 8  # bytes at the end of a page
FILE_HEADER = 100  # bytes of a database
LOG_HEADER = 32
FRAME_HEADER = 24
FRAME = FRAME_HEADER + PAGE
VERSION_AT = 60  # SQLite's user version in the first page
MAGIC = {0x377F0682: "<", 0x377F0683: ">"}  # of a log, with the order of the bytes in its sums


def sums(data, order, first=0, second=0):
    """Both sums of SQLite's over the words of some bytes, behind these."""
    for left, right in struct.iter_unpack(f"{order}II", data):
        first = first + left + second & 0xFFFFFFFF
        second = second + right + first & 0xFFFFFFFF
    return first, second


def has_sum(page):
    """Whether a page is whole, with the sum of SQLite's checksum extension at its end."""
    return len(page) == PAGE and page[-SUM:] == struct.pack("<II", *sums(page[:-SUM], "<"))


def frames(log):
    """The pages of a log that recovery takes, each behind its number: up to the last commit."""
    header = struct.unpack(">8I", log[:LOG_HEADER]) if len(log) >= LOG_HEADER else (0,) * 8
    order, salts = MAGIC.get(header[0]), header[4:6]
    if not order or header[2] != PAGE or sums(log[:24], order) != header[6:]:
        return []
    taken, waiting, running = [], [], header[6:]
    for at in range(LOG_HEADER, len(log) - FRAME + 1, FRAME):
        number, committed, *own = struct.unpack(">6I", log[at:at + FRAME_HEADER])
        page = log[at + FRAME_HEADER:at + FRAME]
        running = sums(page, order, *sums(log[at:at + 8], order, *running))
        if tuple(own) != (*salts, *running) or number == 0:
            break
        waiting.append((number, page))
        if committed:
            taken, waiting = taken + waiting, []
    return taken


def version(page):
    return int.from_bytes(page[VERSION_AT:VERSION_AT + 4], "big")


def has_pages(log):
    """Whether recovery takes something of a log, which may not be there."""
    return bool(log and frames(log))


def is_alone(file, log):
    """Whether a log with pages stands beside no database: that is lost."""
    return len(file or b"") < FILE_HEADER and has_pages(log)


def is_next(file, log):
    """Whether the last first page of a log has the version of a database's, or the next one."""
    firsts = [page for number, page in frames(log or b"") if number == 1]
    return not firsts or (version(firsts[-1]) - version(file)) % (1 << 32) < 2


def is_begun(file, log):
    """Whether a log with pages stands beside a database of which no commit was copied: the making
    of it was cut off.
    """
    return has_sum((file or b"")[:PAGE]) and version(file) == 0 and not is_next(file, log)


def is_of_another(file, log):
    """Whether a log with pages is of another opening than the database beside it. Where the first
    page of that is not whole it was copied when the power was cut, and out of this log.
    """
    return has_sum((file or b"")[:PAGE]) and version(file) != 0 and not is_next(file, log)
