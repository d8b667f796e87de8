"""The memory of a desk of version 1, which an earlier program kept: its states as `remember` reads
them.
"""
from memory_log import PAGE, has_sum
from sqlite_rows import rows

# The columns of its one table, in their order.
COLUMNS = ("place", "name", "key", "count", "outstanding", "number", "answer")


def is_old(name):
    """Whether a file is such a memory; False too where this Python reads no database."""
    tables = rows(name, "select name from sqlite_schema where type = 'table'")
    columns = rows(name, "select name from pragma_table_info('device')")
    return tables == [("device",)] and columns == [(column,) for column in COLUMNS]


def is_whole(name):
    """Whether each page of a file has its sum."""
    with open(name, "rb") as file:
        pages = [*iter(lambda: file.read(PAGE), b"")]
    return all(map(has_sum, pages))


def states_text(name):
    """A line for each row, the oldest first."""
    return "".join(
        f"state {device} key {key.hex()} count {count} outstanding "
        f"{'none' if outstanding is None else outstanding} last "
        f"{'none' if number is None else f'{number} {answer}'}\n"
        for device, key, count, outstanding, number, answer in rows(
            name, f"select {', '.join(COLUMNS[1:])} from device order by place"))
