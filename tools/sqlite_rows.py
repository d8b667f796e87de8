"""Rows of a database, where this Python can read one."""
import contextlib
import os
import urllib.parse

try:
    import sqlite3
except ImportError:  # (a Python that was made without it)
    sqlite3 = None


def rows(name, question):
    """What a database answers, read as it stands; None where it cannot be read."""
    if not sqlite3:
        return None
    path = urllib.parse.quote(os.path.realpath(name))
    try:
        with contextlib.closing(sqlite3.connect(f"file:{path}?immutable=1", uri=True)) as database:
            return database.execute(question).fetchall()
    except sqlite3.Error:
        return None
