"""A store of schema 1, which had no place for the last delays: its mail, what it holds, and what an opening makes of it.

`stops/stopped.py` stops an opening of it at each call, and `memory/refused.py` refuses each growth of one.
"""
import os
import shutil
import sqlite3

TEXTS = [
    b"From: ftp\nNumber: 1\nKind: upload\nSource: foo\nVersion: 1.0-1\nUrgency: medium\nDay: 2025-03-01\n",
    b"From: bd\nNumber: 1\nKind: build\n\nPackage: foo\nVersion: 1.0-1\nArchitecture: amd64\n",
    b"From: rt\nNumber: 1\nKind: delays\nLow: 20\nMedium: 6\nHigh: 3\nCritical: 1\n",
    b"From: clock\nNumber: 1\nKind: run\nDay: 2025-03-06\nCovers: ftp 1, bd 1, rt 1\n",
]
NEXT_ORDER = b"From: clock\nNumber: 2\nKind: run\nDay: 2025-03-07\nCovers:\n"
REPORTS = [
    (b"excuses 1 2025-03-06\nfoo - 1.0-1\n age 5 of 6\n too young\n not a candidate\n", b"update 1 2025-03-06\n"),
    (b"excuses 2 2025-03-07\nfoo - 1.0-1\n age 6 of 6\n candidate\n", b"update 2 2025-03-07\naccept foo 1.0-1\n"),
]
TESTING = b"testing 2\nsource foo 1.0-1\nbinary amd64 foo 1.0-1 foo\n"
ENDS = ("", "-wal", "-shm")


def remove(db):
    for end in ENDS:
        if os.path.exists(db + end):
            os.remove(db + end)


def copy(db, to):
    remove(to)
    for end in ENDS:
        if os.path.exists(db + end):
            shutil.copy(db + end, to + end)


def make_old(db):
    """Makes a store that the program wrote one of schema 1."""
    with sqlite3.connect(db) as writer:
        writer.execute("DROP TABLE fact_delays")
        writer.execute("UPDATE office SET schema = 1")
    writer.close()


def held_in(db, room):
    """The schema's number, the numbers of the last delays (none where there is no table for them), how many texts are
    kept, and the reports: of a copy in `room`, since reading a log may write the file."""
    copy(db, room)
    with sqlite3.connect(room) as reader:
        tables = {name for name, in reader.execute("SELECT name FROM sqlite_schema WHERE type = 'table'")}
        schema = reader.execute("SELECT schema FROM office").fetchone()[0]
        delays = [number for number, in reader.execute("SELECT number FROM fact_delays")] if "fact_delays" in tables else None
        mail = reader.execute("SELECT count(*) FROM mail").fetchone()[0]
        reports = [tuple(text.encode() for text in row) for row in reader.execute("SELECT excuses, updates FROM run ORDER BY number")]
    reader.close()
    return schema, delays, mail, reports


OLD = (1, None, len(TEXTS), REPORTS[:1])
NEW = (2, [1], len(TEXTS), REPORTS[:1])
