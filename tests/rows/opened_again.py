#!/usr/bin/env python3
"""Random rows by the built program: opened_again.py OFFICE FIRST-LAST. For each seed the row of reopened_rows.py is replayed
over a file, one call of the program for what is between two openings. What is printed, the exit statuses, and the kept
facts or what a check prints must be what model.py says. The last line counts; the exit status is 1 where a row
differs."""
import difflib
import os
import sqlite3
import subprocess
import sys
import tempfile
sys.dont_write_bytecode = True
from reopened_rows import row_of
from rows import judged, rows_of
from stores import SETUP, replayed_over

FACTS = """SELECT kind, sender, number, place FROM fact UNION ALL SELECT 8, 3, number, 0 FROM fact_delays
    ORDER BY kind, sender, number, place"""


def facts_in(store):
    connection = sqlite3.connect(store)
    rows = connection.execute(FACTS).fetchall()
    connection.close()
    return "facts %d\n" % len(rows) + "".join("fact %d %d %d %d\n" % row for row in rows)


def checked(office, store):
    """What a check of a store prints, and its exit status."""
    done = subprocess.run([office, "check", "--conf", SETUP, "--db", store], capture_output=True)
    return done.stdout.decode() + "status %d\n" % done.returncode


def came_of(office, lines, folder):
    """What the program prints for a row over a new store, and then the facts, or what a check prints."""
    store = os.path.join(folder, "store")
    for end in ("", "-wal", "-shm"):
        if os.path.exists(store + end):
            os.remove(store + end)
    came = replayed_over(office, lines, store)
    return came + (facts_in(store) if lines.endswith("> facts\n") else checked(office, store))


def main(office, seeds):
    first, _, last = seeds.partition("-")
    rows, runs, wrong = 0, 0, 0
    with tempfile.TemporaryDirectory() as folder:
        for seed in range(int(first), int(last or first) + 1):
            (name, lines), = rows_of(row_of(seed))
            due, came = judged(lines, "..\n"), came_of(office, lines, folder)
            rows, runs = rows + 1, runs + due.count("\nexcuses ")
            if came != due:
                wrong += 1
                print(name)
                print("".join(difflib.unified_diff(due.splitlines(True), came.splitlines(True), "due", "came")))
    print("%d rows of %d runs, %d of them wrong" % (rows, runs, wrong))
    return 1 if wrong else 0


if __name__ == "__main__":
    sys.exit(main(sys.argv[1], sys.argv[2]))
