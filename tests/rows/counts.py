#!/usr/bin/env python3
"""Counts what the random rows are about, by what is due for them: counts.py [FILE], without it of crates/cases_program.
Exit status 1 if something comes less than ten times."""
import os
import re
import sys
sys.dont_write_bytecode = True
sys.path.append(os.path.dirname(os.path.dirname(os.path.abspath(__file__))))
from row_counts import CHANGES, NEEDS, UPDATES, count_runs, needs_of, print_counts, runs_of
from rows import CRATE, judged, read, rows_of

WHAT = UPDATES + CHANGES + NEEDS + ["kept facts of kind %d" % kind for kind in range(1, 9)]


def due_of(lines):
    """What is due for a row."""
    return judged(lines, "..\n")


def counts_of(lines):
    """How often each of these comes in a row, and how many runs it has."""
    counts, due = dict.fromkeys(WHAT, 0), due_of(lines)
    runs = runs_of(due)
    count_runs(counts, runs)
    for kind in re.findall(r"^fact (\d) ", due, flags=re.M):
        counts["kept facts of kind " + kind] += 1
    for what in needs_of(lines, due, due_of):
        counts[what] += 1
    return counts, len(runs)


def main():
    text = open(sys.argv[1], encoding="utf-8").read() if len(sys.argv) > 1 else read(CRATE, "data/random_rows")
    rows, runs, sums = rows_of(text), 0, dict.fromkeys(WHAT, 0)
    for _, lines in rows:
        counts, some = counts_of(lines)
        runs += some
        for what, count in counts.items():
            sums[what] += count
    is_enough = print_counts(sums)
    print("%d rows of %d runs, opened again %d times" % (len(rows), runs, text.count("\n> reopen\n")))
    return 0 if is_enough else 1


if __name__ == "__main__":
    sys.exit(main())
