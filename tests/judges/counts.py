#!/usr/bin/env python3
"""Counts what the random suites of crates/cases_libraries are about, by what the judge says of them. Exit status 1 where
something comes less than ten times."""
import os
import re
import sys
sys.dont_write_bytecode = True
sys.path.append(os.path.dirname(os.path.dirname(os.path.abspath(__file__))))
from row_counts import CHANGES, NEEDS, UPDATES, count_runs, needs_of, print_counts, runs_of
from rows import SUITES, due, read, rows_of

REASONS = ["too young", "new bug", "no binaries", "missing on amd64", "missing on arm64", "missing on all", "blocked",
           "removal asked", "candidate", "not a candidate"]
EXCUSES = ["excuses with the line: " + reason for reason in REASONS]
FIELDS = ["Pre-Depends", "Depends", "Provides"]
OF_FIELDS = ["rows that need the field " + field for field in FIELDS] + ["rows that need a second alternative"]
GIVEN = ["rows that begin with a testing", "easy hints of two sources accepted"]
WHAT = UPDATES + CHANGES + EXCUSES + NEEDS + OF_FIELDS + GIVEN


def fields_needed(lines, came):
    """The fields without which the judge says something else of a row."""
    for field in FIELDS:
        if due(re.sub(r"(?m)^%s: .*\n" % field, "", lines)) != came:
            yield "rows that need the field " + field
    if due(re.sub(r"(?m)^((?:Pre-)?Depends: [^|\n]*[^|\n ]) \| .*$", r"\1", lines)) != came:
        yield "rows that need a second alternative"


def things_in(lines, came):
    """What a row has of OF_FIELDS, NEEDS, GIVEN and EXCUSES, each once for each time that it comes."""
    yield from needs_of(lines + "\n", came, lambda steps: due(steps[:-1]))
    yield from fields_needed(lines, came)
    yield from GIVEN[:1] * ("\n> given " in lines)
    yield from GIVEN[1:] * len(re.findall(r"(?m)^easy \d+ accept \S+ \S+ \S+ \S+$", came))
    for reason in REASONS:
        yield from ["excuses with the line: " + reason] * len(re.findall(r"(?m)^ %s( \d+)?$" % reason, came))


def counts_of(lines):
    """How often each of these comes in a row."""
    counts, came = dict.fromkeys(WHAT, 0), due(lines)
    count_runs(counts, runs_of(came))
    for what in things_in(lines, came):
        counts[what] += 1
    return counts


def main():
    rows, sums = rows_of(read(SUITES)), dict.fromkeys(WHAT, 0)
    for _, lines in rows:
        for what, count in counts_of(lines).items():
            sums[what] += count
    is_enough = print_counts(sums)
    print("%d random suites" % len(rows))
    return 0 if is_enough else 1


if __name__ == "__main__":
    sys.exit(main())
