#!/usr/bin/env python3
"""Checks that the suites of crates/cases_libraries are those that the generator draws, that the judge says for each row
of the rules written by hand what its statement says, and that the end of stdout is what is due. The last line is `N
passed, N failed`; the exit status is 1 if one failed."""
import sys
sys.dont_write_bytecode = True
from rows import ROWS, STATEMENTS, SUITES, due_rows, parts, printed, read, rows_of
from suites import all_suites

told = {True: 0, False: 0}


def tell(holds, what):
    told[holds] += 1
    if not holds:
        print("not so: %s" % what)


suites, rows, (_, stated) = read(SUITES), due_rows(read(ROWS)), parts()
statements = [(about, text + "\n") for about, text in rows_of(read(STATEMENTS))]
tell(suites == all_suites(), "data/random_suites is what the generator draws (run make.py)")
tell([about for about, _ in rows] == [about for about, _ in statements], "each row has a statement at its place")
for (about, came), (_, statement) in zip(rows, statements):
    tell(came == statement, "the judge and the statement agree: %s\n%s" % (about, came))
of_suites = due_rows(suites)
for due, came in zip(rows_of(printed(rows + of_suites)), rows_of(stated)):
    tell(due == came, "stdout has what is due for %s (run make.py)" % due[0])
tell(printed(rows + of_suites) == stated, "stdout is what is due, and no more (run make.py)")
print("%d rows with statements, %d random suites" % (len(statements), len(of_suites)))
print("%d passed, %d failed" % (told[True], told[False]))
sys.exit(1 if told[False] else 0)
