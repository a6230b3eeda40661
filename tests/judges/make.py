#!/usr/bin/env python3
"""Writes crates/cases_libraries/data/random_suites, and the end of crates/cases_libraries/stdout: what is due for the
rows of data/rule_rows, and for these suites."""
import sys
sys.dont_write_bytecode = True
from rows import DUE, ROWS, SUITES, due_rows, parts, printed, read
from suites import all_suites


def write(path, text):
    with open(path, "w", encoding="utf-8") as f:
        f.write(text)


suites, (before, _) = all_suites(), parts()
write(SUITES, suites)
write(DUE, before + printed(due_rows(read(ROWS)) + due_rows(suites)))
