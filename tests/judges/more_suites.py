#!/usr/bin/env python3
"""Random suites over the rules by the built program: more_suites.py PROGRAM FIRST-LAST. PROGRAM is the built
crates/cases_libraries/out/cases_libraries. For each seed it runs a suite about reasons and one about moves, and what it
prints must be what judge.py says. The last line counts; the exit status is 1 where a suite differs."""
import difflib
import os
import subprocess
import sys
import tempfile
sys.dont_write_bytecode = True
from rows import DRAWN, ROWS, SUITES, due_rows, rows_of
from suites import suites_of


def printed_by(program, suites):
    """What the program prints for suites, where its other files and its input have no rows, by their names."""
    with tempfile.TemporaryDirectory() as folder:
        for path, text in ((DRAWN, ""), (ROWS, ""), (SUITES, suites)):
            with open(os.path.join(folder, os.path.basename(path)), "w", encoding="utf-8") as file:
                file.write(text)
        done = subprocess.run([os.path.abspath(program)], cwd=folder, stdin=subprocess.DEVNULL, capture_output=True)
    if done.returncode:
        sys.exit("status %d: %s" % (done.returncode, done.stderr.decode(errors="replace")))
    return dict(rows_of(done.stdout.decode()))


def main(program, seeds):
    first, _, last = seeds.partition("-")
    drawn = range(int(first), int(last or first) + 1)
    suites = suites_of(drawn, drawn)
    came, wrong = printed_by(program, suites), 0
    for name, due in due_rows(suites):
        lines = came.get(name, "") + "\n"
        if lines != due:
            wrong += 1
            print(name)
            print("".join(difflib.unified_diff(due.splitlines(True), lines.splitlines(True), "due", "came")))
    print("%d random suites, %d of them wrong" % (2 * len(drawn), wrong))
    return 1 if wrong else 0


if __name__ == "__main__":
    sys.exit(main(sys.argv[1], sys.argv[2]) if len(sys.argv) == 3 else __doc__)
