#!/usr/bin/env python3
"""Makes stores of worked rows: stores.py OFFICE FOLDER. Each row of bags alone that ends by `> facts` is replayed, one call
of the program for what is between two openings. The store of the first one is FOLDER/1.store, and FOLDER/1.facts has
the lines that are due for its facts, and so on."""
import os
import subprocess
import sys
sys.dont_write_bytecode = True
from rows import HERE, all_rows, bag_of, due, steps_of

SETUP = os.path.join(HERE, "..", "..", "examples", "setup.conf")


def replayed_over(office, lines, store):
    """What the program prints for the bags of a row over a file, with its exit statuses."""
    came = ""
    for what, text in steps_of(lines):
        if what == "bag":
            done = subprocess.run([office, "replay", "--conf", SETUP, "--db", store],
                                  input=bag_of(what, text).encode(), capture_output=True)
            came += done.stdout.decode() + "status %d\n" % done.returncode
    return came


def main(office, folder):
    count = 0
    for name, lines, statement in all_rows():
        steps = steps_of(lines)
        if steps[-1:] != [("facts", "")] or {what for what, _ in steps} - {"bag", "reopen", "facts"}:
            continue
        count += 1
        store, text = os.path.join(folder, str(count)), due(lines, statement)
        end = text.rindex("facts ")
        came = replayed_over(office, lines, store + ".store")
        assert came == text[:end], "%s: came\n%s" % (name, came)
        with open(store + ".facts", "w", encoding="utf-8") as f:
            f.write(text[end:])
    print("%d stores of worked rows" % count)


if __name__ == "__main__":
    main(sys.argv[1], sys.argv[2])
