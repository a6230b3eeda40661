#!/usr/bin/env python3
"""Holds model.py against the statements, and the rows of crates/cases_program/stdout against both. Exit status 0 where
all agree."""
import sys
sys.dont_write_bytecode = True
from rows import agrees, all_rows, due, in_memory, is_whole, judged, printed

counts = {"stated whole, the same by the model": 0, "stated in part, completed by the model": 0,
          "stated whole, not judged by the model": 0}
faults, text = 0, ""
for name, lines, statement in all_rows():
    came = judged(lines, statement)
    if came is not None and not agrees(in_memory(statement), came):
        print("the model says otherwise: %s\n%s" % (name, came))
        faults += 1
    kind = "not judged" if came is None else "the same" if is_whole(statement) else "in part"
    counts[next(key for key in counts if kind in key)] += 1
    text += "=== %s\n%s" % (name, due(lines, statement))
if text != printed()[0]:
    print("stdout isn't what is due: run make.py")
    faults += 1
for key, count in counts.items():
    print("%d rows %s" % (count, key))
sys.exit(1 if faults else 0)
