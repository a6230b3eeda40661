#!/usr/bin/env python3
"""Writes into crates/cases_program/stdout what is due for each row of its stdin, before what is due for its parts."""
import os
import sys
sys.dont_write_bytecode = True
from rows import CRATE, agrees, all_rows, due, printed

text = ""
for name, lines, statement in all_rows():
    came = due(lines, statement)
    assert came is not None, "%s: a row with requests or calls has to be stated whole" % name
    assert agrees(statement, came), "%s: the model says otherwise than the statement:\n%s" % (name, came)
    text += "=== %s\n%s" % (name, came)
_, parts = printed()
with open(os.path.join(CRATE, "stdout"), "w", encoding="utf-8") as f:
    f.write(text + parts)
