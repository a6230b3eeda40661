#!/usr/bin/env python3
"""What a service says on standard error of the mail that it gets, at both levels.

  journal.py PROGRAM [PORT]

PROGRAM is the built program, `crates/office/out/office`. Exit status 0 if each line is as it is due.
"""
import os
import sys
sys.dont_write_bytecode = True
sys.path.insert(0, os.path.join(os.path.dirname(os.path.abspath(__file__)), ".."))
from serving import Service

NONE = "From: %s\nNumber: %d\nKind: none\n"
# A path, a body, further fields; the line about what is held, and the line about what is refused.
ROWS = [
    ("/mail", NONE % ("ftp", 1), {}, "office: ftp 1: held ftp 1", None),
    ("/mail/rt", NONE % ("rt", 1), {"X-Remote-User": "anna"}, "office: rt 1 at /mail/rt by anna: held rt 1", None),
    ("/mail/rt", NONE % ("rt", 2), {"x-remote-USER": "  anna-b "}, "office: rt 2 at /mail/rt by anna-b: held rt 2", None),
    ("/mail/rt", NONE % ("ftp", 2), {"X-Remote-User": "anna"}, None,
     "office: ftp 2 at /mail/rt by anna: refused OtherSender"),
    ("/mail", NONE % ("ftp", 1) + "X: y\n", {}, None, "office: ftp 1: refused OtherText"),
    ("/mail", "From: ftp\n", {"X-Remote-User": "an na"}, None, "office: a message: refused MissingField Number"),
    ("/mail", NONE % ("bd", 1), {"X-Remote-User": "a b"}, "office: bd 1: held bd 1", None),
    ("/lint", NONE % ("bd", 2), {}, None, None),
    ("/settle", "", {}, None, None),
]


def lines(program, port, level):
    """What a service prints of all rows, at this level."""
    with Service(program, port=port, env={**os.environ, "OFFICE_LOG": level}) as service:
        for path, body, fields, _, _ in ROWS:
            service.ask("POST", path, body.encode(), fields)
    return service.said.splitlines()


def main():
    program = os.path.abspath(sys.argv[1])
    port = int(sys.argv[2]) if len(sys.argv) > 2 else 18790
    faults = 0
    for level in ("", "held", "all"):
        due = [line for row in ROWS for line in (row[3] if level == "held" else None, row[4]) if line]
        got = lines(program, port, level)
        if got != due:
            faults += 1
            print("FAIL at level %r: due %r, got %r" % (level, due, got))
    print("%d tried, %d faults" % (3 * len(ROWS), faults))
    sys.exit(1 if faults else 0)


main()
