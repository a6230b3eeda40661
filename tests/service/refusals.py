#!/usr/bin/env python3
"""Why a run refuses hints: what `office try` and `POST /try` print after the changes, and `office why --hint`.

  refusals.py PROGRAM [PORT]

PROGRAM is the built program, `crates/office/out/office`. Each worked case is asked over a bag, over a store, and of a
service, and all that is printed has to be as it is written here. Then its hints are mailed and covered, and asked about
by their numbers: of the run that covers them the same lines are due. tests/rows/model.py has to agree with each. Exit
status 0 if all was right.
"""
import os
import re
import sys
import tempfile

sys.dont_write_bytecode = True
HERE = os.path.dirname(os.path.abspath(__file__))
sys.path[:0] = [HERE, os.path.join(HERE, "..", "rows")]
from asked import hint_fault, tried
from letters import Letters, dead_end
from model import Office
from rows import mail
from tries import CONF, Tries

tries = Tries([*sys.argv[:2], "", *sys.argv[2:]], port=18795)
want = tries.want

TOOL = """1 tool 1-1 of tool in testing, needs libfoo1: nothing
leaves libfoo1 1-1
unstable libfoo1 1-1 of libfoo %s
"""
ALBUM = """refused rt %d uninstallable amd64 album
1 album 1-1 of album comes in, needs viewer: 2
2 viewer 1-1 of viewer comes in, needs libfoo2 (>= 2): nothing
unstable libfoo2 2-1 of libfoo waits
"""


def later_turn():
    """A library whose new version has another package, and a program that its old one still serves."""
    letters = Letters()
    letters.source("lib", "1-1", "2025-03-01", ("lib1", ""))
    letters.order("2025-03-20")
    letters.source("lib", "2-1", "2025-03-21", ("lib2", ""))
    letters.source("app", "1-1", "2025-03-21", ("app", "lib1"))
    letters.source("beside", "1-1", "2025-03-21", ("beside", "absent"))
    letters.order("2025-03-22")
    return letters


# A case, the words of the command, and all lines that are due after those on changes.
ROWS = [
    # Two groups that can't move: of each its own lines.
    (
        dead_end,
        ["easy album/1-1 viewer/1-1", "easy album/1-1 libfoo/2-1 viewer/1-1"],
        [],
        ALBUM % 2 + "refused rt 3 uninstallable amd64 tool\n" + TOOL % "isn't current",
    ),
    # What isn't a candidate has no lines, nor has a group that moves.
    (dead_end, ["easy codec/1-1", "block tool", "unblock codec/1-1"], [], ""),
    # An item of a removal is judged after those before it, and not after those after it.
    (dead_end, ["remove tool/1-1 libfoo/1-1"], [], ""),
    (
        dead_end,
        ["remove libfoo/1-1 tool/1-1"],
        [],
        "refused rt 2 uninstallable amd64 tool\n" + TOOL % "isn't current",
    ),
    # A removal comes before each group, also before one of a hint with a smaller number.
    (dead_end, ["easy album/1-1 libfoo/2-1 viewer/1-1", "remove tool/1-1"], [], ""),
    # A group is judged after the groups of the hints before it: `app` is in testing then, and rests on `lib1`.
    (
        later_turn,
        ["easy app/1-1", "easy lib/2-1"],
        ["--day", "2025-04-10"],
        """refused rt 2 uninstallable amd64 app
1 app 1-1 of app in testing, needs lib1: nothing
leaves lib1 1-1
unstable lib1 1-1 of lib isn't current
""",
    ),
    # And not after those after it.
    (
        later_turn,
        ["easy lib/2-1", "easy app/1-1"],
        ["--day", "2025-04-10"],
        """refused rt 2 uninstallable amd64 app
1 app 1-1 of app comes in, needs lib1: nothing
unstable lib1 1-1 of lib isn't current
""",
    ),
    # What comes in with the group isn't left to wait, and what unstable hasn't is printed.
    (
        later_turn,
        ["easy app/1-1 beside/1-1"],
        ["--day", "2025-04-10"],
        """refused rt 1 uninstallable amd64 beside
1 beside 1-1 of beside comes in, needs absent: nothing
unstable nothing
""",
    ),
]


def office_of(texts):
    office = Office()
    for text in texts:
        office.deliver(text)
    return office


def parted(told):
    """What is printed up to the first line on a hint that is refused, and from there on."""
    lines = told.splitlines(keepends=True)
    first = next((place for place, line in enumerate(lines) if line.startswith("refused ")), len(lines))
    return "".join(lines[:first]), "".join(lines[first:])


def worked():
    """The worked cases, over a bag, over a store and by a service."""
    for case, hints, terms, due in ROWS:
        what, texts = "%s %s" % (case.__name__, hints), case().texts
        bag, office = mail(texts), office_of(texts)
        told, status = tries.call("try", *hints, *terms, "--conf", CONF, bag=bag)
        want(what, due, parted(told)[1])
        day = terms[terms.index("--day") + 1] if terms else None
        want(what + ", by the model", tried(office, hints, day), (told, status))
        with tempfile.TemporaryDirectory() as folder:
            store = os.path.join(folder, "store")
            tries.call("replay", "--conf", CONF, "--db", store, bag=bag)
            over = tries.call("try", *hints, *terms, "--conf", CONF, "--db", store)
            want(what + ", over a store", (told, status), over)
            path = "/try/" + day if day else "/try"
            with tries.serving(2, "--db", store) as service:
                for time in "first", "again":
                    got = service.ask("POST", path, "\n".join(hints))
                    want("%s, by a service, %s" % (what, time), (200, told), got)


def parts_of(due):
    """The lines of each refusal, under the number of its hint."""
    parts = {}
    for part in re.split("(?m)^(?=refused )", due)[1:]:
        number = int(part.split(" ")[2])
        parts[number] = parts.get(number, "") + part
    return parts


def mailed():
    """What the run that covers the hints of the worked cases made of each, over a bag and over a store, also once a later run
    is finished."""
    for case, hints, terms, due in ROWS:
        letters, parts = case(), parts_of(due)
        first = letters.numbers["rt"] + 1
        for hint in hints:
            letters.add("rt", "hint", "Hint: " + hint)
        letters.order(terms[terms.index("--day") + 1] if terms else "2025-04-10")
        office = office_of(letters.texts)
        run = office.finished
        letters.order("2025-04-11")
        later = letters.texts
        for what, texts, words in (("last", later[:-1], []), ("earlier", later, ["--run", str(run)])):
            for number in range(first, first + len(hints)):
                name = "%s %s, hint %d of the %s run" % (case.__name__, hints, number, what)
                ask = ["why", "--hint", str(number), *words, "--conf", CONF]
                told, status = tries.call(*ask, bag=mail(texts))
                want(name, 0, status)
                want(name + ", its lines", parts.get(number, ""), parted(told)[1])
                want(name + ", by the model", None, hint_fault(office, number, told))
                with tempfile.TemporaryDirectory() as folder:
                    store = os.path.join(folder, "store")
                    tries.call("replay", "--conf", CONF, "--db", store, bag=mail(texts))
                    want(name + ", over a store", (told, status), tries.call(*ask, "--db", store))


def words():
    """Numbers that are none, runs that aren't finished, and hints that a run doesn't cover or that were taken back."""
    letters = dead_end()
    letters.add("rt", "unhint", "Cancels: 1")
    letters.order("2025-04-11")
    bag = mail(letters.texts)
    rows = [
        (["1"], "why 3 rt 1\ncancelled\n", 0),
        (["1", "--run", "2"], "why 2 rt 1\nnothing decided\n", 0),
        (["1", "--run", "1"], "why 1 rt 1\nunknown\n", 1),
        (["2"], "why 3 rt 2\nunknown\n", 1),
        (["1", "9"], "why 3 rt 1\ncancelled\nwhy 3 rt 9\nunknown\n", 1),
        (["1", "--run", "4"], "", 1),
        (["0"], "", 2),
        (["x"], "", 2),
        (["1000000000"], "", 2),
        ([], "", 2),
    ]
    for asked, due, status in rows:
        want("why --hint %s" % asked, (due, status), tries.call("why", "--hint", *asked, "--conf", CONF, bag=bag))


worked()
mailed()
words()
tries.end()
