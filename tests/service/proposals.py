#!/usr/bin/env python3
"""What `office propose` and `GET /propose` print, compared with tests/rows/groups.py.

  proposals.py PROGRAM [FIRST-LAST [PORT]]

PROGRAM is the built program, `crates/office/out/office`. First come worked cases, with all that is printed of them.
Then each seed from FIRST to LAST (1-60) draws an archive of three to seven sources of which some wait. Each hint that
is proposed has to be taken by a trial of all of them, and to move its group there, by the model and by the program;
mailed under the numbers that were told, and covered by the next order, each has to move its group in that run. What
moves without the hints has to move with them. The counts that are told have to be those of that run. A source that is
said to be freed has to move by the hints that are told of it. Each source that blocks of lines show to be stuck has to
wait for good whatever groups are tried, and a block has to be right, line by line. A source that is no candidate has to
have the line that the model gives it. What the search finds is counted beside what all sequences of groups move. Exit
status 0 where all was as it is due.
"""
import os
import random
import re
import shutil
import sys
import tempfile

sys.dont_write_bytecode = True
HERE = os.path.dirname(os.path.abspath(__file__))
sys.path[:0] = [HERE, os.path.join(HERE, "..", "rows")]
from asked import tried
from groups import Behind
from letters import Letters, dead_end
from model import Office, SENDERS
from rows import mail
from tries import CONF, Tries

tries = Tries(sys.argv, port=18790)
want = tries.want
COUNTED = ["wait", "can move", "move", "stuck", "shown", "hints", "groups", "in a service", "no candidates"]
counts = dict.fromkeys(COUNTED, 0)
# A day after all orders.
LATE = "2025-12-01"
TOLD = re.compile(
    r"office: run (\d+) of (\S+): (\d+) hints(?:, (\S+) (\d+) to (\d+))?; "
    r"(\d+) of (\d+) sources that wait move, (\d+) are stuck\n"
)


def knot():
    """Five sources, none moving alone: two that need each other, one that needs these, and two more."""
    letters = Letters()
    for name, depends in [
        ("ping", "pong"),
        ("pong", "ping"),
        ("app", "ping"),
        ("left", "right, app"),
        ("right", "left"),
    ]:
        letters.source(name, "1-1", "2025-03-01", (name, depends))
    letters.order("2025-03-20")
    return letters


def blocked_knot():
    """The knot, with one of them blocked."""
    letters = knot()
    letters.add("rt", "hint", "Hint: block app")
    return letters


def trade():
    """Two sources that need each other's new versions, and five that need the old one of the first."""
    letters = Letters()
    letters.source("lib", "1", "2025-03-01", ("lib", ""))
    letters.order("2025-03-20")
    letters.source("lib", "2", "2025-03-21", ("lib", "app (>= 2)"))
    letters.source("app", "2", "2025-03-21", ("app", "lib (>= 2)"))
    for name in ("old0", "old1", "old2", "old3", "old4"):
        letters.source(name, "1", "2025-03-21", (name, "lib (<< 2)"))
    return letters


def rivals():
    """Two pairs that need each other's new versions, of which one can move: a source needs the old one of either."""
    letters = Letters()
    for name, package in [("aa", "aa1"), ("bb", "bb1")]:
        letters.source(name, "1", "2025-03-01", (package, ""))
    letters.source("ua", "1", "2025-03-01", ("ua", "aa1 | bb1"))
    letters.order("2025-03-20")
    for name, package, other in [("aa", "aa2", "pa"), ("bb", "bb2", "pb"), ("pa", "pa", "aa2"), ("pb", "pb", "bb2")]:
        letters.source(name, "2", "2025-03-21", (package, other))
    letters.order("2025-04-10")
    return letters


def removal():
    """Two sources in testing, of which the next run removes one, and one that is too young and has no build."""
    letters = Letters()
    for name in ("aa", "cc"):
        letters.source(name, "1", "2025-03-01", (name, ""))
    letters.order("2025-03-20")
    letters.upload("yy", "1", "2025-04-09")
    letters.order("2025-04-10")
    letters.add("rt", "hint", "Hint: remove cc/1")
    return letters


ALBUM = """stuck album 1-1 uninstallable amd64 album
1 album 1-1 of album comes in, needs viewer: 2
2 viewer 1-1 of viewer comes in, needs libfoo2 (>= 2): nothing
unstable libfoo2 2-1 of libfoo is stuck
"""
LIBFOO = """stuck libfoo 2-1 uninstallable amd64 tool
1 tool 1-1 of tool in testing, needs libfoo1: nothing
leaves libfoo1 1-1
unstable libfoo1 1-1 of libfoo isn't current
"""
PLAYER = """stuck player 1-1 uninstallable amd64 player
1 player 1-1 of player comes in, needs codec: nothing
unstable codec 1-1 of codec isn't a candidate: blocked
"""
LEFT = """stuck left 1-1 uninstallable amd64 left
1 left 1-1 of left comes in, needs app: nothing
unstable app 1-1 of app isn't a candidate: blocked
"""
APP = "source app 1-1 isn't a candidate: blocked\n"
YOUNG = "source yy 1 isn't a candidate: too young, no binaries\n"
REMOVED = "source cc 1 isn't a candidate: removal asked\n"
PING, LAST = "easy ping/1-1 pong/1-1\n", "easy app/1-1 left/1-1 right/1-1\n"
# A case, the named sources, and what is due: what is printed, the status, and what goes to standard error if known.
ROWS = [
    (
        knot,
        [],
        PING + LAST,
        0,
        "office: run 2 of 2025-03-20: 2 hints, rt 1 to 2; 5 of 5 sources that wait move, 0 are stuck\n",
    ),
    (knot, ["app"], PING, 0, None),
    (knot, ["ping"], PING, 0, None),
    (knot, ["right"], PING + LAST, 0, None),
    (knot, ["left", "right"], PING + LAST, 0, None),
    (blocked_knot, [], PING, 0, None),
    (blocked_knot, ["left"], LEFT, 1, None),
    (
        trade,
        ["--all", "--day", "2025-04-10"],
        "",
        1,
        "office: run 2 of 2025-04-10: 0 hints; 5 of 7 sources that wait move, 0 are stuck\n"
        "office: 1 groups weren't allowed\n",
    ),
    (trade, [], "", 1, "office: run 2 of 2025-03-20: 0 hints; 0 of 0 sources that wait move, 0 are stuck\n"),
    (dead_end, [], "", 1, "office: run 3 of 2025-04-10: 0 hints; 0 of 4 sources that wait move, 4 are stuck\n"),
    (dead_end, ["album"], ALBUM + LIBFOO, 1, None),
    (dead_end, ["album", "player"], ALBUM + LIBFOO + PLAYER, 1, None),
    (dead_end, ["libfoo"], LIBFOO, 1, None),
    (dead_end, ["player"], PLAYER, 1, None),
    (dead_end, ["tool", "album"], "in testing tool 1-1\n" + ALBUM + LIBFOO, 1, None),
    (blocked_knot, ["app", "left", "zz"], APP + LEFT + "unknown zz\n", 1, None),
    (
        removal,
        ["aa", "cc", "yy"],
        "in testing aa 1\n" + REMOVED + YOUNG,
        1,
        "office: run 3 of 2025-04-10: 0 hints; 0 of 0 sources that wait move, 0 are stuck\n",
    ),
    (rivals, [], "easy aa/2 pa/2\n", 0, None),
    (rivals, ["pa"], "easy aa/2 pa/2\n", 0, None),
    (rivals, ["bb"], "easy bb/2 pb/2\n", 0, None),
    (rivals, ["pb"], "easy bb/2 pb/2\n", 0, None),
    (rivals, ["ua", "pb"], "easy bb/2 pb/2\nin testing ua 1\n", 1, None),
]
LINE = re.compile(r"unknown (\S+)|in testing (\S+) \S+|source (\S+) \S+ isn't a candidate: .*")


def worked():
    """The worked cases, over a bag and over a store; and the model agrees that what is stuck there is."""
    for case, sources, printed, status, told in ROWS:
        what, bag = "%s %s" % (case.__name__, sources), mail(case().texts)
        got, said, ended = tries.run("propose", *sources, "--conf", CONF, bag=bag)
        want(what, (printed, status), (got, ended))
        if told is not None:
            want(what + ", told", told, said)
        lines = [line for line in printed.splitlines() if LINE.fullmatch(line)]
        blocks = [line for line in printed.splitlines() if not line.startswith("easy ") and line not in lines]
        behind = Behind(office_of(case().texts))
        named = ["".join(filter(None, LINE.fullmatch(line).groups())) for line in lines]
        want(what + ", lines by the model", [behind.line(name) for name in named], lines)
        want(what + ", by the model", None, behind.stuck_fault(blocks))
        stuck = {line.split(" ")[1] for line in blocks if line.startswith("stuck ")}
        for name in stuck.intersection(sources).union(named):
            want("%s, no sentence on %s" % (what, name), False, "office: %s: " % name in said)
        want(what + ", by all groups", set(), stuck & behind.can_move())
        with tempfile.TemporaryDirectory() as folder:
            store = os.path.join(folder, "store")
            tries.call("replay", "--conf", CONF, "--db", store, bag=bag)
            before = tries.bytes_of(store)
            over = tries.call("propose", *sources, "--conf", CONF, "--db", store)
            want(what + ", over a store", (got, status), over)
            want(what + ", the store's bytes", True, before == tries.bytes_of(store))
    none = mail(knot().texts[:-1])
    got = tries.run("propose", "--conf", CONF, bag=none)
    want("no run", ("", 3), (got[0], got[2]))
    want("no run, told", True, "name the day of the next one by --day" in got[1])
    got = tries.call("propose", "--all", "--day", "2025-03-20", "--conf", CONF, bag=none)
    want("no run, and a day", (PING + LAST, 0), got)
    for words in (["X"], ["--day", "2025-02-30"], ["--run", "1"]):
        want("words %s" % words, ("", 2), tries.call("propose", *words, "--conf", CONF, bag=none))


def routes():
    """The pages of the worked cases, and those that there aren't."""
    first, *later = knot().texts
    no_run, no_route = (404, "refused NoRun\n"), (404, "refused NoRoute\n")
    asked = [("GET", "/propose", None, no_run), ("GET", "/propose/app", None, no_run)]
    asked += [("POST", "/mail", text, None) for text in [first] + later]
    asked += [("GET", "/propose", None, (200, PING + LAST)), ("GET", "/propose/app", None, (200, PING))]
    asked += [("GET", path, None, no_route) for path in ("/propose/", "/propose/X", "/propose/a", "/propose/app/1")]
    asked += [("POST", "/mail", blocked_knot().texts[-1], None)]
    asked += [("GET", "/propose", None, (200, PING)), ("GET", "/propose/left", None, (200, LEFT))]
    asked += [("GET", "/propose/app", None, (200, APP)), ("GET", "/propose/zz", None, (200, "unknown zz\n"))]
    asked += [("POST", path, "", (405, "refused MethodNotAllowed\n")) for path in ("/propose", "/propose/app")]
    with tries.serving(len(asked)) as service:
        for method, path, body, due in asked:
            got = service.ask(method, path, body)
            want("%s %s" % (method, path), due or 200, got if due else got[0])


def office_of(texts):
    office = Office()
    for text in texts:
        office.deliver(text)
    return office


class Archive:
    """The mail of a seed: a first wave that mostly moves, and a second one, part of which waits."""

    def __init__(self, seed):
        self.draw, self.letters = random.Random(seed), Letters()
        self.names = ["aa", "bb", "cc", "dd", "ee", "ff", "gg"][: self.draw.choice([3, 4, 4, 5, 5, 6, 7])]
        self.archs = self.draw.choice([["amd64"], ["amd64"], ["amd64", "arm64"], ["all"]])
        self.packages = {}  # of each source those that its last version has

    def depends(self, own, known):
        """What a package needs: mostly packages that there are, or will be."""
        clauses = []
        for _ in range(self.draw.choice([0, 0, 1, 1, 1, 2])):
            others = [name for name in known if name not in own] or ["none"]
            name = self.draw.choice(others)
            form = self.draw.choice(
                ["%s"] * 6 + ["%s (>= 2)", "%s (>= 2)", "%s (<< 2)", "%s | " + self.draw.choice(others)]
            )
            clauses.append(form % name)
        return ", ".join(clauses)

    def packages_of(self, name, version):
        """One or two packages; one of them has the version in its name, as a library has."""
        return self.draw.choice([[name], [name], [name + version], [name, name + version], [name + version]])

    def wave(self, names, version, day):
        for name in names:
            self.packages[name] = self.packages_of(name, version)
        known = [package for name in self.packages for package in self.packages[name]]
        for name in names:
            self.letters.upload(name, version, day)
            rows = [(package, arch) for package in self.packages[name] for arch in self.archs]
            needs = {package: self.depends(self.packages[name], known) for package in self.packages[name]}
            self.letters.build(name, version, *[(package, arch, needs[package]) for package, arch in rows])

    def hints(self):
        """Standing hints, now and then."""
        name, other = self.draw.sample(self.names, 2)
        for chance, wish in [
            (0.15, "block " + name),
            (0.1, "remove %s/1" % name),
            (0.15, "easy %s/2 %s/2" % (name, other)),
            (0.05, "age-days 99 %s/2" % other),
        ]:
            if self.draw.random() < chance:
                self.letters.add("rt", "hint", "Hint: " + wish)

    def texts(self):
        self.wave(self.draw.sample(self.names, len(self.names) - self.draw.randint(0, 2)), "1", "2025-03-01")
        self.letters.order("2025-03-20")
        self.wave(self.draw.sample(self.names, self.draw.randint(2, len(self.names))), "2", "2025-03-21")
        self.hints()
        return self.letters


def numbered(behind, hints):
    return [(behind.first + place, hint) for place, hint in enumerate(hints)]


def mailed(behind, hints):
    """The messages of these hints, and the order that covers them and what the trial covers."""
    letters = ["From: rt\nNumber: %d\nKind: hint\nHint: %s\n" % pair for pair in numbered(behind, hints)]
    covers = [*behind.covers]
    covers[SENDERS.index("rt")] += len(hints)
    stated = ", ".join("%s %d" % (name, number) for name, number in zip(SENDERS, covers) if number and name != "clock")
    return letters + ["From: clock\nNumber: %d\nKind: run\nDay: %s\nCovers: %s\n" % (behind.run, behind.date, stated)]


def is_done(update, number):
    return any(line.startswith("easy %d accept " % number) for line in update.splitlines())


def moved(behind, hints):
    """Those of the sources that wait which the run with these hints moves."""
    late = behind.with_hints(hints)
    return {name for name in behind.left if late.sources.get(name) == behind.left[name]}


def promise(what, behind, hints, texts):
    """Each hint is done by the run that has them all, which keeps no source out: by the model, and by the program."""
    for hint in hints:
        items = hint.split(" ")[1:]
        want(what + ": a group", (True, True), (hint.startswith("easy ") and len(items) > 1, items == sorted(items)))
    late = behind.with_hints(hints)
    update = late.reports[behind.run][1]
    for number, hint in numbered(behind, hints):
        want("%s: %s by the model" % (what, hint), True, is_done(update, number))
    want(what + ": what the hints keep out", set(), moved(behind, []) - moved(behind, hints))
    printed, _ = tries.call("replay", "--conf", CONF, bag=mail(texts + mailed(behind, hints)))
    want(what + ": mailed", True, update in printed)
    return late


def tell_of(what, behind, hints, late, said):
    """What is printed of the whole: the run, its day, the numbers, and how many waiting sources move."""
    waiting = set(behind.left)
    move = {name for name in waiting if late.sources.get(name) == behind.left[name]}
    found = TOLD.match(said)
    if found is None:
        want(what + ": told", "a line of counts", said)
        return
    parts = found.groups()
    want(what + ": run and day", (str(behind.run), behind.date, str(len(hints))), parts[:3])
    numbers = ("rt", str(behind.first), str(behind.first + len(hints) - 1)) if hints else (None, None, None)
    want(what + ": numbers", numbers, parts[3:6])
    want(what + ": counts", (str(len(move)), str(len(waiting))), parts[6:8])


# How the search ends for a source, and what holds then: whether the run moves it, and whether some groups do, if known.
ENDS = {
    "it moves without a hint": (True, True),
    "no group was found, and nothing shows that there is none": (False, None),
}


def over_sources(what, behind, terms, bag, can_move):
    """What is printed of each source that waits: the hints that free it, or why no group does."""
    for name in behind.left:
        printed, said, status = tries.run("propose", name, *terms, "--conf", CONF, bag=bag)
        lines = printed.splitlines()
        hints = [line for line in lines if line.startswith("easy ")]
        blocks = lines[len(hints) :]
        late = behind.with_hints(hints)
        for number, hint in numbered(behind, hints):
            want("%s %s: %s" % (what, name, hint), True, is_done(late.reports[behind.run][1], number))
        moves = late.sources.get(name) == behind.left[name]
        want("%s: %s moves" % (what, name), 0 if moves else 1, status)
        want("%s: %s can" % (what, name), (False, False), (moves and name not in can_move, moves and bool(blocks)))
        if blocks:
            want("%s: %s is stuck" % (what, name), True, blocks[0].startswith("stuck %s " % name))
            want("%s: %s, its blocks" % (what, name), None, behind.stuck_fault(blocks))
        end = re.search(r"(?m)^office: %s: (.*)$" % re.escape(name), said)
        if not end:
            want(
                "%s: %s, nothing is told" % (what, name),
                (True, False),
                (moves or bool(blocks), not moves and not blocks),
            )
        if end or blocks:
            does, may = ENDS.get(end[1], (None, None)) if end else (False, False)
            want(
                "%s: %s, %s" % (what, name, end and end[1]),
                (does, may),
                (moves, None if may is None else name in can_move),
            )
            counts["shown"] += does is False and may is False


def over_others(what, behind, terms, bag):
    """What is printed of each source that is no candidate: its line, and nothing else."""
    for name in [*behind.late.known.sources, "nosuch"]:
        line = behind.line(name)
        if line is not None:
            printed, said, status = tries.run("propose", name, *terms, "--conf", CONF, bag=bag)
            want("%s: %s" % (what, line), (line + "\n", 1), (printed, status))
            want("%s: %s, nothing is told" % (what, name), False, "office: %s: " % name in said)
            counts["no candidates"] += 1


def by_service(what, behind, texts, bag):
    """The service proposes what keeps the same promise: a trial takes it, and the run that is ordered does it."""
    with tempfile.TemporaryDirectory() as folder:
        store = os.path.join(folder, "store")
        tries.call("replay", "--conf", CONF, "--db", store, bag=bag)
        shutil.copy(store, store + ".copy")
        with tries.serving(1000, "--db", store) as service:
            code, printed = service.ask("GET", "/propose")
            hints = printed.splitlines()
            want(what + ": the page", 200, code)
            due = tries.call("propose", "--day", LATE, "--all", "--conf", CONF, "--db", store + ".copy")[0]
            want(what + ": for a day", (200, due), service.ask("GET", "/propose/" + LATE))
            if hints:
                due = tried(behind.office, hints[:1])[0]
                want(what + ": the trial", (200, due), service.ask("POST", "/try", hints[0]))
            for text in mailed(behind, hints):
                want(what + ": held", 200, service.ask("POST", "/mail", text)[0])
            update = service.ask("GET", "/update/%d" % behind.run)[1]
            for number, hint in numbered(behind, hints):
                want("%s: %s in the run" % (what, hint), True, is_done(update, number))
                counts["in a service"] += 1
            service.end()


def one(seed):
    archive = Archive(seed)
    letters, terms = archive.texts(), []
    if seed % 4 == 0:
        terms = ["--all", "--day", "2025-04-10"]
    else:
        letters.order("2025-04-10")
    texts = letters.texts
    bag, office, what = mail(texts), office_of(texts), "%d" % seed
    behind = Behind(office, "2025-04-10" if terms else None, bool(terms))
    can_move = behind.can_move()
    printed, said, status = tries.run("propose", *terms, "--conf", CONF, bag=bag)
    hints = printed.splitlines()
    want(what + ": status", 0 if hints else 1, status)
    late = promise(what, behind, hints, texts)
    tell_of(what, behind, hints, late, said)
    move = moved(behind, hints)
    want(what + ": more than can move", set(), move - can_move)
    found = re.search(r" (\d+) are stuck\n", said)
    over_sources(what, behind, terms, bag, can_move)
    over_others(what, behind, terms, bag)
    if not terms and seed % 3 == 0:
        by_service(what, behind, texts, bag)
    for name, number in [
        ("wait", len(behind.left)),
        ("can move", len(can_move)),
        ("move", len(move)),
        ("stuck", int(found[1]) if found else 0),
        ("hints", len(hints)),
        ("groups", bool(hints)),
    ]:
        counts[name] += number


def main():
    worked()
    routes()
    for seed in tries.seeds("1-60"):
        one(seed)
    print(", ".join("%s %d" % pair for pair in counts.items()))
    # The search isn't promised to find all: of what some groups move, 19 of 20 have to move by its hints.
    want("what the search finds", True, counts["move"] * 20 >= counts["can move"] * 19)
    # Nor is each dead end shown: of what no groups move, 9 of 10 have to be.
    want("what is shown", True, counts["shown"] * 10 >= (counts["wait"] - counts["can move"]) * 9)
    tries.end()


main()
