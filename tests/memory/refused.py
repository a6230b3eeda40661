#!/usr/bin/env python3
"""Memory that runs out: each growth of the program refused in turn, and all from each one on.

  refused.py OFFICE [STEP [PARTS]]

OFFICE is the built program, `crates/office/out/office`. It is run with `refuse.c` before it (compiled by `cc`), on three
bags: over a store in memory, over a store in a file, and as a service. For each N from 1 on, by STEP (1), until a run
meets no refusal: what is printed is what the rules give for the marks that its own lines show, and the exit status is 4
where anything was lost, else 0. Then the same bag with ample memory, over the same store, leaves the row's testing and
reports. A check of the store finds it whole, or ends with status 4 and no line. A store of schema 1 is opened so too:
it is then of schema 1 or 2, and continues with the kept delays.

PARTS is the built program that judges itself, `crates/cases_program/out/cases_program`: started with the word `memory`,
it prints a line `PART: right` for each of its parts that may be refused memory. Each of its growths is refused in turn
too, and each run must print what it prints with ample memory, with the same status.

Exit status 0 where all was so. The environment's words ONLY (of memory, file, service, parts) and ROWS (part of a
bag's name) choose some.
"""
import os
import re
import socket
import sqlite3
import subprocess
import sys
import tempfile

HERE = os.path.dirname(os.path.abspath(__file__))
sys.dont_write_bytecode = True
sys.path.insert(0, os.path.dirname(HERE))
import old_store
import serving
program = os.path.abspath(sys.argv[1])
step = int(sys.argv[2]) if len(sys.argv) > 2 else 1
judge = os.path.abspath(sys.argv[3]) if len(sys.argv) > 3 else None
NO_MEMORY = b"refused NoMemory\n"
faults = []
runs = 0

SETUP = b"""Architectures: amd64 arm64

Sender: ftp
Role: upload

Sender: bd
Role: build

Sender: bts
Role: bugs

Sender: rt
Role: release

Sender: clock
Role: runs
"""


def upload(number, source, version, urgency, day):
    return b"From: ftp\nNumber: %d\nKind: upload\nSource: %s\nVersion: %s\nUrgency: %s\nDay: %s\n" % (number, source, version, urgency, day)


def build(number, package, version, more=b""):
    return b"From: bd\nNumber: %d\nKind: build\n\nPackage: %s\nVersion: %s\nArchitecture: amd64\n%s" % (number, package, version, more)


def order(number, day, covers):
    return b"From: clock\nNumber: %d\nKind: run\nDay: %s\nCovers:%s\n" % (number, day, b" " + covers if covers else b"")


def hint(number, text):
    return b"From: rt\nNumber: %d\nKind: hint\nHint: %s\n" % (number, text)


DAY = b"2025-03-06"
FOO_MOVES = [upload(1, b"foo", b"1.0-1", b"medium", b"2025-03-01"), build(1, b"foo", b"1.0-1"), order(1, DAY, b"ftp 1, bd 1")]
ROWS = {
    # One source moves.
    "foo moves": FOO_MOVES,
    # A newer version of it moves in a second run.
    "foo moves twice": FOO_MOVES + [
        upload(2, b"foo", b"1.1-1", b"high", b"2025-03-07"),
        upload(3, b"foo", b"1.2-1", b"low", b"2025-03-08"),
        build(2, b"foo", b"1.2-1"),
        order(2, b"2025-03-10", b"ftp 3, bd 2"),
    ],
    # A group that a hint asks for can't move, one of its sources can move alone, the other waits.
    "a group is refused": [
        upload(1, b"aa", b"1", b"critical", DAY),
        upload(2, b"bb", b"1", b"critical", DAY),
        build(1, b"aa", b"1", b"Depends: nowhere\n"),
        build(2, b"bb", b"1"),
        hint(1, b"easy aa/1 bb/1"),
        order(1, DAY, b"ftp 2, bd 2, rt 1"),
    ],
}
UPDATE = b"update 1 2025-03-06\neasy 1 refuse uninstallable amd64 aa\naccept bb 1\nwait aa 1 uninstallable amd64 aa\n"


def want(what, due, got):
    if due != got:
        faults.append("%s: due %r, got %r" % (what, due, got))


def bag_of(texts):
    return b"".join(b"mail %d\n" % len(text) + text for text in texts)


def environment(at, to, count):
    return dict(os.environ, LD_PRELOAD=shim, REFUSE_AT=str(at), REFUSE_TO=str(to), REFUSE_COUNT=count)


def call(folder, command, db, given, at, to):
    """What a command prints, its exit status, and how many growths it asked for."""
    global runs
    runs += 1
    count = os.path.join(folder, "count")
    words = [program, command, "--conf", os.path.join(folder, "conf")] + (["--db", db] if db else [])
    ran = subprocess.run(words, input=given, stdout=subprocess.PIPE, stderr=subprocess.PIPE, timeout=120, env=environment(at, to, count))
    with open(count) as f:
        return ran.stdout, ran.returncode, int(f.read())


def replay(folder, db, texts, at=0, to=0):
    """The same of a replay of these texts."""
    return call(folder, "replay", db, bag_of(texts), at, to)


def remove(db):
    for name in (db, db + "-wal"):
        if os.path.exists(name):
            os.remove(name)


class Rules:
    """What the rules give for a bag: by clean replays of it, and of parts of it, in memory."""

    def __init__(self, folder, texts):
        self.folder = folder
        self.texts = texts
        self.kept = {}
        self.whole = self.of(texts)

    def of(self, texts):
        """The reply lines, the count of ready runs, each run's two texts, and testing."""
        key = bag_of(texts)
        if key not in self.kept:
            output, status, _ = replay(self.folder, None, texts)
            if status != 0:
                sys.exit("a clean replay ends with status %d" % status)
            self.kept[key] = self.parts(output)
        return self.kept[key]

    def parts(self, output):
        head, ready, rest = re.match(rb"((?:held .*\n)*)ready (\d+) finished \2\n((?:.*\n)*)\Z", output).groups()
        pieces = re.split(rb"^(?=excuses |update |testing )", rest, flags=re.M)[1:]
        return head.splitlines(True), int(ready), [tuple(pieces[i:i + 2]) for i in range(0, len(pieces) - 1, 2)], pieces[-1]

    def testing_after(self, texts, finished):
        """Testing after that many runs of these texts."""
        orders = [t for t in texts if b"Kind: run" in t]
        later = [t for t in orders if int(re.search(rb"Number: (\d+)", t).group(1)) > finished]
        return self.of([t for t in texts if t not in later])[3]

    def fault_of(self, output, status, before=0):
        """None if an output is right for the marks in its lines, over a store with that many finished runs."""
        if output in (b"", NO_MEMORY):
            return None if status == 4 else "status %d" % status
        lines = output.splitlines(True)
        texts, at, lost = [], 0, False
        for text, due in zip(self.texts, self.whole[0]):
            if at < len(lines) and lines[at] == due:
                texts.append(text)
            elif at < len(lines) and lines[at] == NO_MEMORY:
                lost = True
            else:
                break
            at += 1
        else:
            text = None
        if at < len(lines) and lines[at] == b"bag refused NoMemory\n":
            lost = True
            at += 1
        elif text is not None:
            return "line %d" % (at + 1)
        rest = b"".join(lines[at:])
        _, ready, reports, _ = self.of(texts)
        for finished in range(ready, before - 1, -1):
            for whole, short in self.ends(ready, finished, reports[before:finished], texts):
                if rest == whole:
                    lost = lost or short or finished < ready
                    # The last settle may have been refused, and finished all the same.
                    return None if status == 4 or (status == 0 and not lost) else "status %d" % status
        return "what stands behind line %d" % at

    def ends(self, ready, finished, reports, texts):
        """The ends of an output, each text in its place or refused, and whether one was."""
        reached = b"ready %d finished %d\n" % (ready, finished)
        pieces = [piece for two in reports for piece in two]
        testing = self.testing_after(texts, finished)
        ends = [(reached, False), (NO_MEMORY, True)]
        middle = [(b"", False)]
        for piece in pieces:
            middle = [(a + b, x or y) for a, x in middle for b, y in ((piece, False), (NO_MEMORY, True))]
        # One line for all reports, where the count can't be read.
        middle.append((NO_MEMORY, True))
        ends = [(a + b, x or y) for a, x in ends for b, y in middle]
        return [(a + b, x or y) for a, x in ends for b, y in ((testing, False), (NO_MEMORY, True))]


def reports_in(db):
    with sqlite3.connect(db) as reader:
        found = reader.execute("SELECT excuses, updates FROM run ORDER BY number").fetchall()
    reader.close()
    return [tuple(text.encode() for text in row) for row in found]


def try_replays(folder, name, texts, in_file):
    """Each growth of a replay refused in turn, and then all from there on."""
    rules = Rules(folder, texts)
    db = os.path.join(folder, "store") if in_file else None
    refused = 0
    for lasting in (False, True):
        at = 1
        while True:
            what = "%s, %s, %s %d" % (name, "in a file" if in_file else "in memory", "from" if lasting else "growth", at)
            if db:
                remove(db)
            output, status, grown = replay(folder, db, texts, at, 2 ** 62 if lasting else at)
            if grown < at:
                want(what + ", with none refused", (b"".join(rules.whole[0]), 0), (output[:sum(map(len, rules.whole[0]))], status))
                break
            refused += 1
            fault = rules.fault_of(output, status)
            if fault:
                faults.append("%s: %s of %r, status %d" % (what, fault, output, status))
            if db:
                again, status, _ = replay(folder, db, texts)
                want(what + ", then with memory", (True, 0), (again.endswith(rules.whole[3]), status))
                want(what + ", reports", rules.whole[2], reports_in(db))
            at += step
    return refused


def try_old_store(folder):
    """Each growth of an opening of a store of schema 1 refused in turn, and then all from there on."""
    db, old, room = (os.path.join(folder, name) for name in ("store", "old", "room"))
    old_store.remove(db)
    replay(folder, db, old_store.TEXTS)
    old_store.make_old(db)
    old_store.copy(db, old)
    refused = 0
    for lasting in (False, True):
        at = 1
        while True:
            what = "a store of schema 1, %s %d" % ("from" if lasting else "growth", at)
            old_store.copy(old, db)
            output, status, grown = replay(folder, db, [], at, 2 ** 62 if lasting else at)
            if grown < at:
                want(what + ", with none refused", (b"ready 1 finished 1\ntesting 1\n", 0), (output, status))
                break
            refused += 1
            found = old_store.held_in(db, room)
            want(what + ", is the old one or the new one", True, found in (old_store.OLD, old_store.NEW))
            output, status, _ = replay(folder, db, [old_store.NEXT_ORDER])
            want(what + ", opened again", (True, 0), (output.endswith(old_store.TESTING), status))
            schema, delays, _, reports = old_store.held_in(db, room)
            want(what + ", goes on", (2, [1], old_store.REPORTS), (schema, delays, reports))
            at += step
    return refused


def try_check(folder, name, texts):
    """Each growth of a check of a store refused in turn, and then all from there on: it finds the store whole, or memory runs out."""
    db = os.path.join(folder, "store")
    remove(db)
    replay(folder, db, texts)
    due = b"whole %d runs\n" % len(reports_in(db)), 0
    refused = 0
    for lasting in (False, True):
        at = 1
        while True:
            what = "%s, a check, %s %d" % (name, "from" if lasting else "growth", at)
            output, status, grown = call(folder, "check", db, b"", at, 2 ** 62 if lasting else at)
            if grown < at:
                want(what + ", with none refused", due, (output, status))
                break
            refused += 1
            want(what, True, (output, status) in (due, (b"", 4)))
            at += step
    return refused


def all_of(connection):
    taken = b""
    while True:
        piece = connection.recv(65536)
        if not piece:
            return taken
        taken += piece


def ask(port, request):
    with socket.create_connection(("127.0.0.1", port), timeout=60) as connection:
        connection.sendall(request)
        return all_of(connection)


def post(text):
    return b"POST /mail HTTP/1.1\r\nHost: x\r\nContent-Length: %d\r\n\r\n" % len(text) + text


def get(path):
    return b"GET /%s HTTP/1.1\r\nHost: x\r\n\r\n" % path


def reply_of(code, phrase, body):
    return b"HTTP/1.1 %d %s\r\nContent-Type: text/plain; charset=utf-8\r\nContent-Length: %d\r\nConnection: close\r\n\r\n%s" % (code, phrase, len(body), body)


SHORT = reply_of(503, b"Service Unavailable", NO_MEMORY)


# What a service prints that has no memory for a request, or for its reply, and closes the connection. It prints nothing
# if it has none for the first bytes.
CUT = re.compile(r"(office: a (request can't be read|reply can't be written): .*: its connection is closed\n)?")


class Service(serving.Service):
    """A service in memory, one of whose growths is refused. So one of its replies may be 503, or without memory for a request
    or its reply the connection may be closed, whether the mail is kept or not: the request is made once more then."""

    def __init__(self, folder, at, connections):
        self.count = os.path.join(folder, "count")
        self.short = 0
        self.is_cut = False
        super().__init__(program, conf=os.path.join(folder, "conf"), connections=connections,
                         env=environment(at, at, self.count))
        self.listens = self.start()

    def ask(self, request):
        reply = ask(self.port, request)
        if reply in (SHORT, b"") and self.short == 0:
            self.short = 1
            self.is_cut = reply == b""
            reply = ask(self.port, request)
        return reply

    def ended(self):
        """Its exit status, and how many growths it asked for."""
        status = self.wait()
        with open(self.count) as f:
            return status, int(f.read())


def try_service(folder, name, texts):
    """Each growth of a service refused in turn: a post is answered by its line, or by 503 or a closed connection and then by its
    line; so is each post that is made again; and testing and reports are the row's."""
    global runs
    rules = Rules(folder, texts)
    lines, ready, reports, testing = rules.whole
    posts = [(post(text), line) for text, line in zip(texts, lines)]
    exchanges = posts + [(get(b"testing"), testing)]
    for k, two in enumerate(reports, 1):
        exchanges += [(get(b"excuses/%d" % k), two[0]), (get(b"update/%d" % k), two[1])]
    refused = 0
    at = 1
    while True:
        runs += 1
        what = "%s, as a service, growth %d" % (name, at)
        service = Service(folder, at, len(posts) + len(exchanges) + 2)
        if service.listens:
            for request, body in posts:
                want(what + ", " + request.split(b"\r\n")[0].decode(), reply_of(200, b"OK", body), service.ask(request))
            # What was held makes its runs ready before any post is made again.
            want(what + ", ready", True, b"\r\n\r\nready %d finished " % ready in service.ask(get(b"status")))
            for request, body in exchanges:
                want(what + ", " + request.split(b"\r\n")[0].decode(), reply_of(200, b"OK", body), service.ask(request))
            if not service.short:
                # So that the service has its number of connections.
                got = ask(service.port, get(b"status"))
                service.is_cut = got == b""
                want(what + ", status", True, got in (SHORT, b"", reply_of(200, b"OK", b"ready %d finished %d\n" % (ready, ready))))
        status, grown = service.ended()
        want(what + ", exit status", 0 if service.listens else 4, status)
        if service.is_cut:
            want(what + ", closed with a line", True, CUT.fullmatch(service.said) is not None)
        if grown < at:
            return refused
        refused += 1
        at += step


def counted(name, where, refused):
    """Prints how many growths were refused: with none, the program's memory can't be refused, and nothing was tried."""
    print("%s, %s: %d refusals" % (name, where, refused), flush=True)
    want("%s, %s, some growth refused" % (name, where), True, refused > 0)


def try_parts(folder):
    """Each growth of a program that judges itself refused in turn: it prints the same, whatever one growth is refused."""
    global runs
    count = os.path.join(folder, "count")
    due, at = None, 0
    while True:
        runs += 1
        ran = subprocess.run([judge, "memory"], stdin=subprocess.DEVNULL, stdout=subprocess.PIPE, stderr=subprocess.PIPE,
                             timeout=600, env=environment(at, at, count))
        found = ran.stdout, ran.returncode
        if at == 0:
            lines = ran.stdout.splitlines()
            want("parts with ample memory", True, lines != [] and all(line.endswith(b": right") for line in lines))
            want("parts with ample memory, status", 0, ran.returncode)
            due = found
        else:
            want("parts, growth %d" % at, due, found)
        with open(count) as f:
            if int(f.read()) < at:
                return (at - 1 + step - 1) // step
        at = at + step if at else 1


with tempfile.TemporaryDirectory() as folder:
    shim = os.path.join(folder, "refuse.so")
    subprocess.run(["cc", "-O1", "-shared", "-fPIC", "-o", shim, os.path.join(HERE, "refuse.c"), "-ldl"], check=True)
    with open(os.path.join(folder, "conf"), "wb") as f:
        f.write(SETUP)
    rules = Rules(folder, ROWS["a group is refused"])
    want("a group is refused", UPDATE, rules.whole[2][0][1])
    only = os.environ.get("ONLY", "memory file service parts").split()
    rows = os.environ.get("ROWS", "")
    for name, texts in ROWS.items():
        if rows not in name:
            continue
        if "memory" in only:
            counted(name, "in memory", try_replays(folder, name, texts, False))
        if "file" in only:
            counted(name, "in a file", try_replays(folder, name, texts, True))
            counted(name, "checked", try_check(folder, name, texts))
        if "service" in only:
            counted(name, "as a service", try_service(folder, name, texts))
    if "file" in only and rows in "a store of schema 1":
        counted("a store of schema 1", "opened", try_old_store(folder))
    if judge and "parts" in only:
        print("a program that judges itself: %d refusals" % try_parts(folder), flush=True)
for fault in faults[:40]:
    print("FAIL", fault[:600])
print("%d runs, %d faults" % (runs, len(faults)))
sys.exit(1 if faults else 0)
