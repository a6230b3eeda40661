#!/usr/bin/env python3
"""A store in a file that stops: at each read, write and sync of a replay in turn, the files fail from there on, or the program ends.

  stopped.py OFFICE [STEP]

OFFICE is the built program, `crates/office/out/office`. It is run with `stop.c` before it (compiled by `cc`), on the
mail of two runs, for each call N from 1 on, by STEP (1), until a run meets no stop. Each reply is the due one or that
the store failed. A copy of the store, read by Python's sqlite3, has what was answered held, with or without the texts
that were in hand together, and the reports of its finished runs. Then the whole bag again ends in the two runs' testing and reports.

A store of schema 1 is stopped while it is opened, in the same ways. It is then of schema 1 or 2, with the same mail and
reports, and the next opening makes it one of schema 2, which continues with the kept delays.

Exit status 0 where all was so.
"""
import os
import re
import shutil
import sqlite3
import subprocess
import sys
import tempfile

HERE = os.path.dirname(os.path.abspath(__file__))
sys.dont_write_bytecode = True
sys.path.insert(0, os.path.dirname(HERE))
import old_store
program = os.path.abspath(sys.argv[1])
step = int(sys.argv[2]) if len(sys.argv) > 2 else 1
SETUP = b"Architectures: amd64 arm64\n" + b"".join(b"\nSender: %s\nRole: %s\n" % pair for pair in (
    (b"ftp", b"upload"), (b"bd", b"build"), (b"bts", b"bugs"), (b"rt", b"release"), (b"clock", b"runs")))
PLACES = [b"ftp", b"bd", b"bts", b"rt", b"clock"]
TEXTS = [
    b"From: ftp\nNumber: 1\nKind: upload\nSource: foo\nVersion: 1.0-1\nUrgency: medium\nDay: 2025-03-01\n",
    b"From: bd\nNumber: 1\nKind: build\n\nPackage: foo\nVersion: 1.0-1\nArchitecture: amd64\n",
    b"From: clock\nNumber: 1\nKind: run\nDay: 2025-03-06\nCovers: ftp 1, bd 1\n",
    b"From: ftp\nNumber: 2\nKind: upload\nSource: foo\nVersion: 1.1-1\nUrgency: high\nDay: 2025-03-07\n",
    b"From: ftp\nNumber: 3\nKind: upload\nSource: foo\nVersion: 1.2-1\nUrgency: low\nDay: 2025-03-08\n",
    b"From: bd\nNumber: 2\nKind: build\n\nPackage: foo\nVersion: 1.2-1\nArchitecture: amd64\n",
    b"From: clock\nNumber: 2\nKind: run\nDay: 2025-03-10\nCovers: ftp 3, bd 2\n",
]
REPORTS = [
    (b"excuses 1 2025-03-06\nfoo - 1.0-1\n age 5 of 5\n candidate\n", b"update 1 2025-03-06\naccept foo 1.0-1\n"),
    (b"excuses 2 2025-03-10\nfoo 1.0-1 1.2-1\n age 2 of 2\n candidate\n", b"update 2 2025-03-10\naccept foo 1.2-1\n"),
]
TESTING = [
    b"testing 0\n",
    b"testing 1\nsource foo 1.0-1\nbinary amd64 foo 1.0-1 foo\n",
    b"testing 2\nsource foo 1.2-1\nbinary amd64 foo 1.2-1 foo\n",
]
faults = []


def place_of(text):
    sender, number = re.match(rb"From: (\w+)\nNumber: (\d+)", text).groups()
    return PLACES.index(sender), int(number)


def reply_to(text):
    return b"held %s %s\n" % re.match(rb"From: (\w+)\nNumber: (\d+)", text).groups()


def bag_of(texts):
    return b"".join(b"mail %d\n" % len(text) + text for text in texts)


def want(what, due, got):
    if due != got:
        faults.append("%s: due %r, got %r" % (what, due, got))


def ready_of(mail):
    """How many runs are ready with this mail."""
    runs = 0
    for last in (3, 7):
        if not all(place_of(text) in mail for text in TEXTS[:last]):
            break
        runs += 1
    return runs


def replay(folder, texts, at=0, how="fails"):
    count = os.path.join(folder, "count")
    env = dict(os.environ, LD_PRELOAD=shim, STOP_AT=str(at), STOP_HOW=how, STOP_COUNT=count)
    words = [program, "replay", "--conf", os.path.join(folder, "conf"), "--db", os.path.join(folder, "store")]
    ran = subprocess.run(words, input=bag_of(texts), stdout=subprocess.PIPE, stderr=subprocess.PIPE, timeout=120, env=env)
    with open(count) as f:
        return ran.stdout, ran.returncode, int(f.read())


def kept(folder):
    """The mail, the finished count, its reports: of a copy, since reading a log may write the file. None where there are no tables."""
    copy = os.path.join(folder, "copy")
    for end in ("", "-wal", "-shm"):
        if os.path.exists(copy + end):
            os.remove(copy + end)
        if os.path.exists(os.path.join(folder, "store" + end)):
            shutil.copy(os.path.join(folder, "store" + end), copy + end)
    if not os.path.exists(copy):
        return None
    try:
        with sqlite3.connect(copy) as reader:
            mail = {(sender, number): bytes(body) for sender, number, body in reader.execute("SELECT sender, number, body FROM mail")}
            finished = reader.execute("SELECT finished FROM office").fetchall()[0][0]
            reports = [tuple(text.encode() for text in row) for row in reader.execute("SELECT excuses, updates FROM run ORDER BY number")]
        reader.close()
    except sqlite3.Error:
        return None
    return mail, finished, reports


def try_stop(folder, at, how):
    what = "%s at %d" % (how, at)
    for name in ("store", "store-wal", "store-shm"):
        if os.path.exists(os.path.join(folder, name)):
            os.remove(os.path.join(folder, name))
    output, status, calls = replay(folder, TEXTS, at, how)
    if calls < at:
        want(what + ", with no stop", (True, 0), (output.endswith(TESTING[2]), status))
        return False
    held = []
    lines = output.splitlines(True)
    if how == "fails":
        want(what + ", status", 4, status)
        for text, line in zip(TEXTS, lines):
            if line == reply_to(text):
                held.append(text)
            else:
                want(what + ", reply", True, line in (b"refused Store\n", b"refused NoMemory\n"))
    else:
        # The output is written at the end, and after it the log is copied into the file.
        want(what + ", status", (True, 137), (not output or output.endswith(TESTING[2]), status))
        held = TEXTS if output else []
    found = kept(folder)
    if found is None:
        want(what + ", mail of a store without tables", [], held)
    else:
        mail, finished, reports = found
        for text in TEXTS:
            body = mail.get(place_of(text))
            if text in held:
                want(what + ", held mail", text, body)
            elif body is not None:
                want(what + ", mail in hand", text, body)
        want(what + ", mail is a front of the bag", set(map(place_of, TEXTS[:len(mail)])), set(mail))
        want(what + ", finished runs are ready", True, finished <= ready_of(mail))
        want(what + ", reports", REPORTS[:finished], reports)
    # What is kept alone, and then the whole bag again.
    output, status, _ = replay(folder, [])
    runs = ready_of(found[0]) if found else 0
    want(what + ", opened again", (True, 0), (output.startswith(b"ready %d finished %d\n" % (runs, runs)) and output.endswith(TESTING[runs]), status))
    output, status, _ = replay(folder, TEXTS)
    want(what + ", the bag again", (b"".join(map(reply_to, TEXTS)), True, 0),
         (b"".join(output.splitlines(True)[:7]), output.endswith(TESTING[2]), status))
    again = kept(folder)
    want(what + ", reports of the bag again", REPORTS, again and again[2])
    return True


def try_old_store(folder, at, how):
    """An opening of a store of schema 1 that stops; False where it met no stop."""
    what = "a store of schema 1, %s at %d" % (how, at)
    store = os.path.join(folder, "store")
    old_store.copy(os.path.join(folder, "old"), store)
    output, status, calls = replay(folder, [], at, how)
    if calls < at:
        want(what + ", with no stop", (b"ready 1 finished 1\ntesting 1\n", 0), (output, status))
        return False
    want(what + ", status", 4 if how == "fails" else 137, status)
    found = old_store.held_in(store, os.path.join(folder, "room"))
    want(what + ", is the old one or the new one", True, found in (old_store.OLD, old_store.NEW))
    output, status, _ = replay(folder, [old_store.NEXT_ORDER])
    want(what + ", opened again", (True, 0), (output.endswith(old_store.TESTING), status))
    schema, delays, _, reports = old_store.held_in(store, os.path.join(folder, "room"))
    want(what + ", goes on", (2, [1], old_store.REPORTS), (schema, delays, reports))
    return True


def make_old_store(folder):
    """The file `old`: a store of schema 1, closed."""
    old_store.remove(os.path.join(folder, "store"))
    output, status, _ = replay(folder, old_store.TEXTS)
    want("a store to be made one of schema 1", (True, 0), (output.endswith(b"testing 1\n"), status))
    old_store.make_old(os.path.join(folder, "store"))
    old_store.copy(os.path.join(folder, "store"), os.path.join(folder, "old"))


with tempfile.TemporaryDirectory() as folder:
    shim = os.path.join(folder, "stop.so")
    subprocess.run(["cc", "-O1", "-shared", "-fPIC", "-o", shim, os.path.join(HERE, "stop.c"), "-ldl"], check=True)
    with open(os.path.join(folder, "conf"), "wb") as f:
        f.write(SETUP)
    for how in ("fails", "ends"):
        at = 1
        while try_stop(folder, at, how):
            at += step
        print("%s: %d stops" % (how, (at - 1) // step), flush=True)
    make_old_store(folder)
    for how in ("fails", "ends"):
        at = 1
        while try_old_store(folder, at, how):
            at += step
        print("a store of schema 1, %s: %d stops" % (how, (at - 1) // step), flush=True)
for fault in faults[:40]:
    print("FAIL", fault[:600])
print("%d faults" % len(faults))
sys.exit(1 if faults else 0)
