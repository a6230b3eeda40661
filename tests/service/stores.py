#!/usr/bin/env python3
"""Stores in files: an office that is stopped and started, replays in parts, other tables, and files that are refused.

  stores.py PROGRAM [PORT]

PROGRAM is the built program, `crates/office/out/office`. It replays examples/archive.bag, reads what is kept by Python's
sqlite3, and writes in a folder of its own. Exit status 0 where each store was as it should be.
"""
import hashlib
import os
import sqlite3
import subprocess
import sys
import tempfile
sys.dont_write_bytecode = True
sys.path.insert(0, os.path.join(os.path.dirname(os.path.abspath(__file__)), ".."))
from serving import Service

EXAMPLES = os.path.join(os.path.dirname(os.path.abspath(__file__)), "..", "..", "examples")
ARCHIVE = os.path.join(EXAMPLES, "archive")
program = os.path.abspath(sys.argv[1])
port = int(sys.argv[2]) if len(sys.argv) > 2 else 18732
faults = []
tried = 0


def want(what, due, got):
    global tried
    tried += 1
    if due != got:
        faults.append("%s: due %r, got %r" % (what, due, got))


def bytes_of(path):
    with open(path, "rb") as f:
        return f.read()


MESSAGES = [bytes_of(os.path.join(ARCHIVE, name)) for name in sorted(os.listdir(ARCHIVE))]


def bag_of(texts):
    return b"".join(b"mail %d\n" % len(text) + text for text in texts)


def replay(conf, db, bag):
    words = [program, "replay", "--conf", conf] + (["--db", db] if db is not None else [])
    ran = subprocess.run(words, input=bag, stdout=subprocess.PIPE, stderr=subprocess.PIPE, timeout=60)
    return ran.stdout, ran.returncode, ran.stderr.decode()


def testing_in(output):
    return output[output.index(b"testing "):]


def asked(db, words):
    with sqlite3.connect(db) as reader:
        found = reader.execute(words).fetchall()
    reader.close()
    return found


def over(conf, db):
    """The service over a store, for a `with`, which ends it by force."""
    return Service(program, "--db", db, conf=conf, port=port)


def parts(folder, conf):
    """A bag in parts, and twice, over a store: as at once."""
    whole, status, _ = replay(conf, None, bag_of(MESSAGES))
    want("status of the whole", 0, status)
    for cut in range(len(MESSAGES) + 1):
        db = os.path.join(folder, "parts-%d" % cut)
        first, first_status, _ = replay(conf, db, bag_of(MESSAGES[:cut]))
        second, second_status, _ = replay(conf, db, bag_of(MESSAGES[cut:]))
        want("statuses, cut at %d" % cut, (0, 0), (first_status, second_status))
        want("testing, cut at %d" % cut, testing_in(whole), testing_in(second))
        reports = asked(db, "SELECT excuses || updates FROM run ORDER BY number")
        want("reports, cut at %d" % cut, whole[whole.index(b"excuses 1"):whole.index(b"testing ")],
             "".join(text for text, in reports).encode())
        want("database, cut at %d" % cut, [("ok",)], asked(db, "PRAGMA integrity_check"))
        want("keys, cut at %d" % cut, [], asked(db, "PRAGMA foreign_key_check"))
        again, _, _ = replay(conf, db, bag_of(MESSAGES))
        want("replies to all again, cut at %d" % cut, whole[:whole.index(b"ready ")], again[:again.index(b"ready ")])
        want("all again, cut at %d" % cut, testing_in(whole), testing_in(again))


def ended_by_force(folder, conf):
    """A service that is ended by force after each message continues where it was."""
    db = os.path.join(folder, "service")
    whole, _, _ = replay(conf, None, bag_of(MESSAGES))
    for text, line in zip(MESSAGES, whole.splitlines(True)):
        with over(conf, db) as service:
            want("it listens", True, service.runs)
            want("a message", line, service.ask("POST", "/mail", text)[1])
    with over(conf, db) as service:
        want("it listens", True, service.runs)
        want("the first message again", whole.splitlines(True)[0], service.ask("POST", "/mail", MESSAGES[0])[1])
        want("status", "ready 2 finished 2\n", service.get("/status"))
        told = "".join(map(service.get, ("/excuses/1", "/update/1", "/excuses/2", "/update/2", "/testing")))
        want("the texts", whole[whole.index(b"excuses 1"):], told.encode())
        in_use = replay(conf, db, b"")
        want("in use", (b"", 4), in_use[:2])
        want("in use, told", True, "end the program that has it open" in in_use[2])


def refused_setups(folder, conf):
    """The sentence on a setup that is refused names the line at which its paragraph begins, or a role and its senders."""
    with open(conf, encoding="utf-8") as good:
        text = good.read()
    bad, roles = os.path.join(folder, "bad.conf"), "an unknown role, or too few or too many senders of a role: "
    for what, old, new, due in [
            ("a name with a blank", "Sender: bts", "Sender: b ts", "a bad sender: see the paragraph at line 9"),
            ("a comment", "Sender: rt", "# the team\nSender: rt", "a paragraph can't be read: see the paragraph at line 12"),
            ("no role", "Role: runs\n", "", "the field Role is missing: see the paragraph at line 15"),
            ("an architecture", "amd64", "AMD64", "a bad architecture: see the paragraph at line 1"),
            ("a role", "Role: release", "Role: releases", roles + "see the paragraph at line 13"),
            ("two of a role", "Role: bugs", "Role: runs", roles + "bugs has 0, and 1 is due"),
            ("one too many", "Role: build", "Role: runs", roles + "build has 0, and at least 1 is due")]:
        assert text.count(old) == 1, old
        with open(bad, "w", encoding="utf-8") as file:
            file.write(text.replace(old, new))
        want(what, (b"", 3, "office: %s: the setup is refused: %s\n" % (bad, due)), replay(bad, None, b""))


def beside_others(folder, conf):
    """Tables of other names don't count: a store continues, a database without a store gets one, and they stay."""
    whole, _, _ = replay(conf, None, bag_of(MESSAGES))
    rows = [
        ("a table", "CREATE TABLE other(a INTEGER); INSERT INTO other VALUES (5)", "SELECT a FROM other", [(5,)]),
        ("statistics", "CREATE TABLE other(a INTEGER PRIMARY KEY, b); CREATE INDEX i ON other(b); INSERT INTO other VALUES (1, 2); ANALYZE",
         "SELECT count(*) > 0 FROM sqlite_stat1", [(1,)]),
        ("a view", "CREATE VIEW other AS SELECT 5 AS a", "SELECT a FROM other", [(5,)]),
    ]
    for what, words, question, due in rows:
        for first in (0, 3):
            db = os.path.join(folder, "beside-%s-%d" % (what.replace(" ", "-"), first))
            if first:
                want("first half, %s" % what, 0, replay(conf, db, bag_of(MESSAGES[:first]))[1])
            with sqlite3.connect(db) as writer:
                writer.executescript(words)
            writer.close()
            output, status, told = replay(conf, db, bag_of(MESSAGES))
            want("%s, %d kept before" % (what, first), (0, ""), (status, told))
            want("testing beside %s, %d kept before" % (what, first), testing_in(whole), testing_in(output))
            want("%s stays, %d kept before" % (what, first), due, asked(db, question))
            want("database with %s, %d kept before" % (what, first), [("ok",)], asked(db, "PRAGMA integrity_check"))
            again, status, _ = replay(conf, db, bag_of(MESSAGES))
            want("%s, all again, %d kept before" % (what, first), (0, testing_in(whole)), (status, testing_in(again)))


def refused(folder, conf):
    """Files that are no store of this setup are refused, each with its sentence, and stay as they were."""
    made = os.path.join(folder, "made")
    replay(conf, made, bag_of(MESSAGES))
    smaller = os.path.join(folder, "smaller.conf")
    with open(smaller, "wb") as f:
        f.write(bytes_of(conf).replace(b"amd64 arm64", b"amd64"))

    def changed(name, words):
        path = os.path.join(folder, name)
        with open(path, "wb") as f:
            f.write(bytes_of(made))
        asked(path, words)
        return path

    plain = os.path.join(folder, "plain")
    with open(plain, "wb") as f:
        f.write(b"this is no database\n")
    cut = os.path.join(folder, "cut")
    with open(cut, "wb") as f:
        f.write(bytes_of(made)[:20000])
    part = os.path.join(folder, "part")
    asked(part, "CREATE TABLE mail(sender INTEGER NOT NULL, number INTEGER NOT NULL, body BLOB NOT NULL, PRIMARY KEY(sender, number)) STRICT")
    view = os.path.join(folder, "view")
    asked(view, "CREATE VIEW Office AS SELECT 1")
    rows = [
        ("another setup", smaller, made, "made for another setup"),
        ("a schema number", conf, changed("schema", "UPDATE office SET schema = 7"), "other tables"),
        ("a table less", conf, changed("less", "DROP TABLE testing_row"), "other tables"),
        ("a column more", conf, changed("column", "ALTER TABLE mail ADD COLUMN more INTEGER"), "other tables"),
        # (by the office's own test, or already by SQLite's reader, which reads no trigger)
        ("a trigger on mail", conf, changed("trigger", "CREATE TRIGGER t AFTER INSERT ON mail BEGIN DELETE FROM run; END"), ""),
        ("a unique index more on runs", conf, changed("unique", "CREATE UNIQUE INDEX more ON run(excuses)"), "other tables"),
        ("an index more on mail", conf, changed("index", "CREATE INDEX by_number ON mail(number)"), "other tables"),
        ("mail alone", conf, part, "other tables"),
        ("a view of an office's name", conf, view, "other tables"),
        ("a setup that can't be read", conf, changed("setup", "UPDATE office SET setup = 'x'"), "other tables"),
        ("no database", conf, plain, "not a database"),
        ("a database that is cut", conf, cut, "malformed"),
        ("a folder", conf, folder, "unable to open"),
        ("no such folder", conf, os.path.join(folder, "none", "store"), "unable to open"),
        ("no name", conf, "", "unable to open"),
    ]
    for what, setup, path, told in rows:
        before = hashlib.sha256(bytes_of(path)).digest() if os.path.isfile(path) else None
        output, status, sentence = replay(setup, path, bag_of(MESSAGES))
        after = hashlib.sha256(bytes_of(path)).digest() if os.path.isfile(path) else None
        want(what, (b"", 4), (output, status))
        want(what + ", told", True, sentence.startswith("office: %s: " % path) and told in sentence)
        want(what + ", its file", before, after)


def main():
    conf = os.path.join(EXAMPLES, "setup.conf")
    with tempfile.TemporaryDirectory() as folder:
        parts(folder, conf)
        ended_by_force(folder, conf)
        refused_setups(folder, conf)
        beside_others(folder, conf)
        refused(folder, conf)
    for fault in faults:
        print("FAIL", fault)
    print("%d tried, %d faults" % (tried, len(faults)))
    sys.exit(1 if faults else 0)


main()
