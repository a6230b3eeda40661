#!/usr/bin/env python3
"""Hostile surroundings: disks, files, locks and limits that fail the program, one after the other.

  hostile.py OFFICE [STEP]

OFFICE is the built program, `crates/office/out/office`. Each case is named in what it prints. A file is flipped at each
STEPth of some hundred places (1). Each start is refused in words with its status, or gives what the store has; and what was
answered `held` is kept, except the two losses in docs/MANUAL.md: a log that is damaged or removed after an end by
force, and files that are removed while the program runs. Exit status 0 where all was so.
"""
import os
import resource
import shutil
import signal
import socket
import sqlite3
import subprocess
import sys
import tempfile
import time

HERE = os.path.dirname(os.path.abspath(__file__))
sys.dont_write_bytecode = True
sys.path.insert(0, os.path.dirname(HERE))
import serving
from serving import CONF

ARCHIVE = os.path.join(os.path.dirname(CONF), "archive")
program = os.path.abspath(sys.argv[1])
step = int(sys.argv[2]) if len(sys.argv) > 2 else 1
NOBODY = 65534
faults = []
tried = 0


def want(what, due, got):
    global tried
    tried += 1
    if due != got:
        faults.append("%s: due %r, got %r" % (what, due, got))


def within(what, due, got):
    """One of several outcomes is due."""
    global tried
    tried += 1
    if got not in due:
        faults.append("%s: due one of %r, got %r" % (what, due, got))


def bytes_of(path):
    with open(path, "rb") as f:
        return f.read()


def write(path, content):
    with open(path, "wb") as f:
        f.write(content)


MESSAGES = [bytes_of(os.path.join(ARCHIVE, name)) for name in sorted(os.listdir(ARCHIVE))]
# Twelve messages of twenty thousand bytes.
LARGE = [(b"From: ftp\nNumber: %d\nKind: none\nNote: " % n).ljust(19999, b"x") + b"\n" for n in range(1, 13)]


def bag_of(texts):
    return b"".join(b"mail %d\n" % len(text) + text for text in texts)


def run(words, **how):
    """The output, the status and the words on standard error of the program."""
    how.setdefault("input", b"")
    if "stdin" in how:
        how.pop("input")
    ran = subprocess.run([program] + words, stdout=subprocess.PIPE, stderr=subprocess.PIPE, timeout=120, **how)
    return ran.stdout, ran.returncode, ran.stderr.decode("utf-8", "replace")


def replay(db, texts, conf=CONF, **how):
    return run(["replay", "--conf", conf] + (["--db", db] if db is not None else []), input=bag_of(texts), **how)


WHOLE = replay(None, MESSAGES)[0]
TESTING = WHOLE[WHOLE.index(b"testing "):]


def held_in(output):
    return [line for line in output.splitlines() if line.startswith(b"held ")]


def testing_in(output):
    return output[output.index(b"testing "):] if b"testing " in output else output


def mail_in(db):
    """How many messages a store has, and whether stock SQLite finds it whole. 0 where it has no tables."""
    if not os.path.exists(db):
        return 0
    try:
        with sqlite3.connect(db) as reader:
            count = reader.execute("SELECT count(*) FROM mail").fetchall()[0][0]
            whole = reader.execute("PRAGMA integrity_check").fetchall()
    except sqlite3.OperationalError as fault:
        if "no such table" in str(fault):
            return 0
        return str(fault)
    except sqlite3.DatabaseError as fault:
        return str(fault)
    finally:
        reader.close()
    return count if whole == [("ok",)] else whole


def refused(what, told, ran, status=4):
    """The program said in one sentence why it did nothing."""
    want(what, (b"", status), ran[:2])
    want(what + ", told", True, ran[2].startswith("office: ") and any(words in ran[2] for words in told))


class Service(serving.Service):
    """The service over a store, ended by force."""

    def __init__(self, db):
        super().__init__(program, "--connections", "200", "--db", db)
        self.listens = self.start()

    def __enter__(self):
        return self

    def post(self, text):
        return self.ask(b"POST /mail HTTP/1.1\r\nHost: x\r\nContent-Length: %d\r\n\r\n" % len(text) + text)

    def get(self, path):
        return self.ask(b"GET %s HTTP/1.1\r\nHost: x\r\n\r\n" % path)

    def ask(self, request):
        """The body of its reply."""
        with socket.create_connection(("127.0.0.1", self.port), timeout=30) as client:
            client.sendall(request)
            taken = b""
            while True:
                piece = client.recv(65536)
                if not piece:
                    return taken.split(b"\r\n\r\n", 1)[-1]
                taken += piece


def made(folder, name, texts=MESSAGES):
    """A store of these messages, closed by the program itself."""
    db = os.path.join(folder, name)
    want("a store is made", 0, replay(db, texts)[1])
    return db


def killed(folder, name, texts=MESSAGES):
    """A store whose service was ended by force after its last reply: its newest part is in the log."""
    db = os.path.join(folder, name)
    with Service(db) as service:
        for text in texts:
            want("held before an end by force", True, service.post(text).startswith(b"held "))
    return db


def small_disks(folder):
    """A disk of a few pages: what is held is kept, and the bag goes through once there is room again. The largest disk
    may have room for all."""
    for size in (4, 40, 120, 200, 300, 340, 420, 600)[::min(step, 3)]:
        disk = os.path.join(folder, "disk")
        os.makedirs(disk, exist_ok=True)
        mounted = subprocess.run(["mount", "-t", "tmpfs", "-o", "size=%dk" % size, "tmpfs", disk], stderr=subprocess.PIPE)
        if mounted.returncode != 0:
            return "not tried, since no disk can be mounted here"
        try:
            what = "a disk of %d KB" % size
            db = os.path.join(disk, "store")
            output, status, told = replay(db, LARGE)
            held = held_in(output)
            within(what + ", status", [(4, True)] + [(0, False)] * (len(held) == len(LARGE)),
                   (status, told.startswith("office: ")))
            within(what + ", other replies", [set(), {b"refused Store"}],
                   set(line for line in output.splitlines()[:len(LARGE)] if line.startswith(b"refused ")))
            want(what + ", mounted with more room", 0,
                 subprocess.run(["mount", "-o", "remount,size=64m", disk], stderr=subprocess.PIPE).returncode)
            output, status, _ = replay(db, [])
            want(what + ", opened again", 0, status)
            want(what + ", mail that is there", len(held), mail_in(db))
            output, status, _ = replay(db, LARGE)
            want(what + ", the bag again", (len(LARGE), 0), (len(held_in(output)), status))
        finally:
            subprocess.run(["umount", "-l", disk])
    return "%d sizes" % len((4, 40, 120, 200, 300, 340, 420, 600)[::min(step, 3)])


def limits_of_files(folder):
    """A limit on the size of files ends the program by its signal or is reported, and what was held is kept. A file may
    stay within the limit: then all is held."""
    by_signal = 0
    for kib in (0, 1, 4, 40, 120, 300, 340, 420)[::min(step, 3)]:
        what = "files of at most %d KB" % kib
        db = os.path.join(folder, "limit-%d" % kib)
        with_limit = lambda: resource.setrlimit(resource.RLIMIT_FSIZE, (kib * 1024, kib * 1024))
        output, status, told = replay(db, LARGE, preexec_fn=with_limit)
        held = len(held_in(output))
        by_signal += status == -signal.SIGXFSZ
        within(what, [-signal.SIGXFSZ, 4] + [0] * (held == len(LARGE)), status)
        if status == 4:
            want(what + ", told", True, told.startswith("office: "))
        want(what + ", opened again", 0, replay(db, [])[1])
        found = mail_in(db)
        want(what + ", held mail is there", True, isinstance(found, int) and found >= held)
        output, status, _ = replay(db, LARGE)
        want(what + ", the bag again", (len(LARGE), 0), (len(held_in(output)), status))
    return "%d limits, %d ended by the signal" % (len((0, 1, 4, 40, 120, 300, 340, 420)[::min(step, 3)]), by_signal)


def permissions(folder):
    """A file or folder that may not be written."""
    if os.getuid() != 0:
        as_nobody = {}
    else:
        as_nobody = {"user": NOBODY, "group": NOBODY, "extra_groups": []}
    place = os.path.join(folder, "read-only")
    os.makedirs(place)
    db = made(place, "store")
    before = bytes_of(db)
    os.chmod(folder, 0o755)
    # A folder of the script's own that nobody may enter hides the program from nobody: a copy is next to the store.
    copy = os.path.join(folder, "office")
    shutil.copy(program, copy)
    shutil.copy(CONF, os.path.join(folder, "conf"))
    os.chmod(copy, 0o755)
    os.chmod(os.path.join(folder, "conf"), 0o644)

    def tried_as_nobody(path):
        words = [copy, "replay", "--conf", os.path.join(folder, "conf"), "--db", path]
        ran = subprocess.run(words, input=bag_of(LARGE), stdout=subprocess.PIPE, stderr=subprocess.PIPE, timeout=60, **as_nobody)
        return ran.stdout, ran.returncode, ran.stderr.decode()

    os.chmod(db, 0o444)
    os.chmod(place, 0o777)
    refused("a file that may only be read", ["unable to open", "readonly", "read-only", "disk I/O"], tried_as_nobody(db))
    os.chmod(db, 0o000)
    refused("a file that may not be read", ["unable to open"], tried_as_nobody(db))
    os.chmod(db, 0o444)
    os.chmod(place, 0o555)
    refused("a folder that may only be read", ["unable to open", "readonly", "read-only", "disk I/O"],
            tried_as_nobody(os.path.join(place, "new")))
    os.chmod(place, 0o755)
    os.chmod(db, 0o644)
    want("the file is as it was", before, bytes_of(db))
    return "3 cases"


def flipped_files(folder):
    """One bit of the file is flipped: a named refusal, or the due output, or one that is refused in its place."""
    good = bytes_of(made(folder, "good"))
    refusals = same = 0
    places = list(range(0, len(good), max(1, len(good) // 150)))[::step]
    for at in places:
        db = os.path.join(folder, "flipped")
        write(db, good[:at] + bytes([good[at] ^ 0x10]) + good[at + 1:])
        for end in ("-wal", "-shm"):
            if os.path.exists(db + end):
                os.remove(db + end)
        output, status, told = replay(db, MESSAGES)
        what = "the file flipped at %d" % at
        if status == 0:
            # The flip lies in what isn't in use, or in a text: the replies show what is kept.
            same += output[output.index(b"ready "):].startswith(b"ready 2 finished 2\n")
            want(what + ", it goes on", True, b"testing 2\n" in output)
        else:
            refusals += 1
            want(what + ", refused", (4, True), (status, told.startswith("office: ")))
    return "%d flips, %d refused, %d read as before" % (len(places), refusals, same)


def damaged_logs(folder):
    """After an end by force the log is flipped, cut or removed: the store opens as an older one, whole, without a word."""
    base = killed(folder, "killed")
    database, log = bytes_of(base), bytes_of(base + "-wal")
    older = whole = refusals = 0
    copy = os.path.join(folder, "damaged")
    cases = [("flipped at %d" % at, log[:at] + bytes([log[at] ^ 1]) + log[at + 1:])
             for at in list(range(0, len(log), max(1, len(log) // 100)))[::step]]
    cases += [("cut at %d" % at, log[:at]) for at in list(range(0, len(log), max(1, len(log) // 50)))[::step]]
    cases.append(("as it was", log))
    for name, content in cases:
        for end in ("", "-wal", "-shm"):
            if os.path.exists(copy + end):
                os.remove(copy + end)
        write(copy, database)
        write(copy + "-wal", content)
        output, status, told = replay(copy, [])
        if status != 0:
            refusals += 1
            want("the log " + name + ", refused", (4, True), (status, told.startswith("office: ")))
            continue
        found = mail_in(copy)
        within("the log %s: a front of the mail" % name, range(len(MESSAGES) + 1), found)
        older += found != len(MESSAGES)
        whole += found == len(MESSAGES)
        output, status, _ = replay(copy, MESSAGES)
        want("the log %s, the bag again" % name, (len(MESSAGES), TESTING, 0), (len(held_in(output)), testing_in(output), status))
    want("a log that isn't damaged loses nothing", True, whole > 0)
    os.remove(base + "-wal")
    output, status, _ = replay(base, [])
    within("the log removed after an end by force", [(0, b"ready 0 finished 0\n"), (0, b"ready 2 finished 2\n")],
           (status, output[:19]))
    output, status, _ = replay(base, MESSAGES)
    want("the log removed, the bag again", (TESTING, 0), (testing_in(output), status))
    return "%d logs: %d opened whole, %d as an older store, %d refused" % (len(cases), whole, older, refusals)


def two_programs(folder):
    """A second program on one file is refused, by another name too, and the first continues."""
    db = os.path.join(folder, "two")
    with Service(db) as service:
        want("the first of two", b"held ftp 1\n", service.post(MESSAGES[0]))
        link = os.path.join(folder, "two-by-link")
        os.symlink(db, link)
        for name in (db, link):
            refused("the second of two", ["database is locked"], replay(name, MESSAGES))
        with Service(db) as second:
            want("a second service", (False, 4), (second.listens, second.wait(30)))
        want("the first goes on", b"held ftp 2\n", service.post(MESSAGES[1]))
    want("what the first held", (0, 2), (replay(db, [])[1], mail_in(db)))
    return "3 cases"


def locks_of_sqlite(folder):
    """A lock that stock SQLite holds: refused at once, and nothing is changed."""
    db = made(folder, "locked")
    for words in ("BEGIN IMMEDIATE", "BEGIN EXCLUSIVE"):
        other = sqlite3.connect(db, isolation_level=None)
        other.execute(words)
        began = time.monotonic()
        refused(words, ["database is locked"], replay(db, LARGE))
        want(words + ", at once", True, time.monotonic() - began < 10)
        other.execute("ROLLBACK")
        other.close()
    with Service(db) as service:
        want("a service beside which SQLite asks", True, service.listens)
        try:
            with sqlite3.connect(db, timeout=0.1) as other:
                other.execute("INSERT INTO mail VALUES (0, 900, 'x')")
            got = "written"
        except sqlite3.Error as fault:
            got = "refused" if "locked" in str(fault) else str(fault)
        finally:
            other.close()
        want("SQLite beside a service", "refused", got)
        want("the service goes on", b"ready 2 finished 2\n", service.get(b"/status"))
    want("after both", (TESTING, 0), (lambda ran: (testing_in(ran[0]), ran[1]))(replay(db, MESSAGES)))
    return "3 cases"


def removed_while_it_runs(folder):
    """The file or its log is removed while the service runs. It continues to answer; the manual says what is lost then,
    and what is left is a whole store that accepts the same mail again."""
    lost = []
    for removed in ("-wal", ""):
        db = os.path.join(folder, "removed" + removed)
        with Service(db) as service:
            want("held before", b"held ftp 1\n", service.post(MESSAGES[0]))
            os.remove(db + removed)
            answers = [service.post(text) for text in MESSAGES[1:]]
            within("answers behind a removed file", [{b"held"}, {b"refused"}, {b"held", b"refused"}],
                   set(answer.split(b" ")[0].strip() for answer in answers))
        output, status, told = replay(db, [])
        within("opened behind a removed file", [0, 4], status)
        lost.append("%d of %d" % (len(MESSAGES) - (mail_in(db) if status == 0 else 0), len(MESSAGES)))
        for end in ("", "-wal", "-shm"):
            if status and os.path.exists(db + end):
                os.remove(db + end)
        output, status, _ = replay(db, MESSAGES)
        want("all mail again behind a removed file", (TESTING, 0), (testing_in(output), status))
    return "the log removed: %s lost; the file removed: %s lost" % tuple(lost)


def odd_files(folder):
    """Names that aren't a plain file."""
    link = os.path.join(folder, "dangling")
    target = os.path.join(folder, "not-there")
    os.symlink(target, link)
    ran = replay(link, MESSAGES)
    if ran[1] == 0:
        want("a dangling link makes its file", True, os.path.exists(target))
    else:
        refused("a dangling link", ["unable to open"], ran)
        want("a dangling link makes nothing", False, os.path.exists(target))
    pipe = os.path.join(folder, "pipe")
    os.mkfifo(pipe)
    for what, name in (("a folder", folder), ("a pipe", pipe), ("a device", "/dev/zero"), ("no folder", os.path.join(folder, "no", "store"))):
        refused(what + " as the store", ["unable to open", "not a database", "disk I/O", "database disk image"], replay(name, MESSAGES))
    return "5 names"


def inputs_and_setups(folder):
    """Standard input that is a folder or closed, and setups that can't be read."""
    inside = os.open(folder, os.O_RDONLY)
    output, status, told = run(["replay", "--conf", CONF], stdin=inside)
    os.close(inside)
    want("a folder as standard input", (3, True), (status, output.startswith(b"bag refused ReadFault\n") and "standard input" in told))
    output, status, told = run(["replay", "--conf", CONF], stdin=None, preexec_fn=lambda: os.close(0))
    within("standard input closed", [3, 0], status)
    refused("no setup", ["can't be read"], replay(None, MESSAGES, conf=os.path.join(folder, "none")))
    refused("a folder as the setup", ["can't be read"], replay(None, MESSAGES, conf=folder))
    for what, text in (("an empty setup", b""), ("a setup of zeros", bytes(300)), ("a setup that is too long", b"x" * 70000)):
        path = os.path.join(folder, "bad.conf")
        write(path, text)
        refused(what, ["the setup is refused", "can't be read"], replay(None, MESSAGES, conf=path), 3)
    full = os.open("/dev/full", os.O_WRONLY)
    ran = subprocess.run([program, "replay", "--conf", CONF], input=bag_of(MESSAGES), stdout=full, stderr=subprocess.PIPE, timeout=60)
    os.close(full)
    want("a full standard output", (4, True), (ran.returncode, b"standard output: a write failed" in ran.stderr))
    return "8 cases"


def few_descriptors(folder):
    """Too few files for a client: reported, and no end with status 0 while clients wait (a failed accept isn't one)."""
    limit = lambda: resource.setrlimit(resource.RLIMIT_NOFILE, (4, 4))
    service = serving.Service(program, "--connections", "50", preexec_fn=limit)
    clients = []
    if service.start():
        for _ in range(3):
            try:
                clients.append(socket.create_connection(("127.0.0.1", service.port), timeout=5))
            except OSError:
                break
        time.sleep(1)
    status = service.process.poll()
    service.end()
    for client in clients:
        client.close()
    within("too few files, status", [None, 4], status)
    within("too few files, lines told", range(1000), service.said.count("\n"))
    return "status %s within a second" % status


def killed_at_moments(folder):
    """The service is ended by force at moments: each message that was answered held is kept."""
    rounds = max(3, 20 // step)
    for n in range(rounds):
        db = os.path.join(folder, "moment-%d" % n)
        held = []
        service = Service(db)
        child = os.fork()
        if child == 0:
            time.sleep(0.002 + 0.011 * n)
            os.kill(service.process.pid, signal.SIGKILL)
            os._exit(0)
        for text in MESSAGES + LARGE[3:]:
            try:
                answer = service.post(text)
            except OSError:
                break
            if not answer.startswith(b"held "):
                break
            held.append(text)
        os.waitpid(child, 0)
        service.end()
        want("ended at a moment, opened again", 0, replay(db, [])[1])
        with sqlite3.connect(db) as reader:
            kept = set(bytes(body) for body, in reader.execute("SELECT body FROM mail"))
        reader.close()
        want("ended at a moment, held mail that is lost", [], [text[:30] for text in held if text not in kept])
        os.remove(db)
    return "%d rounds" % rounds


CASES = [small_disks, limits_of_files, permissions, flipped_files, damaged_logs, two_programs, locks_of_sqlite,
         removed_while_it_runs, odd_files, inputs_and_setups, few_descriptors, killed_at_moments]


def main():
    only = os.environ.get("ONLY", "").split()
    for case in CASES:
        if only and case.__name__ not in only:
            continue
        with tempfile.TemporaryDirectory() as folder:
            before = len(faults)
            try:
                found = case(folder)
            except (OSError, ValueError, subprocess.SubprocessError, sqlite3.Error) as fault:
                found = "stopped"
                faults.append("%s: %r" % (case.__name__, fault))
            print("%s: %s%s" % (case.__name__.replace("_", " "), found, ", FAULTS" if len(faults) > before else ""), flush=True)
    for fault in faults[:40]:
        print("FAIL", fault[:400])
    print("%d tried, %d faults" % (tried, len(faults)))
    sys.exit(1 if faults else 0)


main()
