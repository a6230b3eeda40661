#!/usr/bin/env python3
"""What the asking commands and pages print, compared with tests/rows/model.py.

  asking.py PROGRAM [FIRST-LAST [PORT]]

PROGRAM is the built program, `crates/office/out/office`. For each seed from FIRST to LAST (1-40) some of the mail of
tests/rows/reopened_rows.py is left out. Then `office waiting` has to print what the model misses, over the bag and over
a store, `office report` the texts of each finished run, `office why` what they say of each source, where its reasons
come from and why it waits, of the last run and of each earlier one, `office try` what hints would change in the next run, `office runs` and `office mail` what
they count, `office export` the kept mail, `office check` that all is whole, and the service the same on its pages. The
bytes of the store's file have to be the same before and after. A copy of a store in which Python's sqlite3 changes a
text or a row has to be found by `office check`. A replay has to print refused messages on standard error. Exit status 0
if all was right.
"""
import os
import random
import shutil
import sqlite3
import subprocess
import sys
import tempfile
sys.dont_write_bytecode = True
TESTS = os.path.join(os.path.dirname(os.path.abspath(__file__)), "..")
sys.path[:0] = [TESTS, os.path.join(TESTS, "rows")]
from asked import RELEASE, hint_fault, office_after, tried as would_change, why_fault
from model import Office, SENDERS, paragraphs
from reopened_rows import row_of
from rows import mail, rows_of, steps_of
from serving import CONF, Service

EXAMPLES = os.path.join(TESTS, "..", "examples")
CLOCK = SENDERS.index("clock")
program = os.path.abspath(sys.argv[1])
seeds = sys.argv[2] if len(sys.argv) > 2 else "1-40"
port = int(sys.argv[3]) if len(sys.argv) > 3 else 18733
faults = []
tried = 0


def want(what, due, got):
    global tried
    tried += 1
    if due != got:
        faults.append("%s: due %r, got %r" % (what, due, got))


def call(*words, bag=""):
    ran = subprocess.run([program, *words], input=bag.encode(), capture_output=True, timeout=60)
    return ran.stdout.decode(), ran.returncode


def bytes_of(path):
    with open(path, "rb") as f:
        return f.read()


def stated(order):
    """How many messages of each sender an order covers."""
    covers = [item.split() for item in paragraphs(order)[0]["covers"].split(",") if item.strip()]
    return {SENDERS.index(sender): int(number) for sender, number in covers}


def first_gap(kept, sender):
    number = 1
    while (sender, number) in kept:
        number += 1
    return number


def awaited(office):
    """What the first run that isn't ready waits for, and the exit status of who asks."""
    text = office.status()
    run = int(text.split()[1]) + 1
    if (CLOCK, run) not in office.kept:
        return text + "run %d waits for clock %d\n" % (run, run), 0
    for sender, cover in sorted(stated(office.kept[CLOCK, run]).items()):
        if first_gap(office.kept, sender) <= cover:
            text += "run %d waits for %s %d of %d\n" % (run, SENDERS[sender], first_gap(office.kept, sender), cover)
    return text, 1


def run_lines(office):
    """A line for each finished run, by counts of the lines of its reports."""
    lines = ""
    for run in range(1, office.finished + 1):
        (heading, *excuses), (_, *update) = [report.splitlines() for report in office.reports[run]]
        moves = [line.split(" ") for line in update]
        done = {kind: sum(move[0] == kind and move[2] == "accept" for move in moves) for kind in ("easy", "remove")}
        counts = [("excuses", sum(not line.startswith(" ") for line in excuses)),
                  ("candidates", excuses.count(" candidate")),
                  ("accept", sum(move[0] == "accept" for move in moves)), ("easy", done["easy"]),
                  ("remove", done["remove"]), ("wait", sum(move[0] == "wait" for move in moves))]
        lines += "run %d %s %s\n" % (run, heading.split()[2], " ".join("%s %d" % count for count in counts))
    return lines


def said(office, run, source):
    """The lines of a run's excuses that are of a source, and those of its update that name it."""
    excuses, update = [report.splitlines()[1:] for report in office.reports[run]]
    lines, own = [], False
    for line in excuses:
        own = own if line.startswith(" ") else line.split(" ")[0] == source
        lines += [line] * own
    return lines, [line for line in update if source in line.split(" ")[1:]]


def parted(text, run, sources):
    """The texts on sources of a run, one after the other."""
    parts, heads = [], ["why %d %s" % (run, source) for source in sources]
    for line in text.splitlines(keepends=True):
        if len(parts) < len(heads) and line == heads[len(parts)] + "\n":
            parts.append("")
        if parts:
            parts[-1] += line
    return parts


def over_earlier_runs(seed, office, store, sources):
    """The answers on sources of each run but the last: the same over the store and over its mail, and what is due by
    the model of an office as that run left it."""
    bag = kept_bag(office)
    for run in range(1, office.finished):
        left = office_after(office, run)
        want("%d: the model up to run %d" % (seed, run), office.reports[run], left.reports[left.finished])
        got, status = call("why", *sources, "--run", str(run), "--conf", CONF, "--db", store)
        parts = parted(got, run, sources)
        want("%d: sources in run %d" % (seed, run), (len(sources), got), (len(parts), "".join(parts)))
        for source, text in zip(sources, parts):
            fault = why_fault(left, source, said(office, run, source), text)
            want("%d: why %s in run %d" % (seed, source, run), None, fault)
        want("%d: why in run %d" % (seed, run), 0 if all(source in left.known.sources for source in sources) else 1, status)
        again = call("why", *sources, "--run", str(run), "--conf", CONF, bag=bag)
        want("%d: why in run %d over a bag" % (seed, run), (got, status), again)
        for number in range(1, left.covers(run)[0][RELEASE] + 1):
            got, _ = call("why", "--hint", str(number), "--run", str(run), "--conf", CONF, "--db", store)
            want("%d: hint %d in run %d" % (seed, number, run), None, hint_fault(left, number, got))


def mail_lines(office):
    """How much mail is kept of each sender."""
    lines = ""
    for place, sender in enumerate(SENDERS):
        numbers = [number for of, number in office.kept if of == place]
        lines += "mail %s %d kept" % (sender, len(numbers))
        lines += ", 1 to %d" % (first_gap(office.kept, place) - 1) if first_gap(office.kept, place) > 1 else ""
        lines += ", greatest %d\n" % max(numbers) if numbers else "\n"
    return lines


def about(text):
    """The kind of a message, and what it is about."""
    field, *binaries = paragraphs(text)
    if field["kind"] == "run":
        covers = sorted((SENDERS.index(sender), int(number)) for sender, number in
                        (item.split() for item in field["covers"].split(",") if item.strip()))
        stated = ", ".join("%s %d" % (SENDERS[sender], number) for sender, number in covers if number)
        return ("run %s %s" % (field["day"], stated)).rstrip()
    words = {"upload": ["source", "version"], "drop": ["package", "version", "architecture"], "build": [],
             "bug": ["bug", "source"], "hint": ["hint"], "unhint": ["cancels"],
             "delays": ["low", "medium", "high", "critical"], "none": []}[field["kind"]]
    told = [str(len(binaries))] if field["kind"] == "build" else [" ".join(field[word].split()) for word in words]
    return " ".join([field["kind"], *told])


def list_lines(office):
    kept = sorted(office.kept.items())
    return "".join("%s %d %s\n" % (SENDERS[of], number, about(text)) for (of, number), text in kept)


def kept_bag(office):
    return mail([text for _, text in sorted(office.kept.items())])


def texts_of(seed):
    """The mail of a seed in one bag, without some of its messages."""
    (_, lines), = rows_of(row_of(seed))
    texts = [text + "\n" for what, step in steps_of(lines) if what == "bag" for text in step.split("\n--\n")]
    draw = random.Random(seed)
    lost = draw.choice([0, .05, .05, .15, .3])
    return [text for text in texts if draw.random() >= lost]


def drawn_hints(draw, office):
    """One or two hints, most meaning something to the next run."""
    names = sorted({paragraphs(text)[0].get("source", "greeter") for text in office.kept.values()})
    known = office.known.sources if office.known else {}
    versions = {name: office.sources.get(name) or (known[name][1] if name in known else "1") for name in names}
    unstable = ["%s/%s" % (name, known[name][1]) for name in names if name in known] or ["greeter/1"]
    moving = " ".join(draw.sample(unstable, min(2, len(unstable))))
    one = draw.choice(names or ["greeter"])
    hints = ["easy " + moving, "remove %s/%s" % (one, versions.get(one, "1")), "block " + one, "unblock " + unstable[0],
             "age-days %d %s" % (draw.choice([0, 100]), draw.choice(unstable)), "block-all source"]
    return draw.sample(hints, draw.choice([1, 1, 2]))


def over_trials(seed, office, store):
    """What `office try` prints for hints that are drawn, and for one that is refused."""
    draw = random.Random(seed)
    for terms in [], ["--all"], ["--day", "2031-02-03"], ["--all", "--day", "2024-12-31"]:
        hints = drawn_hints(draw, office)
        day = terms[terms.index("--day") + 1] if "--day" in terms else None
        due = would_change(office, hints, day, "--all" in terms) or ("", 3)
        got = call("try", *hints, *terms, "--conf", CONF, "--db", store)
        want("%d: try %s %s" % (seed, hints, terms), due, got)
    got = call("try", "unblock", "--day", "2031-02-03", "--conf", CONF, "--db", store)
    want("%d: a refused hint" % seed, ("", 3), got)


def over_a_store(seed, office, store):
    """What a store with this mail answers, by the commands and by the service. Nothing in its file changes."""
    before = bytes_of(store)
    due = awaited(office)
    want("%d: waiting over a store" % seed, due, call("waiting", "--conf", CONF, "--db", store))
    want("%d: report testing" % seed, (office.testing(), 0), call("report", "testing", "--conf", CONF, "--db", store))
    for run in range(1, office.finished + 1):
        for report, text in zip(("excuses", "update"), office.reports[run]):
            got = call("report", str(run), report, "--conf", CONF, "--db", store)
            want("%d: report %d %s" % (seed, run, report), (text, 0), got)
    sources = sorted({paragraphs(text)[0].get("source", "greeter") for text in office.kept.values()}) or ["greeter"]
    over_earlier_runs(seed, office, store, sources)
    for source in sources if office.finished else []:
        got, status = call("why", source, "--conf", CONF, "--db", store)
        fault = why_fault(office, source, said(office, office.finished, source), got)
        want("%d: why %s" % (seed, source), (None, 0 if source in office.known.sources else 1), (fault, status))
        again = call("why", source, "--run", str(office.finished), "--conf", CONF, "--db", store)
        want("%d: why %s in the last run" % (seed, source), (got, status), again)
    got = call("why", sources[0], "--run", str(office.finished + 1), "--conf", CONF, "--db", store)
    want("%d: why in no run" % seed, ("", 1), got)
    got = call("report", str(office.finished + 1), "excuses", "--conf", CONF, "--db", store)
    want("%d: a report of no run" % seed, ("", 1), got)
    over_trials(seed, office, store)
    stored = ["--conf", CONF, "--db", store]
    want("%d: runs" % seed, (run_lines(office), 0), call("runs", *stored))
    want("%d: mail" % seed, (mail_lines(office), 0), call("mail", *stored))
    want("%d: mail --list" % seed, (list_lines(office), 0), call("mail", *stored, "--list"))
    want("%d: export" % seed, (kept_bag(office), 0), call("export", *stored))
    want("%d: check" % seed, ("whole %d runs\n" % office.finished, 0), call("check", *stored))
    want("%d: the store's bytes" % seed, True, before == bytes_of(store))
    if seed % 5 == 0:
        by_service(seed, office, store, due[0], sources if office.finished else [])


def by_service(seed, office, store, due, sources):
    """What the service answers on its pages. On these sources, and on hints that are tried, it answers what the
    commands print."""
    stored = ["--conf", CONF, "--db", store]
    pages = [("/waiting", due), ("/testing", office.testing())]
    pages += [("/update/%d" % run, office.reports[run][1]) for run in range(1, office.finished + 1)]
    pages += [("/runs", run_lines(office)), ("/kept", mail_lines(office))]
    pages += [("/kept/%s/%d" % (SENDERS[of], number), text) for (of, number), text in sorted(office.kept.items())]
    known = office.known.sources if office.known else {}
    told = {name: call("why", name, *stored)[0] if name in known else "refused NoSource\n" for name in sources}
    pages += [("/why/%s" % name, text) for name, text in told.items()]
    tries = [["block %s" % name for name in names] for names in (sources[:1], sources[:12]) if names]
    pages += [("/try", call("try", *hints, *stored)[0], "\n".join(hints)) for hints in tries]
    with Service(program, *stored[2:], port=port, connections=len(pages)) as service:
        for path, text, *body in pages:
            got = service.post(path, body[0]) if body else service.get(path)
            want("%d: %s" % (seed, path), text, got)


def one(seed, folder):
    texts, office, store = texts_of(seed), Office(), os.path.join(folder, "%d.store" % seed)
    for text in texts:
        office.deliver(text)
    want("%d: waiting over a bag" % seed, awaited(office), call("waiting", "--conf", CONF, bag=mail(texts)))
    call("replay", "--conf", CONF, "--db", store, bag=mail(texts))
    over_a_store(seed, office, store)


def words(folder):
    """Words that name no report, and missing files: refused, and nothing is made."""
    none = os.path.join(folder, "none.store")
    stored = ["--conf", CONF, "--db", none]
    rows = [(["report", "0", "excuses"], 2), (["report", "1"], 2), (["report", "x", "update"], 2),
            (["report", "testing", "update"], 2), (["report", "1", "testing"], 2), (["report", "1", "excuses"], 4),
            (["report", "testing"], 4), (["waiting"], 4), (["runs"], 4), (["mail"], 4), (["mail", "--list"], 4),
            (["export"], 4), (["check"], 4), (["runs", "--list"], 2), (["check", "--list"], 2), (["why", "greeter"], 4),
            (["why"], 2), (["why", "greeter", "--run", "0"], 2), (["try", "block greeter"], 4), (["try"], 2)]
    for row, status in rows:
        want("words %s" % row, ("", status), call(*row, *stored))
        want("words %s, the file" % row, False, os.path.exists(none))
    want("version", ("office ", 0), (call("--version")[0][:7], call("--version")[1]))
    want("version with more words", 2, call("--version", "replay")[1])


def changed_text(sender, number, old, new):
    """What changes the bytes of a kept message."""
    def change(store):
        where = "WHERE sender = ? AND number = ?"
        (body,), = store.execute("SELECT body FROM mail " + where, (sender, number))
        assert body.count(old) == 1, body
        store.execute("UPDATE mail SET body = ? " + where, (body.replace(old, new), sender, number))
    return change


def changed_rows(*statements):
    """What changes rows, by statements of SQL."""
    def change(store):
        for words in statements:
            assert store.execute(words).rowcount > 0, words
    return change


# What is changed of the store of examples/archive.bag, which has two runs, and what a check then finds.
CHANGES = [
    (changed_text(1, 2, b"From", b"Fr\0m"), "mail bd 2"),
    (changed_text(4, 2, b"Number: 2", b"Number: 3"), "mail clock 2"),
    (changed_text(0, 1, b"Day: 2025-03-01", b"Day: 2025-02-01"), "run 1 excuses"),
    # (rows that name a missing message are refused when the file is opened)
    (changed_rows("DELETE FROM fact WHERE sender = 2", "DELETE FROM mail WHERE sender = 2"), "run 1 mail"),
    (changed_rows("UPDATE run SET excuses = excuses || 'more' WHERE number = 1"), "run 1 excuses"),
    (changed_rows("UPDATE run SET excuses = '' WHERE number = 2"), "run 2 excuses"),
    (changed_rows("UPDATE run SET updates = 'U' || substr(updates, 2) WHERE number = 1"), "run 1 update"),
    (changed_rows("DELETE FROM testing_row WHERE arch = 0 AND name = 'greeter'"), "testing"),
    (changed_rows("DELETE FROM testing_source WHERE name = 'greeter'"), "testing"),
    (changed_rows("DELETE FROM fact WHERE rowid = (SELECT min(rowid) FROM fact)"), "facts"),
    (changed_rows("INSERT OR REPLACE INTO fact_delays VALUES (1, 1)"), "facts"),
    (changed_rows("INSERT INTO run VALUES (3, 'x', 'y')"), "tables"),
    (changed_rows("INSERT INTO mail VALUES (0, -1, x'00')"), "tables"),
    (changed_rows("INSERT INTO mail VALUES (9, 1, x'00')"), "tables"),
    (changed_rows("UPDATE fact SET kind = 9 WHERE kind = 1"), "unread facts"),
    (changed_rows("INSERT INTO fact SELECT 8, sender, number, 0 FROM mail LIMIT 1"), "unread facts"),
    (changed_rows("UPDATE fact SET place = 1 WHERE kind = 1"), "unread facts"),
    (changed_rows("INSERT INTO fact_delays VALUES (2, 1)"), "unread facts"),
    (changed_rows("UPDATE testing_row SET arch = 16 WHERE arch = 0 AND name = 'greeter'"), "unread testing"),
    (changed_rows("INSERT INTO testing_row SELECT 2, name, sender, number, place FROM testing_row"
                  " WHERE arch = 0 AND name = 'greeter'"), "unread testing"),
    (changed_rows("DELETE FROM run WHERE number = 1"), "unread run 1"),
]


def differences(folder):
    """A changed store is reported by its first difference, and stays as it is. So is one that wasn't changed. The
    answer on a source for an earlier run is what the mail gives, and nothing if that run isn't made of it."""
    made = os.path.join(folder, "made.store")
    with open(os.path.join(EXAMPLES, "archive.bag"), encoding="utf-8") as bag:
        want("the archive", 0, call("replay", "--conf", CONF, "--db", made, bag=bag.read())[1])
    earlier = ["why", "greeter", "--run", "1", "--conf", CONF, "--db"]
    whole = call(*earlier, made)
    want("why in the first run", True, whole[0].startswith("why 1 greeter\n"))
    rows = [(changed_rows("UPDATE office SET schema = schema"), ("whole 2 runs\n", 0))]
    rows += [(change, (told + "\n", 1)) for change, told in CHANGES]
    for place, (change, due) in enumerate(rows):
        copy = os.path.join(folder, "changed-%d.store" % place)
        shutil.copyfile(made, copy)
        with sqlite3.connect(copy) as store:
            change(store)
        store.close()
        before = bytes_of(copy)
        want("change %d" % place, due, call("check", "--conf", CONF, "--db", copy))
        if "excuses" not in due[0]:
            want("change %d, why" % place, ("", 1) if "mail" in due[0] else whole, call(*earlier, copy))
        want("change %d, the store's bytes" % place, True, before == bytes_of(copy))


def refusals():
    """A replay prints each refused message on standard error, with its place in the bag, and what names it."""
    none = "From: ftp\nNumber: 1\nKind: none\n"
    texts = [none, "hello", "From: ftp\nNumber: 2\nKind: upload\n", none, none + "Note: other\n"]
    strange = "From: \x1b[2J\nNumber: 3\nKind: none\n"
    texts += ["Kind: none\n\nFrom: ftp\nNumber: 4\n", strange]
    due = [
        ("2", "BadParagraph"),
        ("3, ftp 2", "MissingField Source"),
        ("5, ftp 1", "OtherText"),
        ("6", "MissingField From"),
        ("7", "UnknownSender"),
    ]
    words = [program, "replay", "--conf", CONF]
    ran = subprocess.run(words, input=mail(texts).encode(), capture_output=True, timeout=60)
    told = "".join("office: standard input: message %s: refused %s\n" % refusal for refusal in due)
    want("refusals of a replay", (told, 0), (ran.stderr.decode(), ran.returncode))


def main():
    first, _, last = seeds.partition("-")
    with tempfile.TemporaryDirectory() as folder:
        words(folder)
        differences(folder)
        refusals()
        for seed in range(int(first), int(last or first) + 1):
            one(seed, folder)
    for fault in faults:
        print("FAIL", fault)
    print("%d tried, %d faults" % (tried, len(faults)))
    sys.exit(1 if faults else 0)


main()
