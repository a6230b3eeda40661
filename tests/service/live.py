#!/usr/bin/env python3
"""What a running office prints in addition to its reports, compared with tests/rows/live_pages.py.

  live.py PROGRAM [FIRST-LAST [PORT]]

PROGRAM is the built program, `crates/office/out/office`. For each seed from FIRST to LAST (1-40) some of the mail of
tests/rows/reopened_rows.py is left out, and hints, long messages and mail after gaps are appended. Then `office
hints`, `office report unstable` and `office order` have to print over a store what the model says, and the file has to
stay as it is; the service has to say the same on its pages, and all mail part by part. Messages are posted as mail of
a sender that is drawn, and looked at without being kept: each reply, what is kept then and what the pages say after it
have to be as the model has them. Hints are tried over all mail on a day. Parts of a bag at their limit are stated, too.
Exit status 0 if all was right.
"""
import os
import random
import re
import subprocess
import sys
import tempfile

sys.dont_write_bytecode = True
HERE = os.path.dirname(os.path.abspath(__file__))
sys.path[:0] = [HERE, os.path.join(HERE, "..", "rows")]
import live_pages as live
from drawn import drawn_wishes, more_mail, none, texts_of
from model import Office, SENDERS, paragraphs
from rows import mail
from tries import CONF, Tries

tries = Tries(sys.argv, port=18770)
want, call = tries.want, tries.call
# Texts that are no messages, and how each is refused.
REFUSED = [
    ("hello", "BadParagraph"),
    ("", "MissingField From"),
    ("From: ftp\nNumber: 9\nKind: upload\n", "MissingField Source"),
    ("From: ftpd\nNumber: 9\nKind: none\n", "UnknownSender"),
    ("From: ftp\nNumber: 09\nKind: none\n", "BadNumber"),
    ("From: ftp\nNumber: 9\nKind: uplod\n", "UnknownKind"),
    ("From: bd\nNumber: 9\nKind: hint\nHint: block aa\n", "WrongRole"),
    ("From: ftp\nNumber: 9\nKind: none\n\nX: y\n", "TooManyParagraphs"),
    ("From: bd\nNumber: 9\nKind: build\n\nPackage: aa\nVersion: 1\nArchitecture: i386\n", "UnknownArchitecture"),
    ("From: rt\nNumber: 9\nKind: hint\nHint: block aa/1\n", "BadValue Hint"),
    ("From: clock\nNumber: 9\nKind: run\nDay: 2025-02-30\nCovers:\n", "BadValue Day"),
    ("x" * 65537, "TooLong"),
]
# Requests that no office takes, whatever it keeps: the method, the path, and what is due.
NO_ROUTE, NO_MESSAGE, ONLY_GET = (
    (404, "refused NoRoute\n"),
    (404, "refused NoMessage\n"),
    (405, "refused MethodNotAllowed\n"),
)
ODD = [
    ("GET", "/order/" + day, NO_ROUTE)
    for day in ("2025-02-30", "2025-3-1", "20250301", "1969-12-31", "x", "2025-03-01/")
]
ODD += [("POST", "/order/x", NO_ROUTE), ("POST", "/order/2025-03-01", ONLY_GET), ("GET", "/order/", NO_ROUTE)]
ODD += [
    ("GET", "/bag/" + part, NO_MESSAGE)
    for part in ("ftp/0", "ftp/01", "ftp/x", "ftp/-1", "ftp/1x", "none/1", "FTP/1")
]
ODD += [
    ("POST", "/bag/ftp/1", ONLY_GET),
    ("GET", "/bag/ftp", NO_ROUTE),
    ("GET", "/bag/ftp/1/2", NO_ROUTE),
    ("GET", "/bag", NO_ROUTE),
]
ODD += [("POST", path, ONLY_GET) for path in ("/hints", "/unstable", "/breaks/greeter", "/propose/2025-03-01")]
ODD += [
    ("GET", path, NO_ROUTE)
    for path in ("/hints/", "/unstable/", "/lint/", "/try/", "/mail/", "/mail/none", "/mail/ftp/1", "/breaks/", "/breaks/X")
]
ODD += [("POST", "/mail/" + name, NO_ROUTE) for name in ("none", "", "FTP", "%66tp", "ftp/", "ftp/../rt")]
ODD += [("GET", path, (405, "refused MethodNotAllowed\n")) for path in ("/mail/ftp", "/lint", "/try/2025-03-01", "/breaks")]
ODD += [("POST", "/try/" + day, NO_ROUTE) for day in ("2025-02-30", "x", "20250301")]
# Messages of a sender by number, and how many bytes each has: in a bag 11 more, or 8 for the last one. Number 7 isn't
# kept. Then the parts of its bag by where they begin: how many bytes each has, and whose messages they are.
SIZES = {1: 65536, 2: 65525, 3: 30000, 4: 35514, 5: 30000, 6: 35515, 8: 29998, 9: 60}
PARTS = [
    (1, 65547, [1]),  # the longest message stands alone, also if the part is over the limit with its line
    (2, 65536, [2]),  # a message that is alone as long as a part
    (3, 65536, [3, 4]),  # two that just fit
    (4, 65536, [4, 5]),
    (5, 30011, [5]),  # the next one has a byte too much
    (6, 65535, [6, 8]),  # ends a byte below the limit, behind a gap
    (7, 30077, [8, 9]),
    (8, 30077, [8, 9]),
    (9, 68, [9]),
    (10, 0, []),
    (999999999, 0, []),
]


def over_a_store(seed, office, store):
    """What the commands print over a store, whose file stays as it is."""
    before, stored = tries.bytes_of(store), ["--conf", CONF, "--db", store]
    want("%d: hints" % seed, (live.hints(office), 0), call("hints", *stored))
    want("%d: unstable" % seed, (live.unstable(office), 0), call("report", "unstable", *stored))
    want("%d: order" % seed, (live.order(office, "2031-01-02"), 0), call("order", "--day", "2031-01-02", *stored))
    want("%d: the store's bytes" % seed, True, before == tries.bytes_of(store))


def pages_of(office):
    """The pages on an office, each with what is due."""
    pages = [
        ("GET", "/hints", None, (200, live.hints(office))),
        ("GET", "/unstable", None, (200, live.unstable(office))),
        ("GET", "/order/2031-01-02", None, (200, live.order(office, "2031-01-02"))),
    ]
    for place, name in enumerate(SENDERS):
        pages += [("GET", "/bag/%s/%d" % (name, first), None, (200, part)) for first, part in live.parts(office, place)]
        pages += [("GET", "/bag/%s/999999999" % name, None, (200, live.bag(office, place, 999999999)))]
    return pages


def trials_of(draw, office):
    """Trials over all mail, and what is due of them: if no run is finished, the day is the named one."""
    trials = []
    for day in ("1970-01-01", "2031-02-03"):
        wishes = drawn_wishes(draw, office)
        trials.append(("POST", "/try/" + day, "\n".join(wishes), (200, live.tried_on(office, wishes, day))))
    return trials


def posts_of(draw, office, texts):
    """Messages that are looked at, and mailed as a sender's, and what is due. The model's office gets what is held."""
    posts = []
    for text, refusal in [(text, None) for text in texts] + draw.sample(REFUSED, 4):
        sender = draw.choice(["ftp", "bd"]) if refusal else paragraphs(text)[0]["from"]
        name = draw.choice([sender] * 3 + ["rt", "clock", "nobody"])
        posts.append(("POST", "/lint", text, live.reply(office, text, refusal)))
        due = live.bound_reply(office, name, text, refusal)
        posts.append(("POST", "/mail/" + name, text, due))
        if due[0] == 200:
            office.deliver(text)
        posts.append(("POST", "/lint", text, live.reply(office, text, refusal)))
    return posts


def without_names(said):
    """What the service says, but that a refusal whose body needn't be read names no sender: it may have come or not."""
    return re.sub(r"(?m)^office: \S+ \d+( at \S+: refused (?:NoRoute|TooLong))$", r"office: a message\1", said)


def said_of(asked):
    """What the service says on standard error of a request: a line for mail that is refused, and nothing else."""
    method, path, body, (code, reply) = asked
    if method != "POST" or not (path + "/").startswith("/mail/") or code == 200 or code == 405:
        return ""
    first = (paragraphs(body) if body and "From: " in body else [{}])[0]
    who = "%s %s" % (first["from"], first["number"]) if "from" in first and "number" in first else "a message"
    at = " at " + path if path != "/mail" else ""
    return "office: %s%s: %s" % (who, at, reply)


def by_service(seed, office, store, later):
    """What the service answers on its pages, and replies to more mail. The store has what it keeps after it."""
    draw = random.Random(seed)
    asked = pages_of(office) + trials_of(draw, office)
    asked += posts_of(draw, office, later)
    asked += pages_of(office) + trials_of(draw, office)
    asked += [("GET", "/status", None, (200, office.status()))]
    asked += [("GET", "/testing", None, (200, office.testing()))]
    if seed % 10 == 0:
        asked += [(method, path, "" if method == "POST" else None, due) for method, path, due in ODD]
    with tries.serving(len(asked), "--db", store) as service:
        for method, path, body, due in asked:
            want("%d: %s %s %.60r" % (seed, method, path, body), due, service.ask(method, path, body))
    due, said = "".join(map(said_of, asked)), service.said
    want("%d: what it says of refused mail" % seed, without_names(due), without_names(said))
    over_a_store(seed, office, store)


def one(seed, folder):
    draw = random.Random(-seed)
    texts, office, store = texts_of(seed), Office(), os.path.join(folder, "%d.store" % seed)
    for text in texts:
        office.deliver(text)
    more = more_mail(draw, office)
    half = draw.randint(0, len(more))
    for text in more[:half]:
        office.deliver(text)
    call("replay", "--conf", CONF, "--db", store, bag=mail(texts + more[:half]))
    over_a_store(seed, office, store)
    by_service(seed, office, store, more[half:] + draw.sample(texts, min(3, len(texts))))


def full_parts(folder):
    """Parts of a bag at the limit of 65,536 bytes, whole: in memory, over a store, and by the model."""
    office, stored = Office(), ["--db", os.path.join(folder, "full.store")]
    texts = {number: none("bts", number, size) for number, size in SIZES.items()}
    for text in texts.values():
        office.deliver(text)
    call("replay", "--conf", CONF, *stored, bag=mail(reversed(texts.values())))
    for words, posts in ([], texts.values()), (stored, []):
        with tries.serving(len(posts) + len(PARTS), *words) as service:
            for text in posts:
                want("a long message", 200, service.ask("POST", "/mail", text)[0])
            for first, size, numbers in PARTS:
                due = mail(texts[number] for number in numbers)
                code, part = service.ask("GET", "/bag/bts/%d" % first)
                want("the part from %d, its bytes" % first, (200, size, size), (code, len(part), len(due)))
                model = live.bag(office, SENDERS.index("bts"), first)
                want("the part from %d, its messages" % first, (True, True), (part == due, part == model))


def unknown_sources():
    """The answer on a source that neither a run nor unstable knows."""
    with open(
        os.path.join(os.path.dirname(CONF), "archive.bag"), encoding="utf-8"
    ) as bag, tempfile.TemporaryDirectory() as folder:
        store = os.path.join(folder, "store")
        call("replay", "--conf", CONF, "--db", store, bag=bag.read())
        with tries.serving(3, "--db", store) as service:
            want("why of no source", (404, "refused NoSource\n"), service.ask("GET", "/why/greeeter"))
            want("why of a source", 200, service.ask("GET", "/why/greeter")[0])
            want("why of no name", NO_ROUTE, service.ask("GET", "/why/X"))


def looked_at(folder):
    """`office lint` prints the refusals of a bag like a replay, and its status says whether there is one; missing files
    are refused, and nothing is made."""
    good, bad = "From: ftp\nNumber: 1\nKind: none\n", REFUSED[2][0]
    for bag, due in [
        (mail([good]), (0, "")),
        (mail([]), (0, "")),
        (mail([good, bad]), (1, "office: standard input: message 2, ftp 9: refused MissingField Source\n")),
        (mail([good, good + "X: y\n"]), (1, "office: standard input: message 2, ftp 1: refused OtherText\n")),
    ]:
        ran = subprocess.run(
            [tries.program, "lint", "--conf", CONF], input=bag.encode(), capture_output=True, timeout=60
        )
        want("lint of %.60r" % bag, (*due, ""), (ran.returncode, ran.stderr.decode(), ran.stdout.decode()))
    want("lint of half a bag", ("", 3), call("lint", "--conf", CONF, bag="mail 9\nhello"))
    none = os.path.join(folder, "none.store")
    stored = ["--conf", CONF, "--db", none]
    for row, status in [
        (["hints"], 4),
        (["report", "unstable"], 4),
        (["order", "--day", "2025-03-01"], 4),
        (["order"], 2),
        (["order", "--day", "2025-02-30"], 2),
        (["hints", "more"], 2),
        (["report", "unstable", "update"], 2),
    ]:
        want("words %s" % row, ("", status), call(*row, *stored))
        want("words %s, the file" % row, False, os.path.exists(none))


def main():
    with tempfile.TemporaryDirectory() as folder:
        looked_at(folder)
        unknown_sources()
        full_parts(folder)
        for seed in tries.seeds("1-40"):
            one(seed, folder)
    tries.end()


main()
