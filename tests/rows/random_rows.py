#!/usr/bin/env python3
"""Random bags as rows, and what is due by model.py: random_rows.py SEED COUNT OUT_FOLDER."""
import os
import random
import sys
sys.dont_write_bytecode = True
from model import Office
seed, count, out = int(sys.argv[1]), int(sys.argv[2]), sys.argv[3]
r = random.Random(seed)
NAMES = ["aa", "bb", "cc", "lib", "app"]
VERSIONS = ["1"] * 8 + ["2"] * 5 + ["1.0", "1-1", "2~rc1", "1:1", "10", "1-0"]


def relation():
    alts = []
    for _ in range(r.choice([1, 1, 1, 2])):
        a = r.choice(NAMES + ["virt"])
        if r.random() < .3:
            a += " (%s %s)" % (r.choice(["<<", "<=", "=", ">=", ">>"]), r.choice(VERSIONS))
        alts.append(a)
    return " | ".join(alts)


def item():
    return "%s/%s" % (r.choice(NAMES), r.choice(VERSIONS))


def message(sender, n):
    head = "From: %s\nNumber: %d\n" % (sender, n)
    if sender == "ftp":
        if r.random() < .15:
            return head + "Kind: drop\nPackage: %s\nArchitecture: %s\nVersion: %s\n" % (r.choice(NAMES), r.choice(["amd64", "arm64", "all"]), r.choice(VERSIONS))
        return head + "Kind: upload\nSource: %s\nVersion: %s\nUrgency: %s\nDay: 2025-03-0%d\n" % (
            r.choice(NAMES), r.choice(VERSIONS), r.choice(["low", "medium", "high", "critical", "emergency", "critical", "critical", "high"]), r.randint(1, 9))
    if sender == "bd":
        text = head + "Kind: build\n"
        for _ in range(r.randint(1, 4)):
            p = r.choice(NAMES)
            text += "\nPackage: %s\nVersion: %s\nArchitecture: %s\n" % (p, r.choice(VERSIONS), r.choice(["amd64", "amd64", "arm64", "all"]))
            if r.random() < .3:
                text += "Source: %s\n" % r.choice([r.choice(NAMES), "%s (%s)" % (r.choice(NAMES), r.choice(VERSIONS))])
            if r.random() < .5:
                text += "Depends: %s\n" % ", ".join(relation() for _ in range(r.randint(1, 2)))
            if r.random() < .2:
                text += "Provides: virt%s\n" % r.choice(["", " (= 1)"])
        return text
    if sender == "bts":
        return head + "Kind: bug\nBug: %d\nSource: %s\nSeverity: %s\n" % (r.randint(1, 3), r.choice(NAMES), r.choice(["grave", "normal", "serious"])) \
            + (r.random() < .5) * ("Found: %s\n" % r.choice(VERSIONS)) + (r.random() < .4) * ("Fixed: %s\n" % r.choice(VERSIONS))
    kind = r.choice(["block", "unblock", "easy", "easy", "age", "remove", "all", "unhint", "delays"])
    if kind == "unhint":
        return head + "Kind: unhint\nCancels: %d\n" % r.randint(1, 4)
    if kind == "delays":
        return head + "Kind: delays\nLow: %d\nMedium: %d\nHigh: %d\nCritical: %d\n" % tuple(r.randint(0, 6) for _ in range(4))
    names = r.sample(NAMES, r.randint(1, 3))
    return head + "Kind: hint\nHint: " + {
        "block": "block " + r.choice(NAMES), "unblock": "unblock " + item(), "age": "age-days %d %s" % (r.randint(0, 3), item()),
        "easy": "easy " + " ".join("%s/%s" % (n, r.choice(VERSIONS)) for n in names), "remove": "remove " + item(), "all": "block-all source"}[kind] + "\n"


stdin = stdout = ""
for row in range(count):
    counts = {"ftp": r.randint(2, 8), "bd": r.randint(2, 7), "bts": r.randint(0, 2), "rt": r.randint(0, 3)}
    texts = [message(s, n) for s in counts for n in range(1, counts[s] + 1)]
    runs = r.randint(1, 4)
    for k in range(1, runs + 1):
        texts.append("From: clock\nNumber: %d\nKind: run\nDay: 2025-03-%02d\nCovers: %s\n" % (
            k, r.randint(5, 15), ", ".join("%s %d" % (s, counts[s] if k == runs else r.randint(0, counts[s])) for s in counts)))
    if r.random() < .5:
        r.shuffle(texts)
    texts += r.sample(texts, 2)
    cut = sorted(r.sample(range(len(texts)), r.randint(0, 2)))
    office, due, steps, at = Office(), "", "", 0
    for end in cut + [len(texts)]:
        steps += ("> reopen\n" if at else "") + "> bag\n" + ("\n--\n".join(t[:-1] for t in texts[at:end]) + "\n" if end > at else "")
        due += office.replay(texts[at:end]) + "status 0\n"
        at = end or -1
        at = max(at, 0)
    stdin += "=== random %d.%d\n%s" % (seed, row, steps)
    stdout += "=== random %d.%d\n%s" % (seed, row, due)
open(os.path.join(out, "stdin"), "w").write(stdin)
open(os.path.join(out, "stdout"), "w").write(stdout)
print(count, "rows", len(stdin), len(stdout))
