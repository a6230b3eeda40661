#!/usr/bin/env python3
"""What `office breaks` tells, beside two whole solutions by tests/rows/model.py.

  breaks.py PROGRAM [FIRST-LAST [PORT]]

PROGRAM is the built program, `crates/office/out/office`. For each seed from FIRST to LAST (1-40) it asks over a bag
what breaks by the move of each source, by groups and by removals that are drawn. The rows have to be exactly those that
the model has in the one solution and not in the other, in their order, with what unstable has in their place; the lines
after them have to show the first one. A service at PORT (9731) has to answer the same, for each tenth seed. Exit status
0 if all was as it is due.
"""
import os
import random
import re
import sys
import tempfile
sys.dont_write_bytecode = True
HERE = os.path.dirname(os.path.abspath(__file__))
sys.path[:0] = [HERE, os.path.join(HERE, "..", "rows")]
from broken import breaks_fault, change_of
from drawn import texts_of, versions_of
from model import Office
from rows import mail
from tries import CONF, Tries

# Words that name no change.
WRONG = ("block a0", "easy a0", "remove a0", "force a0/1", "No name")


def items_of(draw, office, names):
    """Items of some sources, most at a version that unstable or testing has."""
    versions = versions_of(office)
    count = min(len(names), draw.randint(1, 4))
    return " ".join("%s/%s" % (name, draw.choice(versions.get(name, ["1"]))) for name in draw.sample(names, count))


def changes_of(draw, office):
    """The changes that are asked about: each source, groups and removals."""
    names = [*versions_of(office), "nobody"]
    groups = ["easy " + items_of(draw, office, names) for _ in range(6)]
    held = ["remove %s/%s" % pair for pair in sorted(office.sources.items())]
    return names + groups + held + ["remove " + items_of(draw, office, names) for _ in range(4)]


def try_seed(tries, seed, counts):
    """Asks about each change of a seed's office."""
    office, texts = Office(), texts_of(seed)
    for text in texts:
        office.deliver(text)
        office.settle()
    bag = mail(texts)
    if not office.finished:
        tries.want("seed %d, no run" % seed, ("", 1), tries.call("breaks", "a0", "--conf", CONF, bag=bag))
        return
    changes = changes_of(random.Random(seed), office)
    told, status = tries.call("breaks", *changes, "--conf", CONF, bag=bag)
    parts = re.split("(?m)^(?=breaks )", told)[1:]
    tries.want("seed %d, parts" % seed, len(changes), len(parts))
    tries.want("seed %d, status" % seed, int(any(change_of(office, words)[2] for words in changes)), status)
    for words, part in zip(changes, parts):
        tries.want("seed %d, %s" % (seed, words), None, breaks_fault(office, words, part))
        counts["changes"] += 1
        counts["that break rows"] += "\nuninstallable " in part
        counts["rows"] += part.count("\nuninstallable ")
    if seed % 10 == 0:
        by_service(tries, seed, bag, dict(zip(changes, parts)))


def by_service(tries, seed, bag, parts):
    """A service answers what the command prints, and refuses the same words."""
    with tempfile.TemporaryDirectory() as folder:
        store = os.path.join(folder, "store")
        tries.run("replay", "--conf", CONF, "--db", store, bag=bag)
        with tries.serving(1000, "--db", store) as service:
            for words, part in parts.items():
                what = "seed %d, the service on %s" % (seed, words)
                tries.want(what, (200, part), service.ask("POST", "/breaks", words))
                if "/" not in words:
                    tries.want(what + ", by its name", (200, part), service.ask("GET", "/breaks/" + words))
            for words in WRONG:
                due = "'%s': refused BadValue Hint\n" % words
                tries.want("the service on %r" % words, (400, due), service.ask("POST", "/breaks", words))
            service.process.terminate()


def main():
    """Tries the seeds, and refused words."""
    tries, counts = Tries(sys.argv, 9731), {"changes": 0, "that break rows": 0, "rows": 0}
    for seed in tries.seeds("1-40"):
        try_seed(tries, seed, counts)
    for words in WRONG:
        told, status = tries.call("breaks", words, "--conf", CONF, bag=mail(texts_of(1)))
        tries.want(words, ("", 3), (told, status))
    print(", ".join("%d %s" % (count, what) for what, count in counts.items()))
    tries.end()


if __name__ == "__main__":
    main()
