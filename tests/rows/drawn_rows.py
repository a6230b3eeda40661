#!/usr/bin/env python3
"""Draws packages, and judges by sweeps which of them are installable, and which a change of a suite loses.

usage: drawn_rows.py [--check]

It writes crates/cases_libraries/data/drawn_rows, and what is due for it, in crates/cases_libraries/stdout: after what
is due for the rows of stdin, and before what is due for the rules. With --check it writes nothing, and ends with status
1 if the files are others.
"""
import os
import re
import sys

CRATE = os.path.join(os.path.dirname(os.path.abspath(__file__)), "../../crates/cases_libraries")
HEAD = "The drawn rows, and chains: see the head of stdin. tests/rows/drawn_rows.py writes this file.\n\n"
FIRST = "=== a chain whose last package"


def read_row(text):
    """A package `NAME VERSION; DEPENDS; PROVIDES`: its name, version, clauses and provisions. Versions are numbers."""
    head, depends, provides = (text + "; ;").split(";")[:3]
    name, version = head.split(" ")
    clauses = [[relation(a) for a in clause.split("|")] for clause in depends.split(",") if clause.strip()]
    return name, int(version), clauses, [relation(p) for p in provides.split(",") if p.strip()]


def relation(text):
    name, least = re.fullmatch(r"(\w+)(?: \((?:>=|=) (\d+)\))?", text.strip()).groups()
    return name, None if least is None else int(least)


def meets(row, clause):
    """Whether a package meets one of a clause's alternatives, itself or by one of its provisions."""
    name, version, _, provides = row
    return any(name == need and (least is None or version >= least)
               or any(given == need and (least is None or at is not None and at >= least) for given, at in provides)
               for need, least in clause)


def installable(rows, there):
    """Which of the present rows are installable: they are swept until a sweep takes none out."""
    left = list(there)
    while True:
        swept = [is_in and all(any(left[k] and meets(other, clause) for k, other in enumerate(rows)) for clause in row[2])
                 for row, is_in in zip(rows, left)]
        if swept == left:
            return left
        left = swept


def next_bits(bits):
    return (bits * 6364136223846793005 + 1442695040888963407) % 2**64


def drawn_row(place, bits):
    first, second, third = bits >> 34 & 3, bits >> 37 & 3, bits >> 40 & 3
    return ["p%d %d; ; q%d" % (place, second, third),
            "p%d 1; p%d; q%d (= %d)" % (place, first, third, second),
            "p%d %d; p%d (>= %d) | q%d" % (place, second, first, third, second),
            "p%d %d; q%d (>= 1), p%d; q%d" % (place, third, first, second, third)][bits >> 43 & 3]


def chain(last):
    return ["p%d 1; p%d" % (place, place + 1) for place in range(999)] + ["p999 1; %s" % last]


def signs(flags):
    return "[%s]" % "".join(flags)


def rounds():
    """A hundred rounds of five packages."""
    bits = 1
    for number in range(1, 101):
        texts = []
        for place in range(5):
            bits = next_bits(bits)
            texts.append(drawn_row(place, bits))
        answers = installable([read_row(text) for text in texts], [True] * 5)
        yield "=== drawn packages %d\n> install\n" % number + "".join(text + "\n" for text in texts), \
            "=== drawn packages %d\n" % number + signs("+" if answer else "-" for answer in answers) + "\n"


def turns(rows, there, bits):
    """Twenty changes of a suite: one row leaves, and then two come. Changes `there`."""
    drawn, due = "", ""
    sign = lambda flags, answers: signs("+" if a else "-" if t else "." for t, a in zip(flags, answers))
    for _ in range(20):
        bits = next_bits(bits)
        leaves, comes, too = (bits >> 30) % len(rows), (bits >> 36) % len(rows), (bits >> 42) % len(rows)
        before, was = list(there), installable(rows, there)
        there[leaves] = False
        there[comes] = there[too] = True
        now = installable(rows, there)
        lost = [k for k in range(len(rows)) if (was[k] or not before[k]) and there[k] and not now[k]]
        drawn += "%d %d %d\n" % (leaves, comes, too)
        due += "lost%s %s %s\n" % ("".join(" %d" % k for k in lost), sign(before, was), sign(there, now))
    return drawn, due


def suites():
    """Changes among six packages, and then among these and three more."""
    for seed in range(40):
        bits, texts = seed, []
        for place in range(9):
            bits = next_bits(bits)
            texts.append(drawn_row(place & 3, bits))
        rows, there = [read_row(text) for text in texts], [False] * 6
        drawn, due = "=== drawn changes %d\n" % (seed + 1), "=== drawn changes %d\n" % (seed + 1)
        for start, end, first in (0, 6, seed), (6, 9, next_bits(seed)):
            there += [False] * (end - len(there))
            changes, came = turns(rows[:end], there, first)
            drawn += "> rows\n" + "".join(text + "\n" for text in texts[start:end]) + "> changes\n" + changes
            due += came
        yield drawn, due


def chains():
    """Two chains of a thousand packages, each needing the next one. Each clause of the first is looked at at most once,
    and once more if the package that it rests on is taken out; each of the second once."""
    for last, most, signed, came in ("nowhere", " 1999", "-", "1000 turns, within 1999 looks"), \
            ("p0", "", "+", "0 turns, 1000 looks"):
        about = "=== a chain whose last package needs %s\n" % last
        yield about + "> counted%s\n" % most + "".join(row + "\n" for row in chain(last)), \
            about + "%s: %s\n" % (came, signs(signed * 1000))


def with_due(stated, due):
    """The text of stdout with what is due for the drawn rows. What precedes and follows them stays."""
    before, _, rest = stated.partition(FIRST)
    last = due[-1].partition("\n")[0]
    end = rest.index("\n=== ", rest.index(last + "\n")) + 1
    return before + "".join(due) + rest[end:]


def main():
    rows = [*chains(), *rounds(), *suites()]
    stdout = os.path.join(CRATE, "stdout")
    with open(stdout, encoding="utf-8") as f:
        stated = f.read()
    made = {os.path.join(CRATE, "data/drawn_rows"): HEAD + "".join(drawn for drawn, _ in rows),
            stdout: with_due(stated, [due for _, due in rows])}
    for path, text in made.items():
        if "--check" not in sys.argv:
            with open(path, "w", encoding="utf-8") as f:
                f.write(text)
        with open(path, encoding="utf-8") as f:
            if f.read() != text:
                sys.exit("%s is another" % path)
    print("%d drawn rows" % len(rows))


if __name__ == "__main__":
    main()
