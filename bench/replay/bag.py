#!/usr/bin/env python3
"""Writes a bag of mail of an archive's shape, the same at each call.

usage: bag.py SHAPE SOURCES > BAG
       bag.py SHAPE conf > SETUP

Each source is uploaded and built once: 1.9 binaries on amd64, each with some four clauses of
Depends on binaries of the sources before it, a few of them far more often than the rest.

mail        the uploads and builds, source by source, and no run
waiting     the same after a run order that waits for one message more than there are
backwards   as waiting, the last message of each sender first
idle        as many messages that say nothing, and three runs over all of them
first       with a run over all sources
runs        with two runs more, over 500 newer uploads each
both        as runs, and each binary is built on amd64 and on arm64
two, four, nine, sixteen
            as runs on that many architectures: two binaries in five are of `all`, and the others are built on
            each architecture, in a build of its own

The second call writes the setup of a shape.
"""
import random
import sys

NEWER = 500
ARCHS = ("amd64 arm64 armel armhf i386 mips64el mipsel ppc64el s390x riscv64 alpha hppa m68k powerpc ppc64 "
         "sparc64").split()
MANY = {"two": 2, "four": 4, "nine": 9, "sixteen": 16}
SHAPES = ("mail", "waiting", "backwards", "idle", "first", "runs", "both", *MANY)
ROLES = {"ftp": "upload", "bd": "build", "bts": "bugs", "rt": "release", "clock": "runs"}


def binaries_of(draw, source):
    """The binaries of a source: 1.9 on average."""
    return [f"b{source}-{place}" for place in range(draw.choice((1, 1, 1, 1, 1, 2, 2, 2, 3, 5)))]


def clauses(draw, earlier):
    """What a binary depends on: the first binaries are wanted most."""
    wanted = []
    for _ in range(draw.choice((0, 1, 2, 3, 4, 5, 6, 7, 8, 8))):
        if earlier:
            name = earlier[int(len(earlier) * draw.random() ** 4)]
            wanted.append(name + draw.choice(("", "", " (>= 1.0)")))
    return ", ".join(wanted)


def upload(number, source, version, day):
    return (f"From: ftp\nNumber: {number}\nKind: upload\nSource: s{source}\n"
            f"Version: {version}\nUrgency: medium\nDay: {day}\n")


def build(number, source, version, rows, archs):
    text = f"From: bd\nNumber: {number}\nKind: build\n"
    for arch in archs:
        for name, depends in rows:
            text += (f"\nPackage: {name}\nVersion: {version}\nArchitecture: {arch}\n"
                     f"Source: s{source}\n" + (f"Depends: {depends}\n" if depends else ""))
    return text


def archs_of(shape):
    return ARCHS[:2 if shape == "both" else MANY.get(shape, 1)]


def setup(shape):
    senders = "".join(f"\nSender: {sender}\nRole: {role}\n" for sender, role in ROLES.items())
    return f"Architectures: {' '.join(archs_of(shape))}\n{senders}"


class Builder:
    """The builds of sources on several architectures: a message for each architecture, and one for `all`."""

    def __init__(self, archs):
        self.draw, self.archs, self.number = random.Random(5), archs, 0
        self.is_all = {}

    def builds(self, source, version, rows):
        for name, _ in rows:
            self.is_all.setdefault(name, self.draw.random() < .4)
        parts = [(arch, [row for row in rows if not self.is_all[row[0]]]) for arch in self.archs]
        parts.append(("all", [row for row in rows if self.is_all[row[0]]]))
        for arch, some in parts:
            if some:
                self.number += 1
                yield build(self.number, source, version, some, (arch,))


def nothing(sender, number):
    return f"From: {sender}\nNumber: {number}\nKind: none\nNote: {'as long as most texts of uploads and builds ' * 3}and no more\n"


def order(number, day, covered, built=None):
    return (f"From: clock\nNumber: {number}\nKind: run\nDay: {day}\n"
            f"Covers: ftp {covered}, bd {covered if built is None else built}\n")


def first_mail(draw, sources, archs):
    """Each source's upload and build, and its rows."""
    earlier, texts, rows_of = [], [], []
    for source in range(1, sources + 1):
        rows = [(name, clauses(draw, earlier)) for name in binaries_of(draw, source)]
        earlier += [name for name, _ in rows]
        rows_of.append(rows)
        texts.append((upload(source, source, "1.0-1", "2025-03-01"), build(source, source, "1.0-1", rows, archs)))
    return texts, rows_of


def idle(sources):
    texts = [nothing(sender, number) for number in range(1, sources + 1) for sender in ("ftp", "bd")]
    return texts + [order(run, f"2025-03-{10 * run}", sources) for run in (1, 2, 3)]


def runs_on_many(archs, sources):
    """Three runs on several architectures, the last two of them over newer uploads."""
    draw, builder = random.Random(9), Builder(archs)
    _, rows_of = first_mail(draw, sources, archs)
    number, texts = 0, []
    for run, (day, version) in enumerate((("10", "1.0-1"), ("20", "1.1-1"), ("30", "1.2-1")), 1):
        some = range(1, sources + 1) if run == 1 else draw.sample(range(1, sources + 1), min(NEWER, sources))
        for source in some:
            number += 1
            texts.append(upload(number, source, version, f"2025-03-{1 if run == 1 else int(day) - 9:02}"))
            texts += builder.builds(source, version, rows_of[source - 1])
        texts.append(order(run, f"2025-03-{day}", number, builder.number))
    return texts


def bag(shape, sources):
    if shape == "idle":
        return idle(sources)
    if shape in MANY:
        return runs_on_many(archs_of(shape), sources)
    draw = random.Random(9)
    archs = archs_of(shape)
    pairs, rows_of = first_mail(draw, sources, archs)
    texts = [text for pair in pairs for text in pair]
    waiting = order(1, "2025-03-10", sources + 1)
    if shape == "mail":
        return texts
    if shape == "waiting":
        return [waiting] + texts
    if shape == "backwards":
        return [waiting] + texts[::-1]
    texts.append(order(1, "2025-03-10", sources))
    if shape == "first":
        return texts
    number = sources
    for run, day, version in ((2, "2025-03-20", "1.1-1"), (3, "2025-03-30", "1.2-1")):
        for source in draw.sample(range(1, sources + 1), min(NEWER, sources)):
            number += 1
            texts.append(upload(number, source, version, f"2025-03-{10 * run - 9}"))
            texts.append(build(number, source, version, rows_of[source - 1], archs))
        texts.append(order(run, day, number))
    return texts


def main():
    if len(sys.argv) != 3 or sys.argv[1] not in SHAPES:
        sys.exit(__doc__)
    shape, what = sys.argv[1:]
    if what == "conf":
        sys.stdout.write(setup(shape))
        return
    for text in bag(shape, int(what)):
        sys.stdout.write(f"mail {len(text)}\n{text}")


if __name__ == "__main__":
    main()
