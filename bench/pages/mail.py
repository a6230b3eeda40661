#!/usr/bin/env python3
"""Writes the mail of an archive in which much doesn't move, as bags, the same at each call.

usage: mail.py SOURCES FOLDER

The sources and their binaries are those of ../replay/bag.py, on two architectures. FOLDER gets a bag for each of three
runs. The first run is over all sources. A tenth of them have a bug, a block, no build at all or none on arm64, so that
others wait for them. After it come newer uploads: of a tenth of the sources, and then of a hundredth. Of these some are
young, some have a bug, a block or a missing build, and some come without a package that others depend on.
"""
import os
import random
import sys

sys.dont_write_bytecode = True
sys.path.insert(0, os.path.join(os.path.dirname(os.path.realpath(__file__)), "..", "replay"))
import bag  # noqa: E402

ARCHS = ("amd64", "arm64")
FATES = {"moves": 40, "young": 24, "buggy": 8, "blocked": 6, "unbuilt": 9, "missing": 7, "smaller": 6}
RUNS = ((1, "2025-03-10", "2025-03-01"), (2, "2025-03-21", "2025-03-10"), (3, "2025-03-22", "2025-03-14"))


class Mail:
    """The messages of each sender so far, and those that no bag has yet."""

    def __init__(self):
        self.counts = dict.fromkeys(("ftp", "bd", "bts", "rt", "clock"), 0)
        self.texts = []

    def number(self, sender):
        self.counts[sender] += 1
        return self.counts[sender]

    def add(self, sender, kind, *fields):
        lines = [f"From: {sender}", f"Number: {self.number(sender)}", f"Kind: {kind}", *fields]
        self.texts.append("\n".join(lines) + "\n")

    def upload(self, source, version, rows, fate, day):
        """An upload with its builds, and what becomes of it."""
        self.texts.append(bag.upload(self.number("ftp"), source, version, day))
        if fate == "smaller":
            rows = [(name + "-new", depends) for name, depends in rows[:1]] + rows[1:]
        archs = {"unbuilt": (), "missing": ARCHS[:1]}.get(fate, ARCHS)
        for row in rows if archs else ():
            self.texts.append(bag.build(self.number("bd"), source, version, [row], archs))
        if fate == "buggy":
            self.add("bts", "bug", f"Bug: {900000 + self.counts['bts']}", f"Source: s{source}", "Severity: serious",
                     f"Found: {version}")
        if fate == "blocked":
            self.add("rt", "hint", f"Hint: block s{source}")

    def order(self, run, day):
        covers = ", ".join(f"{sender} {count}" for sender, count in self.counts.items() if count and sender != "clock")
        self.add("clock", "run", f"Day: {day}", f"Covers: {covers}")

    def write(self, path):
        with open(path, "w", encoding="utf-8") as file:
            file.writelines(f"mail {len(text)}\n{text}" for text in self.texts)
        self.texts = []


def fate_of(draw):
    return draw.choices(list(FATES), list(FATES.values()))[0]


def main(sources, folder):
    draw = random.Random(9)
    _, rows_of = bag.first_mail(draw, sources, ARCHS)
    mail = Mail()
    for run, day, uploaded in RUNS:
        everything = range(1, sources + 1)
        for source in everything if run == 1 else sorted(draw.sample(everything, sources // 10 ** (run - 1))):
            # The sources on which most others depend move at once: else nothing would.
            bad = run > 1 or (source > sources // 2 and draw.random() < 0.2)
            fate = fate_of(draw) if bad else "moves"
            if run == 1 and fate in ("young", "smaller"):
                fate = "moves"
            mail.upload(source, f"1.{run - 1}+dfsg.{source % 7}-1", rows_of[source - 1], fate,
                        day if fate == "young" else uploaded)
        mail.order(run, day)
        mail.write(os.path.join(folder, f"bag{run}"))


if __name__ == "__main__":
    if len(sys.argv) != 3:
        sys.exit(__doc__)
    main(int(sys.argv[1]), sys.argv[2])
