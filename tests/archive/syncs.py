#!/usr/bin/env python3
"""What the program `office-sync` says is due to random offices, beside sets of lines that are worked out here.

  syncs.py OFFICE_SYNC [OFFICES [SEED]]

An office is what was built and dropped of each name and architecture; its unstable has the greatest build above all
drops. A run of the program decides up to 300 of them, whose names end with a number of their own, since starting it
takes longer than a decision. If it refuses what would be dropped, it is run again with that number allowed. What is
due is mailed to the offices. Then each package that they have is in the index at that version, each item of the index
is there or left, and a second decision has no line but the same `left` ones. Status 0: no fault.
"""
import os
import random
import sys
import tempfile
from dataclasses import dataclass
from typing import Iterable, Mapping, Sequence

import apt_pkg
import plans
from plans import Suite

SIZES = (1, 1, 2, 10, 100, 300)
"""How many offices a run may have."""
LESS = (-1, 0, 0, 2)
"""What a run allows to be dropped, beyond what is due to be."""

Item = tuple[tuple[str, str], str]
"""A key, which is an architecture and a name, and a version."""
Due = Mapping[str, Suite]
"""What is due, by the word of its lines."""


def is_above(version: str, part: Suite, key: tuple[str, str]) -> bool:
    """Whether a version is above a part's version of a key, if it has one."""
    return key not in part or apt_pkg.version_compare(version, part[key]) > 0


def greatest(items: Iterable[Item]) -> Suite:
    """The greatest version of each key."""
    found: Suite = {}
    for key, version in items:
        if is_above(version, found, key):
            found[key] = version
    return found


@dataclass
class Offices:
    """What was built and dropped in offices that are decided together, and the index."""

    built: list[Item]
    dropped: list[Item]
    index: Suite

    def unstable(self) -> Suite:
        """What they have: of each key the greatest build above all its drops."""
        dropped = greatest(self.dropped)
        return greatest((key, version) for key, version in self.built if is_above(version, dropped, key))

    def due(self) -> Due:
        """What is due to them."""
        told, dropped = self.unstable(), greatest(self.dropped)
        missing = {key: version for key, version in self.index.items() if told.get(key) != version}
        tells = {key: version for key, version in missing.items()
                 if is_above(version, told, key) and is_above(version, dropped, key)}
        drops = {key: version for key, version in told.items()
                 if key[0] != "source" and self.index.get(key) != version and key not in tells}
        return {"tell": tells, "drop": drops,
                "left": {key: version for key, version in missing.items() if key not in tells}}

    def answered(self, program: str, folder: str, seeds: random.Random, gone: int) -> tuple[int, list[str]]:
        """What the program prints of them, in no order of the lines of its files."""
        lists = [plans.lines(part) for part in (self.unstable(), self.index, greatest(self.dropped))]
        return plans.answered(program, folder, [seeds.sample(it, len(it)) for it in lists], ["--gone", str(gone)])

    def mail(self, told: Iterable[str]) -> None:
        """Mails what the program says is due."""
        for line in told:
            if line.startswith("tell "):
                self.built.append(item_of(line))
            elif line.startswith("drop "):
                self.dropped.append(item_of(line))

    def faults_after(self, told: Iterable[str]) -> Sequence[tuple[str, str]]:
        """What is wrong in their unstable after the mail of what is due."""
        have, left = self.unstable(), {item_of(line) for line in told if line.startswith("left ")}
        strange = [key for key, version in have.items() if key[0] != "source" and self.index.get(key) != version]
        return [*strange, *(key for key, version in self.index.items()
                            if have.get(key) != version and (key, version) not in left)]


def item_of(line: str) -> Item:
    """The key and the version of a line."""
    _, name, version, architecture = line.split(" ")
    return (architecture, name), version


def drawn(seeds: random.Random, numbers: Iterable[int]) -> Offices:
    """Random offices of these numbers."""
    found = Offices([], [], {})
    for number in numbers:
        before = plans.drawn(seeds, 0.6)
        found.index.update(numbered(
            plans.near(seeds, before, 0.3) | (plans.drawn(seeds, 0.1) if seeds.random() < 0.5 else {}), number))
        for part in (before, plans.drawn(seeds, 0.2)):
            found.built += numbered(part, number).items()
        for part in (plans.drawn(seeds, 0.1), plans.drawn(seeds, 0.1)):
            found.dropped += (item for item in numbered(part, number).items() if item[0][0] != "source")
    return found


def numbered(part: Suite, number: int) -> Suite:
    """A part of an office, whose names end with its number."""
    return {(architecture, f"{name}.{number}"): version for (architecture, name), version in part.items()}


def printed(due: Due, gone: int) -> tuple[int, list[str]]:
    """The status and the lines that are due."""
    if len(due["drop"]) > gone:
        return 3, ["leaving %d" % len(due["drop"])]
    return 0, [f"{word} {line}" for word, part in due.items() for line in plans.lines(dict(sorted(part.items())))]


def faults_of(program: str, folder: str, seeds: random.Random, offices: Offices) -> Sequence[str]:
    """What is wrong with the decisions over some offices: before the mail of what is due, and after it."""
    due = offices.due()
    enough = len(due["drop"])
    gone = max(0, enough + seeds.choice(LESS))
    told: list[str] = []
    for allowed in dict.fromkeys((gone, max(gone, enough))):
        status, told = offices.answered(program, folder, seeds, allowed)
        if (status, told) != printed(due, allowed):
            return [f"due {printed(due, allowed)!r}, got {(status, told)!r}"]
    offices.mail(told)
    wrong = offices.faults_after(told)
    again = offices.answered(program, folder, seeds, 0)
    if wrong or again != (0, [line for line in told if line.startswith("left ")]):
        return [f"after the mail: {wrong!r}, then {again!r}"]
    return []


def main() -> None:
    """Tries offices of a seed."""
    program, count = os.path.abspath(sys.argv[1]), int(sys.argv[2]) if len(sys.argv) > 2 else 1000
    seeds = random.Random(int(sys.argv[3]) if len(sys.argv) > 3 else 1)
    first = runs = faults = 0
    apt_pkg.init_system()
    with tempfile.TemporaryDirectory() as folder:
        while first < count:
            numbers = range(first, min(count, first + seeds.choice(SIZES)))
            for fault in faults_of(program, folder, seeds, drawn(seeds, numbers)):
                faults += 1
                print("FAIL %d to %d: %s" % (numbers[0], numbers[-1], fault))
            first, runs = numbers[-1] + 1, runs + 1
    print("%d offices, %d at once at most, %d decisions, %d faults" % (count, max(SIZES), runs, faults))
    sys.exit(1 if faults else 0)


if __name__ == "__main__":
    main()
