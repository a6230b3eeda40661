"""What waits for what: for each waiting source the sources that have to move or to be mended first, and the reverse.

The office decides why a source can't move, and shows it by numbered lines (`GET /why/SOURCE`). A line that ends with
`nothing` ends such a chain: the package that it names needs something that no suite has any more. So its source has to
be mended, or the source whose package in unstable would meet the clause.
"""
import collections
import functools
import re
from dataclasses import dataclass
from typing import Iterator, Mapping, Optional, Sequence

STEP = re.compile(r"\d+ (\S+) \S+ of (\S+) (comes in|in testing), needs (.*): nothing")
UNSTABLE = re.compile(r"unstable (\S+ \S+) of (\S+) (.*)")
MOST_COUNTED = 200  # sources whose waiting ones are counted over all steps
TOO = "comes too"


@dataclass(frozen=True)
class End:
    """Where a chain ends: a package with its source, the clause that nothing meets, and what of unstable would meet it.

    `others` are the package with its version, its source, and the state of that.
    """

    package: str
    source: str
    comes_in: bool
    clause: str
    others: Sequence[tuple[str, str, str]]


@dataclass(frozen=True)
class Wait:
    """A source waits for another one, and why. `other` is empty if no source has what it needs."""

    source: str
    other: str
    why: str


@dataclass(frozen=True)
class Waits:
    """All of them, by the source that waits, and by the one that is waited for."""

    by_source: Mapping[str, Sequence[Wait]]
    by_other: Mapping[str, Sequence[Wait]]

    @functools.cached_property
    def touched(self) -> frozenset[str]:
        """The sources that wait or are waited for."""
        return frozenset((*self.by_source, *self.by_other))

    @functools.cached_property
    def waiting(self) -> Mapping[str, Sequence[str]]:
        """The sources that wait for each one, by name, each once."""
        return {name: sorted({wait.source for wait in waits}) for name, waits in self.by_other.items()}

    def ranked(self) -> Sequence[tuple[str, int, int]]:
        """The sources that others wait for, the most first: how many wait for it, and how many in the end.

        A source waits for another in the end if it waits for one that does. This is counted for the first ones alone.
        """
        first = sorted(((name, len(sources)) for name, sources in self.waiting.items()),
                       key=lambda item: (-item[1], item[0]))
        counted = [(name, number, len(self.in_the_end(name)) if place < MOST_COUNTED else number)
                   for place, (name, number) in enumerate(first)]
        return sorted(counted, key=lambda item: (-item[2], -item[1], item[0]))

    def in_the_end(self, name: str) -> set[str]:
        """The sources that wait for one, or for one that waits for it, and so on."""
        found: set[str] = set()
        left = [name]
        while left:
            new = set(self.waiting.get(left.pop(), ())) - found
            found |= new
            left += new
        return found - {name}


def ends_of(told: str) -> Iterator[End]:
    """The ends of the chains by which the office shows that a source can't move."""
    lines = told.splitlines()
    for place, line in enumerate(lines):
        found = STEP.fullmatch(line) if line.endswith(": nothing") else None
        if found is None:
            continue
        others = []
        for other in lines[place + 1:]:
            if not other.startswith(("leaves ", "unstable ")):
                break
            row = UNSTABLE.fullmatch(other)
            others += [(row[1], row[2], row[3])] if row else []
        yield End(found[1], found[2], found[3] == "comes in", found[4], tuple(others))


def waits_in(source: str, told: str) -> Sequence[Wait]:
    """What a source waits for by what the office answers about it."""
    found: list[Wait] = []
    for end in ends_of(told):
        others = [Wait(source, other, f"{package} {standing}") for package, other, standing in end.others
                  if other != source and standing != TOO]
        if end.source != source:
            found.append(Wait(source, end.source, f"{end.package} needs {end.clause}"))
        elif not others:
            found.append(Wait(source, "", f"its {end.package} needs {end.clause}, which no package of unstable meets"))
        found += others
    return tuple(dict.fromkeys(found))


def waits_of(waiting: Mapping[str, tuple[Optional[str], str, str]]) -> Waits:
    """What the waiting sources wait for. Of each it takes what the office answered, if it did, and the first package
    that its move would break. It gives that package's source, which is empty if it isn't known."""
    by_source: dict[str, Sequence[Wait]] = {}
    by_other: dict[str, list[Wait]] = collections.defaultdict(list)
    for source, (told, package, other) in waiting.items():
        found = waits_in(source, told) if told is not None else ()
        if not found and other and other != source:
            found = (Wait(source, other, f"its move would break {package}"),)
        if found:
            by_source[source] = found
        for wait in found:
            if wait.other:
                by_other[wait.other].append(wait)
    return Waits(by_source, dict(by_other))
