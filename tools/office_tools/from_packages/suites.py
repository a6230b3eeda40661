"""Which packages can be installed with all packages of the files there."""
from collections import defaultdict
from typing import Mapping, Optional, Sequence

from office_tools.feed.known import Known
from office_tools.from_packages.binaries import Binary, Key
from office_tools.from_packages.told import tell
from office_tools.relations import Clause, written


class Suite:
    """All packages of one architecture and of `all`, and which of them are installable among those of good sources."""

    def __init__(self, binaries: Sequence[Binary]) -> None:
        self.binaries = binaries
        self.good = [True] * len(binaries)
        self.of_source: dict[str, list[int]] = defaultdict(list)
        self.having: dict[Clause, list[int]] = defaultdict(list)
        for place, binary in enumerate(binaries):
            self.of_source[binary.source].append(place)
            for clause in binary.clauses:
                self.having[clause].append(place)
        # For each clause without repeats, the packages that meet it, in order, and how many of these are good.
        self.meeting = self.places_by_clause()
        self.left = {clause: len(set(places)) for clause, places in self.meeting.items()}
        self.met_by: dict[int, list[Clause]] = defaultdict(list)
        for clause, places in self.meeting.items():
            for place in set(places):
                self.met_by[place].append(clause)
        self.take_out([place for clause, left in self.left.items() if not left for place in self.having[clause]])

    def places_by_clause(self) -> Mapping[Clause, Sequence[int]]:
        """For each clause the places of the packages that meet it, by its alternatives in turn."""
        providers: dict[str, list[tuple[int, Optional[str]]]] = defaultdict(list)
        for place, binary in enumerate(self.binaries):
            providers[binary.name].append((place, binary.version))
            for provision in binary.provisions:
                providers[provision.name].append((place, provision.version))
        return {clause: [place for part in clause for place, version in providers.get(part.name, ())
                         if part.is_met_by(version)]
                for clause in self.having}

    def take_out(self, places: Sequence[int]) -> None:
        """Takes out these packages, and what isn't installable without them."""
        todo = list(places)
        while todo:
            place = todo.pop()
            if self.good[place]:
                self.good[place] = False
                for clause in self.met_by[place]:
                    self.left[clause] -= 1
                    if not self.left[clause]:
                        todo += self.having[clause]


class Suites:
    """The suites of all architectures. Packages of `all` are judged on the first one."""

    def __init__(self, binaries: Sequence[Binary], architectures: Sequence[str]) -> None:
        self.architectures = architectures
        self.suites = [Suite([binary for binary in binaries if binary.architecture in (architecture, "all")])
                       for architecture in architectures]

    def judged_bad(self) -> list[tuple[Binary, Suite]]:
        """The packages that aren't installable, each with its suite."""
        return [(binary, suite) for architecture, suite in zip(self.architectures, self.suites)
                for place, binary in enumerate(suite.binaries) if not suite.good[place]
                and (binary.architecture == architecture or architecture == self.architectures[0])]

    def left_out(self, sent: Known) -> set[Key]:
        """The packages that can't be installed and were never sent: they are left out, and why is reported."""
        found: set[Key] = set()
        for binary, suite in sorted(self.judged_bad(),
                                    key=lambda found: (found[0].name, found[0].version, found[0].architecture)):
            if not sent.bound(binary.key):
                clause = next(clause for clause in binary.clauses if not suite.left[clause])
                tell(f"{binary.name} {binary.version} {binary.architecture}: left out: nothing installable meets "
                     f"{written(clause)}")
                found.add(binary.key)
        return found
