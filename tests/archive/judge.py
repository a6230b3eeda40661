"""The test's own books on an archive: what came when, the bugs and hints in force, and what that means for testing.

They are kept by what the test itself did, by docs/RULES.md, part 12.2, and never by what the office or its tools say.
"""
import datetime
from collections import defaultdict
from dataclasses import dataclass, field, replace
from typing import Iterator, Mapping, Optional, Sequence

import apt_pkg

from packages import BOTH, Upload
from world import NAME, Bug

apt_pkg.init_system()

DAYS = {"low": 10, "medium": 5, "high": 2, "critical": 0}
CRITICAL = ("critical", "grave", "serious")
Row = tuple[str, str]  # a package and its architecture


def is_above(left: str, right: str) -> bool:
    """Whether a version is above another one, by apt."""
    return apt_pkg.version_compare(left, right) > 0


def days_between(first: str, last: str) -> int:
    """How many days lie between two."""
    return (datetime.date.fromisoformat(last) - datetime.date.fromisoformat(first)).days


@dataclass(frozen=True)
class Arrival:
    """A version that came to unstable: how urgently, and the day on which a feed saw it there, or it came unseen."""

    version: str
    urgency: str
    day: str
    is_seen: bool = False


@dataclass(frozen=True)
class Testing:
    """What is published: the version of each source and of each row."""

    sources: Mapping[str, str] = field(default_factory=dict)
    rows: Mapping[Row, str] = field(default_factory=dict)

    @staticmethod
    def of(lines: set[str]) -> "Testing":
        """That of lines NAME VERSION ARCHITECTURE."""
        words = [line.split() for line in sorted(lines)]
        return Testing({name: version for name, version, own in words if own == "source"},
                       {(name, own): version for name, version, own in words if own != "source"})


@dataclass
class Books:
    """What is known of unstable, of bugs and of hints."""

    arrivals: dict[str, list[Arrival]] = field(default_factory=lambda: defaultdict(list))
    unstable: dict[str, str] = field(default_factory=dict)
    rows: dict[Row, tuple[str, str, str]] = field(default_factory=dict)  # its source, its version, and what it needs
    bugs: dict[int, Bug] = field(default_factory=dict)
    hints: dict[str, str] = field(default_factory=dict)
    late: dict[str, str] = field(default_factory=dict)  # a source, and its version that an architecture hasn't built
    held: dict[str, str] = field(default_factory=dict)  # a source, and its version that is known to be bad
    waits: dict[str, int] = field(default_factory=dict)  # for how many days nothing explains that a source waits

    def come(self, upload: Upload, day: str) -> None:
        """An upload comes to unstable."""
        if upload.rebuild is None and not upload.is_later:
            self.arrivals[upload.source].append(Arrival(upload.version, upload.urgency, day))
        self.unstable[upload.source] = upload.version
        is_late = not upload.is_later and len(upload.architectures) < len(BOTH) and upload.rebuild is None
        if is_late and not all(package.is_all for package in upload.packages):
            self.late[upload.source] = upload.version
        else:
            self.late.pop(upload.source, None)
        for package in upload.packages:
            for own in ("all",) if package.is_all else upload.architectures:
                self.rows[package.name, own] = upload.source, upload.version, package.depends

    def seen(self, day: str) -> None:
        """A feed looked at unstable: what none saw before is as old as this day."""
        for source, found in self.arrivals.items():
            self.arrivals[source] = [arrival if arrival.is_seen else replace(arrival, day=day, is_seen=True)
                                     for arrival in found]

    def leave(self, source: str) -> None:
        """A source leaves unstable."""
        self.unstable.pop(source, None)
        self.rows = {key: row for key, row in self.rows.items() if row[0] != source}

    def cut(self, package: str) -> None:
        """A package leaves unstable."""
        self.rows = {key: row for key, row in self.rows.items() if key[0] != package}

    def bug_of(self, source: str, version: str, before: Optional[str]) -> Optional[int]:
        """A release-critical bug that a version has and the one before it in testing hasn't."""
        for bug in self.bugs.values():
            if bug.source == source and bug.severity in CRITICAL and affects(bug, version):
                if before is None or not affects(bug, before):
                    return bug.number
        return None

    def is_blocked(self, source: str, version: str) -> bool:
        """Whether a person's hint blocks a source at a version."""
        return any(words.split()[0] == "block" and source in words.split()[1:] for words in self.hints.values()) and \
            not any(words == f"unblock {source}/{version}" for words in self.hints.values())

    def days_needed(self, source: str, version: str, before: Optional[str]) -> int:
        """How many days a version has to wait that is to come in the place of this one."""
        asked = [int(words.split()[1]) for words in self.hints.values()
                 if words.startswith("age-days ") and f"{source}/{version}" in words.split()[2:]]
        if asked:
            return asked[-1]
        found = [DAYS[arrival.urgency] for arrival in self.arrivals[source]
                 if before is None or is_above(arrival.version, before)]
        return min(found, default=0)

    def age(self, source: str, version: str, day: str) -> Optional[int]:
        """For how many days a version was in unstable; None if it never came."""
        found = [arrival.day for arrival in self.arrivals[source] if arrival.version == version]
        return days_between(found[-1], day) if found else None

    def reason(self, source: str, version: str, before: Optional[str], day: str) -> Optional[str]:
        """Why a version may not come to testing on a day, if it may not."""
        age, needed = self.age(source, version, day), self.days_needed(source, version, before)
        if age is None:
            return "never came to unstable"
        if age < needed:
            return f"is too young: {age} of {needed} days"
        bug = self.bug_of(source, version, before)
        if bug is not None:
            return f"has the new bug {bug}"
        if self.is_blocked(source, version):
            return "is blocked"
        if self.held.get(source) == version:
            return "is known to be bad"
        return "isn't built everywhere" if self.late.get(source) == version else None

    def moved(self, old: Testing, new: Testing, day: str) -> Iterator[str]:
        """What is wrong with how testing changed on a day."""
        for source, version in new.sources.items():
            before = old.sources.get(source)
            if before == version:
                continue
            if before is not None and is_above(before, version):
                yield f"source {source} went back from {before} to {version}"
            reason = self.reason(source, version, before, day)
            if reason and source in self.arrivals:
                yield f"source {source} {version} moved and {reason}"
        for source, version in old.sources.items():
            if source not in new.sources and source in self.unstable:
                yield f"source {source} {version} vanished from testing, and is in unstable"

    def rows_lost(self, old: Testing, new: Testing) -> Iterator[str]:
        """Packages that left testing though their source stays as it is, and unstable has them; and those gone back."""
        for (name, own), version in old.rows.items():
            now = new.rows.get((name, own))
            source, source_version, _ = self.rows.get((name, own), ("", "", ""))
            stays = source in new.sources and new.sources[source] == old.sources.get(source) == source_version
            if now is None and stays:
                yield f"package {name} {own} {version} vanished from testing, and its source {source} stays"
            if now is not None and is_above(version, now):
                yield f"package {name} {own} went back from {version} to {now}"

    def behind(self, testing: Testing, day: str) -> Iterator[tuple[str, str]]:
        """The sources whose newest version isn't in testing, and why that is so; nothing if no reason is known."""
        reasons: dict[str, str] = {}
        waiting = {source: version for source, version in self.unstable.items()
                   if testing.sources.get(source) != version}
        for source, version in waiting.items():
            reason = self.reason(source, version, testing.sources.get(source), day) or self.nowhere(source)
            if reason:
                reasons[source] = reason
        while True:
            more = {source: f"goes with {other}" for source in waiting if source not in reasons
                    for other in sorted(self.near(source, testing)) if other in reasons}
            if not more:
                break
            reasons.update(more)
        for source in sorted(waiting):
            yield source, reasons.get(source, "")

    def nowhere(self, source: str) -> str:
        """Says so if a package of a source needs what unstable hasn't."""
        there = {name for name, _ in self.rows}
        for own, _, depends in self.rows.values():
            lacking = [name for name in names_in(depends) if name not in there and not name.startswith("mta")]
            if own == source and lacking:
                return f"needs {lacking[0]}"
        return ""

    def near(self, source: str, testing: Testing) -> set[str]:
        """The sources that this one's move needs: those it needs itself, and those with need of its old packages."""
        own = {name for (name, _), row in self.rows.items() if row[0] == source}
        needed = {name for row in self.rows.values() if row[0] == source for name in names_in(row[2])}
        found = {row[0] for (name, _), row in self.rows.items() if name in needed}
        stem = source if source.startswith("lib") else None
        for row in self.rows.values():
            names = set(names_in(row[2]))
            if names & own or (stem and any(name.startswith(stem) for name in names)):
                found.add(row[0])
        return found - {source}


def names_in(depends: str) -> Sequence[str]:
    """The names of packages in a relation, without their versions."""
    return [NAME.findall(part)[0] for clause in depends.split(",") for part in clause.split("|") if NAME.search(part)]


def affects(bug: Bug, version: str) -> bool:
    """Whether a version has a bug."""
    return not (bug.found and is_above(bug.found, version)) and not (bug.fixed and not is_above(bug.fixed, version))
