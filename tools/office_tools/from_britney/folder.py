"""A data folder of britney2: testing and unstable, each with Packages_ARCH, Sources, BugsV, and what only one has."""
import datetime
import functools
import os
import re
from collections import defaultdict
from dataclasses import dataclass
from typing import Iterator, Mapping, Optional, Sequence

from office_tools import faults, relations, versions
from office_tools.bugs.lists import Entry, read_list
from office_tools.faults import Exit, Fault, ending, naming
from office_tools.files import read_bytes
from office_tools.from_packages.sources import Arrival, Arrivals
from office_tools.messages import Urgency, rank

NAME = "office-from-britney"
PACKAGES = "Packages_"
EPOCH = datetime.date(1970, 1, 1)
MOST_DAYS = 2932896  # up to 9999-12-31
DAYS = re.compile(r"[0-9]{1,7}")

tell = functools.partial(faults.tell, NAME)


@dataclass(frozen=True)
class Suite:
    """The files of a suite in such a folder."""

    path: str

    @property
    def sources(self) -> Sequence[str]:
        """Its file Sources."""
        path = os.path.join(self.path, "Sources")
        if not os.path.isfile(path):
            raise Fault(f"{path}: there is no such file", Exit.REFUSED)
        return [path]

    @property
    def packages(self) -> Sequence[str]:
        """Its files Packages_ARCH, by their names."""
        with naming(self.path, Exit.REFUSED):
            names = sorted(name for name in os.listdir(self.path) if name.startswith(PACKAGES))
        if not names:
            raise Fault(f"{self.path}: it has no file {PACKAGES}ARCH", Exit.REFUSED)
        return [os.path.join(self.path, name) for name in names]

    @property
    def bugs(self) -> Sequence[Entry]:
        """The entries of its list of bugs; none if it has no such file."""
        path = os.path.join(self.path, "BugsV")
        if not os.path.exists(path):
            tell(f"{path}: there is no such file, so no bug is in it")
            return []
        return read_list(path)


@dataclass(frozen=True)
class Folder:
    """Such a folder."""

    path: str

    @property
    def testing(self) -> Suite:
        """The suite testing."""
        return Suite(os.path.join(self.path, "testing"))

    @property
    def unstable(self) -> Suite:
        """The suite unstable."""
        return Suite(os.path.join(self.path, "unstable"))

    def lines(self, name: str) -> Iterator[tuple[str, str, str]]:
        """The lines `SOURCE VERSION WORD` of the files of this name; lines of another form are reported and skipped."""
        for suite in (self.testing, self.unstable):
            path = os.path.join(suite.path, name)
            if not os.path.exists(path):
                continue
            for number, line in enumerate(text_of(path).split("\n"), 1):
                words = line.split()
                is_good = len(words) == 3 and relations.NAME.fullmatch(words[0]) and versions.is_version(words[1])
                if is_good:
                    yield words[0], words[1], words[2]
                elif words:
                    tell(f"{path}:{number}: left out: it isn't SOURCE VERSION WORD: {line[:60]!r}")

    def arrivals(self, unstable: Mapping[str, str], testing: Mapping[str, str], default: Arrival) -> Arrivals:
        """When unstable's uploads came, and how urgent they are, by the files Dates and Urgency.

        The most urgent upload above testing's version counts, as for britney. Where the source isn't in testing, none
        is more urgent than the default.
        """
        days = {(name, version): day_of(word) for name, version, word in self.lines("Dates")}
        urgencies: dict[str, Urgency] = defaultdict(lambda: default.urgency)
        for name, version, word in self.lines("Urgency"):
            urgency = urgency_of(word)
            if urgency is not None and is_between(testing.get(name), version, unstable.get(name)):
                known = urgencies.get(name)
                urgencies[name] = urgency if known is None else max(known, urgency, key=rank)
        found = {}
        for name, version in unstable.items():
            urgency = urgencies[name] if name in testing else min(urgencies[name], default.urgency, key=rank)
            found[name, version] = Arrival(urgency, days.get((name, version)) or default.day)
        return found

    def hint_files(self) -> Sequence[str]:
        """The files of hints, by their names."""
        folder = os.path.join(self.unstable.path, "Hints")
        try:
            names = sorted(os.listdir(folder))
        except OSError:
            tell(f"{folder}: it can't be read, so there are no hints")
            return []
        paths = [os.path.join(folder, name) for name in names if not name.startswith(".")]
        return [path for path in paths if os.path.isfile(path)]


def text_of(path: str) -> str:
    """The text of a file, in which a byte that isn't UTF-8 is shown by its number."""
    with ending(Exit.REFUSED):
        return read_bytes(path).decode(errors="backslashreplace")


def day_of(word: str) -> Optional[str]:
    """The day of a number of days since 1970."""
    if not DAYS.fullmatch(word) or int(word) > MOST_DAYS:
        return None
    return (EPOCH + datetime.timedelta(int(word))).isoformat()


def urgency_of(word: str) -> Optional[Urgency]:
    """The urgency that a word names, if it names one."""
    try:
        return Urgency(word.lower())
    except ValueError:
        return None


def is_between(low: Optional[str], version: str, high: Optional[str]) -> bool:
    """Whether a version is above testing's, and not above unstable's."""
    return high is not None and versions.compare(version, high) <= 0 and (
        low is None or versions.compare(version, low) > 0)
