"""The lists of release-critical bugs that dak and britney use (BugsV), and which sources their names mean."""
import re
from collections import defaultdict
from dataclasses import dataclass
from typing import Iterator, Mapping, Sequence

from office_tools import reports
from office_tools.addresses import read_named
from office_tools.apply import marks
from office_tools.faults import Exit, Fault, ending
from office_tools.files import decoded

LINE = re.compile(r"(\S+)[ \t]+([0-9]+(?:,[0-9]+)*)[ \t\r]*")
OF_SOURCE = "src:"
GREATEST = 999_999_999

Entry = tuple[str, int]
"""A name, of a source or of a binary package, and the number of a bug."""


def read_list(path: str) -> Sequence[Entry]:
    """The entries of a list in a file or at a URL, whose lines are `NAME BUG[,BUG..]`.

    A line of another form is refused, since the bugs that it states would count as closed. So is a last line without
    an end: such a file was cut off.
    """
    with ending(Exit.REFUSED):
        text = decoded(path, read_named(path))
    if text and not text.endswith("\n"):
        raise Fault(f"{path}: its last line has no end: the file was cut off", Exit.REFUSED)
    found: list[Entry] = []
    for number, line in enumerate(text.split("\n"), 1):
        if line.strip(" \t\r"):
            found += entries(path, number, line)
    return found


def entries(path: str, number: int, line: str) -> Iterator[Entry]:
    """The entries of a line."""
    found = LINE.fullmatch(line)
    if found is None:
        raise Fault(f"{path}:{number}: it isn't NAME BUG[,BUG..]: {line[:60]!r}", Exit.REFUSED)
    for word in found[2].split(","):
        if not 0 < len(word) <= len(str(GREATEST)) or not int(word):
            raise Fault(f"{path}:{number}: {word[:20]} is no number of a bug", Exit.REFUSED)
        yield found[1], int(word)


@dataclass(frozen=True)
class Names:
    """The sources of a suite: their versions, and the sources of each binary package."""

    versions: Mapping[str, str]
    of_package: Mapping[str, set[str]]

    def sources(self, name: str) -> set[str]:
        """The sources that a name means, as britney has it: the source of that name, and those of the package."""
        source = name.removeprefix(OF_SOURCE)
        found = {source} & set(self.versions)
        return found if name.startswith(OF_SOURCE) else found | self.of_package.get(name, set())


def names_of(suite: reports.Testing) -> Names:
    """The names of a suite. A source that a manager made up for old packages isn't one of the archive's."""
    of_package: dict[str, set[str]] = defaultdict(set)
    for row in suite.rows:
        if row.source in suite.sources and not marks.is_made_up(row.source):
            of_package[row.package].add(row.source)
    return Names({name: version for name, version in suite.sources.items() if not marks.is_made_up(name)}, of_package)
