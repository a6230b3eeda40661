"""Where britney and the office decide otherwise: the sources on which a HeidiResult and the office's testing differ."""
from collections import defaultdict
from dataclasses import dataclass
from typing import Iterator, Mapping, Optional, Sequence

from office_tools import versions
from office_tools.apply import marks
from office_tools.faults import Exit, Fault
from office_tools.from_britney.folder import text_of
from office_tools.reports import Row, Testing, Unstable
from office_tools.service import Service

SOURCE = "source"
ALL = "all"
MOST_LINES = 20  # lines of a reason that are printed


def read_heidi(path: str) -> Testing:
    """What a file HeidiResult has: lines `NAME VERSION ARCHITECTURE`, maybe with the section after that.

    It doesn't say of which source a package is.
    """
    sources: dict[str, str] = {}
    rows: list[Row] = []
    for number, line in enumerate(text_of(path).split("\n"), 1):
        words = line.split()
        if len(words) in (3, 4):
            name, version, architecture = words[:3]
            if not versions.is_version(version):
                raise Fault(f"{path}:{number}: {version[:40]!r} is no version", Exit.REFUSED)
            if architecture == SOURCE:
                sources[name] = version
            else:
                rows.append(Row(architecture, name, version, ""))
        elif words:
            raise Fault(f"{path}:{number}: it isn't NAME VERSION ARCHITECTURE: {line[:60]!r}", Exit.REFUSED)
    if not sources:
        raise Fault(f"{path}: it has no source", Exit.REFUSED)
    return Testing(0, sources, rows)


def as_archived(testing: Testing) -> Testing:
    """What the office's testing has, by the names and versions that the archive has."""
    return Testing(testing.finished, {name: marks.source_version(version) for name, version in testing.sources.items()
                                      if not marks.is_made_up(name)},
                   [Row(row.architecture, row.package, marks.package_version(row.version), "") for row in testing.rows])


def shown(row: Row) -> str:
    """A package as it is printed."""
    return f"{row.architecture} {row.package} {row.version}"


@dataclass(frozen=True)
class Differing:
    """A source on which both differ: its version in each, if it has one, and the packages that only one has."""

    source: str
    britney: Optional[str]
    office: Optional[str]
    only_britney: Sequence[Row]
    only_office: Sequence[Row]

    @property
    def is_ahead(self) -> bool:
        """Whether britney has a newer version, or has the source alone."""
        if self.britney is None or self.office is None:
            return self.office is None
        return versions.compare(self.britney, self.office) > 0

    @property
    def is_rows_alone(self) -> bool:
        """Whether both have the same version, and other packages of it."""
        return self.britney == self.office

    def lines(self) -> Iterator[str]:
        """What is printed of it: packages too if the version is the same."""
        yield f"{self.source}: britney {self.britney or '-'}, office {self.office or '-'}"
        if self.is_rows_alone:
            for word, rows in (("britney", self.only_britney), ("office", self.only_office)):
                yield from (f" {word} alone: binary {shown(row)}" for row in sorted(rows))


@dataclass(frozen=True)
class Comparison:
    """The sources that differ, those that build nothing on the office's architectures, and britney's other packages."""

    total: int
    differing: Sequence[Differing]
    idle: Sequence[str]
    strange: Sequence[Row]


def compared(britney: Testing, testing: Testing, unstable: Unstable) -> Comparison:
    """How both differ. Packages of architectures that the office hasn't aren't looked at."""
    office = as_archived(testing)
    rows = [*unstable.rows, *testing.rows]
    sources_of = {row.package: row.source for row in rows}
    architectures = {row.architecture for row in rows} | {ALL}
    left, right = ([row for row in found if row.architecture in architectures]
                   for found in (set(britney.rows) - set(office.rows), set(office.rows) - set(britney.rows)))
    strange = sorted(row for row in left if row.package not in sources_of)
    idle = sorted(set(britney.sources) - set(sources_of.values()) - set(office.sources))
    only = by_source(left, sources_of), by_source(right, sources_of)
    names = sorted((set(britney.sources) | set(office.sources)) - set(idle))
    found = [differing(name, britney.sources.get(name), office.sources.get(name), only) for name in names]
    return Comparison(len(names) + len(idle), [entry for entry in found if entry is not None], idle, strange)


def by_source(rows: Sequence[Row], sources_of: Mapping[str, str]) -> Mapping[str, Sequence[Row]]:
    """The packages by their sources; those of a made-up source differ from nobody's."""
    found: dict[str, list[Row]] = defaultdict(list)
    for row in rows:
        source = sources_of.get(row.package)
        if source is not None and not marks.is_made_up(source):
            found[source].append(row)
    return found


def differing(name: str, britney: Optional[str], office: Optional[str],
              only: tuple[Mapping[str, Sequence[Row]], Mapping[str, Sequence[Row]]]) -> Optional[Differing]:
    """How both differ on a source, if they do."""
    is_same = versions.same(britney, office)
    left, right = only[0].get(name, ()), only[1].get(name, ())
    if is_same and not left and not right:
        return None
    return Differing(name, britney, britney if is_same else office, left, right)


def reason(service: Service, source: str) -> Sequence[str]:
    """Why the office has a source as it has it: the lines that it answers, each after a space."""
    path = f"/why/{source}"
    reply = service.get(path)
    if reply.text in ("refused NoSource", "refused NoRoute", "refused NoRun"):
        return [" the office's last run saw no such source in unstable"]
    service.body(path, reply)
    lines = reply.text.split("\n")[1:]
    more = [f" and {len(lines) - MOST_LINES} more lines"] if len(lines) > MOST_LINES else []
    return [f" {line.lstrip(' ')}" for line in lines[:MOST_LINES]] + more
