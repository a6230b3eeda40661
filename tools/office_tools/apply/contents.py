"""What a suite has, what the office wants in it, and what is left alone there."""
import dataclasses
import enum
from dataclasses import dataclass, field
from typing import Iterable, Iterator, Mapping, NamedTuple, Sequence, Union

from office_tools import reports, versions
from office_tools.apply import marks
from office_tools.faults import Exit, Fault

ALL = "all"


class Source(NamedTuple):
    """A source in a suite."""

    name: str
    version: str


class Row(NamedTuple):
    """A binary package in a suite: the index's architecture, its own architecture, its name and version."""

    place: str
    architecture: str
    name: str
    version: str


Item = Union[Source, Row]


@dataclass(frozen=True)
class Contents:
    """The sources and the binary packages of a suite, and the source of each of these, if known.

    In an archive that is the source that it was built of, in the office's testing the one that it was sent under.
    `other_kinds` counts the packages of kinds that the office decides nothing about, like udeb. `sent` has the versions
    in the office's testing, with their marks.
    """

    sources: frozenset[Source] = frozenset()
    rows: frozenset[Row] = frozenset()
    built_of: Mapping[Row, Source] = field(default_factory=dict, compare=False)
    other_kinds: Mapping[str, int] = field(default_factory=dict, compare=False)
    sent: Mapping[Item, str] = field(default_factory=dict, compare=False)

    @property
    def items(self) -> frozenset[Item]:
        """The sources and the rows."""
        return self.sources | self.rows

    def made_of(self, items: Iterable[Item]) -> "Contents":
        """These items, with what is known here of them."""
        return dataclasses.replace(contents_of(items), built_of=self.built_of, sent=self.sent)

    def without(self, other: "Contents") -> "Contents":
        """What is here and not there."""
        return Contents(self.sources - other.sources, self.rows - other.rows)

    @property
    def is_empty(self) -> bool:
        """Whether there is nothing."""
        return not self.sources and not self.rows

    def lines(self) -> Iterator[str]:
        """A line for each source and each row. A row of `all` has one for each index that it is in."""
        for source in sorted(self.sources):
            yield f"source {source.name} {source.version}"
        for row in sorted(self.rows):
            place = "" if row.place == row.architecture else f" in the index of {row.place}"
            yield f"binary {row.architecture} {row.name} {row.version}{place}"


def contents_of(items: Iterable[Item]) -> Contents:
    """The contents that are these items."""
    found = list(items)
    return Contents(frozenset(item for item in found if isinstance(item, Source)),
                    frozenset(item for item in found if isinstance(item, Row)))


class Indexes(enum.Enum):
    """Where an archive has packages of `all`: once, or in the index of each architecture."""

    ONCE = "once"
    EACH = "each"


def wanted(testing: reports.Testing, architectures: Sequence[str], indexes: Indexes) -> Contents:
    """What the suite has to have by the office's testing, if it has these architectures."""
    if not testing.finished:
        raise Fault("no run is finished: the office has no testing yet", Exit.REFUSED)
    strange = sorted({row.architecture for row in testing.rows} - {*architectures, ALL})
    if strange:
        raise Fault(f"the suite has no architecture {', '.join(strange)}: the office has another setup", Exit.REFUSED)
    sources = {name: Source(name, marks.source_version(version)) for name, version in testing.sources.items()}
    told_under: dict[Row, Source] = {}
    sent: dict[Item, str] = {sources[name]: version for name, version in testing.sources.items()}
    for told in testing.rows:
        is_each = told.architecture == ALL and indexes is Indexes.EACH
        for place in architectures if is_each else [told.architecture]:
            row = Row(place, told.architecture, told.package, marks.package_version(told.version))
            told_under[row], sent[row] = sources[told.source], told.version
    real = {source for source in sources.values() if not marks.is_made_up(source.name)}
    return Contents(frozenset(real), frozenset(told_under), told_under, sent=sent)


@dataclass(frozen=True)
class Target:
    """What a suite is to have: what the office wants in it, and what is left alone of what it has.

    `idle` are sources of the suite that the office doesn't want. For some the suite has no binary package: they build
    nothing on the office's architectures, so it can't decide about them. Of the others packages stay that the office
    wants, like old libraries. `older` are packages of `all`. `odd` have a version that the office takes for none.
    """

    want: Contents
    contents: Contents
    idle: Sequence[Source] = ()
    older: Sequence[Row] = ()
    odd: Sequence[Item] = ()


def target(want: Contents, have: Contents) -> Target:
    """What a suite that has these contents is to have."""
    excess = have.without(want)
    odd = contents_of(item for item in excess.items if not versions.is_version(item.version))
    building = set(have.built_of.values())
    needed = {source for row, source in have.built_of.items() if row in want.rows}
    idle = sorted(source for source in excess.without(odd).sources if source not in building or source in needed)
    older = sorted(older_of_all(want, have, excess.without(odd).rows))
    lagging = {(row.place, row.name) for row in older if row.place != ALL}
    unmissed = {row for row in want.rows - have.rows if row.architecture == ALL and (row.place, row.name) in lagging}
    contents = want.made_of({*want.sources, *idle, *(want.rows - unmissed), *older, *odd.items})
    return Target(want, contents, idle, older, sorted(odd.items))


def check_taken(want: Contents, have: Contents) -> None:
    """Refuses to take out all that a suite has, or all that it has of an architecture."""
    if want.is_empty and not have.is_empty:
        raise Fault("the office's testing is empty, and the archive's isn't: nothing is taken out", Exit.REFUSED)
    lost = {row.architecture for row in have.rows} - {row.architecture for row in want.rows} - {ALL}
    if lost:
        raise Fault(f"testing has packages of {', '.join(sorted(lost))}, and the office's has none: the office has "
                    "another setup", Exit.REFUSED)


def older_of_all(want: Contents, have: Contents, rows: frozenset[Row]) -> Iterator[Row]:
    """Those of these packages of `all` that stay: an architecture on which their source lags has them.

    There a package stays that was built of the same version of the source, and the office has it under a newer one. Of
    the package of `all` itself the office has another version. If it is only in the index of that architecture, nobody
    misses the other version there.
    """
    lagging: set[tuple[str, Source]] = set()
    for row, built in have.built_of.items():
        told = want.built_of.get(row) if row in want.rows else None
        if told and told.name == built.name and versions.compare(told.version, built.version) > 0:
            lagging.update(((row.place, built), (ALL, built)))
    names = {(row.place, row.name) for row in want.rows}
    return (row for row in rows if row.architecture == ALL and (row.place, row.name) in names
            and (row.place, have.built_of.get(row)) in lagging)
