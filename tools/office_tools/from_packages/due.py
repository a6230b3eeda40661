"""What the archive has and the office's unstable hasn't, or the other way round, as office-sync(1) decides it.

It is proved that after the mail of what is due each package that unstable has is in the index at that version.
"""
from dataclasses import dataclass
from typing import Iterator, Mapping, Sequence

from office_tools import reports
from office_tools.apply import marks
from office_tools.deciding import MOST, SOURCE, Program
from office_tools.faults import Exit, Fault, some
from office_tools.from_packages.binaries import Binary, Key

SYNC = Program("office-sync")
SHOWN = 5  # packages that a fault names


@dataclass(frozen=True)
class Due:
    """What is due to the office: the version of each name and architecture, or `source`, that is to be told or dropped,
    and of what the archive has and no mail can tell.
    """

    tells: Mapping[Key, str]
    drops: Mapping[Key, str]
    left: Mapping[Key, str]


@dataclass(frozen=True)
class Lists:
    """What the office's unstable has, without marks, what the archive's index has, and up to where packages of which
    unstable has none were dropped: the version of each name and architecture, or `source`.
    """

    unstable: Mapping[Key, str]
    index: Mapping[Key, str]
    dropped: Mapping[Key, str]

    def due(self) -> Due:
        """What the program says of them."""
        found: dict[str, dict[Key, str]] = {"tell": {}, "drop": {}, "left": {}}
        for line in SYNC.lines([list(lines_of(part)) for part in (self.unstable, self.index, self.dropped)],
                               ["--gone", str(MOST)]):
            words = line.split(" ")
            if len(words) != 4 or words[0] not in found:
                raise SYNC.fault(f"it prints {line!r}")
            found[words[0]][words[1], words[3]] = words[2]
        return Due(found["tell"], found["drop"], found["left"])

    def check(self) -> None:
        """Refuses an unstable that has a package which the archive lost, or has only in an older version.

        A newer version that is still to be told, as a rebuild, is no reason.
        """
        strange = list(lines_of(self.due().drops))
        if strange:
            raise Fault(f"the office's unstable has what the archive hasn't: {some(strange, SHOWN)}: no run is ordered "
                        "before it is dropped", Exit.REFUSED)


def lines_of(versions: Mapping[Key, str]) -> Iterator[str]:
    """A list as the program takes it."""
    return (f"{name} {version} {architecture}" for (name, architecture), version in versions.items())


def keyed(sources: Mapping[str, str]) -> dict[Key, str]:
    """The versions of sources, as in a list."""
    return {(name, SOURCE): version for name, version in sources.items()}


def index_of(sources: Mapping[str, str], binaries: Sequence[Binary]) -> Mapping[Key, str]:
    """The list of an archive."""
    return {**keyed(sources), **{binary.key: binary.version for binary in binaries}}


def lists_of(told: reports.Unstable, sources: Mapping[str, str], binaries: Sequence[Binary],
             dropped: Mapping[Key, str]) -> Lists:
    """The lists of an office's unstable and of an archive.

    What stays or leaves by a mark is in no list: the archive hasn't got it any more. A version that ends in `+backN`
    stands for the archive's.
    """
    unstable = keyed({name: marks.source_version(version) for name, version in told.sources.items()
                      if not marks.is_made_up(name)})
    unstable.update({(row.package, row.architecture): marks.package_version(row.version) for row in told.rows
                     if not marks.is_made_up(row.source) and not row.version.endswith(marks.LEAVING)})
    return Lists(unstable, index_of(sources, binaries), {
        key: marks.package_version(version) for key, version in dropped.items() if key not in unstable})
