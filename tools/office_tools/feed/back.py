"""What the archive has once more, or at a lower version than was sent: under the version that is sent for it, if any.

The office takes the greatest version of a source, and a package above all that was dropped. So what came back is sent
under a version above both, which ends in `+backN` and means the archive's (apply/marks.py). Such a package also
provides its own name at the archive's version, which other packages may need.
"""
import dataclasses
import functools
from collections import defaultdict
from dataclasses import dataclass, field
from typing import Iterable, Iterator, Mapping, Optional, Sequence

from office_tools import reports, versions
from office_tools.apply import marks
from office_tools.deciding import SOURCE
from office_tools.feed.known import Known
from office_tools.from_packages.binaries import Binary, Key
from office_tools.from_packages.due import Due
from office_tools.from_packages.sources import Index
from office_tools.from_packages.told import Weight, tell


@dataclass(frozen=True)
class Archive:
    """What the archive has in unstable, what the mail says, what the office's testing has, and what is due to it."""

    index: Index
    known: Known
    testing: reports.Testing
    due: Due

    @property
    def sources(self) -> Mapping[str, str]:
        """The version of each source."""
        return self.index.sources

    @property
    def binaries(self) -> Sequence[Binary]:
        """The packages."""
        return self.index.binaries

    @functools.cached_property
    def held(self) -> Mapping[Key, str]:
        """The archive's version of each package that is in the office's testing."""
        return {(row.package, row.architecture): marks.package_version(row.version) for row in self.testing.rows}

    def told_version(self, source: str) -> Optional[str]:
        """The archive's version that was last sent for a source, without marks."""
        version = self.known.versions.get(source)
        return None if version is None else marks.source_version(version)

    def is_lower(self, source: str) -> bool:
        """Whether the archive has less of a source than was sent, and not the same version in other bytes."""
        return (source, SOURCE) in self.due.left and \
            versions.compare(self.sources[source], self.told_version(source) or "") < 0

    def is_above_testing(self, source: str) -> bool:
        """Whether the archive has a newer version of a source than testing."""
        held = self.held_version(source)
        return source in self.sources and (held is None or versions.compare(self.sources[source], held) > 0)

    def held_version(self, source: str) -> Optional[str]:
        """The archive's version of a source that is in the office's testing."""
        version = self.testing.sources.get(source)
        return None if version is None else marks.source_version(version)

    def is_current(self, binary: Binary) -> bool:
        """Whether a package was built of its source's version in the archive."""
        return versions.same(binary.source_version, self.sources[binary.source])


@dataclass
class Retold:
    """The versions under which returned sources and packages are sent.

    `urgent` are the sources that wait no days, `again` those whose age begins once more. `under` has the source's
    version of packages that are sent under another one than they were built of. `lines` and `alone` are the lines on
    sources and on packages alone. `staying` are the made-up sources of packages that stay, `extra` such packages.
    """

    sources: dict[str, str] = field(default_factory=dict)
    urgent: set[str] = field(default_factory=set)
    again: set[str] = field(default_factory=set)
    packages: dict[Key, str] = field(default_factory=dict)
    under: dict[Key, str] = field(default_factory=dict)
    staying: dict[str, str] = field(default_factory=dict)
    extra: list[Binary] = field(default_factory=list)
    lines: dict[str, str] = field(default_factory=dict)
    alone: dict[Key, str] = field(default_factory=dict)

    def tell(self) -> None:
        """Reports what is sent again: a line for each source, or for a package alone."""
        for source, line in self.lines.items():
            if source in self.sources:
                tell(line, Weight.ONCE)
        for key, line in self.alone.items():
            if key in self.packages:
                tell(line, Weight.ONCE)

    def told(self, binary: Binary, source_version: Optional[str]) -> Binary:
        """A package as it is sent: under its own version or a made-up one, of its source at this version."""
        version = self.packages.get(binary.key, binary.version)
        fields = dict(binary.fields)
        if version != binary.version:
            own = f"{binary.name} (= {binary.version})"
            provided = fields.get("Provides", "")
            fields.update({"Version": version, "Provides": f"{provided}, {own}" if provided else own})
        if version != binary.version or source_version is not None:
            fields["Source"] = f"{binary.source} ({source_version or binary.source_version})"
        return dataclasses.replace(binary, version=version, fields=fields,
                                   source_version=source_version or binary.source_version)


def came_back(archive: Archive, allowed: Sequence[str]) -> Retold:
    """What is sent again. `allowed` are the sources that may go back in testing."""
    found = Retold()
    rows: dict[str, list[Binary]] = defaultdict(list)
    for binary in archive.binaries:
        rows[binary.source].append(binary)
    for source, version in sorted(archive.sources.items()):
        if source not in archive.known.versions or marks.is_made_up(source):
            continue
        if archive.is_lower(source):
            withdrawn(archive, found, source, rows[source], allowed)
        elif (source, SOURCE) in archive.due.tells and not archive.known.is_above((source, SOURCE), version):
            found.again.add(source)
            retell(archive, found, source, rows[source])
    alone(archive, found)
    return found


def withdrawn(archive: Archive, found: Retold, source: str, own: Sequence[Binary], allowed: Sequence[str]) -> None:
    """Sends the older version if testing is to have it; else what was withdrawn is dropped."""
    version, told, held = archive.sources[source], archive.told_version(source), archive.held_version(source)
    is_ahead = held is not None and versions.compare(held, version) > 0
    if is_ahead and source not in allowed:
        tell(f"source {source}: testing has {held}, and unstable has {version} only: if testing is to go back, allow "
             f"it by --back {source}", Weight.STANDS)
    if versions.same(held, version) or is_ahead and source not in allowed:
        if any(binary.key in archive.due.drops for binary in own):
            tell(f"source {source} {told}: it was withdrawn, and is dropped; unstable has {version}", Weight.ONCE)
        return
    if is_ahead:
        found.urgent.add(source)
    retell(archive, found, source, own)
    found.lines[source] = f"source {source} {told}: it was withdrawn: {version} is sent as {found.sources[source]}"


def retell(archive: Archive, found: Retold, source: str, own: Iterable[Binary]) -> None:
    """Sends a source again, and all its packages that are built of its version in the archive."""
    found.sources[source] = marks.back(archive.known.versions[source], archive.sources[source])
    for binary in own:
        if archive.is_current(binary) and not archive.known.is_above(binary.key, binary.version):
            found.packages[binary.key] = marks.back(archive.known.bound(binary.key), binary.version)


def alone(archive: Archive, found: Retold) -> None:
    """Packages that were dropped and are back, or that the archive has less of, though not of their source.

    They are sent again, unless testing has them all the same.
    """
    known, live = archive.known, archive.known.live
    for binary in archive.binaries:
        key, bound = binary.key, known.bound(binary.key)
        if key in found.packages or known.is_above(key, binary.version) or known.staying.get(key) == bound:
            continue
        told = marks.package_version(bound) if key in live else ""
        if binary.version == told or archive.is_lower(binary.source):
            continue
        if archive.held.get(key) == binary.version and not (told and versions.compare(binary.version, told) >= 0):
            continue
        found.packages[key] = marks.back(bound, binary.version)
        found.alone[key] = f"{binary.name} {binary.architecture} {binary.version}: it is back below {bound}, which " \
            f"was {'sent' if key in live else 'dropped'}: sent as {found.packages[key]}"


def without_strange(archive: Archive, found: Retold) -> None:
    """Leaves out what would meet a relation of a package of the archive that the archive's own version doesn't meet."""
    strange = dict(strange_needs(archive.binaries, found.packages))
    sources = {binary.source for binary in archive.binaries if binary.key in strange}
    for source in sources:
        found.sources.pop(source, None)
    for binary in archive.binaries if strange else ():
        is_out = binary.source in sources and found.packages.pop(binary.key, None) is not None
        if is_out and binary.key in strange:
            tell(f"{binary.name} {binary.architecture} {binary.version}: left out: {strange[binary.key]}, which the "
                 "version that it would be sent as meets", Weight.STANDS)


def strange_needs(binaries: Sequence[Binary], packages: Mapping[Key, str]) -> Iterator[tuple[Key, str]]:
    """The packages whose made-up version meets a relation that their own doesn't meet, and the relation."""
    names: dict[str, list[Key]] = defaultdict(list)
    for key in packages:
        names[key[0]].append(key)
    own = {binary.key: binary.version for binary in binaries if binary.key in packages} if packages else {}
    for binary in binaries if packages else ():
        for clause in binary.clauses:
            for part in clause:
                for key in names.get(part.name, ()):
                    if part.is_met_by(packages[key]) and not part.is_met_by(own[key]):
                        yield key, f"{binary.name} {binary.version} needs {part}"
