"""Packages rebuilt from a source that is in testing (binNMU): the office moves packages only with a source.

So the source is sent as a new version, which ends in `+bN`, with all its packages under it. Those that were sent before
are sent again by a spare sender, which precedes the others in the setup, or under a made-up version.
"""
from collections import defaultdict
from dataclasses import dataclass, field
from typing import Iterator, Mapping, Sequence

from office_tools import messages, reports, versions
from office_tools.apply import marks
from office_tools.feed.back import Archive, Retold
from office_tools.feed.known import SPARE
from office_tools.feed.mailbox import Mailbox
from office_tools.from_packages.binaries import Binary, Key
from office_tools.from_packages.told import Weight, tell
from office_tools.messages import Label
from office_tools.senders import BUILDS


@dataclass
class Rebuilds:
    """The packages that the spare senders send again, by their senders."""

    again: dict[str, list[Binary]] = field(default_factory=lambda: defaultdict(list))

    @property
    def keys(self) -> set[Key]:
        """The packages."""
        return {binary.key for binaries in self.again.values() for binary in binaries}

    def builds(self, box: Mailbox, retold: Retold) -> Iterator[bytes]:
        """What the spare senders send again, in as many messages as it needs."""
        for sender, binaries in self.again.items():
            number = box.kept[sender].unbroken
            told = {**retold.sources, **retold.staying}
            parts = [retold.told(binary, told[binary.source]).paragraph() for binary in binaries
                     if binary.source in told]
            while parts:
                number += 1
                count = fitting(parts)
                yield messages.build(Label(sender, number), parts[:count])
                del parts[:count]


def fitting(parts: Sequence[bytes]) -> int:
    """How many of these paragraphs one message takes. Each fits alone, except a version that makes it longer."""
    room = 60000
    count = 0
    while count < min(len(parts), messages.MOST_BINARIES) and (count == 0 or room >= len(parts[count])):
        room -= len(parts[count]) + 1
        count += 1
    return count


def rebuilds(archive: Archive, box: Mailbox, retold: Retold) -> Rebuilds:
    """What was rebuilt since it was sent, or was sent without a new version of its source and so didn't move.

    The versions of its sources, and of packages without a spare sender left, are put among those sent again.
    """
    found = Rebuilds()
    known, testing = archive.known, archive.testing
    for source, rows in sorted(by_source(archive.binaries, testing).items()):
        told = known.versions.get(source, "0")
        older = [binary for binary in rows
                 if not known.is_above(binary.key, binary.version) and binary.key not in retold.packages]
        is_pending = versions.compare(told, testing.sources[source]) > 0
        is_told = len(older) == len(rows) and (is_pending or not any(is_above(binary, archive) for binary in rows))
        if is_told or source in retold.sources or archive.is_above_testing(source):
            continue
        retold.sources[source] = next_version(marks.source_version(testing.sources[source]), told)
        retold.urgent.add(source)
        retold.under.update({binary.key: retold.sources[source] for binary in rows})
        is_last = False
        for binary in older:
            spares = spares_for(binary, box)
            is_last = is_last or len(spares) == 1
            if spares:
                found.again[spares[-1]].append(binary)
            else:
                retold.packages[binary.key] = marks.back(known.bound(binary.key), binary.version)
        tell(f"{source}: rebuilt: sent as {retold.sources[source]}", Weight.NOTE)
        if is_last:
            tell(f"{source}: its last spare sender is used: its next rebuild takes made-up versions of packages",
                 Weight.ONCE)
    return found


def by_source(binaries: Sequence[Binary], testing: reports.Testing) -> Mapping[str, Sequence[Binary]]:
    """The packages of each source at the version that is in testing, and those that testing has under it otherwise."""
    held = {(row.package, row.architecture, marks.package_version(row.version), row.source) for row in testing.rows}
    found: dict[str, list[Binary]] = defaultdict(list)
    for binary in binaries:
        version = testing.sources.get(binary.source)
        if version is not None and (
                versions.same(marks.source_version(version), binary.source_version)
                or (binary.name, binary.architecture, binary.version, binary.source) in held):
            found[binary.source].append(binary)
    return found


def is_above(binary: Binary, archive: Archive) -> bool:
    """Whether a package is above what testing has of it."""
    version = archive.held.get(binary.key)
    return version is None or versions.compare(binary.version, version) > 0


def next_version(version: str, told: str) -> str:
    """The version after the one under which a source was last sent."""
    if marks.is_back(told):
        return marks.back(told, version)
    rebuilt = marks.REBUILT_AT_END.search(told) if marks.source_version(told) == version else None
    return f"{version}+b{int(rebuilt[1]) + 1 if rebuilt else 1}"


def spares_for(binary: Binary, box: Mailbox) -> Sequence[str]:
    """The spare senders that can send a package again: those before all that sent it.

    There is none for a package that was sent under another version than its own, or dropped: then only its version
    counts.
    """
    told, dropped = box.known.packages.get(binary.key, ""), box.known.dropped.get(binary.key)
    if told != binary.version or dropped is not None and versions.compare(told, dropped) <= 0:
        return []
    senders = list(box.kept)
    used = box.known.retold.get((binary.key, binary.version), set()) | {BUILDS}
    first = min(senders.index(sender) for sender in used)
    return [sender for sender in senders[:first] if SPARE.fullmatch(sender)
            and box.kept[sender].greatest == box.kept[sender].unbroken]
