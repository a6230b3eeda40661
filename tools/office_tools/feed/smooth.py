"""Old packages that stay next to newer ones of their source, as long as something of testing needs them (--smooth).

A source takes all its packages along when it moves. If its newer version no longer has a package, and others in testing
need that, it is sent under a source of its own, `smooth-NAME`, before the source moves. A hint removes that one, and is
refused as long as something needs it.
"""
import dataclasses
from typing import Iterator, Mapping, Sequence

from office_tools import versions
from office_tools.apply import marks
from office_tools.feed.back import Archive, Retold
from office_tools.feed.brakes import binaries_in, packages_named
from office_tools.feed.mailbox import Mailbox
from office_tools.feed.rebuilds import Rebuilds, spares_for
from office_tools.from_packages.binaries import Binary, Key
from office_tools.from_packages.suites import Suite
from office_tools.from_packages.told import Weight, tell
from office_tools.relations import Clause


def stay(archive: Archive, box: Mailbox, retold: Retold, again: Rebuilds) -> set[Key]:
    """Sends the packages that stay, each under a source of its own; returns which these are."""
    left = leaving(archive)
    held = held_by(archive, box) if left else []
    found: set[Key] = set()
    for binary in needed(archive, [binary for binary in held if binary.key in left],
                         [binary for binary in held if binary.key not in left]):
        found.add(binary.key)
        if box.known.staying.get(binary.key) != box.known.bound(binary.key):
            tell_staying(archive, box, retold, again, binary)
    return found


def tell_staying(archive: Archive, box: Mailbox, retold: Retold, again: Rebuilds, binary: Binary) -> None:
    """Sends one of them, by a spare sender or under a made-up version."""
    name = marks.STAYING + binary.name
    version = archive.held_version(binary.source) or binary.source_version
    last = archive.known.versions.get(name)
    version = version if last is None or versions.compare(version, last) > 0 else last
    own = dataclasses.replace(binary, source=name, source_version=version)
    spares = spares_for(own, box)
    retold.staying[name] = version
    if spares:
        again.again[spares[-1]].append(own)
    else:
        made = marks.back(box.known.bound(binary.key), binary.version)
        retold.extra.append(Retold(packages={binary.key: made}).told(own, version))
    tell(f"{binary.name} {binary.architecture} {binary.version}: stays as {name} {version}, as testing needs it",
         Weight.NOTE)


def leaving(archive: Archive) -> set[Key]:
    """The packages of testing whose sources have a newer version in the archive without them.

    A source that isn't built there yet on the package's architecture doesn't count: it can't move.
    """
    index = {binary.key: binary for binary in archive.binaries}
    current = {(binary.source, binary.architecture) for binary in archive.binaries if archive.is_current(binary)}
    built = {source for source, _ in current}
    found: set[Key] = set()
    for row in archive.testing.rows:
        if marks.is_made_up(row.source) or not archive.is_above_testing(row.source):
            continue
        other = index.get((row.package, row.architecture))
        is_replaced = other is not None and (
            other.source != row.source or archive.is_current(other))
        is_built = row.source in built if row.architecture == "all" else (row.source, row.architecture) in current
        if is_built and not is_replaced:
            found.add((row.package, row.architecture))
    return found


def held_by(archive: Archive, box: Mailbox) -> Sequence[Binary]:
    """The packages of testing, as the archive has them, or as the mail says."""
    rows = {(row.package, row.architecture): row for row in archive.testing.rows}
    found = {binary.key: dataclasses.replace(binary, source=rows[binary.key].source) for binary in archive.binaries
             if binary.key in rows and binary.version == rows[binary.key].version}
    for binary in packages_named(box, {name for name, architecture in rows if (name, architecture) not in found}):
        row = rows.get(binary.key)
        if row is not None and row.version == binary.version:
            found.setdefault(binary.key, dataclasses.replace(binary, source=row.source))
    return [found[key] for key in sorted(found)]


def needed(archive: Archive, left: Sequence[Binary], others: Sequence[Binary]) -> Iterator[Binary]:
    """Those of the leaving packages without which others of testing can't be installed once their sources moved."""
    moved = {binary.source for binary in left}
    new = [binary for binary in archive.binaries if binary.source in moved and archive.is_current(binary)]
    replaced = {binary.key for binary in new}
    staying = [binary for binary in others if binary.source not in moved and binary.key not in replaced]
    told: set[Key] = set()
    for architecture in sorted({row.architecture for row in archive.testing.rows} - {"all"}) if left else ():
        def of(binaries: Sequence[Binary]) -> list[Binary]:
            return [binary for binary in binaries if binary.architecture in (architecture, "all")]
        for binary in kept(of([*left, *others]), of(left), of([*staying, *new])):
            if binary.key not in told:
                told.add(binary.key)
                yield binary


def kept(before: Sequence[Binary], left: Sequence[Binary], after: Sequence[Binary]) -> Sequence[Binary]:
    """Those of the leaving packages that have to stay on an architecture, since what could be installed needs them."""
    suite = Suite(before)
    good = {binary.key for place, binary in enumerate(before) if suite.good[place]}
    found: list[Binary] = []
    while True:
        now = Suite([*after, *found])
        unmet = {clause for place, binary in enumerate(now.binaries) if not now.good[place] and binary.key in good
                 for clause in binary.clauses if not now.left[clause]}
        more = [binary for binary in left if binary not in found and any(meets(binary, clause) for clause in unmet)]
        if not more:
            return found
        found += more


def meets(binary: Binary, clause: Clause) -> bool:
    """Whether a package meets a clause, by its name or by what it provides."""
    offers = [(binary.name, binary.version), *((part.name, part.version) for part in binary.provisions)]
    return any(part.name == name and part.is_met_by(version) for part in clause for name, version in offers)


def left_behind(box: Mailbox, sources: Sequence[str]) -> Mapping[Key, str]:
    """The packages sent under sources that have left testing, with the version up to which each is dropped."""
    found: dict[Key, str] = {}
    for source in sources:
        for text in box.texts(f"Source: {source}".encode()):
            for binary in binaries_in(text):
                if binary.source == source and box.known.staying.get(binary.key) == box.known.bound(binary.key):
                    found[binary.key] = box.known.bound(binary.key)
    return found
