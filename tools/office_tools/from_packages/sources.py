"""What the indexes of a suite have, as far as the office takes it, and how its sources came by their files .changes."""
import dataclasses
import email.utils
import os
from dataclasses import dataclass, field
from typing import Callable, Mapping, Optional, Sequence, TypeVar

from office_tools import relations, versions
from office_tools.control import Changes, Reader, read_changes, sections
from office_tools.faults import Exit, Fault, cause_of
from office_tools.from_packages.binaries import Binary, fitting, read_binaries
from office_tools.from_packages.told import Weight, tell
from office_tools.messages import MAINTAINER, Urgency
from office_tools.relations import Bad

Name = TypeVar("Name")

LONGEST_MAINTAINER = 1000  # characters
ENDING = ".changes"
MOST_ARCHITECTURES = 16


def put_newer(known: dict[Name, str], name: Name, version: str) -> None:
    """Puts a version under a name, if it has none or an older one."""
    if name not in known or versions.compare(version, known[name]) > 0:
        known[name] = version


@dataclass(frozen=True)
class Sources:
    """The version of each source, and the maintainers of those of which that is known."""

    versions: dict[str, str] = field(default_factory=dict)
    maintainers: dict[str, str] = field(default_factory=dict)

    def put(self, name: str, version: str, maintainer: str) -> None:
        """Puts a version of a file Sources. A maintainer that a message can't have in a line is left out."""
        self.versions[name] = version
        self.maintainers.pop(name, None)
        if maintainer.isprintable() and 0 < len(maintainer) <= LONGEST_MAINTAINER:
            self.maintainers[name] = maintainer


def read_sources(paths: Sequence[str], binaries: Sequence[Binary], read: Reader = sections) -> Sources:
    """The sources, each at the newest version that a package or a file Sources names."""
    found = Sources()
    known = found.versions
    for binary in binaries:
        put_newer(known, binary.source, binary.source_version)
    for path in paths:
        for fields in read(path, ["Package", "Version", "Extra-Source-Only", MAINTAINER]):
            name, version = fields.get("Package", ""), fields.get("Version", "")
            try:
                relations.checked_name(name, "Package")
                relations.checked_version(version)
            except Bad as bad:
                tell(f"source {name or '?'} {version or '?'}: left out: {bad}")
                continue
            newer = known.get(name)
            if fields.get("Extra-Source-Only", "no") == "yes":
                tell(f"source {name} {version}: left out: it is kept for packages that were built with it alone",
                     Weight.NOTE)
            elif newer is not None and versions.compare(version, newer) < 0:
                tell(f"source {name} {version}: left out: {newer} is newer", Weight.NOTE)
            else:
                found.put(name, version, fields.get(MAINTAINER, ""))
    return found


@dataclass(frozen=True)
class Index:
    """Each source's version, the binary packages, the architectures, and who maintains the sources."""

    sources: Mapping[str, str]
    binaries: Sequence[Binary]
    architectures: Sequence[str]
    maintainers: Mapping[str, str] = field(default_factory=dict)

    def of(self, binaries: Sequence[Binary]) -> "Index":
        """These packages, and their sources."""
        names = {binary.source for binary in binaries}
        return dataclasses.replace(self, binaries=binaries, sources={
            name: version for name, version in self.sources.items() if name in names})

    def check(self, what: str, status: Exit = Exit.NEGATIVE) -> None:
        """Refuses architectures that no setup takes."""
        if not 0 < len(self.architectures) <= MOST_ARCHITECTURES:
            raise Fault(f"{what} {len(self.architectures)} architectures; 1 to {MOST_ARCHITECTURES} are taken", status)


def read_index(packages: Sequence[str], sources: Sequence[str], read: Reader = sections) -> Index:
    """What these files Packages and Sources have."""
    found, architectures = read_binaries(packages, read)
    binaries = list(fitting(found)) if architectures else []
    told = read_sources(sources if architectures else (), binaries, read)
    return Index(told.versions, binaries, architectures, told.maintainers)


@dataclass(frozen=True)
class Arrival:
    """How urgent an upload is, and the day on which it came.

    `distribution` has the suites for which it was made, if that is known and the source came with it.
    """

    urgency: Urgency
    day: str
    distribution: str = ""


Arrivals = Mapping[tuple[str, str], Arrival]


def read_arrivals(folder: Optional[str], default: Arrival,
                  read: Callable[[str], Changes] = read_changes) -> Arrivals:
    """The arrival of each source and version with a file .changes in the folder.

    Of several files the one that brings the source counts, else the first by its name. What a file doesn't state, or
    states illegibly, is reported, and the default is used. A file that can't be read at all is reported.
    """
    found: dict[tuple[str, str], Arrival] = {}
    of_source: set[tuple[str, str]] = set()
    for path in changes_in(folder) if folder else []:
        try:
            changes = read(path)
        except Fault as fault:
            tell(f"{fault.cause}: left out", Weight.ONCE)
            continue
        upload = changes.source, changes.version
        if upload not in found or changes.has_source and upload not in of_source:
            found[upload] = arrival_of(path, changes, default)
        if changes.has_source:
            of_source.add(upload)
    return found


def changes_in(folder: str) -> Sequence[str]:
    """The files .changes of a folder and of those below it, by their paths: reprepro's Logdir has a folder for each.

    A folder below it that can't be read is reported.
    """
    def report(fault: OSError) -> None:
        if fault.filename == folder:
            raise Fault(f"{folder}: {cause_of(fault)}") from fault
        tell(f"{fault.filename}: {cause_of(fault)}: left out", Weight.ONCE)

    found: list[str] = []
    for place, folders, names in os.walk(folder, onerror=report):
        found += [os.path.join(place, name) for name in (*folders, *names) if name.endswith(ENDING)]
        folders[:] = [name for name in folders if not name.endswith(ENDING)]
    return sorted(found)


def arrival_of(path: str, changes: Changes, default: Arrival) -> Arrival:
    """What a file .changes says of the arrival."""
    urgency, day = default.urgency, day_of(changes.date or "")
    try:
        urgency = Urgency(changes.urgency)
    except ValueError:
        tell(f"{path}: its urgency is taken as {urgency.value}: it states {changes.urgency or 'none'}", Weight.NOTE)
    if day is None:
        tell(f"{path}: its day is taken as {default.day}: its date is {changes.date or 'missing'}", Weight.NOTE)
    return Arrival(urgency, day or default.day, changes.distribution if changes.has_source else "")


def day_of(date: str) -> Optional[str]:
    """The day that a date of mail states, in its own zone, or None if it is no date from 1970 on."""
    try:
        day = email.utils.parsedate_to_datetime(date).date()
    except (ValueError, OverflowError, TypeError, IndexError):  # what the library raises for some texts
        return None
    return day.isoformat() if day.year >= 1970 else None
