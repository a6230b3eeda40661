"""What stops a feed before anything is sent: what an operator would want to see first. Each brake names the option
that releases it.
"""
import datetime
import re
from dataclasses import dataclass
from typing import Collection, Iterator, Mapping, Optional, Sequence

from office_tools import relations
from office_tools.faults import Exit, Fault, some
from office_tools.feed.archive import Release
from office_tools.feed.back import Archive
from office_tools.feed.mailbox import Mailbox
from office_tools.from_packages.binaries import Binary, Key, binary_of
from office_tools.from_packages.suites import Suite
from office_tools.messages import BINARY_FIELDS, paragraphs
from office_tools.service import Kept

PACKAGE = re.compile(rb"^Package: (.*)$", re.MULTILINE)

MOST_GONE, MOST_PERCENT = 20, 2
MOST_DAYS = 7
SHOWN = 5  # names that a fault names


def check_senders(kept: Mapping[str, Kept], own: Sequence[str]) -> None:
    """Refuses an office without a sender that this command needs."""
    for sender in own:
        if sender not in kept:
            raise Fault(f"the office has another setup: it has no sender {sender}", Exit.REFUSED)


def check_gaps(kept: Mapping[str, Kept], own: Sequence[str], allowed: Sequence[str]) -> None:
    """Refuses a gap in the mail of a sender: an order wouldn't cover what follows it, such as a bug.

    A gap of a sender whose numbers this command gives can't be allowed: its next number would be one of the gap's.
    """
    for sender, count in kept.items():
        if count.greatest != count.unbroken and (sender in own or sender not in allowed):
            way = "" if sender in own else f", or allow it by --gap {sender}: then no order sees what follows it"
            raise Fault(f"{sender} {count.unbroken + 1} isn't kept, and {sender} {count.greatest} is: send what is "
                        f"missing first, or a message of the kind none in its place{way}", Exit.REFUSED)


def check_day(day: Optional[datetime.date], today: datetime.date, last: datetime.date) -> None:
    """Refuses a day by the clock that can't be right, given the last order's. A day that is stated is believed."""
    if day is not None or last == datetime.date.min:
        return
    if today < last:
        raise Fault(f"today is {today} by the clock, and the last order is of {last}: set the clock, or state the "
                    "day by --day", Exit.REFUSED)
    if (today - last).days > MOST_DAYS:
        raise Fault(f"today is {today} by the clock, and the last order is of {last}, more than {MOST_DAYS} days "
                    "before: all uploads would be so much older; set the clock, or state the day by --day",
                    Exit.REFUSED)


def check_releases(found: Mapping[str, Release], before: Mapping[str, Mapping[str, str]]) -> None:
    """Refuses an archive that was put back to an earlier state, and one that has fewer architectures or components."""
    for name, release in found.items():
        seen = before.get(name, {})
        date = date_of(seen.get("date", ""))
        if date is not None and release.date is not None and release.date < date:
            raise Fault(f"{name} is of {release.date:%Y-%m-%d %H:%M:%S}, and the one before was of "
                        f"{date:%Y-%m-%d %H:%M:%S}: the archive was put back; if this is meant, allow it by "
                        "--other-release", Exit.REFUSED)
        for what, now in (("architectures", release.architectures), ("components", release.components)):
            lost = set(seen.get(what, "").split()) - now
            if lost:
                raise Fault(f"{name} has the {what} {', '.join(sorted(lost))} no more: all of it would be dropped; if "
                            "this is meant, allow it by --other-release", Exit.REFUSED)


def remembered_releases(found: Mapping[str, Release]) -> dict[str, dict[str, str]]:
    """What is remembered of the files Release."""
    return {name: {"date": release.date.isoformat() if release.date else "",
                   "architectures": " ".join(sorted(release.architectures)),
                   "components": " ".join(sorted(release.components))} for name, release in found.items()}


def date_of(text: str) -> Optional[datetime.datetime]:
    """The date that is remembered."""
    try:
        found = datetime.datetime.fromisoformat(text)
    except ValueError:
        return None
    return found if found.tzinfo else None


@dataclass(frozen=True)
class Gone:
    """The packages that would be dropped, and what the archive and testing have."""

    dropped: Mapping[Key, str]
    archive: Archive

    def check(self, box: Mailbox, allowed: int) -> None:
        """Refuses drops of many packages, and of one that others need, unless this number of packages is allowed."""
        count = len(self.dropped)
        if not count or count <= allowed:
            return
        names = some(list(map(" ".join, sorted(self.dropped))), SHOWN)
        way = f"if this is meant, allow it by --gone {count}"
        told = len(self.archive.known.live)
        if count > MOST_GONE and count * 100 > told * MOST_PERCENT:
            raise Fault(f"{count} of {told} packages are gone from the archive: {names}: {way}", Exit.REFUSED)
        broken = list(self.broken(box))
        if broken:
            raise Fault(f"{names}: gone from the archive, and needed by {some(broken, 1)}: {way}", Exit.REFUSED)

    def broken(self, box: Mailbox) -> Iterator[str]:
        """The packages of testing that unstable still has, and that can't be installed there without what is gone.

        A package replaced by a newer version of its own source is no slip, so it isn't among what is gone.
        """
        lost, held = self.needed(box), self.archive.held
        for architecture in sorted(self.archive.index.architectures) if lost else []:
            own = [binary for binary in self.archive.binaries if binary.architecture in (architecture, "all")]
            back = [binary for binary in lost if binary.architecture in (architecture, "all")]
            if not back:
                continue
            before, after = Suite([*own, *back]), Suite(own)
            for place, binary in enumerate(own):
                if before.good[place] and not after.good[place] and held.get(binary.key) == binary.version:
                    yield f"{binary.name} {architecture}"

    def needed(self, box: Mailbox) -> Sequence[Binary]:
        """The packages that are gone, are in testing, and are of no source that has a newer version in the archive."""
        sources = {(row.package, row.architecture): row.source for row in self.archive.testing.rows}
        keys = {key for key in self.dropped if key in sources and not self.archive.is_above_testing(sources[key])}
        return list({binary.key: binary for binary in packages_named(box, {name for name, _ in keys})
                     if binary.key in keys and binary.version == self.dropped[binary.key]}.values())


def packages_named(box: Mailbox, names: Collection[str]) -> Iterator[Binary]:
    """All that the mail says of packages of these names, and of others of the same messages."""
    asked = {name.encode() for name in names}
    for text in box.texts(b"\nKind: build\n") if asked else ():
        if not asked.isdisjoint(PACKAGE.findall(text)):
            yield from binaries_in(text)


def binaries_in(text: bytes) -> Iterator[Binary]:
    """The packages of a build."""
    for paragraph in list(paragraphs(text))[1:]:
        values = {rule.name: paragraph.value(rule.name) for rule in BINARY_FIELDS}
        try:
            yield binary_of({name: " ".join(value.split("\n")) for name, value in values.items() if value is not None})
        except relations.Bad:
            continue
