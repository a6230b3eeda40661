"""What is new in an archive since the office's kept mail: the messages on it."""
import dataclasses
import datetime
import functools
from collections import Counter
from dataclasses import dataclass, field
from typing import Iterator, Mapping, Optional, Sequence

from office_tools import days, messages, reports, versions
from office_tools.apply import marks
from office_tools.deciding import SOURCE
from office_tools.faults import Exit, Fault
from office_tools.feed.back import Archive, Retold, came_back, without_strange
from office_tools.feed.brakes import packages_named
from office_tools.feed.known import Known, first_of
from office_tools.feed.mailbox import Mailbox
from office_tools.feed.rebuilds import Rebuilds, rebuilds
from office_tools.feed.smooth import left_behind, stay
from office_tools.from_packages import mail
from office_tools.from_packages.binaries import Binary, Key
from office_tools.from_packages.mail import PROPOSED
from office_tools.from_packages.sources import Arrival, Arrivals, Index
from office_tools.messages import Kind, Made, Paragraph, Urgency, kind_of, numbered
from office_tools.reports import ItemStanding
from office_tools.senders import BUILDS, HINTS, UPLOADS

GONE = "Gone"
"""A field that the office doesn't read: it marks the hints that this command sends, so that it knows them again."""


@dataclass(frozen=True)
class Removal:
    """A standing hint that takes a version of a source out of testing, and whether this command sent it."""

    number: int
    source: str
    version: str
    is_own: bool


@dataclass
class News(mail.News):
    """The messages that are new, also hints for sources that are gone, and hints that are taken back."""

    hints: Sequence[bytes] = ()
    unhints: Sequence[bytes] = ()

    def summary(self) -> str:
        """How many there are."""
        return ", ".join(f"{entry.name} {len(getattr(self, entry.name))}" for entry in dataclasses.fields(self))


@dataclass(frozen=True)
class Ways:
    """The day of the feed, how uploads came, and what it may do: send rebuilds, and let these sources go back."""

    day: str
    known: Arrivals = field(default_factory=dict)
    with_rebuilds: bool = False
    is_smooth: bool = False
    back: Sequence[str] = ()


def news(archive: Archive, box: Mailbox, hints: reports.Hints, ways: Ways) -> tuple[News, Mapping[Key, str]]:
    """What the archive has and the mail doesn't say; and the packages that are gone, for the brakes."""
    known, testing = archive.known, archive.testing
    look_at(archive.index, known)
    retold = came_back(archive, ways.back)
    again = rebuilds(archive, box, retold) if ways.with_rebuilds else Rebuilds()
    staying = stay(archive, box, retold, again) if ways.is_smooth else set()
    without_strange(archive, retold)
    retold.tell()
    found = News()
    last = {sender: known.taken.get(sender, 0) for sender in (UPLOADS, BUILDS, HINTS)}
    found.uploads = numbered(UPLOADS, last[UPLOADS], uploads(archive, box, retold, ways))
    lost = {key: known.bound(key) for key in archive.due.drops if key not in {*retold.packages, *staying}}
    there = {binary.key for binary in archive.binaries}
    gone = {key: version for key, version in lost.items() if key not in there}
    removals = list(standing(known))
    done = [removal.source for removal in removals if removal.is_own and marks.is_made_up(removal.source)
            and removal.source not in testing.sources]
    found.drops = numbered(UPLOADS, last[UPLOADS] + len(found.uploads),
                           mail.drops({**lost, **left_behind(box, done)}))
    found.builds = [*again.builds(box, retold),
                    *mail.builds([*packages(archive, retold, again.keys), *retold.extra], last[BUILDS])]
    left = leaving(archive, box, ways.is_smooth)
    found.hints = numbered(HINTS, last[HINTS], removal_hints(left, testing, removals))
    back = [*taken_back(archive, removals), *spent(known, hints)]
    found.unhints = numbered(HINTS, last[HINTS] + len(found.hints), (
        functools.partial(messages.unhint, cancels=hint) for hint in back))
    return found, gone


def look_at(index: Index, known: Known) -> None:
    """Refuses indexes without an architecture that the mail names."""
    counted = Counter(architecture for _, architecture in known.live)
    lacking = sorted(set(counted) - set(index.architectures) - {"all"})
    if lacking:
        raise Fault(f"the indexes have no package of {', '.join(lacking)}, and the office was sent "
                    f"{counted[lacking[0]]} of {lacking[0]}: all would be dropped", Exit.REFUSED)


def uploads(archive: Archive, box: Mailbox, retold: Retold, ways: Ways) -> Iterator[Made]:
    """An upload of each source that is new, or that is sent again under another version."""
    known, due = archive.known, archive.due.tells
    mail.tell_gone(known, archive.sources)
    coming = mail.Uploading(ways.known, Arrival(Urgency.MEDIUM, ways.day), archive.index.maintainers)
    for name, version in sorted(archive.sources.items()):
        made_up = retold.sources.get(name)
        if made_up is None:
            if (name, SOURCE) in due and known.is_above((name, SOURCE), version):
                yield from coming.uploads(name, version, archive.told_version(name))
        elif name in retold.urgent:
            yield coming.upload(name, made_up, long_ago(ways.day, known.low_days))
        else:
            first = None if name in retold.again else first_arrival(box, name, version)
            yield coming.upload(name, made_up, first or coming.arrival(name, version))
    for name, version in sorted(retold.staying.items()):
        if known.versions.get(name) != version:
            yield coming.upload(name, version, Arrival(Urgency.CRITICAL, ways.day))


def long_ago(day: str, wait: int) -> Arrival:
    """The arrival of what is old enough at once. It has the least urgency: a greater one would count for the version
    behind it, too, if this one doesn't move before.
    """
    first, today = datetime.date(days.FIRST_YEAR, 1, 1), datetime.date.fromisoformat(day)
    return Arrival(Urgency.LOW, (today - datetime.timedelta(min(wait, (today - first).days))).isoformat())


def first_arrival(box: Mailbox, name: str, version: str) -> Optional[Arrival]:
    """How a version of a source came, by the first upload of it."""
    for text in box.texts(f"Source: {name}\n".encode()):
        first = first_of(text)
        if kind_of(first) is Kind.UPLOAD and first.value("Source") == name and \
                versions.same(marks.source_version(first.value("Version") or ""), version):
            word = (first.value("Urgency") or "").split(" ")[0].lower()
            if word in [urgency.value for urgency in Urgency]:
                return Arrival(Urgency(word), first.value("Day") or "")
    return None


def packages(archive: Archive, retold: Retold, others: set[Key]) -> Iterator[Binary]:
    """The packages that are new, or sent again, as they are sent; without those from other senders."""
    known = archive.known
    for binary in archive.binaries:
        key, source = binary.key, retold.sources.get(binary.source)
        last = known.versions.get(binary.source, "")
        if source is None and marks.is_back(last) and versions.same(marks.source_version(last), binary.source_version):
            source = last
        is_new = key in archive.due.tells and known.is_above(key, binary.version)
        if key not in others and (key in retold.packages or is_new):
            yield retold.told(binary, retold.under.get(key) or (source if archive.is_current(binary) else None))


def standing(known: Known) -> Iterator[Removal]:
    """The hints in force that take sources out of testing."""
    for number, first in known.standing_hints():
        yield from removals_of(number, first)


def removals_of(number: int, first: Paragraph) -> Iterator[Removal]:
    """What a hint takes out."""
    word, *items = (first.value("Hint") or "").split()
    if word == "remove":
        for item in items:
            source, _, version = item.partition("/")
            yield Removal(number, source, version, first.value(GONE) is not None)


def removal_hints(sources: Sequence[str], testing: reports.Testing, removals: Sequence[Removal]) -> Iterator[Made]:
    """A hint for each of these sources, in this order, unless one in force takes it out."""
    for source in sources:
        version = testing.sources[source]
        if not any(removal.source == source and versions.same(removal.version, version) for removal in removals):
            yield removal_of(source, version)


def removal_of(source: str, version: str) -> Made:
    """The hint for a source that is gone from unstable."""
    return functools.partial(messages.hint, wish=f"remove {source}/{version}", more=[(GONE, f"{source} {version}")])


def leaving(archive: Archive, box: Mailbox, is_smooth: bool) -> Sequence[str]:
    """The sources that are in testing and gone from unstable, those first that no other one of them needs.

    Sources of packages that stay are among them, if this command takes care of them: the office refuses to remove one
    as long as something needs it.

    A run takes each hint to remove a source once, by number. Sources that need each other are in order of names.
    """
    testing = archive.testing
    left = sorted(source for source, version in testing.sources.items() if source not in archive.sources
                  and (is_smooth or not marks.is_made_up(source))
                  and not leaves_later(archive.known, source, version))
    needs = needs_among(left, testing, box) if len(left) > 1 else {}
    found: list[str] = []
    while left:
        free = [source for source in left
                if not any(source in needs.get(other, ()) for other in left if other != source)]
        found += free or left[:1]
        left = [source for source in left if source not in found]
    return found


def needs_among(sources: Sequence[str], testing: reports.Testing, box: Mailbox) -> Mapping[str, set[str]]:
    """For each of these sources the others whose packages its packages in testing name in their relations."""
    rows = {(row.package, row.architecture, row.version): row.source for row in testing.rows if row.source in sources}
    owners = {row.package: row.source for row in testing.rows if row.source in sources}
    named = [(rows[(*binary.key, binary.version)], binary) for binary in packages_named(box, owners)
             if (*binary.key, binary.version) in rows]
    owners.update({part.name: source for source, binary in named for part in binary.provisions})
    found: dict[str, set[str]] = {source: set() for source in sources}
    for source, binary in named:
        found[source] |= {owners[part.name] for clause in binary.clauses for part in clause if part.name in owners}
    return found


def taken_back(archive: Archive, removals: Sequence[Removal]) -> Iterator[int]:
    """This command's hints for sources that have left testing, are back, or are sent without their needs first."""
    for removal in removals:
        held = archive.testing.sources.get(removal.source)
        is_done = not versions.same(held, removal.version)
        is_over = removal.source in archive.sources or leaves_later(archive.known, removal.source, removal.version)
        if removal.is_own and (is_done or is_over):
            yield removal.number


def spent(known: Known, hints: reports.Hints) -> Iterator[int]:
    """The hints mailed for the office's proposals whose groups have moved, or can't move as stated any more."""
    for number, first in known.letters():
        if kind_of(first) is Kind.HINT and first.value(PROPOSED) is not None:
            standings = [item.standing for item in hints.items if item.number == number]
            is_done = all(standing is ItemStanding.MOVED for standing in standings)
            is_over = any(standing in (ItemStanding.NO_SOURCE, ItemStanding.OTHER_VERSION) for standing in standings)
            if standings and (is_done or is_over):
                yield number


def leaves_later(known: Known, source: str, version: str) -> bool:
    """Whether a source that is gone has to move to a made-up version before it leaves testing."""
    last = known.versions.get(source, "")
    return last.endswith(marks.LEAVING) and not versions.same(last, version)
