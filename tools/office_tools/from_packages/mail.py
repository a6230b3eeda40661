"""The messages on what is due to an office."""
import dataclasses
import functools
import os
from collections import defaultdict
from dataclasses import dataclass, field
from typing import Collection, Iterable, Iterator, Mapping, Optional, Sequence

from office_tools import messages, program, setups, versions
from office_tools.apply import marks
from office_tools.bags import LONGEST, bag_of
from office_tools.counts import count
from office_tools.deciding import SOURCE
from office_tools.feed.known import Known
from office_tools.files import write_whole
from office_tools.from_packages.binaries import Binary, Key
from office_tools.from_packages.due import Due, Lists, index_of, keyed
from office_tools.from_packages.sources import Arrival, Arrivals, Index
from office_tools.from_packages.told import Weight, tell
from office_tools.messages import Kind, Label, Made, Role, kind_of, numbered, rank
from office_tools.senders import BUGS, BUILDS, HINTS, RUNS, UPLOADS

SENDERS: Mapping[str, Role] = {
    UPLOADS: Role.UPLOAD, BUILDS: Role.BUILD, BUGS: Role.BUGS, HINTS: Role.RELEASE, RUNS: Role.RUNS}
PROPOSED = "Proposed"
"""A field that the office doesn't read, with the day. It marks hints of these tools, so that they know them again."""

MOST_SPARES = 8  # of the 16 senders of a setup, beside those above and `hand`


def spares(word: str) -> int:
    """How many spare senders of builds there are, as a word of a command."""
    found = count(word)
    if found > MOST_SPARES:
        raise ValueError(word)
    return found


def write_setup(folder: str, architectures: Sequence[str], spare: int) -> str:
    """Writes the setup of an office, and gives its path: the senders are one for uploads that are sent by hand, this
    many spare senders of builds, the last one first, and then the others.
    """
    senders: dict[str, Role] = {UPLOADS: Role.UPLOAD, "hand": Role.UPLOAD}
    senders.update({f"again{number}": Role.BUILD for number in range(spare, 0, -1)})
    path = os.path.join(folder, "setup.conf")
    write_whole(path, setups.written(setups.Setup(architectures, {**senders, **SENDERS})))
    return path


@dataclass(frozen=True)
class Uploading:
    """How the uploads came: each one whose arrival is known, and all others; and who maintains sources."""

    known: Arrivals
    others: Arrival
    maintainers: Mapping[str, str] = field(default_factory=dict)

    @functools.cached_property
    def by_source(self) -> Mapping[str, Mapping[str, Arrival]]:
        """How the versions of each source came."""
        found: dict[str, dict[str, Arrival]] = defaultdict(dict)
        for (source, version), arrival in self.known.items():
            found[source][version] = arrival
        return found

    def arrival(self, name: str, version: str) -> Arrival:
        """How a source came that is sent for the first time."""
        return self.known.get((name, version), self.others)

    def upload(self, name: str, version: str, arrival: Arrival) -> Made:
        """An upload of a source."""
        return functools.partial(messages.upload, source=name, version=version, urgency=arrival.urgency,
                                 day=arrival.day, maintainer=self.maintainers.get(name))

    def uploads(self, name: str, version: str, last: Optional[str]) -> Iterator[Made]:
        """An upload of a source, after a more urgent one that it replaced since the last one that was sent.

        The urgency of that one counts until the source moves, as for britney.
        """
        known = self.by_source.get(name, {})
        other = replaced(known, version, last)
        if other is not None:
            urgency = known[other].urgency
            tell(f"source {name} {other}: it was replaced before it was sent; its urgency, {urgency.value}, counts",
                 Weight.NOTE)
            yield functools.partial(messages.upload, source=name, version=other, urgency=urgency, day=known[other].day)
        yield self.upload(name, version, self.arrival(name, version))


def replaced(known: Mapping[str, Arrival], version: str, last: Optional[str]) -> Optional[str]:
    """The most urgent upload of a source after the one that was sent last, if this version replaced it unsent.

    It is one only if it is more urgent than this version, and was made for the same distribution: what was uploaded to
    another suite was never in this one.
    """
    own = known.get(version)
    if own is None or not own.distribution:
        return None
    between = [other for other, arrival in known.items()
               if arrival.distribution == own.distribution and rank(arrival.urgency) > rank(own.urgency)
               and versions.is_version(other) and versions.compare(other, version) < 0
               and (last is None or versions.compare(other, last) > 0)]
    return max(between, key=lambda other: (rank(known[other].urgency), versions.key(other))) if between else None


def due_of(index: Index, sent: Known) -> Due:
    """What is due of an index after what was sent. What is gone, and what no mail can tell, is reported."""
    due = Lists({**keyed(sent.versions), **sent.live}, index_of(index.sources, index.binaries), sent.dropped).due()
    tell_gone(sent, index.sources)
    for key, version in sorted(due.left.items(), key=lambda item: (item[0][1] != SOURCE, item[0])):
        said = f"source {key[0]}" if key[1] == SOURCE else " ".join(key)
        if key in sent.dropped and versions.compare(version, sent.dropped[key]) <= 0:
            tell(f"{said} {version}: left out: it was dropped up to {sent.dropped[key]}")
        elif versions.compare(version, sent.bound(key)) < 0:  # and not the same version in other bytes
            tell(f"{said} {version}: left out: {sent.bound(key)} was sent, and is newer")
    return due


def tell_gone(sent: Known, there: Collection[str]) -> None:
    """Reports the sources that are gone."""
    for name in sorted(name for name in sent.versions if name not in there and not marks.is_made_up(name)):
        tell(f"source {name} {sent.versions[name]}: it is gone, and nothing takes an upload back", Weight.NOTE)


@dataclass
class News:
    """Uploads of what is new, after each a more urgent one that it replaced, drops of what is gone, and builds."""

    uploads: Sequence[bytes] = ()
    drops: Sequence[bytes] = ()
    builds: Sequence[bytes] = ()

    @property
    def texts(self) -> Sequence[bytes]:
        """All of them, in the order in which they are sent: an upload before its builds."""
        return [text for entry in dataclasses.fields(self) for text in getattr(self, entry.name)]

    @property
    def counts(self) -> Mapping[str, int]:
        """How many there are of each sender."""
        return {UPLOADS: len(self.uploads) + len(self.drops), BUILDS: len(self.builds)}


def news(index: Index, sent: Known, arrivals: Uploading) -> News:
    """The messages on what is due of an index after what was sent."""
    due = due_of(index, sent)
    there = {binary.key for binary in index.binaries}
    last = sent.taken.get(UPLOADS, 0)
    uploads = numbered(UPLOADS, last, (made for (name, architecture), version in sorted(due.tells.items())
                                       if architecture == SOURCE
                                       for made in arrivals.uploads(name, version, sent.versions.get(name))))
    gone = {key: version for key, version in due.drops.items() if key not in there}
    new = [binary for binary in index.binaries if binary.key in due.tells]
    return News(uploads, numbered(UPLOADS, last + len(uploads), drops(gone)),
                list(builds(new, sent.taken.get(BUILDS, 0))))


def drops(gone: Mapping[Key, str]) -> Iterator[Made]:
    """A drop of each package that is gone, up to a version."""
    for (name, architecture), version in sorted(gone.items()):
        yield functools.partial(messages.drop, package=name, architecture=architecture, version=version)


def builds(binaries: Iterable[Binary], after: int) -> Iterator[bytes]:
    """The builds of each source, in as many messages as they need, from a number on."""
    number, size, source = after, 0, ""
    parts: list[bytes] = []
    for binary in sorted(binaries, key=lambda binary: binary.source):
        part = binary.paragraph()
        if parts and (binary.source != source or len(parts) == messages.MOST_BINARIES or
                      size + 1 + len(part) > LONGEST):
            yield messages.build(Label(BUILDS, number), parts)
            parts = []
        if not parts:
            number, source = number + 1, binary.source
            size = len(messages.message(Label(BUILDS, number), Kind.BUILD))
        parts.append(part)
        size += 1 + len(part)
    if parts:
        yield messages.build(Label(BUILDS, number), parts)


def proposal(hint: str, day: str) -> Made:
    """A hint that the office proposed for a run of a day."""
    return functools.partial(messages.hint, wish=hint, more=[(PROPOSED, day)])


def hints(setup: str, bag: bytes, sent: Known, texts: Sequence[bytes], day: str) -> Sequence[bytes]:
    """A hint for each group that the office proposes for a run over the mail of a bag and these messages, without
    those sent before.
    """
    before = {first.value("Hint") for _, first in sent.letters() if kind_of(first) is Kind.HINT}
    wishes, told = program.proposed(setup, bag + bag_of(texts), day)
    for line in told:
        tell(line.removeprefix("office: "))
    return numbered(HINTS, sent.taken.get(HINTS, 0), (proposal(wish, day) for wish in wishes if wish not in before))


def order(day: str, sent: Known, new: Mapping[str, int]) -> bytes:
    """The next order, which covers all mail: what was sent before, and how much is new of each sender."""
    covers = {sender: sent.taken.get(sender, 0) + new.get(sender, 0) for sender in SENDERS if sender != RUNS}
    return messages.run(Label(RUNS, sent.taken.get(RUNS, 0) + 1), day, covers)
