"""What an office keeps and will see in its next run, taken on by each message that is looked at, and such a look."""
import datetime
import re
from dataclasses import dataclass, field
from typing import Callable, Iterable, Iterator, Mapping, Optional, Sequence, TypeVar

from office_tools import versions
from office_tools.messages import (KINDS_OF, Field, Kind, Label, Paragraph, ParagraphFault, Role, kind_of, label_of,
                                   label_of_first, paragraphs)
from office_tools.orders import Orders
from office_tools.reports import Hints, Testing, Unstable, Wish
from office_tools.service import Kept as Count
from office_tools.setups import Setup

NAME = re.compile(r"\s*([a-z0-9][a-z0-9+.-]+)")

Key = TypeVar("Key")
Pair = tuple[str, str]
"""An architecture and the name of a package."""
Delays = Mapping[str, int]
"""How many days an upload of each urgency waits, by the fields of a message on delays."""
FIRST_DELAYS: Delays = {"Low": 10, "Medium": 5, "High": 2, "Critical": 0}
"""Those of an office to which none were mailed."""


def wish_of(hint: str) -> Wish:
    """The words and the items of a hint that the office takes."""
    words = hint.split()
    items_from = 2 if words[0] == "age-days" else 1
    return " ".join(words[:items_from]), words[items_from:]


def names_in(text: bytes) -> Iterator[str]:
    """The names of the packages of a message, and those that they provide; none of a text that is no message."""
    try:
        binaries = list(paragraphs(text))[1:]
    except ParagraphFault:
        return
    for binary in binaries:
        yield binary.value("Package") or ""
        yield from (found[1] for found in map(NAME.match, (binary.value("Provides") or "").split(",")) if found)


@dataclass(frozen=True)
class Given:
    """A version, and the message that gave it: its sender's place in the setup, its number, and a binary's place."""

    version: str
    by: tuple[int, int, int]


EARLIER = (-1, 0, 0)
"""Means a message that was kept before, whose own place the office doesn't give."""


class Kept:
    """The mail that an office keeps, all of it at hand."""

    def __init__(self, texts: Sequence[bytes] = ()) -> None:
        self.kept = {label_of(text): text for text in texts}

    def text(self, label: Label) -> Optional[bytes]:
        """A message, or None if none is kept."""
        return self.kept.get(label)

    def mail(self, sender: str) -> Iterator[bytes]:
        """All messages of a sender, by number."""
        numbers = sorted(label.number for label in self.kept if label and label.sender == sender)
        return (self.kept[Label(sender, number)] for number in numbers)


@dataclass
class Seen:
    """What a run over all mail sees of unstable and hints: what the office says, and what was taken on since.

    `earlier` gives the kept messages of a kind. They are asked for only if what the office says isn't enough: it says
    nothing of a drop, nor of an unhint that reaches what comes later.
    """

    earlier: Callable[[Kind], Iterable[Paragraph]]
    sources: dict[str, Given] = field(default_factory=dict)
    rows: dict[Pair, Given] = field(default_factory=dict)
    built: dict[Pair, list[Given]] = field(default_factory=dict)
    dropped: dict[Pair, Given] = field(default_factory=dict)
    hints: set[int] = field(default_factory=set)
    hinted: set[int] = field(default_factory=set)
    wishes: dict[int, Wish] = field(default_factory=dict)
    bugs: dict[int, tuple[int, str]] = field(default_factory=dict)
    delayed: tuple[int, Delays] = (0, FIRST_DELAYS)
    has_kept: set[Kind] = field(default_factory=set)
    cancelled: set[int] = field(default_factory=set)
    has_kept_drops: bool = False

    def take(self, sender: int, number: int, text: bytes) -> None:
        """Takes a message of the sender with this place in the setup, under this number."""
        first, *binaries = list(paragraphs(text))
        kind = kind_of(first)
        if kind is Kind.UPLOAD:
            raise_to(self.sources, first.value("Source") or "", given(first, (sender, number, 0)))
        elif kind is Kind.BUILD:
            for place, binary in enumerate(binaries, 1):
                self.built.setdefault(pair_of(binary), []).append(given(binary, (sender, number, place)))
        elif kind is Kind.DROP:
            raise_to(self.dropped, pair_of(first), given(first, (sender, number, 0)))
        elif kind is Kind.HINT:
            self.hinted.add(number)
            self.wishes[number] = wish_of(first.value("Hint") or "")
        elif kind in (Kind.BUG, Kind.DELAYS):
            self.take_last(number, first, kind)
        elif kind is Kind.UNHINT:
            self.cancelled.add(int(first.value("Cancels") or 0))

    def take_last(self, number: int, first: Paragraph, kind: Kind) -> None:
        """Takes a message of a kind that counts by its greatest number."""
        if kind is Kind.BUG:
            bug = int(first.value("Bug") or 0)
            self.bugs[bug] = max(self.bugs.get(bug, (0, "")), (number, first.value("Source") or ""))
        else:
            days = {name: int(first.value(name) or 0) for name in FIRST_DELAYS}
            self.delayed = max(self.delayed, (number, days), key=lambda delayed: delayed[0])

    def ask_kept(self, kind: Kind) -> None:
        """Takes the kept messages of such a kind, once."""
        if kind not in self.has_kept:
            self.has_kept.add(kind)
            for first in self.earlier(kind):
                label = label_of_first(first)
                self.take_last(label.number if label else 0, first, kind)

    def bug_source(self, bug: int) -> Optional[str]:
        """The source of the last message on a bug."""
        self.ask_kept(Kind.BUG)
        return self.bugs[bug][1] if bug in self.bugs else None

    def delays(self) -> Delays:
        """How many days an upload of each urgency waits."""
        self.ask_kept(Kind.DELAYS)
        return self.delayed[1]

    def source(self, name: str) -> Optional[str]:
        """Unstable's version of a source."""
        found = self.sources.get(name)
        return found.version if found else None

    def row(self, architecture: str, package: str) -> Optional[str]:
        """Unstable's version of a package on an architecture: the greatest one above all drops."""
        pair = architecture, package
        built = self.built.get(pair, [])
        rows: dict[Pair, Given] = {}
        for row in ([self.rows[pair]] if pair in self.rows else []) + built:
            if self.is_above_drops(pair, row, pair not in self.rows):
                raise_to(rows, pair, row)
        return rows[pair].version if pair in rows else None

    def is_above_drops(self, pair: Pair, row: Given, is_asked: bool) -> bool:
        """Whether no drop reaches a row: none that was taken on, nor, if that is asked, one that was kept before."""
        if is_asked and not self.has_kept_drops:
            self.has_kept_drops = True
            for first in self.earlier(Kind.DROP):
                raise_to(self.dropped, pair_of(first), given(first, EARLIER))
        dropped = self.dropped.get(pair)
        return dropped is None or versions.compare(row.version, dropped.version) > 0

    def in_force(self, number: int) -> bool:
        """Whether a hint of this number is in force."""
        if number in self.cancelled or (number not in self.hints and number not in self.hinted):
            return False
        return number in self.hints or all(int(first.value("Cancels") or 0) != number
                                           for first in self.earlier(Kind.UNHINT))


def given(paragraph: Paragraph, by: tuple[int, int, int]) -> Given:
    """The version that a paragraph states."""
    return Given(paragraph.value("Version") or "", by)


def pair_of(paragraph: Paragraph) -> Pair:
    """The architecture and the package of a paragraph."""
    return paragraph.value("Architecture") or "", paragraph.value("Package") or ""


def raise_to(greatest: dict[Key, Given], of: Key, new: Given) -> None:
    """Takes a version if none is known, or a lower one; of the same version that of the first message counts."""
    known = greatest.get(of)
    order = versions.compare(new.version, known.version) if known else 1
    if known is None or order > 0 or (order == 0 and new.by < known.by):
        greatest[of] = new


class State:
    """The state that warnings are judged by."""

    def __init__(self, setup: Setup, counts: Mapping[str, Count], testing: Testing, kept: Kept) -> None:
        self.setup = setup
        self.runs = setup.sender_of(Role.RUNS)
        self.places = {sender: place for place, sender in enumerate(setup.senders)}
        self.greatest = {sender: count.greatest for sender, count in counts.items()}
        self.before = {sender: count.unbroken for sender, count in counts.items()}
        self.unbroken = dict(self.before)
        self.kept = kept
        self.testing = testing.sources
        self.seen = Seen(self.earlier)
        self.orders = Orders()
        self.taken: dict[Label, bytes] = {}
        self.names: set[str] = set()
        self.has_kept_names = False
        for text in kept.mail(self.runs) if counts[self.runs].kept else ():
            self.orders.take(next(paragraphs(text)))

    def told(self, unstable: Unstable, hints: Hints) -> "State":
        """The same, with what the office says of unstable and of the hints in force."""
        self.seen.sources.update((name, Given(version, EARLIER)) for name, version in unstable.sources.items())
        self.seen.rows.update(
            ((row.architecture, row.package), Given(row.version, EARLIER)) for row in unstable.rows)
        self.seen.hints.update(hints.wishes)
        self.seen.wishes.update(hints.wishes)
        self.names.update(row.package for row in unstable.rows)
        return self

    def looking_at(self, texts: Iterable[bytes]) -> "State":
        """The same, with the names of the packages of all messages that are looked at."""
        self.names.update(name for text in texts for name in names_in(text))
        return self

    def is_named(self, name: str) -> bool:
        """Whether a package has or provides a name: of unstable, of what is looked at, or of a kept build."""
        if name not in self.names and not self.has_kept_names:
            self.has_kept_names = True
            senders = [sender for sender in self.setup.senders_of(Role.BUILD) if self.before[sender]]
            self.names.update(name for sender in senders for text in self.kept.mail(sender) for name in names_in(text))
        return name in self.names

    def earlier(self, kind: Kind) -> Iterator[Paragraph]:
        """The first paragraphs of the messages of a kind that the office kept without a gap."""
        role = next(role for role, kinds in KINDS_OF.items() if kind in kinds)
        for sender in self.setup.senders_of(role):
            for text in self.kept.mail(sender) if self.before[sender] else ():
                first = next(paragraphs(text))
                label = label_of_first(first)
                if label is not None and label.number <= self.before[sender] and kind_of(first) is kind:
                    yield first

    def see(self, label: Label, text: bytes) -> None:
        """Takes a message into what a run over it sees."""
        if label.sender == self.runs:
            self.orders.take(next(paragraphs(text)))
        else:
            self.seen.take(self.places[label.sender], label.number, text)

    def text(self, label: Label) -> Optional[bytes]:
        """A message that is kept, or that was taken on."""
        if label in self.taken or label.number > self.greatest[label.sender]:
            return self.taken.get(label)
        return self.kept.text(label)

    def is_kept(self, label: Label) -> bool:
        """Whether a message of this number is kept."""
        return label.number <= self.unbroken[label.sender] or self.text(label) is not None

    def take(self, label: Label, text: bytes) -> None:
        """Takes a message on, as if it had been mailed."""
        if self.is_kept(label):
            return
        self.taken[label] = text
        if label.sender == self.runs:
            self.see(label, text)
        for number, reached in self.reached(label.sender):
            self.unbroken[label.sender] = number
            if label.sender != self.runs:
                self.see(Label(label.sender, number), reached)

    def reached(self, sender: str) -> Iterator[tuple[int, bytes]]:
        """The messages of a sender that follow without a gap those that did so before."""
        while True:
            number = self.unbroken[sender] + 1
            text = self.text(Label(sender, number))
            if text is None:
                return
            yield number, text


@dataclass(frozen=True)
class Place:
    """A line of a message, counted from 1, and what is wrong or odd there."""

    line: int
    words: str


@dataclass(frozen=True)
class Days:
    """The day of the caller, and how many days back an upload's day may lie."""

    today: datetime.date
    most: int


@dataclass(frozen=True)
class Look:
    """A message that the office would take, and what it is judged by. It `is_alone` if it isn't in a bag."""

    label: Label
    kind: Kind
    first: Paragraph
    binaries: Sequence[Paragraph]
    state: State
    days: Days
    is_alone: bool

    def warned(self, name: str, words: str) -> Place:
        """A warning at a field of the first paragraph."""
        return Place(self.field(name).line, words)

    def field(self, name: str) -> Field:
        """A field of the first paragraph, which has it."""
        found = self.first.field(name)
        return found or Field(name, self.first.line, "", self.first.line)

    def value(self, name: str) -> str:
        """Its value."""
        return self.field(name).value

    def day(self) -> datetime.date:
        """The message's day."""
        return datetime.date.fromisoformat(self.value("Day"))

    def senders(self) -> Iterator[str]:
        """Each sender whose mail an order covers."""
        return (sender for sender in self.state.unbroken if sender != self.state.runs)


Check = Callable[[Look], Iterator[Place]]
