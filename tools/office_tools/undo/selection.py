"""Which messages of an office's mail are taken back, and the mail without them."""
import datetime
import re
from dataclasses import dataclass
from typing import Iterator, Mapping, Sequence, Union

from office_tools import days, messages
from office_tools.faults import Exit, Fault
from office_tools.feed.news import GONE
from office_tools.messages import Kind, Label, Paragraph, kind_of, label_of_first, paragraphs
from office_tools.orders import Orders

UNDONE = "Undone"
"""A field that the office doesn't read: what a message of the kind none was before."""

RUN = re.compile(r"[1-9][0-9]{0,8}")
MAIL = re.compile(r"([a-z][a-z0-9-]{0,31})/([1-9][0-9]{0,8})(?:-([1-9][0-9]{0,8}))?")


@dataclass(frozen=True)
class Mail:
    """Messages of a sender, from a number up to another one, whatever they are."""

    sender: str
    first: int
    last: int


Slip = Union[int, datetime.date, Mail]
"""What is taken back: the feed before a run, those before all runs of a day, or messages of a sender."""


def slip(word: str) -> Slip:
    """The slip that a word names; for argparse any other word is a `ValueError`."""
    if RUN.fullmatch(word):
        return int(word)
    found = MAIL.fullmatch(word)
    if found:
        first = int(found[2])
        return Mail(found[1], first, int(found[3] or first))
    return days.day(word)


@dataclass(frozen=True)
class Letter:
    """A message of the mail: who sent it, its first paragraph, and its text."""

    label: Label
    first: Paragraph
    text: bytes

    @property
    def what(self) -> str:
        """What the message says, in a line."""
        kind = kind_of(self.first)
        names = [rule.name for rule in messages.FIELDS_OF[kind]] if kind else []
        words = [self.first.value("Kind") or "", *(self.first.value(name) or "" for name in names)]
        return " ".join(" ".join(words).split())


def read(texts: Sequence[bytes]) -> Sequence[Letter]:
    """The messages of an office's mail."""
    found = []
    for place, text in enumerate(texts, 1):
        first = next(paragraphs(text), None)
        label = label_of_first(first) if first else None
        if first is None or label is None:
            raise Fault(f"message {place} of the store's mail isn't one", Exit.REFUSED)
        found.append(Letter(label, first, text))
    return found


@dataclass(frozen=True)
class Order:
    """An order for a run: its day, and up to which number this run and the one before see each sender's mail."""

    day: datetime.date
    before: Mapping[str, int]
    cover: Mapping[str, int]

    def is_first_to_see(self, label: Label) -> bool:
        """Whether this run is the first one that covers a message."""
        return self.before.get(label.sender, 0) < label.number <= self.cover.get(label.sender, 0)


def orders(letters: Sequence[Letter]) -> Mapping[int, Order]:
    """The orders by their runs' numbers."""
    found: dict[int, Order] = {}
    known = Orders()
    for letter in sorted(letters, key=lambda letter: letter.label.number):
        if kind_of(letter.first) is Kind.RUN:
            before = dict(known.covers)
            try:
                known.take(letter.first)
                day = days.day(letter.first.value("Day") or "")
            except ValueError as fault:
                raise Fault(f"{letter.label.sender} {letter.label.number}: it is no order", Exit.REFUSED) from fault
            found[letter.label.number] = Order(day, before, dict(known.covers))
    return found


def chosen(letters: Sequence[Letter], slips: Sequence[Slip]) -> Iterator[Letter]:
    """The messages that these slips name, without those that say nothing already. A slip without any is a `Fault`."""
    runs = orders(letters)
    found: dict[Label, Letter] = {}
    for entry in slips:
        those = [letter for letter in letters if is_named(letter, entry, runs)]
        if not those:
            raise Fault(f"{named(entry)}: there is no message to take back", Exit.NEGATIVE)
        found.update((letter.label, letter) for letter in those)
    for letter in found.values():
        if kind_of(letter.first) is Kind.RUN:
            raise Fault(f"{letter.label.sender} {letter.label.number} is an order: put another text in its place by "
                        "office-mend SENDER NUMBER FILE", Exit.REFUSED)
    return iter(found.values())


def is_named(letter: Letter, entry: Slip, runs: Mapping[int, Order]) -> bool:
    """Whether a slip names a message."""
    if kind_of(letter.first) is Kind.NONE:
        return False
    if isinstance(entry, Mail):
        return letter.label.sender == entry.sender and entry.first <= letter.label.number <= entry.last
    # A feed takes something away by a drop, or by its hint for a source that is gone.
    is_feeds = kind_of(letter.first) is Kind.DROP or letter.first.value(GONE) is not None
    those = [order for number, order in runs.items() if entry in (number, order.day)]
    return is_feeds and any(order.is_first_to_see(letter.label) for order in those)


def named(entry: Slip) -> str:
    """A slip as it is printed."""
    if isinstance(entry, Mail):
        return f"{entry.sender}/{entry.first}-{entry.last}"
    return f"run {entry}" if isinstance(entry, int) else f"the runs of {entry}"


def without(letters: Sequence[Letter], gone: Sequence[Letter]) -> Iterator[bytes]:
    """The mail, in which these messages say nothing."""
    labels = {letter.label for letter in gone}
    for letter in letters:
        if letter.label in labels:
            yield messages.none(letter.label) + messages.composed([(UNDONE, letter.what)])
        else:
            yield letter.text
