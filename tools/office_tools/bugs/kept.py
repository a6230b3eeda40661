"""What an office keeps about bugs: the last message on each number.

A tool that sends bugs remembers nothing itself. It marks its messages with a field that the office doesn't read, and
finds them again in the office's mail.
"""
import sys
from dataclasses import dataclass, field
from typing import Optional, Protocol, Sequence, TypeVar

from office_tools import versions
from office_tools.bags import bag_of
from office_tools.faults import Exit, Fault, tell
from office_tools.letters import letters
from office_tools.messages import Kind, Label, Paragraph, Range, Role, Severity, kind_of, paragraphs
from office_tools.senders import sender_of
from office_tools.service import Service

CRITICAL = {Severity.CRITICAL.value, Severity.GRAVE.value, Severity.SERIOUS.value}


@dataclass(frozen=True)
class Bug:
    """The last message on a bug: its number in the office, its source, and the versions that it affects."""

    number: int
    source: str
    severity: str
    affected: Range
    first: Paragraph

    @property
    def is_critical(self) -> bool:
        """Whether the bug is release-critical."""
        return self.severity in CRITICAL

    def affects(self, version: str) -> bool:
        """Whether the bug is release-critical and affects a version of its source."""
        return self.is_critical and is_in(self.affected, version)


def is_in(affected: Range, version: str) -> bool:
    """Whether a version is among those that a bug affects."""
    is_found = affected.found is None or versions.compare(affected.found, version) <= 0
    return is_found and (affected.fixed is None or versions.compare(version, affected.fixed) < 0)


@dataclass
class Book:
    """The bugs that an office keeps by their numbers, the sender of bugs, and the last number of its messages.

    `marked` has the last message on each number that has the tool's mark, and `mark` is the name of that field.
    """

    sender: str
    mark: str
    last: int = 0
    bugs: dict[int, Bug] = field(default_factory=dict)
    marked: dict[int, Bug] = field(default_factory=dict)

    def take(self, bug: Bug) -> None:
        """Takes a later message."""
        self.bugs[bug.number] = bug
        if bug.first.value(self.mark) is not None:
            self.marked[bug.number] = bug

    def told(self, number: int) -> Optional[str]:
        """The value of the mark on this number, or None if the tool doesn't use this number for the bug's source."""
        own = self.marked.get(number)
        return own.first.value(self.mark) if own is not None and own.source == self.bugs[number].source else None

    def is_own(self, number: int) -> bool:
        """Whether the tool sent the last message on a number."""
        return self.marked.get(number) is self.bugs[number]

    def label(self, place: int) -> Label:
        """The label of a new message, the first one having the place 0."""
        return Label(self.sender, self.last + 1 + place)


def read_book(service: Service, mark: str) -> Book:
    """All bugs that an office keeps, for a tool with this mark. A `Fault` names the first missing message."""
    kept = service.kept()
    sender = sender_of(service, Role.BUGS)
    count = kept[sender]
    if count.greatest != count.unbroken:
        raise Fault(f"{service.url}: {sender} {count.unbroken + 1} isn't kept, and {sender} {count.greatest} is: send "
                    "what is missing first, or a message of the kind none in its place", Exit.REFUSED)
    book = Book(sender, mark)
    for label, text in letters(service, sender):
        book.last = label.number
        first = next(paragraphs(text))
        if kind_of(first) is Kind.BUG:
            book.take(bug_of(first))
    return book


def bug_of(first: Paragraph) -> Bug:
    """The bug that a message states. One without a number, which no office keeps, is a `Fault`."""
    told, source = first.value("Bug") or "", first.value("Source") or ""
    try:
        number = int(told)
    except ValueError as fault:
        raise Fault(f"{told[:20]!r} is no number of a bug", Exit.REFUSED) from fault
    return Bug(number, source, first.value("Severity") or "", Range(first.value("Found"), first.value("Fixed")), first)


class Changed(Protocol):
    """A number on which something has to be sent."""

    @property
    def number(self) -> int:
        """The number in the office."""

    @property
    def before(self) -> Optional[Bug]:
        """What the office keeps on it."""

    def text(self, label: Label) -> bytes:
        """The message."""

    def line(self) -> str:
        """What is printed of it."""


AnyChanged = TypeVar("AnyChanged", bound=Changed)


def own_of(found: Sequence[AnyChanged], book: Book, name: str, takes_over: bool) -> Sequence[AnyChanged]:
    """Those that the tool of this name sends: their last message is its own, unless it takes over others. The others
    are reported.
    """
    others = [change for change in found if change.before is not None and not book.is_own(change.number)
              and not takes_over]
    for change in others:
        tell(name, f"{change.line()}: left alone: its last message isn't of {name}; --take-over sends it")
    return [change for change in found if change not in others]


def mail_changes(service: Service, book: Book, found: Sequence[Changed], name: str,
                 summary: str, is_dry: bool) -> int:
    """Sends what changed, and prints it; or prints the mail as a bag: the status."""
    texts = [change.text(book.label(place)) for place, change in enumerate(found)]
    if is_dry:
        sys.stdout.buffer.write(bag_of(texts))
        tell(name, summary)
        return int(bool(texts))
    service.mail_all(texts, lambda reply: ": another process sends as this sender: run it again"
                     if reply == "refused OtherText" else "")
    for change in found:
        print(change.line())
    print(summary)
    return Exit.DONE
