"""The release team of a running office: its hints in force, its next number, and its mail."""
import datetime
from dataclasses import dataclass
from typing import Callable, Optional, Sequence

from office_tools.faults import Exit, Fault
from office_tools.lint.office import ServiceOffice
from office_tools.lint.places import place_of
from office_tools.lint.slips import slips
from office_tools.lint.state import Days, Look, State
from office_tools.messages import Kind, Label, Role, composed, message, paragraphs
from office_tools.service import Service, is_held

TURNS = 20  # how often the next number is taken, if others mail at the same time
FAR = 30  # days back from which an upload's day is odd; no hint has one


@dataclass(frozen=True)
class Signature:
    """Who asks, and why: fields that the office keeps and doesn't read."""

    by: Optional[str] = None
    comment: Optional[str] = None

    def fields(self) -> Sequence[tuple[str, str]]:
        """The fields `By` and `Comment`, each if it is stated."""
        return [(name, value) for name, value in (("By", self.by), ("Comment", self.comment)) if value]


@dataclass(frozen=True)
class Letter:
    """A hint, or an `unhint` of a hint's number, and its signature."""

    kind: Kind
    value: str
    signature: Signature

    def text(self, label: Label) -> bytes:
        """The message of this number."""
        return message(label, self.kind, (self.value,)) + composed(self.signature.fields())


def hint(wish: str, signature: Signature) -> Letter:
    """A hint; white within it is one space."""
    return Letter(Kind.HINT, " ".join(wish.split()), signature)


def unhint(number: int, signature: Signature) -> Letter:
    """What takes the hint of a number back."""
    return Letter(Kind.UNHINT, str(number), signature)


class Team:
    """The release team at a service."""

    def __init__(self, service: Service, tell: Callable[[str], None]) -> None:
        self.service = service
        self.tell = tell
        self.office = ServiceOffice(None, service)
        self.sender = self.office.setup.sender_of(Role.RELEASE)

    def next_label(self) -> Label:
        """The team's next number. A missing number is a `Fault`: nobody can know whose message it was."""
        count = self.service.kept()[self.sender]
        if count.unbroken < count.greatest:
            raise Fault(f"{self.sender} {count.unbroken + 1} isn't kept, and {self.sender} {count.greatest} is: mail "
                        "that message first, or one of the kind none", Exit.NEGATIVE)
        return Label(self.sender, count.unbroken + 1)

    def refusal(self, letters: Sequence[Letter]) -> Optional[str]:
        """Why the office would refuse the first of these that it would refuse."""
        label = self.next_label()
        for letter in letters:
            text = letter.text(label)
            told = self.service.verdict(text)
            if not is_held(told):
                return f"{told}: {place_of(self.office, text, told).words}"
        return None

    def slips(self, letters: Sequence[Letter], today: datetime.date) -> Sequence[str]:
        """What is most likely a slip in messages that the office would take."""
        self.office.counts = self.service.kept()
        state: State = self.office.state()
        first = self.next_label()
        found: list[str] = []
        for place, letter in enumerate(letters):
            label = Label(first.sender, first.number + place)
            text = letter.text(label)
            head = next(paragraphs(text))
            look = Look(label, letter.kind, head, (), state, Days(today, FAR), True)
            found += [slip.words for slip in slips(look)]
            state.take(label, text)
        return found

    def signature(self, number: int) -> Signature:
        """Who asked for a hint, and why, if its message says so."""
        text = self.service.kept_text(self.sender, number)
        first = next(paragraphs(text), None) if text else None
        return Signature(first.value("By"), first.value("Comment")) if first else Signature()

    def mail(self, letter: Letter) -> bool:
        """Mails a message under the next number, and prints the reply: whether it is held.

        It isn't if another message was mailed under that number meanwhile. Any other refusal is a `Fault`.
        """
        label = self.next_label()
        reply = self.service.mailed(letter.text(label))
        if is_held(reply):
            self.tell(reply)
            return True
        if reply != "refused OtherText":
            raise Fault(f"{label.sender} {label.number}: {reply}", Exit.REFUSED)
        self.tell(f"{label.sender} {label.number} is another message now: the next number is taken")
        return False

    def mail_all(self, letters: Sequence[Letter]) -> None:
        """Mails messages one after the other, each under the first number that is free."""
        for letter in letters:
            if not any(self.mail(letter) for _ in range(TURNS)):
                raise Fault(f"{TURNS} numbers in a row were taken by others", Exit.REFUSED)
