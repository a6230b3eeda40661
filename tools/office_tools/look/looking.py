"""A look at the run that would be ordered: what can't be installed after it is blocked, until that no longer holds."""
import datetime
import functools
import re
from dataclasses import dataclass
from typing import Iterator, Mapping, Optional, Sequence

from office_tools import messages, reports
from office_tools.faults import Exit, Fault
from office_tools.from_packages.mail import proposal
from office_tools.letters import letters
from office_tools.look.blame import Eye, Step
from office_tools.look.copy import Copy
from office_tools.messages import Made, label_of, numbered, paragraphs
from office_tools.orders import Orders, stated_covers
from office_tools.service import Service

TURNS = 20
LOOKED = "Looked"
"""A field that the office doesn't read: it marks the blocks of this command, with the version that was looked at."""
COVER = re.compile(rb"^Covers:.*$", re.MULTILINE)


@dataclass(frozen=True)
class Block:
    """A standing hint of this command: its number, the source, and the version that was looked at."""

    number: int
    source: str
    version: str


@dataclass(frozen=True)
class Found:
    """The result of a look: the mail to send, the order after it, and what the run does.

    `blocked` are the sources that are held back and `loose` those that should be, each with a sentence.
    """

    texts: Sequence[bytes]
    order: bytes
    step: Step
    blocked: Mapping[str, str]
    loose: Mapping[str, str]


@dataclass
class Look:
    """A running office, a copy of it, a judge, and the day of the run. `begin` reads which testing is `before` it."""

    service: Service
    copy: Copy
    eye: Optional[Eye]
    day: datetime.date
    before: reports.Testing = reports.Testing(0, {}, ())
    hints: str = "rt"
    last: int = 0
    standing: Sequence[Block] = ()

    def begin(self) -> None:
        """Brings the copy up to date, and reads which blocks of this command are in force."""
        self.before = self.copy.follow()
        hints = self.service.hints()
        self.hints = hints.sender or self.hints
        self.last = self.copy.own()[self.hints].unbroken
        self.standing = list(blocks(self.service, self.hints,
                                    [item.number for item in hints.items if item.words == "block"]))

    def look(self, more: Sequence[str] = ()) -> Found:
        """What the next run does with these hints, and what has to be blocked first."""
        order = self.copy.order(self.day.isoformat())
        proposed = numbered(self.hints, self.last, (proposal(hint, self.day.isoformat()) for hint in more))
        blocked: dict[str, str] = {}
        for _ in range(TURNS):
            texts = [*proposed, *self.letters(blocked, len(proposed))]
            covered = self.covering(order, len(texts))
            step = Step(self.before, self.tried(texts, covered))
            parts = self.eye.culprits(step) if self.eye is not None else []
            fixed = frozenset(blocked) | step.removed
            fresh: Mapping[str, str] = next((part for part in parts if not fixed.issuperset(part)), {})
            if not fresh:
                loose = {name: why for part in parts for name, why in part.items()}
                return Found(texts, covered, step, blocked, loose)
            blocked.update((name, f"{step.after.sources[name]}: {why}") for name, why in fresh.items()
                           if name not in fixed)
        raise Fault(f"after {TURNS} turns packages still can't be installed: no run is ordered", Exit.REFUSED)

    def tried(self, texts: Sequence[bytes], order: bytes) -> reports.Testing:
        """The testing that the run of an order would leave after these messages."""
        label = label_of(order)
        assert label is not None
        return self.copy.tried([*texts, order], label)

    def letters(self, blocked: Mapping[str, str], after: int) -> Sequence[bytes]:
        """The mail after which exactly these sources are blocked by this command: each with its version and the cause.
        """
        staying = {block.source for block in self.standing
                   if blocked.get(block.source, "").startswith(f"{block.version}: ")}
        found: list[Made] = [functools.partial(messages.unhint, cancels=block.number) for block in self.standing
                             if block.source not in staying]
        found += [functools.partial(messages.hint, wish=f"block {source}", more=[(LOOKED, f"{source} {why}")])
                  for source, why in sorted(blocked.items()) if source not in staying]
        return numbered(self.hints, self.last + after, found)

    def covering(self, order: bytes, count: int) -> bytes:
        """An order that covers this many more messages of the sender of hints."""
        if not count:
            return order
        numbers = {**stated_covers(next(paragraphs(order))), self.hints: self.last + count}
        told = ", ".join(f"{sender} {number}" for sender, number in numbers.items())
        return COVER.sub(f"Covers: {told}".encode(), order)


def blocks(service: Service, sender: str, numbers: Sequence[int]) -> Iterator[Block]:
    """Those of these hints that this command sent."""
    for number in dict.fromkeys(numbers):
        text = service.kept_text(sender, number)
        looked = next(paragraphs(text)).value(LOOKED) if text else None
        if looked is not None:
            source, _, rest = looked.partition(" ")
            yield Block(number, source, rest.partition(": ")[0])


def send(service: Service, texts: Sequence[bytes]) -> None:
    """Posts messages one after the other; the first that isn't held ends it."""
    service.mail_all(texts, lambda _: ": somebody else sends too: run it again")


def is_due(service: Service, order: bytes, day: datetime.date) -> bool:
    """Whether an order covers mail that no order covers yet, or its day is after that of all orders."""
    label = label_of(order)
    assert label is not None
    known = Orders()
    for _, text in letters(service, label.sender):
        known.take(next(paragraphs(text)))
    return known.is_due(next(paragraphs(order)), day.isoformat())
