"""What has to be sent about bugs, so that the office holds against a source what the lists do."""
import itertools
from dataclasses import dataclass, field
from typing import Iterator, Mapping, Optional, Sequence

from office_tools import messages, versions
from office_tools.apply import marks
from office_tools.bugs.kept import Book, Bug, is_in
from office_tools.bugs.lists import Entry, Names
from office_tools.messages import NUMBER, Label, Range, Severity

LISTED = "Listed"
"""A field that the office doesn't read: the bug's number in the lists. It marks the messages of this command."""

PART = 100_000_000
"""The numbers of a bug N of several sources are N, N + PART, N + 2 * PART and so on."""
PARTS = 8
POOL = range(PARTS * PART + 1, 9 * PART)
"""Numbers for bugs that have no free number of that form. Those above them are for autopkgtests."""

Pair = tuple[str, int]
"""A source, and the number of a bug in the lists."""


@dataclass
class Listing:
    """In which lists a bug of a source is."""

    in_unstable: bool = False
    in_testing: bool = False


@dataclass(frozen=True)
class Lists:
    """The lists of both suites by pairs of source and bug, and the names that mean no source of the office."""

    pairs: Mapping[Pair, Listing]
    unknown: Sequence[str]


def read_pairs(unstable: Sequence[Entry], testing: Sequence[Entry], names: tuple[Names, Names]) -> Lists:
    """The pairs of source and bug of both lists. `names` are those of unstable and of testing."""
    pairs: dict[Pair, Listing] = {}
    unknown: dict[str, None] = {}
    for entries, known, attribute in ((unstable, names[0], "in_unstable"), (testing, names[1], "in_testing")):
        for name, bug in entries:
            sources = known.sources(name)
            for source in sources:
                setattr(pairs.setdefault((source, bug), Listing()), attribute, True)
            if not sources:
                unknown[name] = None
    return Lists(pairs, list(unknown))


@dataclass(frozen=True)
class State:
    """What is to be said about a bug."""

    severity: Severity
    affected: Range = Range()

    def __str__(self) -> str:
        parts = [f"found in {self.affected.found}" if self.affected.found else "",
                 f"fixed in {self.affected.fixed}" if self.affected.fixed else ""]
        return " ".join([self.severity.value, *filter(None, parts)])


CLOSED = State(Severity.WISHLIST)


@dataclass(frozen=True)
class Standing:
    """The versions of a source in unstable and in testing, if they have it."""

    unstable: Optional[str]
    testing: Optional[str]

    def next(self) -> Optional[str]:
        """The version that may migrate: unstable's if it is above testing's, else one just above both."""
        if self.testing is None or self.unstable is None:
            return self.unstable if self.testing is None else above(self.testing)
        real = [marks.source_version(version) for version in (self.unstable, self.testing)]
        if versions.compare(real[0], real[1]) > 0:
            return self.unstable
        return above(max(self.unstable, self.testing, key=versions.key))

    def state(self, listing: Listing) -> State:
        """What is to be said about a bug that is in these lists."""
        in_testing = listing.in_testing and self.testing is not None
        if not listing.in_unstable:
            return State(Severity.SERIOUS, Range(fixed=self.next())) if in_testing else CLOSED
        return State(Severity.SERIOUS, Range() if in_testing else Range(found=self.next()))

    def effect(self, is_critical: bool, affected: Range) -> tuple[bool, bool]:
        """Whether such a bug affects the version that may migrate, and testing's."""
        version = self.next()
        return (is_critical and (version is None or is_in(affected, version)),
                is_critical and self.testing is not None and is_in(affected, self.testing))


def above(version: str) -> str:
    """A version just above another one: any version that an archive would have above that one is above this one."""
    return version + "A~"


@dataclass
class Numbers:
    """The numbers that bugs have in the office."""

    of_pair: dict[Pair, int] = field(default_factory=dict)
    taken: set[int] = field(default_factory=set)

    def number(self, pair: Pair) -> Optional[int]:
        """The number of a pair, which keeps it for good; None if all numbers are taken."""
        if pair not in self.of_pair:
            bug = pair[1]
            parts = [part * PART + bug for part in range(PARTS)] if bug < PART else []
            free = next((number for number in itertools.chain(parts, POOL) if number not in self.taken), None)
            if free is None:
                return None
            self.of_pair[pair] = free
            self.taken.add(free)
        return self.of_pair[pair]


def numbers_of(book: Book) -> Numbers:
    """The numbers that the office's bugs have."""
    found = Numbers(taken=set(book.bugs))
    for number in sorted(book.bugs):
        pair = pair_of(book, number)
        if pair is not None and (pair not in found.of_pair or book.told(number) is not None):
            found.of_pair[pair] = number
    return found


def pair_of(book: Book, number: int) -> Optional[Pair]:
    """The pair that a number is of, or None if it is no bug of the lists. Others use a bug's own number."""
    listed, source = book.told(number), book.bugs[number].source
    if listed is None:
        return (source, number) if number < PART else None
    return (source, int(listed)) if NUMBER.fullmatch(listed) else None


@dataclass(frozen=True)
class Change:
    """A bug on which the office keeps something else than is right."""

    pair: Pair
    number: int
    before: Optional[Bug]
    state: State

    @property
    def is_closing(self) -> bool:
        """Whether the bug is no longer listed."""
        return self.state == CLOSED

    def text(self, label: Label) -> bytes:
        """The message."""
        body = messages.bug(label, self.number, self.pair[0], self.state.severity, self.state.affected)
        return body + messages.composed([(LISTED, str(self.pair[1]))])

    def line(self) -> str:
        """What is printed of it."""
        told = "" if self.number == self.pair[1] else f" as {self.number}"
        return f"bug {self.pair[1]} of {self.pair[0]}{told}: {'closed' if self.is_closing else self.state}"


def changes(lists: Lists, book: Book, names: tuple[Names, Names]) -> Iterator[Change]:
    """Each bug about which something has to be sent, by source and number."""
    numbers = numbers_of(book)
    own = {pair for pair, number in numbers.of_pair.items() if book.told(number) is not None}
    for pair in sorted(own | set(lists.pairs)):
        standing = Standing(names[0].versions.get(pair[0]), names[1].versions.get(pair[0]))
        state = standing.state(lists.pairs.get(pair, Listing()))
        number = numbers.of_pair.get(pair)
        before = book.bugs[number] if number is not None else None
        due = standing.effect(state is not CLOSED, state.affected)
        if due == standing.effect(before is not None and before.is_critical, before.affected if before else Range()):
            continue
        number = numbers.number(pair)
        if number is not None:
            yield Change(pair, number, before, state)
