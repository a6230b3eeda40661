"""Which versions in unstable fail a test that testing passes, and what has to be sent about it."""
import enum
from collections import defaultdict
from dataclasses import dataclass, field
from typing import Iterator, Mapping, NamedTuple, Optional, Sequence

from office_tools import messages, relations, versions
from office_tools.apply import marks
from office_tools.autopkgtests.results import Outcome, Result, is_good
from office_tools.bugs.kept import Book, Bug
from office_tools.messages import Label, Range, Severity

TEST = "Test"
"""A field that the office doesn't read: the tested package and the architecture. It marks this command's messages."""
NUMBERS = range(900_000_001, 1_000_000_000)
"""The numbers of bugs that mean failed tests."""


class Test(NamedTuple):
    """A test of a package on an architecture with a source of unstable."""

    source: str
    package: str
    architecture: str

    @property
    def mark(self) -> str:
        """The value of the field `Test`."""
        return f"{self.package} {self.architecture}"

    def __str__(self) -> str:
        return f"test of {self.package} on {self.architecture} with {self.source}"


class Verdict(enum.Enum):
    """What the results say about a test of the version in unstable."""

    REGRESSION = "fails"
    PASSED = "passed"
    FAILS_BEFORE = "fails in testing, too"
    NOT_NEEDED = "its package isn't in testing"
    NONE = "no result for this version yet"

    @property
    def lifts(self) -> bool:
        """Whether the version isn't held up by the test."""
        return self not in (Verdict.REGRESSION, Verdict.NONE)


@dataclass
class Verdicts:
    """The tests of versions that are in unstable, by all results."""

    unstable: Mapping[str, str]
    testing: Mapping[str, str]
    outcomes: dict[Test, set[Outcome]] = field(default_factory=lambda: defaultdict(set))
    reference: dict[tuple[str, str], Result] = field(default_factory=dict)

    def take(self, result: Result) -> None:
        """Takes a result. One that names another version than unstable has, or nothing at all, says nothing."""
        if not is_good(result):
            return
        if result.trigger is None:
            key = result.package, result.architecture
            if key not in self.reference or self.reference[key].seconds <= result.seconds:
                self.reference[key] = result
            return
        source, version = result.trigger.source, result.trigger.version
        is_older = result.package == source and versions.compare(result.version, version) < 0
        if versions.same(self.version(source), version) and not is_older:
            self.outcomes[Test(source, result.package, result.architecture)].add(result.outcome)

    def version(self, source: str) -> Optional[str]:
        """The version that the archive has in unstable."""
        version = self.unstable.get(source)
        return None if version is None else marks.source_version(version)

    def verdict(self, test: Test) -> Verdict:
        """What the results say about a test. Having passed once for a version is enough, as it is for britney."""
        if test.package != test.source and test.package not in self.testing:
            return Verdict.NOT_NEEDED
        found = self.outcomes.get(test, set())
        if Outcome.PASS in found or Outcome.NEUTRAL in found:
            return Verdict.PASSED
        before = self.reference.get((test.package, test.architecture))
        if before is not None and before.outcome is Outcome.FAIL:
            return Verdict.FAILS_BEFORE
        return Verdict.REGRESSION if found else Verdict.NONE


@dataclass(frozen=True)
class Change:
    """A test on which the office keeps something else than is right; without a version it is lifted."""

    test: Test
    number: int
    before: Optional[Bug]
    verdict: Verdict
    version: Optional[str]

    def text(self, label: Label) -> bytes:
        """The message."""
        severity = Severity.WISHLIST if self.version is None else Severity.SERIOUS
        body = messages.bug(label, self.number, self.test.source, severity, Range(self.version))
        return body + messages.composed([(TEST, self.test.mark)])

    def line(self) -> str:
        """What is printed of it."""
        what = f"{self.version} {self.verdict.value}" if self.version else f"{self.verdict.value}: lifted"
        return f"bug {self.number}: {self.test} {what}"


@dataclass(frozen=True)
class Found:
    """What has to be sent, and the tests that stay as they are since there is no result yet."""

    changes: Sequence[Change]
    waiting: Sequence[Test]


def changes(verdicts: Verdicts, book: Book) -> Found:
    """What has to be sent about tests, by source, package and architecture."""
    numbers = {test_of(book, number): number for number in sorted(book.bugs, reverse=True)}
    free = (number for number in NUMBERS if number not in book.bugs)
    found: list[Change] = []
    waiting: list[Test] = []
    for test in sorted({test for test in numbers if test is not None} | set(verdicts.outcomes)):
        version, verdict = verdicts.version(test.source), verdicts.verdict(test)
        before = book.bugs[numbers[test]] if test in numbers else None
        if version is None:
            continue  # the source isn't in unstable, so nothing is held up
        is_open = before is not None and before.affects(version)
        if verdict is Verdict.NONE and is_open:
            waiting.append(test)
        elif is_open and verdict.lifts:
            found.append(Change(test, numbers[test], before, verdict, None))
        elif verdict is Verdict.REGRESSION and not is_open:
            number = numbers[test] if test in numbers else next(free)
            found.append(Change(test, number, before, verdict, version))
    return Found(found, waiting)


def test_of(book: Book, number: int) -> Optional[Test]:
    """The test that a number is of, or None if it is no test's."""
    package, _, architecture = (book.told(number) or "").partition(" ")
    if not relations.NAME.fullmatch(package) or not relations.ARCHITECTURE.fullmatch(architecture):
        return None
    return Test(book.bugs[number].source, package, architecture)


def verdicts_of(results: Iterator[Result], unstable: Mapping[str, str], testing: Mapping[str, str]) -> Verdicts:
    """The verdicts by all these results."""
    found = Verdicts(unstable, testing)
    for result in results:
        found.take(result)
    return found
