"""Results of autopkgtests: those of debci, and those that britney keeps, both in JSON."""
import datetime
import enum
import json
from dataclasses import dataclass
from typing import Any, Iterator, Mapping, NoReturn, Optional, Sequence

from office_tools import relations, versions
from office_tools.addresses import read_named
from office_tools.faults import Exit, Fault, ending

REFERENCE = "migration-reference/0"
"""What triggers a test of testing as it is, by the word of britney and debci."""
OLD = "OLD_"
"""What britney puts before the outcome of a test that it doesn't count as new any more."""


class Outcome(enum.Enum):
    """What came of a test, by britney's words. A neutral one has nothing that failed."""

    PASS = "PASS"
    NEUTRAL = "NEUTRAL"
    FAIL = "FAIL"


UNDECIDED = {"TMPFAIL", "NONE"}
"""Outcomes that say nothing about the packages."""


@dataclass(frozen=True)
class Trigger:
    """The source in unstable that a test is about, and its version."""

    source: str
    version: str


@dataclass(frozen=True)
class Result:
    """A test of a package on an architecture, with a source of unstable, or None for testing as it is.

    `version` is that of the package that is tested, `seconds` when it was seen, counted from 1970.
    """

    trigger: Optional[Trigger]
    package: str
    architecture: str
    version: str
    outcome: Outcome
    seconds: float


def read_results(path: str, testing: str) -> Sequence[Result]:
    """The results in a file or at a URL, where `testing` is testing's name for debci. Any other text is refused."""
    with ending(Exit.REFUSED):
        data = read_named(path)
    try:
        told = json.loads(data)
    except (ValueError, RecursionError) as fault:
        raise Fault(f"{path}: it is no JSON", Exit.REFUSED) from fault
    reader = Reader(path, testing)
    if isinstance(told, list):
        return list(reader.of_debci(told))
    if isinstance(told, dict) and isinstance(told.get("results"), list):
        return list(reader.of_debci(told["results"]))
    if isinstance(told, dict):
        return list(reader.of_britney(told))
    raise Fault(f"{path}: it has no results of debci or britney", Exit.REFUSED)


@dataclass(frozen=True)
class Reader:
    """A file that is read, and the name of testing in debci's results."""

    path: str
    testing: str

    def bad(self, place: str, cause: str) -> NoReturn:
        """Refuses the file."""
        raise Fault(f"{self.path}: {place}: {cause}", Exit.REFUSED)

    def of_debci(self, entries: Sequence[Any]) -> Iterator[Result]:
        """The results in a list of debci's. One without a date isn't finished yet."""
        for number, entry in enumerate(entries, 1):
            place = f"result {number}"
            if not isinstance(entry, dict):
                self.bad(place, "it is no object")
            if entry.get("date") is not None and entry.get("status") is not None:
                words = [self.word(place, entry, name) for name in ("package", "arch", "version", "suite", "status")]
                yield from self.results(place, words, self.seconds(place, entry["date"]), entry.get("trigger"))

    def results(self, place: str, words: Sequence[str], seconds: float, told: Any) -> Iterator[Result]:
        """A result for each trigger of one of debci's. Without any it is about the package itself, in its suite."""
        package, architecture, version, suite, status = words
        outcome = self.outcome(place, status)
        if outcome is None:
            return
        named = [word for word in told.split() if "/" in word] if isinstance(told, str) else []
        triggers = [None if word == REFERENCE else self.trigger(word) for word in named]
        if not named:
            triggers = [None if suite == self.testing else Trigger(package, version)]
        for trigger in triggers:
            yield Result(trigger, package, architecture, version, outcome, seconds)

    def of_britney(self, told: Mapping[str, Any]) -> Iterator[Result]:
        """The results that britney keeps: by trigger, package and architecture [OUTCOME, VERSION, RUN, SECONDS]."""
        for word, package, architecture, entry in self.leaves(told):
            place = f"{word} {package} {architecture}"
            if not isinstance(entry, list) or len(entry) != 4:
                self.bad(place, "it isn't [OUTCOME, VERSION, RUN, SECONDS]")
            status, version, _, seconds = entry
            if isinstance(status, bool):
                status = Outcome.PASS.value if status else Outcome.FAIL.value
            if not isinstance(status, str) or not is_number(seconds):
                self.bad(place, "it isn't [OUTCOME, VERSION, RUN, SECONDS]")
            outcome = self.outcome(place, status.removeprefix(OLD))
            if outcome is not None and isinstance(version, str):
                trigger = None if word == REFERENCE else self.trigger(word)
                yield Result(trigger, package, architecture, version, outcome, float(seconds))

    def leaves(self, told: Mapping[str, Any]) -> Iterator[tuple[str, str, str, Any]]:
        """What is kept by trigger, package and architecture."""
        paths: list[tuple[tuple[str, ...], Any]] = [((), told)]
        while paths:
            names, part = paths.pop()
            if len(names) == 3:
                yield names[0], names[1], names[2], part
            elif not isinstance(part, dict):
                self.bad(" ".join(names) or "all of it", "it is no object")
            else:
                paths += [((*names, name), below) for name, below in part.items()]

    def word(self, place: str, entry: Mapping[str, Any], name: str) -> str:
        """The value of a field, which is a text."""
        value = entry.get(name)
        if not isinstance(value, str):
            self.bad(place, f"it has no text under {name}")
        return value

    def trigger(self, word: str) -> Trigger:
        """The source and the version that SOURCE/VERSION names. Whether there is such a source isn't looked at."""
        source, _, version = word.partition("/")
        return Trigger(source, version)

    def outcome(self, place: str, status: str) -> Optional[Outcome]:
        """What came of a test; None if nothing did."""
        word = status.upper()
        if word in UNDECIDED:
            return None
        if word not in Outcome.__members__:
            self.bad(place, f"{status[:20]!r} is no outcome of a test")
        return Outcome[word]

    def seconds(self, place: str, date: Any) -> float:
        """When a test was done, in seconds since 1970."""
        try:
            return datetime.datetime.fromisoformat(date).replace(tzinfo=datetime.timezone.utc).timestamp()
        except (ValueError, TypeError, OverflowError):
            self.bad(place, f"{str(date)[:40]!r} is no date")


def is_number(value: Any) -> bool:
    """Whether a value is a number that counts seconds."""
    return isinstance(value, (int, float)) and not isinstance(value, bool) and 0 <= value < 1e12


def is_good(result: Result) -> bool:
    """Whether a result names things that the office could have: other results can't be about its packages."""
    names = [result.package] + ([result.trigger.source] if result.trigger else [])
    texts = [result.version] + ([result.trigger.version] if result.trigger else [])
    return (all(relations.NAME.fullmatch(name) for name in names) and all(map(versions.is_version, texts))
            and relations.ARCHITECTURE.fullmatch(result.architecture) is not None)
