"""The reports of the office's runs, read: excuses, updates, testing, and the list of runs.

Each reader takes the text of a report and the name that its faults begin with, such as a file's or a URL.
"""
import datetime
import enum
import functools
import re
from dataclasses import dataclass
from typing import Mapping, NamedTuple, Optional, Sequence, Union

from office_tools.faults import Fault

NAME = r"[a-z0-9][a-z0-9+.-]+"
HEAD = r"%s (\d{1,9}) (\d{4}-\d{2}-\d{2})"


class ReasonKind(enum.Enum):
    """Why a source is no candidate, by the words that its line begins with."""

    TOO_YOUNG = "too young"
    NEW_BUG = "new bug"
    NO_BINARIES = "no binaries"
    MISSING = "missing on"
    BLOCKED = "blocked"
    REMOVAL = "removal asked"


@dataclass(frozen=True)
class Reason:
    """A reason of an excuse: as it is written, and the bug or the architecture that it names."""

    text: str
    kind: ReasonKind
    bug: Optional[int] = None
    architecture: Optional[str] = None


@dataclass(frozen=True)
class Excuse:
    """A source that is newer in unstable: its versions, its age and the days needed, and what keeps it out."""

    source: str
    testing: Optional[str]
    unstable: str
    age: int
    needed: int
    reasons: Sequence[Reason]

    @property
    def is_candidate(self) -> bool:
        """Whether the run may move it: nothing keeps it out."""
        return not self.reasons


@dataclass(frozen=True)
class Excuses:
    """The excuses of a run, by their sources' names."""

    run: int
    date: datetime.date
    excuses: Sequence[Excuse]


class Word(enum.Enum):
    """What a line of an update begins with."""

    ACCEPT = "accept"
    WAIT = "wait"
    REMOVE = "remove"
    EASY = "easy"


class Outcome(enum.Enum):
    """What a run did with the sources of a line."""

    ACCEPTED = "accepted"
    WAITS = "waits"
    UNINSTALLABLE = "refused: it would leave a package uninstallable"
    NO_CANDIDATE = "refused: a source is no candidate at that version"


@dataclass(frozen=True)
class Item:
    """A source and a version of it."""

    source: str
    version: str


@dataclass(frozen=True)
class Offender:
    """The package that a change would leave uninstallable, and the architecture."""

    architecture: str
    package: str


@dataclass(frozen=True)
class Change:
    """A line of an update.

    `hint` is the number of the hint of a removal or a group. `items` are the sources that the line names: none if a
    group is refused since it would leave the `offender` uninstallable.
    """

    line: str
    word: Word
    outcome: Outcome
    items: Sequence[Item]
    hint: Optional[int] = None
    offender: Optional[Offender] = None


@dataclass(frozen=True)
class Update:
    """What a run did, in the order of its decisions."""

    run: int
    date: datetime.date
    changes: Sequence[Change]


class Row(NamedTuple):
    """A binary package in testing, and its source."""

    architecture: str
    package: str
    version: str
    source: str


@dataclass(frozen=True)
class Testing:
    """What is in testing after this many runs: each source's version, and the binary packages."""

    finished: int
    sources: Mapping[str, str]
    rows: Sequence[Row]


class Unstable(Testing):
    """What the next run, after this many, sees of unstable if its order covers all mail that is kept without a gap.

    A row may be of a source that is missing.
    """


Wish = tuple[str, Sequence[str]]
"""A hint: its words up to its items, as `age-days 3`, and its items."""


class ItemStanding(enum.Enum):
    """The state of an item of a hint in force."""

    IN_FORCE = "in force"
    MOVED = "moved"
    NO_SOURCE = "no source"
    OTHER_VERSION = "unstable"


@dataclass(frozen=True)
class HintItem:
    """An item of a hint in force.

    `words` is the hint without its items, as `age-days 3`. `is_covered` says whether a finished run covers the hint.
    `other` is unstable's version if the item names another one.
    """

    number: int
    is_covered: bool
    words: str
    item: str
    standing: ItemStanding
    other: Optional[str] = None


@dataclass(frozen=True)
class Hints:
    """The items of all hints in force after this many runs, by the hints' numbers, and who sent them, if any are."""

    finished: int
    sender: Optional[str]
    items: Sequence[HintItem]

    @functools.cached_property
    def by_number(self) -> Mapping[int, Sequence[HintItem]]:
        """The items of each hint."""
        found: dict[int, list[HintItem]] = {}
        for item in self.items:
            found.setdefault(item.number, []).append(item)
        return found

    @functools.cached_property
    def wishes(self) -> Mapping[int, Wish]:
        """Each hint's words up to its items, and its items."""
        return {number: (items[0].words, [item.item for item in items]) for number, items in self.by_number.items()}


@dataclass(frozen=True)
class Run:
    """A finished run: its date, and how many lines of each sort its reports have."""

    number: int
    date: datetime.date
    excuses: int
    candidates: int
    accepted: int
    groups: int
    removed: int
    waiting: int


REASON_FORMS: Sequence[tuple[re.Pattern[str], ReasonKind]] = (
    (re.compile("too young"), ReasonKind.TOO_YOUNG),
    (re.compile(r"new bug (?P<bug>\d{1,9})"), ReasonKind.NEW_BUG),
    (re.compile("no binaries"), ReasonKind.NO_BINARIES),
    (re.compile(r"missing on (?P<architecture>\S+)"), ReasonKind.MISSING),
    (re.compile("blocked"), ReasonKind.BLOCKED),
    (re.compile("removal asked"), ReasonKind.REMOVAL))

ITEM = rf"(?P<items>{NAME} \S+)"
ITEMS = rf"(?P<items>{NAME} \S+(?: {NAME} \S+)*)"
LEFT = r"uninstallable (?P<architecture>\S+) (?P<package>\S+)"

CHANGE_FORMS: Sequence[tuple[re.Pattern[str], Word, Outcome]] = (
    (re.compile("accept " + ITEM), Word.ACCEPT, Outcome.ACCEPTED),
    (re.compile(f"wait {ITEM} {LEFT}"), Word.WAIT, Outcome.WAITS),
    (re.compile(r"remove (?P<hint>\d{1,9}) accept " + ITEM), Word.REMOVE, Outcome.ACCEPTED),
    (re.compile(rf"remove (?P<hint>\d{{1,9}}) refuse {ITEM} {LEFT}"), Word.REMOVE, Outcome.UNINSTALLABLE),
    (re.compile(r"easy (?P<hint>\d{1,9}) accept " + ITEMS), Word.EASY, Outcome.ACCEPTED),
    (re.compile(r"easy (?P<hint>\d{1,9}) refuse (?P<item>" + NAME + r"/\S+) not a candidate"), Word.EASY,
     Outcome.NO_CANDIDATE),
    (re.compile(r"easy (?P<hint>\d{1,9}) refuse " + LEFT), Word.EASY, Outcome.UNINSTALLABLE))

RUN_FORM = (r"run (\d{1,9}) (\d{4}-\d{2}-\d{2}) excuses (\d{1,9}) candidates (\d{1,9}) accept (\d{1,9}) "
            r"easy (\d{1,9}) remove (\d{1,9}) wait (\d{1,9})")


EXCUSE_FORM = re.compile(rf"({NAME}) (\S+) (\S+)")
AGE_FORM = re.compile(r" age (\d{1,9}) of (\d{1,9})")
END_FORM = re.compile(" (not a )?candidate")
REASON_FORM = re.compile(r" (\S.*)")
SOURCE_FORM = re.compile(rf"^source ({NAME}) (\S+)$", re.M)
ROW_FORM = re.compile(r"^binary (\S+) (\S+) (\S+) (\S+)$", re.M)

HINT_FORM = (r"(\S+) (\d{1,9}) (covered|new) (\S+(?: \d{1,9})?) (\S+): "
             r"(?:(in force|moved|no source)|unstable (\S+))")


class Lines:
    """The lines of a report, read from the first to the last."""

    def __init__(self, text: str, name: str) -> None:
        if text and not text.endswith("\n"):
            raise Fault(f"{name}: its last line has no end")
        self.name = name
        self.lines = text.split("\n")[:-1]
        self.place = 0

    def next_is(self, form: re.Pattern[str]) -> Optional[re.Match[str]]:
        """The match of the next line, which is then read, where it is of this form."""
        found = form.fullmatch(self.lines[self.place]) if self.is_left() else None
        if found is not None:
            self.place += 1
        return found

    def all_next(self, beginning: str, form: re.Pattern[str]) -> Sequence[tuple[str, ...]]:
        """The groups of all next lines of a form with this beginning, which are then read.

        A release has some 160,000 lines in testing, so they are matched at once and not one by one.
        """
        begin_so = [line.startswith(beginning) for line in self.lines[self.place:]]
        end = self.place + (begin_so.index(False) if False in begin_so else len(begin_so))
        found = form.findall("\n".join(self.lines[self.place:end]))
        if len(found) != end - self.place:
            end = next(place for place in range(self.place, end) if not form.fullmatch(self.lines[place]))
            found = found[:end - self.place]
        self.place = end
        return found

    def need(self, form: Union[str, re.Pattern[str]], what: str) -> re.Match[str]:
        """The same, where any other line is a fault."""
        found = self.next_is(re.compile(form))
        if found is None:
            raise self.fault(f"{what} is due here")
        return found

    def fault(self, cause: str) -> Fault:
        """A fault at the next line."""
        return Fault(f"{self.name}:{self.place + 1}: {cause}")

    def is_left(self) -> bool:
        """Whether there is a next line."""
        return self.place < len(self.lines)

    def day(self, text: str) -> datetime.date:
        """The day that the last line states."""
        try:
            return datetime.date.fromisoformat(text)
        except ValueError as fault:
            raise Fault(f"{self.name}:{self.place}: {text} is no day") from fault


def read_excuses(text: str, name: str = "excuses") -> Excuses:
    """The excuses of a run."""
    lines = Lines(text, name)
    run, day = lines.need(HEAD % "excuses", "the line `excuses K DATE`").groups()
    date = lines.day(day)
    excuses = []
    while lines.is_left():
        excuses.append(read_excuse(lines))
    return Excuses(int(run), date, excuses)


def read_excuse(lines: Lines) -> Excuse:
    """The next excuse."""
    source, testing, unstable = lines.need(EXCUSE_FORM, "a source with two versions").groups()
    age, needed = lines.need(AGE_FORM, "its age").groups()
    reasons: list[Reason] = []
    while (end := lines.next_is(END_FORM)) is None:
        reasons.append(read_reason(lines))
    if bool(reasons) != bool(end[1]):
        lines.place -= 1
        raise lines.fault("a source is a candidate where it has no reason, and there alone")
    return Excuse(source, None if testing == "-" else testing, unstable, int(age), int(needed), tuple(reasons))


def read_reason(lines: Lines) -> Reason:
    """The next reason of an excuse."""
    text = lines.need(REASON_FORM, "a reason, or whether it is a candidate")[1]
    for form, kind in REASON_FORMS:
        found = form.fullmatch(text)
        if found:
            part = found.groupdict()
            return Reason(text, kind, int(part["bug"]) if "bug" in part else None, part.get("architecture"))
    lines.place -= 1
    raise lines.fault("the office has no such reason")


def read_update(text: str, name: str = "update") -> Update:
    """The update of a run."""
    lines = Lines(text, name)
    run, day = lines.need(HEAD % "update", "the line `update K DATE`").groups()
    date = lines.day(day)
    changes = []
    while lines.is_left():
        changes.append(read_change(lines))
    return Update(int(run), date, changes)


def read_change(lines: Lines) -> Change:
    """The next line of an update."""
    line = lines.lines[lines.place]
    for form, word, outcome in CHANGE_FORMS:
        found = form.fullmatch(line)
        if found:
            lines.place += 1
            part = found.groupdict()
            offender = Offender(part["architecture"], part["package"]) if "package" in part else None
            return Change(line, word, outcome, items_of(part), int(part["hint"]) if "hint" in part else None, offender)
    raise lines.fault("the office has no such line in an update")


def items_of(part: Mapping[str, str]) -> Sequence[Item]:
    """The sources with versions that a line of an update names."""
    if "item" in part:
        source, _, version = part["item"].partition("/")
        return (Item(source, version),)
    words = part["items"].split(" ") if "items" in part else []
    return tuple(Item(source, version) for source, version in zip(words[::2], words[1::2]))


def read_testing(text: str, name: str = "testing") -> Testing:
    """What is in testing."""
    lines = Lines(text, name)
    finished = int(lines.need(r"testing (\d{1,9})", "the line `testing F`")[1])
    sources = read_sources(lines)
    first = lines.place
    rows = read_rows(lines)
    for place, row in enumerate(rows, first):
        if row.source not in sources:
            lines.place = place
            raise lines.fault(f"the source {row.source} isn't in testing")
    return Testing(finished, sources, rows)


def read_unstable(text: str, name: str = "unstable") -> Unstable:
    """What is in unstable."""
    lines = Lines(text, name)
    finished = int(lines.need(r"unstable (\d{1,9})", "the line `unstable F`")[1])
    return Unstable(finished, read_sources(lines), read_rows(lines))


def read_sources(lines: Lines) -> Mapping[str, str]:
    """The sources that come next, with their versions."""
    return {name: version for name, version in lines.all_next("source ", SOURCE_FORM)}


def read_rows(lines: Lines) -> Sequence[Row]:
    """The binary packages that come next, to the last line."""
    rows = list(map(Row._make, lines.all_next("binary ", ROW_FORM)))
    if lines.is_left():
        raise lines.fault("a source or a binary is due here")
    return rows


def read_hints(text: str, name: str = "hints") -> Hints:
    """The hints in force, as `office hints` and `GET /hints` print them."""
    lines = Lines(text, name)
    finished = int(lines.need(r"hints (\d{1,9})", "the line `hints F`")[1])
    sender: Optional[str] = None
    items = []
    while lines.is_left():
        sender, number, age, words, item, told, other = lines.need(HINT_FORM, "an item of a hint").groups()
        standing = ItemStanding(told or "unstable")
        items.append(HintItem(int(number), age == "covered", words, item, standing, other))
    return Hints(finished, sender, items)


def read_runs(text: str, name: str = "runs") -> Sequence[Run]:
    """The finished runs, as `office runs` and `GET /runs` print them."""
    lines = Lines(text, name)
    runs = []
    while lines.is_left():
        number, day, *counts = lines.need(RUN_FORM, "the line of a run").groups()
        runs.append(Run(int(number), lines.day(day), *map(int, counts)))
    return runs
