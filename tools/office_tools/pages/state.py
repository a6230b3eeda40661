"""What was fetched of an office and kept for later calls: a database of SQLite in a file.

It has each run, with its texts and what it changed of each source, or not at all. All of it can be fetched again, so a
file of another schema is made again.
"""
import contextlib
import datetime
import json
import re
import sqlite3
import zlib
from dataclasses import dataclass
from typing import Any, Collection, Iterable, Iterator, Mapping, NamedTuple, Optional, Sequence

from office_tools.faults import Fault
from office_tools.reports import NAME, Run

SCHEMA = 4
UNREADABLE = "what the pages remember can't be read: remove the folder .state, and it is fetched again"
MOST_WORDS = 500  # words in one question to the database
SOURCE = re.compile(NAME)
PAGE = re.compile(r"(?!run/(?![0-9]{1,9}[.-]))(?:[^/.\0][^/\0]*/)*[^/.\0][^/\0]*\.[a-z]+")
"""The path of a page: within the folder, and of a run by its number."""

TABLES = """
CREATE TABLE run (number INTEGER PRIMARY KEY, line TEXT NOT NULL, fetched TEXT NOT NULL, excuses BLOB NOT NULL,
    updated BLOB NOT NULL) STRICT;
CREATE TABLE event (source TEXT NOT NULL, run INTEGER NOT NULL, testing TEXT NOT NULL, unstable TEXT NOT NULL,
    reasons TEXT NOT NULL, outcome TEXT NOT NULL, PRIMARY KEY (source, run)) STRICT, WITHOUT ROWID;
CREATE TABLE last (source TEXT PRIMARY KEY, run INTEGER NOT NULL, testing TEXT NOT NULL, unstable TEXT NOT NULL,
    reasons TEXT NOT NULL, outcome TEXT NOT NULL) STRICT, WITHOUT ROWID;
CREATE TABLE testing (run INTEGER PRIMARY KEY, told BLOB NOT NULL) STRICT;
CREATE TABLE unstable (run INTEGER PRIMARY KEY, told BLOB NOT NULL) STRICT;
CREATE TABLE why (source TEXT PRIMARY KEY, run INTEGER NOT NULL, since INTEGER NOT NULL, excuse TEXT NOT NULL,
    told TEXT NOT NULL) STRICT;
CREATE TABLE asked (run INTEGER PRIMARY KEY) STRICT;
CREATE TABLE told (name TEXT PRIMARY KEY, run INTEGER NOT NULL, told TEXT NOT NULL) STRICT;
CREATE TABLE proposal (source TEXT PRIMARY KEY, run INTEGER NOT NULL, excuse TEXT NOT NULL, told TEXT NOT NULL) STRICT;
CREATE TABLE hint (number INTEGER PRIMARY KEY, told TEXT, sent_by TEXT NOT NULL DEFAULT '', comment TEXT NOT NULL
    DEFAULT '') STRICT;
CREATE TABLE mail_read (sender TEXT PRIMARY KEY, number INTEGER NOT NULL) STRICT, WITHOUT ROWID;
CREATE TABLE build (source TEXT NOT NULL, place INTEGER NOT NULL, told TEXT NOT NULL, PRIMARY KEY (source, place))
    STRICT, WITHOUT ROWID;
CREATE TABLE need (name TEXT NOT NULL, first INTEGER NOT NULL, sources TEXT NOT NULL, PRIMARY KEY (name, first))
    STRICT, WITHOUT ROWID;
CREATE TABLE person (source TEXT PRIMARY KEY, maintainer TEXT NOT NULL, uploaders TEXT NOT NULL) STRICT, WITHOUT ROWID;
CREATE TABLE touched (source TEXT PRIMARY KEY) STRICT, WITHOUT ROWID;
CREATE TABLE basis (told TEXT NOT NULL) STRICT;
CREATE TABLE page (path TEXT PRIMARY KEY, digest TEXT NOT NULL) STRICT;
CREATE TABLE built (made_by TEXT NOT NULL, has_mail INTEGER NOT NULL) STRICT;
"""

TYPES: Mapping[str, type] = {name: {"INTEGER": int, "TEXT": str, "BLOB": bytes}[word]
                             for name, word in re.findall(r"(\w+) (INTEGER|TEXT|BLOB)", TABLES)} | {"packed": bytes}
"""The type of a column's values by its name. `told` is a text: that of a suite, which isn't, is read as `packed`."""

MAIL_TABLES = ("mail_read", "build", "need", "person")
"""What is read of the kept mail."""


class Event(NamedTuple):
    """From which run on a source stands as told: its versions, its reasons, and what the run did with it as JSON.

    A version or the reasons may be empty: a source without an excuse has none.
    """

    run: int
    testing: str
    unstable: str
    reasons: str
    outcome: str

    @property
    def standing(self) -> tuple[str, ...]:
        """All but the run: a source has another event only if this differs."""
        return (self.testing, self.unstable, self.reasons, self.outcome)


@dataclass(frozen=True)
class KeptRun:
    """A run as it was fetched, with the time at which it was."""

    run: Run
    fetched: str
    excuses: str
    update: str


@dataclass(frozen=True)
class Why:
    """What the office answered about a source, and what its excuse was then, except the age.

    `run` is the last one after which it was asked, and `since` the first one from which on the answer was the same.
    """

    run: int
    since: int
    excuse: str
    told: str


@dataclass(frozen=True)
class Proposal:
    """What the office proposed for a source after a run, and what its excuse was then, except the age."""

    run: int
    excuse: str
    told: str


@dataclass(frozen=True)
class SentHint:
    """A hint as it was sent: what it asks, and who sent it for what, if its fields `By` and `Comment` say so.

    All are empty if its message isn't available.
    """

    text: str = ""
    by: str = ""
    comment: str = ""

    @property
    def note(self) -> str:
        """Who sent it, and for what."""
        return ": ".join(filter(None, [self.by, self.comment]))


class State:
    """The database, open for one caller."""

    def __init__(self, path: str) -> None:
        self.path = path
        self.last: Optional[dict[str, Event]] = None  # what `last_events` gives, once it was read
        with self.faults():
            self.database = sqlite3.connect(path, isolation_level=None)
            self.database.execute("PRAGMA journal_mode = WAL")
            if self.database.execute("PRAGMA user_version").fetchone() != (SCHEMA,):
                self.make()

    def make(self) -> None:
        """Makes the tables, in place of all present ones."""
        with self.transaction():
            for name, in self.database.execute("SELECT name FROM sqlite_schema WHERE type = 'table'").fetchall():
                self.database.execute(f'DROP TABLE "{name}"')
            for statement in TABLES.split(";"):
                self.database.execute(statement)
            self.database.execute(f"PRAGMA user_version = {SCHEMA}")

    @contextlib.contextmanager
    def faults(self) -> Iterator[None]:
        """Within it a fault of SQLite, or a text in the file that isn't one, is printed with the file's name."""
        try:
            yield
        except (sqlite3.Error, UnicodeDecodeError) as fault:
            raise Fault(f"{self.path}: {fault}") from fault

    @contextlib.contextmanager
    def transaction(self) -> Iterator[None]:
        """What is done within it is kept whole, or not at all."""
        with self.faults():
            self.database.execute("BEGIN IMMEDIATE")
            try:
                yield
                self.database.execute("COMMIT")
            except BaseException:
                self.database.execute("ROLLBACK")
                raise

    def all(self, question: str, words: Sequence[object] = ()) -> Sequence[Any]:
        """The rows by which the database answers a question. A value of another type than its column's is a `Fault`:
        SQLite checks the type when it writes, and a damaged file can have any."""
        with self.faults():
            asked = self.database.execute(question, words)
            found = asked.fetchall()
        for column, values in zip(asked.description, zip(*found)):
            if set(map(type, values)) != {TYPES[column[0]]}:
                raise Fault(UNREADABLE)
        return found

    def one(self, question: str, words: Sequence[object] = ()) -> Any:
        """The first of these rows, or None."""
        return next(iter(self.all(question, words)), None)

    def keep(self, table: str, rows: Sequence[Sequence[object]]) -> None:
        """Keeps rows, each in place of an earlier one of its key, within a transaction: all pages are looked at."""
        if rows:
            self.database.executemany(f"INSERT OR REPLACE INTO {table} VALUES ({marks(rows[0])})", rows)
            self.database.execute("DELETE FROM built")

    def close(self) -> None:
        """Closes the database."""
        with self.faults():
            self.database.close()

    def runs(self) -> Sequence[Run]:
        """The lines of the kept runs, in order."""
        return [run_in(line) for line, in self.all("SELECT line FROM run ORDER BY number")]

    def run(self, number: int) -> KeptRun:
        """A kept run."""
        found = self.one("SELECT line, fetched, excuses, updated FROM run WHERE number = ?", (number,))
        if found is None:  # its line names another number
            raise Fault(UNREADABLE)
        return KeptRun(run_in(found[0]), found[1], unpacked(found[2]), unpacked(found[3]))

    def drop_from(self, number: int) -> None:
        """Drops all runs from this one on, what was asked after them, and what was read of the mail."""
        self.last = None
        with self.transaction():
            for table in MAIL_TABLES:
                self.database.execute(f"DELETE FROM {table}")
            self.database.execute("DELETE FROM run WHERE number >= ?", (number,))
            for table in "event", "last", "testing", "unstable", "why", "told", "proposal", "asked":
                self.database.execute(f"DELETE FROM {table} WHERE run >= ?", (number,))
            # Of the columns other than max(run) SQLite gives those of the row that has it.
            self.database.execute("INSERT OR IGNORE INTO last SELECT source, max(run), testing, unstable, reasons, "
                                  "outcome FROM event GROUP BY source")
            self.database.execute("UPDATE page SET digest = ''")
            self.database.execute("DELETE FROM basis")
            self.database.execute("DELETE FROM hint")
            self.database.execute("DELETE FROM built")

    def add(self, kept: KeptRun, events: Mapping[str, Event], hints: Iterable[int]) -> None:
        """Keeps a run, an event of each source that it changed, and that the texts of these hints are wanted."""
        with self.transaction():
            self.database.execute("INSERT INTO run VALUES (?, ?, ?, ?, ?)", (
                kept.run.number, line_of(kept.run), kept.fetched, packed(kept.excuses), packed(kept.update)))
            rows = [(source, event.run, *event.standing) for source, event in events.items()]
            self.database.executemany("INSERT INTO event VALUES (?, ?, ?, ?, ?, ?)", rows)
            self.database.executemany("INSERT OR REPLACE INTO last VALUES (?, ?, ?, ?, ?, ?)", rows)
            self.want_hints(hints)
            self.touch(events)
            self.database.execute("DELETE FROM built")
        if self.last is not None:
            self.last |= events

    def last_events(self) -> Mapping[str, Event]:
        """The last event of each source."""
        if self.last is None:
            self.last = dict(self.told_events("SELECT * FROM last"))
        return self.last

    def told_events(self, question: str, words: Sequence[object] = ()) -> Iterator[tuple[str, Event]]:
        """Events with their sources. The name of no source is a `Fault`, and so is the number of no kept run."""
        kept = {number for number, in self.all("SELECT number FROM run")}
        for source, *parts in self.all(question, words):
            event = Event._make(parts)
            if event.run not in kept or not SOURCE.fullmatch(source):
                raise Fault(UNREADABLE)
            yield source, event

    def events(self, sources: Sequence[str]) -> Iterator[tuple[str, Sequence[Event]]]:
        """The events of each of these sources, the last one first."""
        for some in parts(sources):
            found: dict[str, list[Event]] = {source: [] for source in some}
            for source, event in self.told_events("SELECT * FROM event WHERE source IN "
                                                  f"({marks(some)}) ORDER BY source, run DESC", some):
                found[source].append(event)
            yield from found.items()

    def events_from(self, run: int) -> Mapping[str, Sequence[Event]]:
        """The events of each source that has one from this run on, in the order of runs."""
        found: dict[str, list[Event]] = {}
        for source, event in self.told_events("SELECT * FROM event WHERE source IN (SELECT source FROM last "
                                              "WHERE run >= ?) ORDER BY source, run", (run,)):
            found.setdefault(source, []).append(event)
        return found

    def keep_testing(self, run: int, told: str) -> None:
        """Keeps what is in testing after a run, in place of what was kept, and which sources differ from that."""
        before = self.suite("testing")
        lines = set(told.splitlines()).symmetric_difference(before[1].splitlines() if before else ())
        words = (line.split(" ") for line in lines)
        self.keep_suite("testing", run, told, {line[1] if len(line) == 3 else line[-1] for line in words})

    def suite(self, table: str) -> Optional[tuple[int, str]]:
        """What is in testing after a run, or what the office said of unstable when it was the newest one; and the run.
        """
        found = self.one(f"SELECT run, told AS packed FROM {table}")
        return (found[0], unpacked(found[1])) if found else None

    def keep_suite(self, table: str, run: int, told: str, touched: Iterable[str] = ()) -> None:
        """Keeps the text of a suite, and which sources changed in it."""
        with self.transaction():
            self.touch(touched)
            self.database.execute(f"DELETE FROM {table}")
            self.database.execute(f"INSERT INTO {table} VALUES (?, ?)", (run, packed(told)))
            self.database.execute("DELETE FROM built")

    def whys(self) -> Mapping[str, Why]:
        """What was answered about sources."""
        return {source: Why(*parts) for source, *parts in self.all("SELECT * FROM why")}

    def keep_whys(self, whys: Mapping[str, Why], hints: Iterable[int]) -> None:
        """Keeps answers about sources, each in place of an earlier one, and which hints they name."""
        with self.transaction():
            self.keep("why", [(source, why.run, why.since, why.excuse, why.told) for source, why in whys.items()])
            self.want_hints(hints)

    def asked(self) -> Optional[int]:
        """After which run the office was asked about all sources, if it was."""
        found = self.one("SELECT run FROM asked")
        return found[0] if found else None

    def keep_asked(self, run: int) -> None:
        """Keeps that the office was asked about all sources after this run."""
        with self.transaction():
            self.database.execute("DELETE FROM asked")
            self.database.execute("INSERT INTO asked VALUES (?)", (run,))

    def told(self, name: str) -> Optional[tuple[int, str]]:
        """A text that is kept as it was printed, and after which run."""
        found = self.one("SELECT run, told FROM told WHERE name = ?", (name,))
        return (found[0], found[1]) if found else None

    def keep_told(self, name: str, run: int, text: str) -> None:
        """Keeps a text as it was printed, in place of an earlier one."""
        if self.told(name) != (run, text):
            with self.transaction():
                self.keep("told", [(name, run, text)])

    def proposals(self) -> Mapping[str, Proposal]:
        """What was proposed for sources."""
        return {source: Proposal(*parts) for source, *parts in self.all("SELECT * FROM proposal")}

    def keep_proposals(self, proposals: Mapping[str, Proposal]) -> None:
        """Keeps what was proposed for sources, each in place of an earlier answer."""
        with self.transaction():
            self.keep("proposal", [(source, proposal.run, proposal.excuse, proposal.told)
                                   for source, proposal in proposals.items()])

    def want_hints(self, numbers: Iterable[int]) -> None:
        """Keeps within a transaction that the texts of these hints are wanted."""
        self.database.executemany("INSERT OR IGNORE INTO hint (number) VALUES (?)", ((number,) for number in numbers))

    def ask_hints(self, numbers: Iterable[int]) -> None:
        """Keeps that these hints are wanted, if some of them aren't known yet."""
        known = {number for number, in self.all("SELECT number FROM hint")}
        if not known.issuperset(numbers):
            with self.transaction():
                self.want_hints(numbers)

    def wanted_hints(self) -> Sequence[int]:
        """The hints whose texts weren't asked for yet."""
        return [number for number, in self.all("SELECT number FROM hint WHERE told IS NULL ORDER BY number")]

    def hints(self) -> Mapping[int, SentHint]:
        """Hints by their numbers."""
        return {number: SentHint(*parts) for number, *parts in self.all(
            "SELECT number, told, sent_by, comment FROM hint WHERE told IS NOT NULL")}

    def keep_hints(self, hints: Mapping[int, SentHint]) -> None:
        """Keeps hints."""
        with self.transaction():
            self.keep("hint", [(number, hint.text, hint.by, hint.comment) for number, hint in hints.items()])

    def digests(self) -> Mapping[str, str]:
        """Of each page that was written a digest of what it was made of. Any other path is a `Fault`."""
        found = dict(self.all("SELECT path, digest FROM page"))
        if not all(map(PAGE.fullmatch, found)):
            raise Fault(UNREADABLE)
        return found

    def keep_digests(self, digests: Mapping[str, str], gone: Sequence[str] = ()) -> None:
        """Keeps digests of pages that were written, and forgets those of pages that are gone."""
        with self.transaction():
            self.database.executemany("INSERT OR REPLACE INTO page VALUES (?, ?)", digests.items())
            self.database.executemany("DELETE FROM page WHERE path = ?", ((path,) for path in gone))

    def built(self) -> Optional[tuple[str, bool]]:
        """What made the pages, if all of them were made since anything was kept but mail, and whether also since that.

        Mail by which only transitions change is meant; other mail counts as anything else.
        """
        found = self.one("SELECT made_by, has_mail FROM built")
        return (found[0], bool(found[1])) if found else None

    def touch(self, sources: Iterable[str]) -> None:
        """Keeps within a transaction that what is kept of these sources changed since all pages were made."""
        self.database.executemany("INSERT OR IGNORE INTO touched VALUES (?)", ((source,) for source in sources))

    def touched(self) -> Collection[str]:
        """The sources of which something that is kept changed since all pages were made."""
        return [source for source, in self.all("SELECT source FROM touched")]

    def basis(self) -> Optional[str]:
        """What the pages of sources show beside what is kept of each of them, when all of them were made last."""
        found = self.one("SELECT told FROM basis")
        return found[0] if found else None

    def keep_built(self, made_by: str, basis: str) -> None:
        """All pages are made of what is kept."""
        with self.transaction():
            self.database.execute("DELETE FROM touched")
            self.database.execute("DELETE FROM basis")
            self.database.execute("INSERT INTO basis VALUES (?)", (basis,))
            self.database.execute("DELETE FROM built")
            self.database.execute("INSERT INTO built VALUES (?, 1)", (made_by,))


def parts(words: Sequence[str]) -> Iterator[Sequence[str]]:
    """A list, in parts that one question to the database takes."""
    return (words[place:place + MOST_WORDS] for place in range(0, len(words), MOST_WORDS))


def marks(words: Sequence[object]) -> str:
    """A mark for each word of a question to the database."""
    return ", ".join("?" * len(words))


def packed(text: str) -> bytes:
    """A text, compressed: by the fastest level, since testing is packed at each run."""
    return zlib.compress(text.encode(), 1)


def unpacked(data: bytes) -> str:
    """A text that was compressed."""
    try:
        return zlib.decompress(data).decode()
    except (TypeError, ValueError, zlib.error) as fault:
        raise Fault(UNREADABLE) from fault


def line_of(run: Run) -> str:
    """The line of a run as it is kept."""
    return json.dumps([value.isoformat() if isinstance(value, datetime.date) else value
                       for value in vars(run).values()])


def run_in(line: str) -> Run:
    """The line of a run that was kept."""
    try:
        number, date, *counts = json.loads(line)
        if {type(number), *map(type, counts)} != {int}:
            raise ValueError(line)
        return Run(number, datetime.date.fromisoformat(date), *counts)
    except (TypeError, ValueError, RecursionError) as fault:
        raise Fault(UNREADABLE) from fault
