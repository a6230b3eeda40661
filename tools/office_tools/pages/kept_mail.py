"""What builds need and who maintains a source, read from the kept mail.

The mail is read once, by sender and number, as far as it is kept without a gap. Each message with builds is kept as it
is, under the sources that it builds, and for each name that a build depends on the sources whose builds do. So reading
costs little, and only the builds of sources that a page is about are looked into. Only the office says which build is
in testing or in unstable: here a build is found by its source, architecture, package and version.
"""
import collections
import functools
import re
import time
from dataclasses import dataclass
from typing import Collection, Iterable, Mapping, NamedTuple, Sequence

from office_tools.pages.offices import Office
from office_tools.pages.state import MAIL_TABLES, marks, parts, State

AT_ONCE = 20_000  # messages whose contents are kept at once
A_LOOK = 500  # messages after which the time is looked at
ALL = ""  # no sender's name: behind which run all mail was read
MOST_KEPT = 1 << 14  # values of fields of which it is kept what they say

USUAL = frozenset(("From", "Number", "Kind", "Package", "Version", "Architecture", "Source", "Pre-Depends", "Depends",
                   "Provides"))
BETWEEN = re.compile(r"\n(?:[ \t\r]*\n)+")
FIELD = re.compile(r"^(Kind|Source|Maintainer|Uploaders|Package|Version|Architecture|Pre-Depends|Depends|Provides):"
                   r"[ \t\r]*((?:.*\n?)(?:[ \t].*\n?)*)", re.M | re.I)
# Each line of a package has one before it. A set of letters for the first one is found much faster than any letter.
SOURCES = re.compile(r"\n[Ss](?i:ource):[ \t\r]*([^\s(]+)")
PACKAGES = re.compile(r"\n[Pp](?i:ackage):[ \t\r]*(\S+)")
DEPENDS = re.compile(r"\n(?i:(?:pre-)?depends):[ \t\r]*(.*(?:\n[ \t]+\S.*)*)")
SOURCE = re.compile(r"(\S+?)\s*\(\s*(\S+?)\s*\)|(\S+)")
NAME = re.compile(r"\s*([a-z0-9][a-z0-9+.-]+)")
NAMES = re.compile(r"(?:^|[,|])\s*([a-z0-9][a-z0-9+.-]+)")
KIND = re.compile(rb"(?:^|\n)[Kk](?i:ind):\s*(\S+)")
MAINTAINER = re.compile(rb"\n[Mm](?i:aintainer):")

Key = tuple[str, str, str]  # an architecture, a package and its version


class Build(NamedTuple):
    """A package as a build message has it: its source with the version of that, its clauses, and what it provides."""

    package: str
    architecture: str
    version: str
    source: str
    source_version: str
    clauses: str
    provides: str


@dataclass(frozen=True)
class Person:
    """Who maintains a source, as its upload or a file says: the maintainer, and further uploaders."""

    maintainer: str
    uploaders: Sequence[str] = ()


@functools.lru_cache(maxsize=None)
def names_in(clause: str) -> tuple[str, ...]:
    """The names of a clause's alternatives, without versions."""
    found = (NAME.match(part) for part in clause.split("|"))
    return tuple(name[1] for name in found if name)


@functools.lru_cache(MOST_KEPT)
def clause_names(clauses: str) -> Sequence[tuple[str, ...]]:
    """The names of each clause of a value of Depends."""
    return tuple(names_in(clause) for clause in clauses.split(",") if clause.strip())


def fields_of(paragraph: str) -> Mapping[str, str]:
    """The fields of a paragraph that are read, by their names in lower case."""
    try:
        # Nearly all paragraphs have one line for each field, and only fields with their usual names.
        plain = dict([line.split(": ", 1) for line in paragraph.split("\n")])
    except ValueError:
        plain = {"": ""}
    if plain.keys() <= USUAL and "  " not in paragraph and "\t" not in paragraph:
        return {name.lower(): value.strip() for name, value in plain.items()}
    return {name.lower(): " ".join(value.split()) for name, value in FIELD.findall(paragraph)}


def builds_in(text: str) -> Iterable[Build]:
    """The builds of a message, if it is one with builds."""
    first, *others = BETWEEN.split(text.strip("\n"))
    if fields_of(first).get("kind") != "build":
        return
    for fields in map(fields_of, others):
        source, source_version = source_of(fields)
        clauses = ", ".join(filter(None, (fields.get("pre-depends"), fields.get("depends"))))
        yield Build(fields.get("package", ""), fields.get("architecture", ""), fields.get("version", ""),
                    source, source_version, clauses, fields.get("provides", ""))


def source_of(fields: Mapping[str, str]) -> tuple[str, str]:
    """The source of a package's paragraph, with its version."""
    package, version = fields.get("package", ""), fields.get("version", "")
    found = SOURCE.match(fields.get("source", package))
    return (found[1] or found[3], found[2] or version) if found else (package, version)


class Found:
    """What was found in messages: those with builds by source, who needs a name, and who maintains a source."""

    def __init__(self) -> None:
        self.builds: list[tuple[str, int, str]] = []
        self.needs: dict[str, set[str]] = collections.defaultdict(set)
        self.people: dict[str, tuple[str, str]] = {}

    def add(self, data: bytes, place: int) -> None:
        """Adds what a message says. `place` orders builds of one version: the least one counts.

        It may keep a message under further sources, and sources under further names: what is in a message is read again
        once one of its sources is asked for.
        """
        kind = KIND.search(data)
        if kind is None:
            return
        if kind[1] == b"upload" and MAINTAINER.search(data):
            head = fields_of(BETWEEN.split(data.decode(errors="replace").strip("\n"), 1)[0])
            if head.get("kind") == "upload" and "maintainer" in head:
                self.people[head.get("source", "")] = (head["maintainer"], head.get("uploaders", ""))
        elif kind[1] == b"build":
            self.add_build(data.decode(errors="replace"), place)

    def add_build(self, text: str, place: int) -> None:
        """Adds a message that may have builds, under their sources."""
        named, packages = SOURCES.findall(text), PACKAGES.findall(text)
        # A package that names no source is of the one of its own name.
        sources = set(named) if len(named) == len(packages) else {*named, *packages}
        for clauses in set(DEPENDS.findall(text)):
            for name in NAMES.findall(clauses):
                self.needs[name].update(sources)
        self.builds += ((source, place, text) for source in sources)


class KeptMail:
    """What was read of the mail, in the database of the pages."""

    def __init__(self, state: State) -> None:
        self.state = state
        self.known: dict[str, Mapping[Key, Build]] = {}

    def read_up_to(self) -> Mapping[str, int]:
        """Up to which number the mail of each sender was read."""
        return dict(self.state.all("SELECT sender, number FROM mail_read"))

    def is_read(self, run: int) -> bool:
        """Whether all mail was read that was kept when this run was the newest one."""
        return self.read_up_to().get(ALL) == run

    def forget(self) -> None:
        """Forgets all mail, which is then read again."""
        with self.state.transaction():
            for table in MAIL_TABLES:
                self.state.database.execute(f"DELETE FROM {table}")

    def write(self, found: Found, numbers: Mapping[str, int]) -> None:
        """Writes what was read, and up to which numbers."""
        database = self.state.database
        first = min((place for _, place, _ in found.builds), default=0)
        with self.state.transaction():
            # In the order of their keys, which SQLite writes fastest.
            database.executemany("INSERT OR REPLACE INTO build VALUES (?, ?, ?)", sorted(found.builds))
            database.executemany("INSERT OR REPLACE INTO need VALUES (?, ?, ?)", (
                (name, first, " ".join(sorted(sources))) for name, sources in sorted(found.needs.items())))
            database.executemany("INSERT OR REPLACE INTO person VALUES (?, ?, ?)", (
                (source, *told) for source, told in found.people.items()))
            database.executemany("INSERT OR REPLACE INTO mail_read VALUES (?, ?)", numbers.items())
            database.execute("UPDATE built SET has_mail = 0")
            if found.people:
                self.state.touch(found.people)
                database.execute("DELETE FROM built")

    def needing(self, names: Collection[str]) -> Mapping[str, Collection[str]]:
        """The sources with a build one of whose clauses names a package, by the package."""
        found: dict[str, set[str]] = collections.defaultdict(set)
        for some in parts(sorted(names)):
            for name, sources in self.state.all(f"SELECT name, sources FROM need WHERE name IN ({marks(some)})", some):
                found[name].update(sources.split(" "))
        return found

    def builds(self, sources: Collection[str]) -> Mapping[str, Mapping[Key, Build]]:
        """All builds of these sources. Of two of one version that of the first sender counts, and of its messages the
        first one."""
        new = sorted(source for source in sources if source not in self.known)
        found: dict[str, dict[Key, Build]] = {source: {} for source in new}
        for some in parts(new):
            for source, text in self.state.all(
                    f"SELECT source, told FROM build WHERE source IN ({marks(some)}) ORDER BY source, place", some):
                for build in builds_in(text):
                    if build.source == source:
                        found[source].setdefault((build.architecture, build.package, build.version), build)
        self.known |= found
        return {source: self.known[source] for source in sources}

    def people(self) -> Mapping[str, Person]:
        """Who maintains each source whose upload says so."""
        return {source: Person(maintainer, people_in(uploaders)) for source, maintainer, uploaders
                in self.state.all("SELECT source, maintainer, uploaders FROM person")}


@functools.lru_cache(MOST_KEPT)
def people_in(value: str) -> Sequence[str]:
    """The people of a value of Uploaders, which may have a comma within a quoted name."""
    cut = re.split(r',(?=(?:[^"]*"[^"]*")*[^"]*$)', value) if '"' in value else value.split(",")
    return tuple(filter(None, map(str.strip, cut)))


def read_mail(office: Office, state: State, newest: int, until: float) -> None:
    """Reads the mail that came since it was read last, once a run and until that time; the next call continues."""
    mail = KeptMail(state)
    if mail.is_read(newest):
        return
    kept = office.kept_mail()
    if kept is None:
        return
    done = mail.read_up_to()
    if any(number > kept.get(sender, 0) for sender, number in done.items() if sender != ALL):
        mail.forget()
        done = {}
    if all(read_of(office, mail, (sender, place), (done.get(sender, 0) + 1, last), until)
           for place, (sender, last) in enumerate(kept.items())):
        mail.write(Found(), {ALL: newest})


def read_of(office: Office, mail: KeptMail, sender: tuple[str, int], numbers: tuple[int, int], until: float) -> bool:
    """Reads the mail of a sender, which has this place in the setup, between two numbers; says whether it read all."""
    first, last = numbers
    if first <= last and time.monotonic() >= until:
        return False
    found, read, begin = Found(), first - 1, sender[1] << 32
    for read, data in office.letters(sender[0], first, last):
        found.add(data, begin + read)
        is_late = read % A_LOOK == 0 and time.monotonic() >= until
        if is_late or read - first + 1 == AT_ONCE:
            mail.write(found, {sender[0]: read})
            found, first = Found(), read + 1
        if is_late:
            return read == last
    if read >= first:
        mail.write(found, {sender[0]: read})
    return True
