"""What happens in an archive, drawn by a seed: uploads, rebuilds, transitions, new and removed sources, bugs, hints.

Nothing here asks the office: each event is what people of an archive do. A template's `{source}` and `{binary}` mean
the version of the source and of what is built.
"""
import dataclasses
import datetime
import functools
import random
import re
from dataclasses import dataclass, field
from typing import Callable, Iterator, Optional, Sequence, Union

from packages import BOTH, Package, Upload

FIRST = datetime.date(2025, 3, 1)
URGENCIES = ("low", "medium", "medium", "medium", "high", "high", "critical")
NOWHERE = "nosuch-package"
NAME = re.compile(r"[a-z0-9][a-z0-9+.-]+")


def day_text(number: int) -> str:
    """The date of a day, counted from the first of March."""
    return (FIRST + datetime.timedelta(number)).isoformat()


@dataclass(frozen=True)
class Come:
    """An upload, or what was built of one later, comes to unstable."""

    upload: Upload


@dataclass(frozen=True)
class Leave:
    """A source with its packages leaves unstable."""

    source: str


@dataclass(frozen=True)
class Cut:
    """A binary package leaves unstable that nothing there needs any more."""

    package: str


@dataclass(frozen=True)
class Bug:
    """The state of a bug."""

    number: int
    source: str
    severity: str
    found: Optional[str] = None
    fixed: Optional[str] = None


@dataclass(frozen=True)
class Hint:
    """A hint of a person, under a name by which it is taken back."""

    title: str
    words: str


@dataclass(frozen=True)
class Unhint:
    """A person takes a hint back."""

    title: str


Event = Union[Come, Leave, Cut, Bug, Hint, Unhint]
Job = Callable[[], Iterator[Event]]


def shown(event: Event) -> str:
    """An event in a line."""
    if not isinstance(event, Come):
        return str(event)
    return f"{event.upload.name} {event.upload.urgency} {' '.join(event.upload.architectures)}"


@dataclass
class Kept:
    """A source in unstable: its version, the templates of its packages, and how often it was rebuilt.

    A library has the number of its package. A source `is_late` while an architecture hasn't built it.
    """

    name: str
    upstream: int = 1
    revision: int = 1
    packages: list[Package] = field(default_factory=list)
    rebuilds: int = 0
    soname: int = 0
    is_late: bool = False

    @property
    def version(self) -> str:
        """Its version."""
        return f"{self.upstream}.0-{self.revision}"


def library(name: str) -> Kept:
    """A library with its development package."""
    return Kept(name, packages=[Package(f"{name}1"), Package(f"{name}-dev", f"{name}1 (= {{binary}})")], soname=1)


def first_sources(scale: int) -> Sequence[Kept]:
    """The sources of the first day: more for a greater scale, which is 1 or 2."""
    libraries = ["libalpha", "libbeta", "libgamma", "libdelta++", "libeta"][:2 + scale]
    found = [Kept("base", packages=[Package("base", "libbase1")]),
             Kept("libbase", packages=[Package("libbase1", "base")]), *map(library, libraries)]
    for number in range(2 + 6 * scale):
        name = f"app{number:02}"
        needed = f"{libraries[number % len(libraries)]}1 (>= 1.0), base"
        if number % 4 == 3:
            needed += f", {libraries[(number + 1) % len(libraries)]}1"
        packages = [Package(name, needed)]
        if number % 3 == 0:
            packages = [Package(name, f"{needed}, {name}-data (= {{source}})"), Package(f"{name}-data", is_all=True)]
        found.append(Kept(name, packages=packages))
    found += [Kept("mta-a", packages=[Package("mta-a", provides="mta (= 1)")]),
              Kept("mta-b", packages=[Package("mta-b", provides="mta (= 1)")]),
              Kept("mailer", packages=[Package("mailer", "mta (>= 1)")]),
              Kept("guide", packages=[Package("guide-doc", "app00", is_all=True)]),
              Kept("tool", packages=[Package("tool", "app01 | app02")]), Kept("lone", packages=[Package("lone")])]
    for number in range(1 + 2 * scale):
        needed = f"py{number - 1}" if number else ""
        found.append(Kept(f"py{number}", packages=[Package(f"py{number}", needed)]))
    return found


class World:
    """Unstable, and what is going to happen there. `busy` is the number of events a day."""

    def __init__(self, seed: int, scale: int, busy: tuple[int, int] = (2, 5)) -> None:
        self.seed = seed
        self.random = random.Random(seed)
        self.busy = busy
        self.today = 0
        self.sources = {kept.name: kept for kept in first_sources(scale)}
        self.rows: dict[tuple[str, str], tuple[str, str]] = {}  # of a package there: its source, and what it needs
        self.jobs: list[tuple[int, Job]] = []
        self.bugs = 1000
        self.titles = 0
        self.untouched: set[str] = {"base", "libbase"}
        self.old: dict[str, int] = {}  # packages of libraries that have a new name, and the day of that

    def first(self) -> list[Come]:
        """The uploads of the first day."""
        found = [Come(self.upload(kept, "medium")) for kept in self.sources.values()]
        for event in found:
            self.enter(event.upload)
        return found

    def upload(self, kept: Kept, urgency: str, architectures: Sequence[str] = BOTH, **more: object) -> Upload:
        """The upload of a source as it is."""
        rebuild = kept.rebuilds or None
        binary = kept.version + (f"+b{rebuild}" if rebuild else "")
        packages = [dataclasses.replace(package, depends=package.depends.format(binary=binary, source=kept.version))
                    for package in kept.packages]
        return dataclasses.replace(Upload(kept.name, kept.version, day_text(self.today), packages, urgency,
                                          architectures, rebuild), **more)

    def enter(self, upload: Upload) -> None:
        """Notes what an upload brings to unstable."""
        for package in upload.packages:
            if package.is_all:
                self.rows[package.name, "all"] = upload.source, package.depends
            else:
                self.rows.update({(package.name, own): (upload.source, package.depends)
                                  for own in upload.architectures})

    def needs(self, package: str) -> set[str]:
        """The sources that need a package in unstable."""
        return {source for source, depends in self.rows.values() if package in NAME.findall(depends)}

    def day(self, number: int, is_quiet: bool) -> Iterator[Event]:
        """What happens on a day. On a quiet one only what began before ends."""
        self.today = number
        due = [job for when, job in self.jobs if when <= number]
        self.jobs = [(when, job) for when, job in self.jobs if when > number]
        for job in due:
            yield from self.noted(job())
        yield from self.noted(self.swept())
        for _ in range(0 if is_quiet else self.random.randint(*self.busy)):
            kind = self.random.choice(KINDS)
            yield from self.noted(kind(self))

    def noted(self, events: Iterator[Event]) -> Iterator[Event]:
        """The same events, each noted as it comes."""
        for event in events:
            if isinstance(event, Come):
                self.enter(event.upload)
            elif isinstance(event, Leave):
                self.forget(event.source)
            elif isinstance(event, Cut):
                self.rows = {key: row for key, row in self.rows.items() if key[0] != event.package}
            yield event

    def forget(self, source: str) -> None:
        """Notes that a source is gone."""
        self.sources.pop(source, None)
        self.rows = {key: row for key, row in self.rows.items() if row[0] != source}

    def later(self, days: tuple[int, int], job: Job) -> None:
        """Something happens in some days."""
        self.jobs.append((self.today + self.random.randint(*days), job))

    def pick(self, wanted: Callable[[Kept], bool] = lambda kept: True) -> Optional[Kept]:
        """Some source that no other event has in hand."""
        fitting = [kept for name, kept in sorted(self.sources.items()) if name not in self.untouched and wanted(kept)]
        return self.random.choice(fitting) if fitting else None

    def swept(self) -> Iterator[Event]:
        """Old packages of libraries leave that nothing in unstable needs, two days after the new ones or later."""
        for package, day in list(self.old.items()):
            if self.today >= day + 2 and not self.needs(package):
                del self.old[package]
                yield Cut(package)

    # The kinds of events

    def renewed(self, kept: Kept, is_upstream: bool = False) -> Kept:
        """A new version of a source."""
        kept.upstream, kept.revision = (kept.upstream + 1, 1) if is_upstream else (kept.upstream, kept.revision + 1)
        kept.rebuilds, kept.is_late = 0, False
        return kept

    def plain(self) -> Iterator[Event]:
        """A new version."""
        kept = self.pick()
        if kept:
            self.renewed(kept, not kept.soname and self.random.random() < 0.4)
            yield Come(self.upload(kept, self.random.choice(URGENCIES)))

    def lagging(self) -> Iterator[Event]:
        """A new version that one architecture builds some days later, or never before the next."""
        kept = self.pick(lambda kept: not any(package.is_all for package in kept.packages))
        if kept:
            self.renewed(kept)
            upload = self.upload(kept, self.random.choice(URGENCIES), BOTH[:1])
            yield Come(upload)
            kept.is_late = True
            missing = dataclasses.replace(upload, architectures=BOTH[1:], is_later=True)
            self.later((1, 4), functools.partial(self.built, kept, missing))

    def built(self, kept: Kept, missing: Upload) -> Iterator[Event]:
        """What a late architecture builds, if the version is still the one to build."""
        if self.sources.get(kept.name) is kept and kept.version == missing.version and kept.is_late:
            kept.is_late = False
            yield Come(missing)

    def rebuilt(self) -> Iterator[Event]:
        """A rebuild on one architecture or on both."""
        kept = self.pick(lambda kept: not kept.is_late and not all(package.is_all for package in kept.packages))
        if kept:
            kept.rebuilds += 1
            yield Come(self.upload(kept, "medium", self.random.choice([BOTH, BOTH[:1], BOTH[1:]])))

    def transition(self) -> Iterator[Event]:
        """A library gets a new name. What needs it is uploaded again, or rebuilt, within some days."""
        kept = self.pick(lambda kept: kept.soname > 0 and not any(name.startswith(kept.name) for name in self.old))
        if not kept:
            return
        old, new = (f"{kept.name}{kept.soname + more}" for more in (0, 1))
        users = [user for user in self.sources.values() if any(old in NAME.findall(package.depends)
                                                               for package in user.packages) and user is not kept]
        self.renewed(kept, True)
        kept.soname += 1
        kept.packages = [Package(new), Package(f"{kept.name}-dev", f"{new} (= {{binary}})")]
        self.old[old] = self.today
        yield Come(self.upload(kept, "medium"))
        for user in users:
            user.packages = [dataclasses.replace(package, depends=package.depends.replace(old, new).replace(
                "(>= 1.0)", "")) for package in user.packages]
            self.later((0, 2), functools.partial(self.moved_on, user, old))

    def moved_on(self, user: Kept, old: str) -> Iterator[Event]:
        """A source that still needs an old library is built for the new one."""
        if self.sources.get(user.name) is not user or user.name not in self.needs(old):
            return
        is_rebuilt = self.random.random() < 0.5 and not user.is_late
        if is_rebuilt and not all(package.is_all for package in user.packages):
            user.rebuilds += 1
            yield Come(self.upload(user, "medium"))
        else:
            self.renewed(user)
            yield Come(self.upload(user, self.random.choice(("medium", "high"))))

    def renamed(self) -> Iterator[Event]:
        """A package of a source gets another name."""
        kept = self.pick(lambda kept: any(package.name.endswith(("-data", "-common")) for package in kept.packages))
        if kept:
            old = next(package.name for package in kept.packages if package.name.endswith(("-data", "-common")))
            new = kept.name + ("-common" if old.endswith("-data") else "-data")
            kept.packages = [dataclasses.replace(package, name=new if package.name == old else package.name,
                                                 depends=package.depends.replace(old, new))
                             for package in kept.packages]
            self.renewed(kept)
            self.old[old] = self.today
            yield Come(self.upload(kept, "medium"))

    def new(self) -> Iterator[Event]:
        """A new source."""
        self.titles += 1
        lib = self.pick(lambda kept: kept.soname > 0)
        if lib:
            kept = Kept(f"new{self.titles}", packages=[Package(f"new{self.titles}", f"{lib.name}{lib.soname}, base")])
            self.sources[kept.name] = kept
            yield Come(self.upload(kept, self.random.choice(URGENCIES)))

    def removed(self) -> Iterator[Event]:
        """A source leaves that nothing in unstable needs."""
        kept = self.pick(lambda kept: not kept.soname and not any(
            self.needs(package.name) - {kept.name} for package in kept.packages))
        if kept and len(self.sources) > 12:
            self.old = {name: day for name, day in self.old.items() if not name.startswith(kept.name)}
            yield Leave(kept.name)

    def broken(self) -> Iterator[Event]:
        """A version that needs what is nowhere, and some days later one that doesn't."""
        kept = self.pick(lambda kept: not kept.soname)
        if kept:
            good, self.untouched = list(kept.packages), self.untouched | {kept.name}
            kept.packages = [dataclasses.replace(package, depends=", ".join(filter(None, [package.depends, NOWHERE])))
                             for package in good]
            self.renewed(kept)
            yield Come(self.upload(kept, self.random.choice(("medium", "high", "critical"))))
            self.later((3, 6), functools.partial(self.mended, kept))

    def mended(self, kept: Kept) -> Iterator[Event]:
        """A version without the bad need."""
        self.untouched -= {kept.name}
        kept.packages = [dataclasses.replace(package, depends=package.depends.replace(", " + NOWHERE, "").replace(
            NOWHERE, "")) for package in kept.packages]
        self.renewed(kept)
        yield Come(self.upload(kept, "high"))

    def bug(self) -> Iterator[Event]:
        """A release-critical bug of what unstable has, which is lowered or fixed some days later."""
        kept = self.pick()
        if kept:
            self.bugs += 1
            bug = Bug(self.bugs, kept.name, self.random.choice(("serious", "grave", "critical")), kept.version)
            yield bug
            self.later((2, 7), functools.partial(self.closed, kept, bug))

    def closed(self, kept: Kept, bug: Bug) -> Iterator[Event]:
        """A bug is no longer release-critical, or a new version fixes it."""
        if self.random.random() < 0.5 or self.sources.get(kept.name) is not kept or kept.name in self.untouched:
            yield dataclasses.replace(bug, severity="normal")
        else:
            self.renewed(kept)
            yield Come(self.upload(kept, "high"))
            yield dataclasses.replace(bug, fixed=kept.version)

    def hinted(self) -> Iterator[Event]:
        """A person blocks a source for some days, or sets its age."""
        kept = self.pick()
        if kept:
            self.titles += 1
            title = f"hint{self.titles}"
            if self.random.random() < 0.6:
                yield Hint(title, f"block {kept.name}")
                self.later((2, 5), lambda: iter([Unhint(title)]))
            else:
                yield Hint(title, f"age-days {self.random.choice((0, 1, 7))} {kept.name}/{kept.version}")


KINDS: Sequence[Callable[[World], Iterator[Event]]] = (
    World.plain, World.plain, World.plain, World.lagging, World.rebuilt, World.rebuilt, World.transition,
    World.renamed, World.new, World.removed, World.broken, World.bug, World.bug, World.hinted)
"""The kinds of events, the usual ones more than once."""
