"""Transitions: sources whose packages have other names in unstable than in testing, and who needs the old ones.

Rows of testing and unstable are the office's. What a row needs is read from its build's message. A row is current if
its source version is that of its source in unstable; the rows of a source that isn't built yet aren't.
"""
import collections
import re
from dataclasses import dataclass
from typing import Collection, Iterable, Mapping, Optional, Sequence

from office_tools.pages.kept_mail import Build, clause_names, KeptMail

Key = tuple[str, str]  # an architecture and a package
DIGITS = re.compile(r"[0-9.]+|t64$")
REBUILD = re.compile(r"\+b\d+$")
OLD, NEW, NEITHER, MISSING, GONE = "old", "new", "neither", "missing", "gone"


@dataclass(frozen=True)
class Suite:
    """A suite as the office prints it: the version of each source, and its rows as texts, all and by source.

    The text of a row is its architecture, package, version and source.
    """

    sources: Mapping[str, str]
    texts: Collection[str]
    by_source: Mapping[str, Sequence[str]]

    def rows(self, source: str) -> Mapping[Key, str]:
        """The rows of a source, with their versions."""
        words = (text.split(" ") for text in self.by_source.get(source, ()))
        return {(architecture, package): version for architecture, package, version, _ in words}

    def has(self, build: Build) -> bool:
        """Whether a build is in the suite."""
        return f"{build.architecture} {build.package} {build.version} {build.source}" in self.texts

    def owners(self, packages: Collection[str]) -> Mapping[Key, str]:
        """The sources of the rows of these packages."""
        if not packages:
            return {}
        words = [text.split(" ") for text in self.texts if text.split(" ", 2)[1] in packages]
        return {(architecture, package): source for architecture, package, _, source in words}


@dataclass(frozen=True)
class User:
    """A source that needs an old or a new package.

    `level` is 1 if it depends on no other user by these packages, else one more than the greatest of those on which it
    depends. `states` says of each architecture what its packages in unstable need. `is_moved` says whether none of its
    packages in testing needs an old one. It needs an upload if testing has its version already, and packages of it
    that need an old one: a run moves no rebuild alone.
    """

    name: str
    level: int
    states: Mapping[str, str]
    is_moved: bool
    is_same: bool

    @property
    def is_built(self) -> bool:
        """Whether it needs no old package in unstable any more, and is built."""
        return all(state in (NEW, NEITHER) for state in self.states.values())

    @property
    def needs_upload(self) -> bool:
        """Whether its rebuild can't move, since testing has its version already."""
        return self.is_built and not self.is_moved and self.is_same

    @property
    def is_done(self) -> bool:
        """Whether nothing is left to do for it but to move."""
        return self.is_built and not self.needs_upload


@dataclass(frozen=True)
class Transition:
    """A source whose packages have other names in unstable, and who needs them."""

    source: str
    testing: str
    unstable: str
    old: Sequence[str]
    new: Sequence[str]
    users: Sequence[User]
    architectures: Sequence[str]

    @property
    def done(self) -> int:
        """How many users need no old package in unstable."""
        return sum(user.is_done for user in self.users)

    @property
    def moved(self) -> int:
        """How many users need no old package in testing."""
        return sum(user.is_done and user.is_moved for user in self.users)

    @property
    def pairs(self) -> Sequence[tuple[str, str]]:
        """Each old name with the new one that differs only in numbers, or with nothing. One of each are a pair."""
        stems = {stem(name): name for name in self.new}
        only = self.new[0] if len(self.old) == len(self.new) == 1 else ""
        return [(name, stems.get(stem(name), only)) for name in self.old]


def stem(name: str) -> str:
    """A package's name without its numbers."""
    return DIGITS.sub("", name)


def suite_of(sources: Mapping[str, str], texts: Sequence[str]) -> Suite:
    """A suite of these sources and rows."""
    found: dict[str, list[str]] = {}
    for text in texts:
        source = text[text.rfind(" ") + 1:]
        if source in found:
            found[source].append(text)
        else:
            found[source] = [text]
    return Suite(sources, frozenset(texts), found)


def suite_of_unstable(told: str) -> Suite:
    """Unstable, from the office's text. It is read with less care than a report, and much faster."""
    head, *texts = told.removesuffix("\n").split("\nbinary ")
    words = (line.split(" ") for line in head.splitlines())
    return suite_of({line[1]: line[2] for line in words if len(line) == 3},
                    [text for text in texts if text.count(" ") == 3])


@dataclass(frozen=True)
class Renamed:
    """A source of which unstable has rows of other packages than testing: its old packages there, and its new ones."""

    source: str
    old: Collection[str]
    new: Collection[str]


class Reader:
    """Finds transitions in two suites and the mail."""

    def __init__(self, testing: Suite, unstable: Suite, mail: KeptMail) -> None:
        self.testing, self.unstable, self.mail = testing, unstable, mail
        self.known: dict[str, Mapping[str, bool]] = {}

    def transitions(self, names: Collection[str]) -> Sequence[Transition]:
        """The transitions of these sources, those with the most users first."""
        renamed = self.renamed([name for name in names if name in self.testing.by_source
                                and name in self.unstable.by_source and name in self.unstable.sources
                                and is_changed(self.testing.rows(name), self.unstable.rows(name),
                                               self.unstable.sources[name])])
        needing = self.mail.needing({name for one in renamed for name in (*one.old, *one.new)})
        found = [self.transition(one, {source for name in (*one.old, *one.new) for source in needing.get(name, ())})
                 for one in renamed]
        return sorted((one for one in found if one is not None), key=lambda one: (-len(one.users), one.source))

    def renamed(self, names: Sequence[str]) -> Sequence[Renamed]:
        """Of these sources those with packages in testing that unstable has no more."""
        builds = self.mail.builds(names)
        after = {name: self.current(name, builds[name]) for name in names}
        left = {name: self.left(name, after[name]) for name in names}
        # A package that is no more in unstable as one of the source may be there as one of another source.
        owners = self.unstable.owners({key[1] for name in names for key in left[name]
                                       if key not in self.unstable.rows(name)})
        found = []
        for name in names:
            provided = {other for build in after[name].values() for others in clause_names(build.provides)
                        for other in others}
            old = {key[1] for key in left[name] if owners.get(key, name) == name} - provided
            if old:
                before = {package for _, package in self.testing.rows(name)}
                found.append(Renamed(name, old, {key[1] for key in after[name]} - before))
        return found

    def current(self, source: str, builds: Mapping[tuple[str, str, str], Build]) -> Mapping[Key, Build]:
        """The rows of a source in unstable that are built of its version there."""
        found: dict[Key, Build] = {}
        for (architecture, package), version in self.unstable.rows(source).items():
            build = builds.get((architecture, package, version))
            if build is not None and build.source_version == self.unstable.sources.get(source):
                found[architecture, package] = build
        return found

    def left(self, source: str, after: Mapping[Key, Build]) -> Sequence[Key]:
        """The rows of a source in testing without a current one in unstable, where it is built."""
        built = {architecture for architecture, _ in after}
        return [key for key in self.testing.rows(source) if key[0] in built and key not in after]

    def transition(self, one: Renamed, needing: Collection[str]) -> Optional[Transition]:
        """The transition of a source with these packages, which those sources need; None if it has none."""
        users = self.users(one, needing)
        if not users:
            return None
        architectures = sorted({architecture for user in users for architecture in user.states})
        return Transition(one.source, self.testing.sources[one.source], self.unstable.sources[one.source],
                          sorted(one.old), sorted(one.new), users, architectures)

    def users(self, one: Renamed, needing: Collection[str]) -> Sequence[User]:
        """Of these sources those that need the packages of another one, by level and name. There are none if none
        needs an old one."""
        in_testing: dict[str, list[Build]] = collections.defaultdict(list)
        in_unstable: dict[str, list[Build]] = collections.defaultdict(list)
        both = {*one.old, *one.new}
        for source, builds in self.mail.builds({source for source in needing if source != one.source}).items():
            for build in builds.values():
                is_in = self.testing.has(build), self.unstable.has(build)
                if any(is_in) and needs(build, both):
                    if is_in[0]:
                        in_testing[source].append(build)
                    if is_in[1]:
                        in_unstable[source].append(build)
        names = {*in_testing, *in_unstable}
        if not any(needs(build, one.old) for builds in in_testing.values() for build in builds):
            return ()
        built = self.built(names)
        levels = levels_of({name: [*in_unstable.get(name, ()), *in_testing.get(name, ())] for name in names})
        found = [User(name, levels[name],
                      self.states(name, in_unstable.get(name, ()), built.get(name, {}), (one.old, one.new)),
                      not any(needs(build, one.old) for build in in_testing.get(name, ())),
                      self.testing.sources.get(name) == self.unstable.sources.get(name)) for name in names]
        return sorted(found, key=lambda user: (user.level, user.name))

    def built(self, names: Collection[str]) -> Mapping[str, Mapping[str, bool]]:
        """Of each of these sources the architectures on which unstable has rows of it, and whether one is current."""
        todo = [name for name in names if name not in self.known]
        for name, builds in self.mail.builds(todo).items():
            current = {architecture for architecture, _ in self.current(name, builds)}
            self.known[name] = {architecture: architecture in current
                                for architecture, _ in self.unstable.rows(name)}
        return {name: self.known[name] for name in names if self.known[name] and name in self.unstable.sources}

    def states(self, name: str, builds: Sequence[Build], built: Mapping[str, bool],
               names: tuple[Collection[str], Collection[str]]) -> Mapping[str, str]:
        """What a source's packages in unstable need, by architecture."""
        if not built:
            return {architecture: GONE for architecture in {build.architecture for build in builds} or {"all"}}
        found = {}
        for architecture, is_current in built.items():
            needed = [build for build in builds if build.architecture == architecture
                      and build.source_version == self.unstable.sources[name]]
            if not is_current:
                found[architecture] = MISSING
            elif any(needs(build, names[0]) for build in needed):
                found[architecture] = OLD
            else:
                found[architecture] = NEW if needed else NEITHER
        return found


def is_changed(before: Mapping[Key, str], after: Mapping[Key, str], version: str) -> bool:
    """Whether on one architecture some rows of a source are gone or of another version than it is, and some are new."""
    old = {key[0] for key in before if REBUILD.sub("", after.get(key, "")) != version}
    return bool(old) and any(key[0] in old and before.get(key) != version for key, version in after.items())


def needs(build: Build, names: Collection[str]) -> bool:
    """Whether a clause of a build can be met by these packages alone, by their names."""
    return any(all(name in names for name in clause) for clause in clause_names(build.clauses))


def levels_of(builds: Mapping[str, Iterable[Build]]) -> Mapping[str, int]:
    """The level of each of these sources by what their builds need of each other. Those of a circle have one level."""
    source_of = {build.package: name for name, some in builds.items() for build in some}
    left = {name: {source_of[other] for build in some for clause in clause_names(build.clauses) for other in clause
                   if other in source_of} - {name} for name, some in builds.items()}
    found: dict[str, int] = {}
    level = 1
    while left:
        free = [name for name, others in left.items() if not others - found.keys()] or circle_of(left, found)
        found |= dict.fromkeys(free, level)
        left = {name: others for name, others in left.items() if name not in found}
        level += 1
    return found


def circle_of(left: Mapping[str, set[str]], done: Mapping[str, int]) -> Sequence[str]:
    """Sources that need each other and no other one that isn't done: those that reach the fewest others."""
    reached = {name: reached_from(name, left, done) for name in left}
    first = min(left, key=lambda name: (len(reached[name]), name))
    return sorted({first, *reached[first]})


def reached_from(name: str, left: Mapping[str, set[str]], done: Mapping[str, int]) -> set[str]:
    """The sources on which one rests, over all steps."""
    found: set[str] = set()
    todo = [name]
    while todo:
        new = left[todo.pop()] - done.keys() - found
        found |= new
        todo += new
    return found
