"""What stays as it is in testing if the archive no longer has all that the office's testing has.

A source is held back if its version or one of its packages can't be copied. With it are held back the sources that a
run moved in the same group, and the sources that share a package name with it. So is what the judge finds broken in the
resulting testing. What is left moves. Without a judge all that changes is held back.
"""
from collections import defaultdict
from dataclasses import dataclass, field
from typing import Callable, Iterator, Mapping, Optional, Sequence

from office_tools.apply.contents import ALL, Contents, Row, Source
from office_tools.look.judge import Broken, Judge, Known, Package, names_of

Groups = Callable[[frozenset[str]], Sequence[frozenset[str]]]
"""The groups by which runs moved some of these sources."""


@dataclass(frozen=True)
class Evidence:
    """What is asked before a part of testing is held back: the groups of the runs, and a judge of packages.

    Packages of `all` are judged on the first of the `architectures` alone, as the office judges them.
    """

    groups: Groups = lambda names: ()
    judge: Optional[Judge] = None
    architectures: Sequence[str] = ()
    known: Callable[[], Known] = dict


@dataclass(frozen=True)
class Held:
    """What the office wants without what is held back, and the sources that are held back, each with the reason."""

    want: Contents
    why: Mapping[str, str] = field(default_factory=dict)


def incomplete(lacks: Contents, want: Contents) -> Mapping[str, str]:
    """The sources that can't be copied whole, each with the first line on what is missing."""
    found: dict[str, str] = {}
    for source in sorted(lacks.sources):
        found.setdefault(source.name, f"there is no source {source.name} {source.version} to copy")
    for row in sorted(lacks.rows):
        found.setdefault(want.built_of[row].name,
                         f"there is no binary {row.architecture} {row.name} {row.version} to copy")
    return found


def without_source(lacks: Contents, want: Contents, have: Contents, origin: Contents) -> frozenset[Source]:
    """The sources that can't be copied and have no version in either suite, and whose packages are all there."""
    names = {source.name for source in have.sources | origin.sources}
    absent = {want.built_of[row].name for row in lacks.rows}
    building = {want.built_of[row].name for row in want.rows}
    return frozenset(source for source in lacks.sources if source.name not in names and source.name not in absent
                     and source.name in building)


class Holding:
    """Finds what is held back with the sources that can't be copied."""

    def __init__(self, want: Contents, have: Contents, evidence: Evidence) -> None:
        self.want, self.have, self.evidence = want, have, evidence
        self.changed = changed(want, have)
        self.held: dict[str, str] = {}
        self.texts: Known = {}

    def held_with(self, absent: Mapping[str, str]) -> Held:
        """What is held back with these sources."""
        self.held = dict(absent)
        if self.evidence.judge is None:
            self.hold(self.changed, "neither installcheck nor dose-debcheck is installed to judge testing without it")
            return Held(self.result(), self.held)
        groups = self.evidence.groups(frozenset(self.changed))
        self.texts = self.evidence.known()
        before = {architecture: self.broken(architecture, self.have) for architecture in self.evidence.architectures}
        while self.hold_groups(groups) or self.hold_names() or self.hold_broken(self.evidence.judge, before):
            pass
        return Held(self.result(), self.held)

    def hold(self, names: Iterator[str] | set[str] | frozenset[str], why: str) -> bool:
        """Holds back those of these sources that change, and says whether one is new."""
        new = {name for name in names if name in self.changed and name not in self.held}
        self.held.update((name, why) for name in sorted(new))
        return bool(new)

    def hold_groups(self, groups: Sequence[frozenset[str]]) -> bool:
        """Holds back the whole group of each source that is held."""
        return any([self.hold(group, f"it moved in one group with {min(group & set(self.held))}")
                    for group in groups if group & set(self.held)])

    def hold_names(self) -> bool:
        """Holds back the sources that give a package to one that is held, or take one from it."""
        sources: dict[tuple[str, str], set[str]] = defaultdict(set)
        for contents in (self.want, self.have):
            for row in contents.rows:
                sources[row.place, row.name].add(contents.built_of[row].name)
        return any([self.hold(names, f"it shares a package name with {min(names & set(self.held))}")
                    for names in sources.values() if len(names) > 1 and names & set(self.held)])

    def hold_broken(self, judge: Judge, before: Mapping[str, Mapping[Package, Broken]]) -> bool:
        """Holds back the sources of packages that would be broken, or if those stay, the sources that break them."""
        result = self.result()
        owner = {package_of(row): result.built_of[row].name for row in result.rows}
        for architecture in self.evidence.architectures:
            new = {package: broken for package, broken in self.broken(architecture, result).items()
                   if package not in before[architecture]}
            why = {package: f"{package.name} couldn't be installed on {architecture}: {broken.cause}"
                   for package, broken in new.items()}
            if any([self.hold({owner[package]}, why[package]) for package in new]):
                return True
            if any([self.hold(self.blamed(broken), why[package]) for package, broken in new.items()]):
                return True
            if new:
                return self.hold(self.changed, next(iter(why.values())))
        return False

    def broken(self, architecture: str, contents: Contents) -> Mapping[Package, Broken]:
        """The packages of a suite that can't be installed on an architecture, without those that nobody watches."""
        assert self.evidence.judge is not None
        packages = {package_of(row): self.texts.get(package_of(row)) for row in contents.rows
                    if row.place in (architecture, ALL)}
        watched = (architecture, ALL) if architecture == self.evidence.architectures[0] else (architecture,)
        there = {package: text for package, text in packages.items() if text is not None}
        found = {broken.package: broken for broken in self.evidence.judge(architecture, there)}
        found.update((package, Broken(package, "no index has it", frozenset()))
                     for package, text in packages.items() if text is None)
        return {package: broken for package, broken in found.items() if package.architecture in watched}

    def blamed(self, broken: Broken) -> set[str]:
        """The changing sources whose packages the causes mention."""
        return {source.name for contents in (self.want, self.have) for row, source in contents.built_of.items()
                if source.name in self.changed and source.name not in self.held and row in contents.rows
                and names_of(package_of(row), self.texts) & broken.named}

    def result(self) -> Contents:
        """The testing that results: the held sources as testing has them, all others as the office wants them."""
        new = {row: source for row, source in self.want.built_of.items()
               if row in self.want.rows and source.name not in self.held}
        old = {row: self.have.built_of[row] for row in self.have.rows if self.have.built_of[row].name in self.held}
        sources = {source for source in self.want.sources if source.name not in self.held} | \
            {source for source in self.have.sources if source.name in self.held}
        return Contents(frozenset(sources), frozenset({**old, **new}), {**old, **new}, sent=self.want.sent)


def changed(want: Contents, have: Contents) -> frozenset[str]:
    """The sources whose version or packages differ in two suites."""
    come, go = want.without(have), have.without(want)
    names = {source.name for source in come.sources | go.sources}
    names |= {want.built_of[row].name for row in come.rows} | {have.built_of[row].name for row in go.rows}
    return frozenset(names)


def package_of(row: Row) -> Package:
    """A row without its index."""
    return Package(row.name, row.version, row.architecture)
