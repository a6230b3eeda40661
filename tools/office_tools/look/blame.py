"""Which sources a run must not move, since a package couldn't be installed in the testing that it would leave."""
import functools
import itertools
from dataclasses import dataclass, field
from typing import Iterator, Mapping, Sequence

from office_tools import reports
from office_tools.apply import marks
from office_tools.look.judge import Broken, Judge, Known, Package, names_of

ALL = "all"


@dataclass(frozen=True)
class Step:
    """A run: the testing before it and after it."""

    before: reports.Testing
    after: reports.Testing

    @functools.cached_property
    def moved(self) -> frozenset[str]:
        """The sources that it moved."""
        return frozenset(name for name, version in self.after.sources.items()
                         if self.before.sources.get(name) != version)

    @functools.cached_property
    def removed(self) -> frozenset[str]:
        """The sources that it took out."""
        return frozenset(self.before.sources) - frozenset(self.after.sources)

    @functools.cached_property
    def changing(self) -> Mapping[str, frozenset[Package]]:
        """The packages of each source that it moved or took out, old and new."""
        found: dict[str, set[Package]] = {name: set() for name in self.moved | self.removed}
        for row in itertools.chain(self.before.rows, self.after.rows):
            if row.source in found:
                found[row.source].add(package_of(row))
        return {name: frozenset(packages) for name, packages in found.items()}

    @functools.cached_property
    def architectures(self) -> list[str]:
        """The architectures of testing in listed order, without `all`."""
        return list(dict.fromkeys(row.architecture for row in self.after.rows if row.architecture != ALL))


@dataclass
class Eye:
    """A judge over the archive's own paragraphs, and what it found broken in testing before a run."""

    judge: Judge
    known: Known
    seen: dict[tuple[int, str], frozenset[Package]] = field(default_factory=dict)

    def broken(self, testing: reports.Testing, architecture: str, first: str) -> Mapping[Package, Broken]:
        """The packages that can't be installed; those of `all` count on the first architecture alone."""
        packages = {package: self.known[package] for package in map(package_of, testing.rows)
                    if package.architecture in (architecture, ALL) and package in self.known}
        watched = (architecture, ALL) if architecture == first else (architecture,)
        return {broken.package: broken for broken in self.judge(architecture, packages)
                if broken.package.architecture in watched}

    def culprits(self, step: Step) -> Sequence[Mapping[str, str]]:
        """The sources that a run should not have moved or removed, each with a sentence, in three parts.

        First come those with a package missing in the archive, then those that break a package that stays. Last come
        those whose own packages are broken: without the former they may be right.
        """
        moved = step.moved
        lacking = dict(self.lacking(step.after, moved))
        if lacking or not moved | step.removed:
            return [lacking]
        owner = {package_of(row): row.source for row in step.after.rows}
        staying: dict[str, str] = {}
        coming: dict[str, str] = {}
        for architecture in step.architectures:
            for package, broken in self.new(step, architecture).items():
                why = f"{package.name} can't be installed on {architecture}: {broken.cause}"
                if owner[package] in moved:
                    coming.setdefault(owner[package], why)
                else:
                    staying.update((name, why) for name in self.blamed(broken, step))
        return [lacking, staying, coming]

    def new(self, step: Step, architecture: str) -> Mapping[Package, Broken]:
        """What is broken after a run and wasn't before it."""
        first = step.architectures[0]
        key = step.before.finished, architecture
        if key not in self.seen:
            self.seen[key] = frozenset(self.broken(step.before, architecture, first))
        found = sorted(self.broken(step.after, architecture, first).items())
        return {package: broken for package, broken in found if package not in self.seen[key]}

    def lacking(self, after: reports.Testing, moved: frozenset[str]) -> Iterator[tuple[str, str]]:
        """The moved sources with a package missing in the indexes."""
        for row in after.rows:
            if row.source in moved and package_of(row) not in self.known:
                yield row.source, f"the archive has no {row.package} {row.version} on {row.architecture}"

    def blamed(self, broken: Broken, step: Step) -> frozenset[str]:
        """The changing sources with packages, old or new, that the causes mention; without any, all that changes."""
        found = frozenset(name for name, packages in step.changing.items()
                          if any(names_of(package, self.known) & broken.named for package in packages))
        return found or frozenset(step.changing)


def package_of(row: reports.Row) -> Package:
    """A row of testing as the archive has it."""
    return Package(row.package, marks.package_version(row.version), row.architecture)
