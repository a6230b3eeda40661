"""Local repositories of aptly. Packages of installers (udeb) are left alone."""
import dataclasses
import functools
import json
import os
import re
from typing import Sequence

from office_tools.apply.contents import Contents, Indexes, Row, Source
from office_tools.apply.managers import Manager, parts, run
from office_tools.apply.published import source_of
from office_tools.faults import Exit, Fault, ending
from office_tools.files import read_bytes

FORMAT = "{{.ShortKey}} {{.Source}}"
KEY = re.compile(r"P(\S+) (\S+) (\S+) (.*)")
NO_VALUE = "<no value>"
INSTALLERS = "$PackageType (udeb)"


class Aptly(Manager):
    """The repositories `origin` and `testing`; testing is published under its own name and this prefix."""

    indexes = Indexes.ONCE

    def __init__(self, config: str, repositories: Sequence[str], prefix: str, publish: Sequence[str]) -> None:
        self.config = config
        self.origin_name, self.testing_name = repositories
        self.prefix = prefix
        self.words = publish

    def aptly(self, *words: str) -> str:
        """What a command prints."""
        return run(["aptly", f"-config={self.config}", *words])

    @functools.cached_property
    def root(self) -> str:
        """The folder that has all of aptly's, by the configuration as aptly itself reads it."""
        try:
            return os.path.expanduser(str(json.loads(self.aptly("config", "show"))["rootDir"]))
        except (ValueError, TypeError, KeyError) as fault:
            raise Fault(f"{self.config}: aptly shows no rootDir of it", Exit.REFUSED) from fault

    def architectures(self) -> Sequence[str]:
        release = os.path.join(self.published_folders()[0], "Release")
        if not os.path.exists(release):
            raise Fault(f"{release}: {self.testing_name} isn't published yet: aptly publish repo does it once",
                        Exit.REFUSED)
        for name in (self.origin_name, self.testing_name):
            self.shown(name)
        found = re.search(rb"^Architectures:(.*)$", read_bytes(release), re.MULTILINE)
        names = found[1].decode(errors="backslashreplace").split() if found else []
        return sorted(set(names) - {"source", "all"})

    def shown(self, repository: str) -> str:
        """What aptly prints of a repository; a missing one is refused."""
        with ending(Exit.REFUSED):
            return self.aptly("repo", "show", repository)

    def search(self, repository: str, query: str) -> Sequence[str]:
        """The lines by which aptly prints the packages that a query finds."""
        try:
            return self.aptly("repo", "search", f"-format={FORMAT}", repository, query).splitlines()
        except Fault as fault:
            if "no results" in fault.cause:
                return []
            raise

    def listed(self, repository: str) -> Contents:
        if re.search(r"^Number of packages: 0$", self.shown(repository), re.MULTILINE):
            return Contents()
        sources: set[Source] = set()
        built_of: dict[Row, Source] = {}
        for line in self.search(repository, f"!{INSTALLERS}"):
            found = KEY.fullmatch(line)
            if found is None:
                raise Fault(f"aptly: it lists a package as {line!r}", Exit.REFUSED)
            architecture, name, version, source = found.groups()
            if architecture == "source":
                sources.add(Source(name, version))
            else:
                value = None if source == NO_VALUE else source
                built_of[Row(architecture, architecture, name, version)] = source_of(self.config, value, name, version)
        return Contents(frozenset(sources), frozenset(built_of), built_of)

    def origin(self) -> Contents:
        others = len(self.search(self.origin_name, INSTALLERS))
        return dataclasses.replace(super().origin(), other_kinds={"udeb": others} if others else {})

    def copy(self, come: Contents) -> None:
        for part in parts(references(come)):
            self.aptly("repo", "copy", self.origin_name, self.testing_name, *part)

    def remove(self, go: Contents) -> None:
        for part in parts(references(go)):
            self.aptly("repo", "remove", self.testing_name, *part)

    def published_folders(self) -> Sequence[str]:
        return [os.path.join(self.root, "public", self.prefix, "dists", name)
                for name in (self.testing_name, self.origin_name)]

    def publish(self) -> None:
        self.aptly("publish", "update", "-batch", *self.words, self.testing_name, self.prefix)


def references(contents: Contents) -> Sequence[str]:
    """What aptly calls these sources and rows, the sources first."""
    return [f"{source.name}_{source.version}_source" for source in sorted(contents.sources)] + \
        [f"{row.name}_{row.version}_{row.architecture}" for row in sorted(contents.rows)]
