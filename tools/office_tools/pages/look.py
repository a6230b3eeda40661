"""What makes the pages beside what is kept: the words of the command, and the program's own files.

Of the words the patterns of addresses say where links lead out of the pages.
"""
import functools
import hashlib
import os
import urllib.parse
from dataclasses import dataclass, field
from typing import Iterable, Iterator, Mapping

from office_tools.pages.kept_mail import Person
from office_tools.pages.names import beginning_of
from office_tools.pages.state import State

FIRST_PAGE = "index.html"
HERE = os.path.dirname(os.path.realpath(__file__))
MOST_KEPT = 1 << 12  # values that are kept as in addresses

BUGS = "https://bugs.debian.org/%s"
TRACKER = "https://tracker.debian.org/pkg/%s"
BUILDS = "https://buildd.debian.org/status/logs.php?pkg=%s&arch=%a"
CHANGELOG = "https://metadata.ftp-master.debian.org/changelogs/main/%p/%s/%s_%v_changelog"


@dataclass(frozen=True)
class Patterns:
    """The patterns. An empty one makes no links.

    In each `%s` means what is looked for: a bug's number, or a source's name. In that of builds `%a` is the
    architecture; in that of changelogs `%v` is the version without its epoch, and `%p` the source's folder in a pool.
    """

    bugs: str = BUGS
    tracker: str = TRACKER
    builds: str = BUILDS
    changelog: str = CHANGELOG

    def bug(self, number: str) -> str:
        """Where a bug is."""
        return self.bugs.replace("%s", quoted(number))

    def source(self, source: str) -> str:
        """Where everything on a source is."""
        return self.tracker.replace("%s", quoted(source))

    def logs(self, source: str, architecture: str = "") -> str:
        """Where the builds of a source are, on one architecture or on all."""
        return self.builds.replace("%s", quoted(source)).replace("%a", quoted(architecture))

    def changes(self, source: str, version: str) -> str:
        """Where the changelog of a source's version is."""
        number = version.rpartition(":")[2]
        return self.changelog.replace("%s", quoted(source)).replace("%v", quoted(number)).replace(
            "%p", quoted(beginning_of(source)))


@functools.lru_cache(MOST_KEPT)
def quoted(value: str) -> str:
    """A value as in an address. The same names are in several addresses."""
    return urllib.parse.quote(value, safe="~")


@dataclass(frozen=True)
class Extras:
    """What the words of the command add: the address of the pages, and a file that says who maintains what.

    `address` ends with a slash, or is empty. `digest` is one of the file.
    """

    address: str = ""
    people: Mapping[str, Person] = field(default_factory=dict)
    digest: str = ""


@dataclass(frozen=True)
class Look:
    """What makes the pages. If one of its digests changes, each page is looked at."""

    patterns: Patterns
    extras: Extras

    @functools.cached_property
    def digest(self) -> str:
        """A digest of what makes each page."""
        return digest_of([repr(self.patterns), self.extras.address, *map(repr, own_files())])

    @property
    def made_by(self) -> str:
        """The same with who maintains what."""
        return self.digest + self.extras.digest

    def is_fresh(self, folder: str, state: State) -> bool:
        """Whether all pages of a folder were made so since anything was kept."""
        return os.path.exists(os.path.join(folder, FIRST_PAGE)) and state.built() == (self.made_by, True)


def digest_of(parts: Iterable[str]) -> str:
    """A digest of texts."""
    return hashlib.blake2b("\0".join(parts).encode(), digest_size=16).hexdigest()


def own_files() -> Iterator[bytes]:
    """The files that make the pages."""
    for folder in "", "templates", "static":
        for name in sorted(os.listdir(os.path.join(HERE, folder))):
            if name.endswith((".py", ".html", ".css", ".js")):
                with open(os.path.join(HERE, folder, name), "rb") as file:
                    yield file.read()
