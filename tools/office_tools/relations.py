"""Relations between packages: the values of Depends, Pre-Depends, Provides and Source, as the office takes them.

apt and python3-debian read relations too, but they take more than the office does: architecture lists, build profiles
and names of any form. apt also drops without a word what isn't for its own architecture. What the office would refuse
has to be seen before it is sent, so the office's own forms are here (docs/RULES.md).
"""
import functools
import re
from dataclasses import dataclass
from typing import Optional, Sequence

from office_tools import versions
from office_tools.messages import WHITE

NAME = re.compile(r"[a-z0-9][a-z0-9+.-]+")
ARCHITECTURE = re.compile(r"[a-z0-9][a-z0-9-]{0,31}")
BLANK = r"[ \t\r\n]*"  # the office's white: Python's `\s` has more
WORD = r"[^ \t\r\n]+?"
ALTERNATIVE = re.compile(rf"([a-z0-9][a-z0-9+.-]+)(?::[a-z0-9-]+)?{BLANK}"
                         rf"(?:\({BLANK}(<<|<=|=|>=|>>|<|>){BLANK}([^ \t\r\n()]+){BLANK}\))?")
SOURCE = re.compile(rf"({WORD}){BLANK}(?:\({BLANK}({WORD}){BLANK}\))?")


class Bad(Exception):
    """A value that the office would refuse, and why."""


@dataclass(frozen=True)
class Alternative:
    """A name, and a relation to a version or neither of both. The qualifier after the name is left out."""

    name: str
    relation: Optional[str]
    version: Optional[str]

    def __str__(self) -> str:
        return f"{self.name} ({self.relation} {self.version})" if self.relation else self.name

    def is_met_by(self, version: Optional[str]) -> bool:
        """Whether a package or a provision of this name meets it; None is a provision without a version."""
        if self.relation is None or self.version is None:
            return True
        return version is not None and versions.holds(self.relation, version, self.version)


Clause = tuple[Alternative, ...]


def written(clause: Clause) -> str:
    """A clause as it is written."""
    return " | ".join(map(str, clause))


def items(value: str) -> Sequence[str]:
    """The items of a list by commas."""
    return [item.strip(WHITE) for item in value.split(",") if item.strip(WHITE)]


def checked_name(name: str, field: str) -> str:
    """The name of a package, if it is one."""
    if not NAME.fullmatch(name):
        raise Bad(f"bad {field} {name[:60]!r}")
    return name


def checked_architecture(name: str) -> str:
    """The name of an architecture, or `all`, if it is one."""
    if not ARCHITECTURE.fullmatch(name):
        raise Bad(f"bad Architecture {name[:60]!r}")
    return name


@functools.lru_cache(maxsize=None)
def checked_version(version: str) -> str:
    """The version, if it is one."""
    if not versions.is_version(version):
        raise Bad(f"bad version {version!r}")
    return version


@functools.lru_cache(maxsize=None)
def alternative(text: str, field: str) -> Alternative:
    """One alternative of a relation."""
    found = ALTERNATIVE.fullmatch(text.strip(WHITE))
    if not found:
        raise Bad(f"bad {field} {text.strip(WHITE)[:60]!r}")
    if found[3] is not None:
        checked_version(found[3])
    return Alternative(found[1], found[2], found[3])


@functools.lru_cache(maxsize=None)
def clause_of(item: str, field: str) -> Clause:
    """The clause that an item of Depends or Pre-Depends is."""
    return tuple(alternative(part, field) for part in item.split("|"))


def clauses(value: str, field: str) -> Sequence[Clause]:
    """The clauses of a value of Depends or Pre-Depends."""
    return [clause_of(item, field) for item in items(value)]


def provisions(value: str) -> Sequence[Alternative]:
    """What a value of Provides provides."""
    found = [alternative(item, "Provides") for item in items(value)]
    if any(provision.relation not in (None, "=") for provision in found):
        raise Bad("a relation in Provides that isn't '='")
    return found


def source_of(value: Optional[str], package: str, version: str) -> tuple[str, str]:
    """The name and the version of a binary package's source, by its field Source or without one."""
    found = SOURCE.fullmatch(package if value is None else value)
    if not found:
        raise Bad(f"bad Source {(value or '')[:60]!r}")
    return checked_name(found[1], "Source"), checked_version(found[2] or version)
