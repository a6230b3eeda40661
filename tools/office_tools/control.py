"""Control data of an archive: indexes as apt reads them, and files `.changes`.

`Packages` and `Sources` are read by apt, which takes them compressed in each way that it knows.
"""
import io
import os
import re
import stat
import sys
from dataclasses import dataclass
from typing import Callable, Iterator, Mapping, Optional, Sequence, Union

import apt_pkg
from debian import deb822

from office_tools.faults import Fault, cause_of, naming
from office_tools.messages import BLANKS, WHITE

STRANGE_LINE = re.compile(r"^(?![ \t]|\r?$|[!-9;-~]+:).+", re.MULTILINE)
"""A line that neither continues a field nor begins with the name of one."""

LONGEST_CHANGES = 16_000_000  # bytes of a file .changes that is read

Reader = Callable[[str, Sequence[str]], Iterator[Mapping[str, str]]]
"""How the paragraphs of a file are read, each with those of some fields that it has."""


class Fields(dict[str, str]):
    """The fields of a paragraph that may have been read before; `is_good` if its relations were good."""

    is_good = False


def sections(path: str, names: Sequence[str]) -> Iterator[Mapping[str, str]]:
    """The paragraphs of a file Packages or Sources, each with those of these fields that it has.

    The names of fields are compared without regard to the case of letters, and a value is on one line. The file may be
    compressed; `-` is standard input, which isn't.
    """
    for section, text in raw_sections(path):
        # apt's own list of the names ends the process if one of them isn't ASCII.
        strange = STRANGE_LINE.search(text)
        if strange is not None:
            name, colon, _ = strange[0].partition(":")
            cause = "a field's name isn't ASCII" if colon and " " not in name else "a line has no colon"
            raise Fault(f"{path}: {cause}: {shown(strange[0])}")
        values = ((name, section.get(name)) for name in names)
        yield {name: joined(value) for name, value in values if value is not None}


def raw_sections(path: str) -> Iterator[tuple[Mapping[str, str], str]]:
    """The paragraphs of a file as apt reads them, each with its text."""
    try:
        if path != "-":
            with open(path, "rb"):  # so that the system says why a file can't be read
                pass
        source: Union[str, int] = sys.stdin.fileno() if path == "-" else path
        yield from ((section, str(section)) for section in apt_pkg.TagFile(source))
    except UnicodeDecodeError as fault:
        raise Fault(f"{path}: it is no text in UTF-8") from fault
    except OSError as fault:
        raise Fault(f"{path}: {cause_of(fault)}") from fault
    except apt_pkg.Error as fault:
        raise Fault(f"{path}: apt can't read it: {str(fault).removeprefix('E:')}") from fault


def joined(value: str) -> str:
    """A value in one line."""
    return " ".join(line.strip(BLANKS) for line in value.split("\n")) if "\n" in value else value


def shown(text: str) -> str:
    """The first 60 characters of a foreign text, those that can't be printed by their numbers."""
    return text[:60] if text[:60].isprintable() else ascii(text[:60])[1:-1]


CHANGES_FIELDS = ("Source", "Version", "Architecture", "Urgency", "Date", "Distribution")


@dataclass(frozen=True)
class Changes:
    """What a file `.changes` says of an upload: the urgency's first word, and the date as it is written.

    `has_source` says whether it brings the source, and not what was built alone. `distribution` has the suites for
    which it was made, as its uploader calls them.
    """

    source: str
    version: str
    has_source: bool
    urgency: Optional[str]
    date: Optional[str]
    distribution: str = ""


def read_changes(path: str) -> Changes:
    """The upload that a file `.changes` states, signed or not. The signature isn't checked.

    A byte that isn't UTF-8 is read as its number. Whatever else is wrong with the file is the `Fault`.
    """
    try:
        fields = deb822.Changes(io.BytesIO(read_regular(path).decode(errors="backslashreplace").encode()))
        found = {name: str(fields.get(name, "")) for name in CHANGES_FIELDS}
    except Fault:
        raise
    except Exception as fault:  # the library has faults of many types, and no file may end the command
        raise Fault(f"{path}: {shown(cause_of(fault))}") from fault
    words = {name: re.findall(f"[^{WHITE}]+", value) for name, value in found.items()}
    if not words["Source"] or not words["Version"]:
        raise Fault(f"{path}: it states no source and version")
    urgency = words["Urgency"]
    return Changes(words["Source"][0], found["Version"], "source" in words["Architecture"],
                   urgency[0].lower() if urgency else None, found["Date"] or None, " ".join(words["Distribution"]))


def read_regular(path: str) -> bytes:
    """What a plain file holds. A pipe, which might never end, a device and a very long file are refused."""
    with naming(path):
        number = os.open(path, os.O_RDONLY | os.O_NONBLOCK)
        with os.fdopen(number, "rb") as file:
            kept = os.fstat(number)
            if not stat.S_ISREG(kept.st_mode):
                raise Fault(f"{path}: it is no plain file")
            if kept.st_size > LONGEST_CHANGES:
                raise Fault(f"{path}: it has {kept.st_size} bytes, and at most {LONGEST_CHANGES} are read")
            return file.read(LONGEST_CHANGES)
