"""The indexes of unstable: files that are named, or what apt fetches for lines of a sources.list."""
import contextlib
import datetime
import email.utils
import os
import shutil
from dataclasses import dataclass, field
from typing import Mapping, Optional, Sequence

from debian import deb822

from office_tools import processes
from office_tools.faults import Exit, Fault, naming
from office_tools.files import write_whole

RELEASES = ("_InRelease", "_Release")
UNSIGNED = " is not signed."
KEY = " by a key that apt trusts here: name the archive's key in the line, as [signed-by=/etc/office/archive.gpg]"


@dataclass(frozen=True)
class Release:
    """What a file Release says of a suite: when it was made, and what it has."""

    date: Optional[datetime.datetime]
    architectures: frozenset[str]
    components: frozenset[str]


@dataclass(frozen=True)
class Files:
    """The files Packages and Sources of a suite, and what the files Release of their archives say, by their names."""

    packages: Sequence[str]
    sources: Sequence[str]
    releases: Mapping[str, Release] = field(default_factory=dict)


def fetched(sources: Sequence[str], folder: str) -> Files:
    """What apt fetches for these sources, each a line of a sources.list, or the name of a file of such lines.

    apt keeps all of it in the folder, and nothing of the system's own lists is read or changed.
    """
    # apt keeps a list that is newer than the archive's: of an archive that was put back it would read the old one.
    with contextlib.suppress(FileNotFoundError):
        shutil.rmtree(os.path.join(folder, "lists"))
    for name in ("lists/partial", "archives/partial", "sources"):
        os.makedirs(os.path.join(folder, name), exist_ok=True)
    part = os.path.join(folder, "sources")
    for name in os.listdir(part):
        os.unlink(os.path.join(part, name))
    lines: list[str] = []
    for number, source in enumerate(sources):
        if not os.path.exists(source):
            lines.append(source)
            continue
        with naming(source):
            suffix = os.path.splitext(source)[1]
            os.symlink(os.path.realpath(source),
                       os.path.join(part, f"{number}{'.sources' if suffix == '.sources' else '.list'}"))
    write_whole(os.path.join(part, "lines.list"), "".join(line + "\n" for line in lines).encode())
    options, lists = apt_options(folder), os.path.join(folder, "lists")
    apt([*options, "--error-on=any", "--quiet", "update"])
    told = apt([*options, "indextargets", "--format", "$(CREATED_BY) $(FILENAME)"])
    names = [line.split(" ", 1) for line in told.splitlines()]
    return Files(sorted(name for kind, name in names if kind == "Packages"),
                 sorted(name for kind, name in names if kind == "Sources"),
                 {name: release_of(os.path.join(lists, name)) for name in sorted(os.listdir(lists))
                  if name.endswith(RELEASES)})


def release_of(path: str) -> Release:
    """What a file Release says, signed or not. apt has checked the signature."""
    with naming(path, Exit.NEGATIVE, Exception):  # the library has faults of many types
        with open(path, "rb") as file:
            text = file.read().decode(errors="backslashreplace")
        found = deb822.Deb822(text, fields=["Date", "Architectures", "Components"])
    date: Optional[datetime.datetime] = None
    with contextlib.suppress(ValueError, OverflowError, TypeError, IndexError):
        stated = email.utils.parsedate_to_datetime(str(found.get("Date", "")))
        date = stated if stated.tzinfo else stated.replace(tzinfo=datetime.timezone.utc)
    return Release(date, frozenset(found.get("Architectures", "").split()),
                   frozenset(found.get("Components", "").split()))


def apt_options(folder: str) -> Sequence[str]:
    """The options by which apt-get works in this folder alone."""
    places = {"Dir::Etc::SourceList": "/dev/null", "Dir::Etc::SourceParts": f"{folder}/sources",
              "Dir::State::Lists": f"{folder}/lists", "Dir::State::status": "/dev/null",
              "Dir::Cache": folder, "Dir::Cache::Archives": f"{folder}/archives",
              "Acquire::Languages": "none", "APT::Get::List-Cleanup": "true"}
    return [word for name, value in places.items() for word in ("-o", f"{name}={value}")]


def apt(words: Sequence[str]) -> str:
    """What apt-get prints. If it fails, its first error is the `Fault`, with the way out if a key is missing."""
    ran = processes.ended(["apt-get", *words], env=processes.english())
    if ran.returncode:
        told = [line for line in processes.text(ran.stderr).splitlines() if line.startswith("E:")]
        cause = told[0][2:].strip() if told else f"status {ran.returncode}"
        raise Fault("apt-get: " + (cause[:-1] + KEY if cause.endswith(UNSIGNED) else cause), Exit.FAILED)
    return processes.text(ran.stdout)
