"""The indexes of a suite as they are published: what they have, and whether they are whole.

dak publishes a suite as a file HeidiResult sets it.
"""
import hashlib
import os
from typing import Optional, Sequence

from debian import deb822

from office_tools import relations, versions
from office_tools.apply.contents import Contents, Indexes, Row, Source
from office_tools.control import sections
from office_tools.deciding import SOURCE
from office_tools.faults import Exit, Fault, cause_of
from office_tools.files import read_bytes

SUFFIXES = ("", ".gz", ".xz", ".bz2", ".zst", ".lz4", ".lzma")

Stated = dict[str, dict[str, str]]
"""For each index, by its name without a suffix, the files that have it, each with its digest."""


def read_indexes(packages: Sequence[tuple[str, str]], sources: Sequence[str]) -> Contents:
    """What is in these files Packages, each after its architecture, and in these files Sources.

    A source that the archive keeps only for packages built with it doesn't count.
    """
    found: set[Source] = set()
    built_of: dict[Row, Source] = {}
    for path in sources:
        for fields in sections(path, ["Package", "Version", "Extra-Source-Only"]):
            if fields.get("Extra-Source-Only", "no") != "yes":
                found.add(Source(needed(path, fields.get("Package")), needed(path, fields.get("Version"))))
    for place, path in packages:
        for fields in sections(path, ["Package", "Version", "Architecture", "Source"]):
            name, version = needed(path, fields.get("Package")), needed(path, fields.get("Version"))
            architecture = needed(path, fields.get("Architecture"))
            built_of[Row(place or architecture, architecture, name, version)] = \
                source_of(path, fields.get("Source"), name, version)
    return Contents(frozenset(found), frozenset(built_of), built_of)


def source_of(path: str, value: Optional[str], name: str, version: str) -> Source:
    """The source that a package names."""
    try:
        return Source(*relations.source_of(value, name, version))
    except relations.Bad as bad:
        raise Fault(f"{path}: {name} {version}: {bad}") from bad


def needed(path: str, value: Optional[str]) -> str:
    """The value of a field that each paragraph has."""
    if value is None:
        raise Fault(f"{path}: a paragraph misses its name, version or architecture")
    return value


def shows(folder: str, have: Contents, indexes: Indexes) -> bool:
    """Whether the folder of a suite (dists/SUITE) is whole, and has these contents."""
    stated = read_release(folder)
    if stated is None or not is_whole(folder, stated):
        return False
    found = read_folder(folder, stated, indexes)
    has_sources = any(os.path.basename(stem) == "Sources" for stem in stated)
    return found.rows == have.rows and (found.sources == have.sources or not has_sources)


def is_whole(folder: str, stated: Stated) -> bool:
    """Whether each index exists, and is the one that Release states. A publisher that was ended may leave others."""
    for files in stated.values():
        there = {name: os.path.join(folder, name) for name in files if os.path.exists(os.path.join(folder, name))}
        if not there:
            return False
        if any(hashlib.sha256(read_bytes(path)).hexdigest() != files[name] for name, path in there.items()):
            return False
    return True


def packages_of(folder: str) -> Sequence[str]:
    """The files Packages of a suite's folder that Release states; none if there is no such folder."""
    stated = read_release(folder) or {}
    paths = [[os.path.join(folder, name) for name in sorted(files)] for stem, files in sorted(stated.items())
             if os.path.basename(stem) == "Packages"]
    there = [[path for path in part if os.path.exists(path)] for part in paths]
    return [part[0] for part in there if part]


def read_folder(folder: str, stated: Stated, indexes: Indexes) -> Contents:
    """What the indexes have that Release states."""
    packages: list[tuple[str, str]] = []
    sources: list[str] = []
    for stem, files in sorted(stated.items()):
        path = next(path for path in (os.path.join(folder, name) for name in sorted(files)) if os.path.exists(path))
        if os.path.basename(stem) == "Sources":
            sources.append(path)
        else:
            place = os.path.basename(os.path.dirname(stem)).removeprefix("binary-")
            packages.append((place if indexes is Indexes.EACH else "", path))
    return read_indexes(packages, sources)


def read_release(folder: str) -> Optional[Stated]:
    """The files of each index of packages that Release states, with their digests.

    None if there is no Release, or one that isn't control data with lists of files.
    """
    path = os.path.join(folder, "Release")
    try:
        with open(path, "rb") as file:
            entries = list(deb822.Release(file.read().decode(errors="backslashreplace")).get("SHA256", []))
    except FileNotFoundError:
        return None
    except OSError as fault:
        raise Fault(f"{path}: {cause_of(fault)}") from fault
    except Exception:  # the library has faults of many types
        return None
    if not all("name" in entry and "sha256" in entry for entry in entries):
        return None
    found: Stated = {}
    for entry in entries:
        name = entry["name"]
        stem, suffix = os.path.splitext(name) if name.endswith(SUFFIXES[1:]) else (name, "")
        if os.path.basename(stem) in ("Packages", "Sources") and suffix in SUFFIXES and "debian-installer" not in stem:
            found.setdefault(stem, {})[name] = entry["sha256"]
    return found


def heidi_of(contents: Contents) -> bytes:
    """The text of a file HeidiResult: a line `NAME VERSION ARCHITECTURE` for each package and source."""
    lines = sorted(f"{row.name} {row.version} {row.architecture}\n" for row in contents.rows)
    lines += sorted(f"{source.name} {source.version} {SOURCE}\n" for source in contents.sources)
    return "".join(lines).encode()


def read_heidi(path: str) -> Contents:
    """What such a file has; nothing if there is none."""
    if not os.path.exists(path):
        return Contents()
    sources: set[Source] = set()
    rows: set[Row] = set()
    for number, line in enumerate(read_bytes(path).decode(errors="backslashreplace").splitlines(), 1):
        words = line.split()
        if len(words) != 3 or not versions.is_version(words[1]):
            raise Fault(f"{path}:{number}: it isn't PACKAGE VERSION ARCHITECTURE", Exit.REFUSED)
        name, version, architecture = words
        if architecture == SOURCE:
            sources.add(Source(name, version))
        else:
            rows.add(Row(architecture, architecture, name, version))
    return Contents(frozenset(sources), frozenset(rows))
