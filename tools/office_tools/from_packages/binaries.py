"""The binary packages of an archive's indexes, as far as the office takes them."""
import dataclasses
import functools
from collections import defaultdict
from dataclasses import dataclass
from typing import Iterator, Mapping, Optional, Sequence

from office_tools import messages, relations, versions
from office_tools.bags import LONGEST
from office_tools.control import Fields, Reader, sections
from office_tools.from_packages.told import Weight, tell
from office_tools.relations import Alternative, Bad, Clause

Key = tuple[str, str]  # a package's name and its architecture

GREATEST_LABEL = messages.Label("bd", 999_999_999)


@dataclass(frozen=True)
class Binary:
    """A binary package: the values of its fields as they are sent, and what is read from them.

    Its relations are read when they are asked for.
    """

    name: str
    version: str
    architecture: str
    source: str
    source_version: str
    fields: Mapping[str, str]

    @functools.cached_property
    def clauses(self) -> Sequence[Clause]:
        """What it needs."""
        return [clause for field in ("Pre-Depends", "Depends")
                for clause in relations.clauses(self.fields.get(field, ""), field)]

    @functools.cached_property
    def provisions(self) -> Sequence[Alternative]:
        """What it provides."""
        return relations.provisions(self.fields.get("Provides", ""))

    @property
    def key(self) -> Key:
        """The key of a package: its name and its architecture."""
        return self.name, self.architecture

    def paragraph(self) -> bytes:
        """Its paragraph in a build."""
        return messages.binary(self.fields)


def binary_of(fields: Mapping[str, str]) -> Binary:
    """A binary package as it is sent. The fields are looked at in the office's order; relations that were good once
    are good.
    """
    name = relations.checked_name(fields.get("Package", ""), "Package")
    version = relations.checked_version(fields.get("Version", ""))
    architecture = relations.checked_architecture(fields.get("Architecture", ""))
    source, source_version = relations.source_of(fields.get("Source"), name, version)
    binary = Binary(name, version, architecture, source, source_version, fields)
    if not isinstance(fields, Fields) or not fields.is_good:
        _ = binary.clauses, binary.provisions  # so that a bad one is found
    if isinstance(fields, Fields):
        fields.is_good = True
    return binary


def read_binaries(paths: Sequence[str], read: Reader = sections) -> tuple[list[Binary], list[str]]:
    """The binary packages of the files, one for each name on an architecture, in order; and the architectures."""
    found: dict[Key, list[Binary]] = defaultdict(list)
    for path in paths:
        for fields in read(path, [rule.name for rule in messages.BINARY_FIELDS]):
            try:
                binary = binary_of(fields)
            except Bad as bad:
                tell(f"{fields.get('Package', '?')} {fields.get('Version', '?')}: left out: {bad}")
            else:
                found[binary.key].append(binary)
    architectures = list(dict.fromkeys(architecture for _, architecture in found if architecture != "all"))
    return [newest(binaries) for _, binaries in sorted(found.items())], architectures


def newest(binaries: Sequence[Binary]) -> Binary:
    """Of several versions of a package the newest; the others are reported."""
    kept = max(binaries, key=lambda binary: versions.key(binary.version))
    if len(binaries) > 1:
        for version in sorted({binary.version for binary in binaries}, key=versions.key):
            if version != kept.version:
                tell(f"{kept.name} {kept.architecture} {version}: left out: {kept.version} is newer", Weight.NOTE)
    return kept


def fitting(binaries: Sequence[Binary]) -> Iterator[Binary]:
    """The packages that fit into a message, each with what fits of it."""
    room = LONGEST - len(messages.build(GREATEST_LABEL, [b""]))
    needed: Optional[set[str]] = None
    for binary in binaries:
        size = len(binary.paragraph())
        if size <= room:
            yield binary
            continue
        if needed is None:
            needed = {part.name for other in binaries for clause in other.clauses for part in clause}
        short = shortened(binary, needed)
        where = f"{binary.name} {binary.architecture} {binary.version}"
        if len(short.paragraph()) > room:
            tell(f"{where}: left out: it has {size} bytes, and a message at most {LONGEST}")
            continue
        without = len(binary.provisions) - len(short.provisions)
        tell(f"{where}: it has {size} bytes, and a message at most {LONGEST}: left out are {without} of its "
             f"{len(binary.provisions)} provisions, which nothing here needs", Weight.NOTE)
        yield short


def shortened(binary: Binary, needed: set[str]) -> Binary:
    """The package with those of its provisions alone that some package needs."""
    items = relations.items(binary.fields.get("Provides", ""))
    kept = [item for item in items if relations.alternative(item, "Provides").name in needed]
    fields = {name: value for name, value in binary.fields.items() if name != "Provides" or kept}
    if kept:
        fields["Provides"] = ", ".join(kept)
    return dataclasses.replace(binary, fields=fields)
