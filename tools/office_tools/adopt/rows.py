"""What has to be sent differently, so that each package of an existing testing is in the office's."""
import dataclasses
from collections import defaultdict
from typing import Mapping, Sequence

from office_tools import relations, versions
from office_tools.from_packages.binaries import Binary, Key
from office_tools.from_packages.sources import Index
from office_tools.from_packages.suites import Suites
from office_tools.from_packages.told import tell
from office_tools.relations import Clause

FIELDS = ("Pre-Depends", "Depends")

Stripped = tuple[Binary, Clause]
"""A clause that nothing in testing meets, and the package that it is taken out of."""


def adoptable(index: Index) -> tuple[Index, int, int]:
    """What is sent of a testing, and how many packages are sent under another version, and clauses taken out.

    Each of these is reported.
    """
    at_version, moved = lifted(index.binaries, index.sources)
    binaries, gone = stripped(at_version, index.architectures)
    for binary in moved:
        tell(f"{binary.name} {binary.architecture} {binary.version}: sent under {binary.source} "
             f"{index.sources[binary.source]}: it was built of {binary.source_version}")
    for binary, clause in gone:
        tell(f"{binary.name} {binary.architecture} {binary.version}: sent without {relations.written(clause)}: "
             "nothing in testing meets it")
    return index.of(binaries), len(moved), len(gone)


def lifted(binaries: Sequence[Binary], current: Mapping[str, str]) -> tuple[Sequence[Binary], Sequence[Binary]]:
    """The packages, each under its source's version in testing, and those that were built of another version."""
    told: list[Binary] = []
    moved: list[Binary] = []
    for binary in binaries:
        version = current[binary.source]
        if not versions.same(version, binary.source_version):
            moved.append(binary)
            fields = {**binary.fields, "Source": f"{binary.source} ({version})"}
            binary = dataclasses.replace(binary, source_version=version, fields=fields)
        told.append(binary)
    return told, moved


def stripped(binaries: Sequence[Binary], architectures: Sequence[str]) -> tuple[Sequence[Binary], Sequence[Stripped]]:
    """The packages without the clauses that nothing meets, so that each can be installed; and these clauses.

    Of a package of `all` a clause is taken out only if nothing meets it on the first architecture: on the others the
    office doesn't watch it. If a package of another architecture rests on such a one, its own clause is taken out.
    """
    gone: list[Stripped] = []
    while True:
        found = unmet(Suites(binaries, architectures))
        if not found:
            return binaries, gone
        gone += found
        clauses: dict[Key, set[Clause]] = defaultdict(set)
        for binary, clause in found:
            clauses[binary.key].add(clause)
        binaries = [without(binary, clauses[binary.key]) if binary.key in clauses else binary for binary in binaries]


def unmet(suites: Suites) -> Sequence[Stripped]:
    """The clauses of watched packages that nothing installable meets, and no watched package would.

    There are such clauses as long as a watched package can't be installed. If each clause of these packages were met by
    one of them, all of them could be installed.
    """
    bad = suites.judged_bad()
    watched: dict[int, set[Key]] = defaultdict(set)
    for binary, suite in bad:
        watched[id(suite)].add(binary.key)
    return [(binary, clause) for binary, suite in bad for clause in dict.fromkeys(binary.clauses)
            if not suite.left[clause]
            and not any(suite.binaries[place].key in watched[id(suite)] for place in suite.meeting[clause])]


def without(binary: Binary, clauses: set[Clause]) -> Binary:
    """A package without these clauses."""
    fields = dict(binary.fields)
    for name in FIELDS:
        items = relations.items(fields.pop(name, ""))
        left = [item for item in items if relations.clause_of(item, name) not in clauses]
        if left:
            fields[name] = ", ".join(left)
    return dataclasses.replace(binary, fields=fields)
