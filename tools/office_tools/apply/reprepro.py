"""Suites of an archive that reprepro manages."""
import os
from collections import Counter
from typing import Iterator, Optional, Sequence

from office_tools.apply.contents import Contents, Indexes, Row, Source
from office_tools.apply.managers import Manager, parts, run
from office_tools.faults import Exit, Fault, ending

LIST = r"${$architecture} ${$type} ${package} ${version} ${$source} ${$sourceversion} ${architecture}\n"
PUBLISH_LATER = ("--export=silent-never", "--keepunreferencedfiles")
"""Nothing is published before all is done, and no file goes that clients may still ask for."""


class Reprepro(Manager):
    """The suites `origin` and `testing`, by their codenames, of the archive in a folder."""

    indexes = Indexes.EACH

    def __init__(self, base: str, origin: str, testing: str, dists: Optional[str] = None) -> None:
        self.base = base
        self.origin_name = origin
        self.testing_name = testing
        self.dists = dists or os.path.join(base, "dists")

    def reprepro(self, *words: str) -> str:
        """What a command prints. A lock that an ended reprepro left is named."""
        try:
            return run(["reprepro", "--waitforlock", "3", "--basedir", self.base, *words])
        except Fault as fault:
            lock = os.path.join(self.base, "db", "lockfile")
            if not os.path.exists(lock) or "lock file" not in fault.cause or any(users(self.base)):
                raise
            raise Fault(f"{lock}: it was left by a reprepro that was ended, and no reprepro runs here: remove it "
                        "(unless another machine works on this archive), and run this command again",
                        Exit.FAILED) from fault

    def architectures(self) -> Sequence[str]:
        if not os.path.isdir(os.path.join(self.base, "conf")):
            raise Fault(f"{self.base}: it is no archive of reprepro: it has no folder conf", Exit.REFUSED)
        with ending(Exit.REFUSED):
            told = [self.reprepro("_listconfidentifiers", suite) for suite in (self.testing_name, self.origin_name)]
        suites = [{line.split("|")[-1] for line in part.splitlines()} for part in told]
        for name, found in zip((self.testing_name, self.origin_name), suites):
            if not found:
                raise Fault(f"{self.base}: it has no suite {name}", Exit.REFUSED)
        return sorted(suites[0] - {"source"})

    def listed(self, suite: str) -> Contents:
        sources: set[Source] = set()
        built_of: dict[Row, Source] = {}
        others: Counter[str] = Counter()
        for line in self.reprepro("--list-format", LIST, "list", suite).splitlines():
            # A source may have several architectures, as `any all`.
            place, kind, name, version, source, source_version, architecture = line.split(" ", 6)
            if kind == "dsc":
                sources.add(Source(name, version))
            elif kind == "deb":
                built_of[Row(place, architecture, name, version)] = Source(source, source_version)
            else:
                others[kind] += 1
        return Contents(frozenset(sources), frozenset(built_of), built_of, others)

    def copy(self, come: Contents) -> None:
        for kind, formulas in (("deb", row_formulas(come)), ("dsc", source_formulas(come))):
            for part in parts(formulas):
                self.reprepro(*PUBLISH_LATER, "-T", kind, "copyfilter", self.testing_name, self.origin_name,
                              " | ".join(part))

    def remove(self, go: Contents) -> None:
        for kind, formulas in (("dsc", source_formulas(go)), ("deb", row_formulas(go))):
            for part in parts(formulas):
                self.reprepro(*PUBLISH_LATER, "-T", kind, "removefilter", self.testing_name, " | ".join(part))

    def published_folders(self) -> Sequence[str]:
        return [os.path.join(self.dists, name) for name in (self.testing_name, self.origin_name)]

    def publish(self) -> None:
        self.reprepro("export", self.testing_name)


def users(base: str) -> Iterator[str]:
    """The processes that may work on an archive: each reprepro whose open files lie there, or can't be seen."""
    base = os.path.realpath(base)
    for process in (name for name in os.listdir("/proc") if name.isdigit()):
        folder = f"/proc/{process}"
        try:
            with open(f"{folder}/comm", encoding="utf-8", errors="replace") as file:
                if file.read().strip() != "reprepro":
                    continue
        except OSError:
            continue
        try:
            files = [os.readlink(f"{folder}/fd/{number}") for number in os.listdir(f"{folder}/fd")]
        except PermissionError:
            yield process
        except OSError:
            continue
        else:
            if any(path.startswith(base + "/") for path in files):
                yield process


def row_formulas(contents: Contents) -> Sequence[str]:
    """A formula for each row. It names the index, so that a package of `all` in one index alone is meant."""
    return [f"( Package (== {row.name}), Version (== {row.version}), Architecture (== {row.architecture}), "
            f"$Architecture (== {row.place}) )" for row in sorted(contents.rows)]


def source_formulas(contents: Contents) -> Sequence[str]:
    """A formula for each source."""
    return [f"( Package (== {source.name}), Version (== {source.version}) )" for source in sorted(contents.sources)]
