"""Real source and binary packages for the tests: tiny, built by dpkg-buildpackage, with their files .changes.

Run by hand it builds all of them: packages.py FOLDER.
"""
import concurrent.futures
import datetime
import email.utils
import os
import shutil
import subprocess
import sys
from dataclasses import dataclass
from typing import Optional, Sequence

BOTH = ("amd64", "arm64")
WHO = "A Tester <tester@example.org>"

RULES = """#!/usr/bin/make -f
build build-arch build-indep clean:
binary: binary-arch binary-indep
binary-arch:
\t./make-packages any
binary-indep:
\t./make-packages all
.PHONY: build build-arch build-indep clean binary binary-arch binary-indep
"""

MAKE_PACKAGES = """#!/bin/sh -e
awk -v kind="$1" '/^Package:/ {name = $2} /^Architecture:/ && $2 == kind {print name}' debian/control |
while read -r name; do
    rm -rf "debian/$name"
    mkdir -p "debian/$name/DEBIAN" "debian/$name/usr/share/doc/$name"
    echo "$name" > "debian/$name/usr/share/doc/$name/contents"
    dpkg-gencontrol "-p$name" "-Pdebian/$name"
    dpkg-deb --root-owner-group -Zgzip -b "debian/$name" ..
done
"""


@dataclass(frozen=True)
class Package:
    """A binary package: of each architecture, or of all of them."""

    name: str
    depends: str = ""
    provides: str = ""
    conflicts: str = ""
    is_all: bool = False

    def control(self) -> str:
        """Its paragraph in debian/control."""
        fields = [("Package", self.name), ("Architecture", "all" if self.is_all else "any"), ("Depends", self.depends),
                  ("Provides", self.provides), ("Conflicts", self.conflicts), ("Description", "tiny\n A tiny package.")]
        return "".join(f"{name}: {value}\n" for name, value in fields if value)


@dataclass(frozen=True)
class Upload:
    """A version of a source: when and how urgently it came, and what is built of it on which architectures.

    `rebuild` is the number of a rebuild that changes no source (binNMU). If it `lags`, its packages of `all` come to
    the indexes of these architectures alone, where the archive has some for each. What `is_later` was built on these
    architectures after the source came: only `quick.py` writes it.
    """

    source: str
    version: str
    day: str
    packages: Sequence[Package]
    urgency: str = "medium"
    architectures: Sequence[str] = BOTH
    rebuild: Optional[int] = None
    lags: bool = False
    is_later: bool = False

    @property
    def name(self) -> str:
        """A name for its folder."""
        later = f"_{'_'.join(self.architectures)}" if self.is_later or self.rebuild else ""
        return f"{self.source}_{self.version.split(':')[-1]}" + (f"+b{self.rebuild}" if self.rebuild else "") + later

    def changelog(self) -> str:
        """Its debian/changelog."""
        date = email.utils.format_datetime(datetime.datetime.fromisoformat(self.day + "T09:00:00+00:00"))
        entry = f"{self.source} (%s) unstable; urgency={self.urgency}%s\n\n  * Upload.\n\n -- {WHO}  {date}\n"
        first = entry % (self.version, "")
        if self.rebuild is None:
            return first
        return entry % (f"{self.version}+b{self.rebuild}", ", binary-only=yes") + "\n" + first

    def control(self) -> str:
        """Its debian/control."""
        head = (f"Source: {self.source}\nSection: misc\nPriority: optional\nMaintainer: {WHO}\n"
                "Standards-Version: 4.6.2\n")
        return "\n".join([head, *(package.control() for package in self.packages)])


def build(upload: Upload, folder: str) -> str:
    """Builds an upload into a folder of its own below this one, unless it exists, and returns that folder."""
    target = os.path.join(folder, upload.name)
    if os.path.isdir(target):
        return target
    work = os.path.join(folder, "." + upload.name)
    shutil.rmtree(work, ignore_errors=True)
    top = os.path.join(work, f"{upload.source}-{upload.version.split(':')[-1]}")
    os.makedirs(os.path.join(top, "debian/source"))
    for name, text in [("debian/changelog", upload.changelog()), ("debian/control", upload.control()),
                       ("debian/rules", RULES), ("debian/source/format", "1.0\n"), ("make-packages", MAKE_PACKAGES)]:
        with open(os.path.join(top, name), "w", encoding="utf-8") as file:
            file.write(text)
    for name in ("debian/rules", "make-packages"):
        os.chmod(os.path.join(top, name), 0o755)
    for place, architecture in enumerate(upload.architectures):
        is_whole = place == 0 and upload.rebuild is None
        subprocess.run(["dpkg-buildpackage", "-us", "-uc", "-d", "-nc", "--no-check-builddeps", "-a" + architecture,
                        "-F" if is_whole else "-B"], cwd=top, check=True, capture_output=True)
    shutil.rmtree(top)
    os.rename(work, target)
    return target


def build_all(uploads: Sequence[Upload], folder: str) -> None:
    """Builds many uploads, a few at a time."""
    os.makedirs(folder, exist_ok=True)
    with concurrent.futures.ThreadPoolExecutor(os.cpu_count()) as pool:
        list(pool.map(lambda upload: build(upload, folder), uploads))


MARCH_1 = "2025-03-01"
FOO_1, FOO_2, FOO_3 = ([Package(f"libfoo{number}"), Package("libfoo-dev", f"libfoo{number} (= {version})")]
                       for number, version in ((1, "1.0-1"), (2, "2.0-1"), (3, "3.0-1")))

TWELVE: Sequence[Upload] = (
    Upload("base", "12-1", MARCH_1, [Package("base", "libbase1 (>= 3)")]),
    Upload("libbase", "3-1", MARCH_1, [Package("libbase1", "base")]),
    Upload("libfoo", "1.0-1", MARCH_1, FOO_1),
    Upload("app1", "1.0-1", MARCH_1, [Package("app1", "libfoo1 (>= 1.0), base")]),
    Upload("app2", "2.0-1", MARCH_1, [Package("app2", "libfoo1 (>= 1.0)")], "low"),
    Upload("guide", "5-1", "2025-02-20", [Package("guide-doc", "app1", is_all=True)], "low", ("amd64",)),
    Upload("tool", "1-1", MARCH_1, [Package("tool", "app1 | app2")], "high"),
    Upload("postie", "1:0.4-1", MARCH_1, [Package("postie", "base", "mta (= 1)")]),
    Upload("mailer", "5-2", MARCH_1, [Package("mailer", "mta (>= 1)")]),
    Upload("cyca", "1-1", MARCH_1, [Package("cyca", "cycb (>= 1)")]),
    Upload("cycb", "1-1", MARCH_1, [Package("cycb", "cyca (>= 1)")]),
    Upload("lone", "0.1-1", "2025-03-05", [Package("lone")], "critical"))
"""The sources of the first day: two pairs that need each other, a virtual package with a version, a package of all
architectures, a library with its development package, alternatives, and one that is critical."""


def main() -> None:
    """Builds the twelve."""
    build_all(TWELVE, sys.argv[1])


if __name__ == "__main__":
    main()
