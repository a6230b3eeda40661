#!/usr/bin/python3
"""Draws the mail of an archive with ten days of changes, the same at each call for the same lists of apt.

usage: draw.py OFFICE FOLDER [LEAVES]

The archive is a part of the Debian release whose lists apt has on this machine: some sources with all that they need,
and as many more as LEAVES says (300) that need no others, on amd64 and as if it were built on arm64. If LEAVES is
`all`, it is the whole main part of the release, such as bookworm, and everything takes some twenty times as long.
FOLDER gets `setup.conf` and `bag`. The first run is over the archive. On each of the nine days after it come newer
uploads with different fates, renamed libraries, and two sources that need each other's new versions. There are hints
with the fields By and Comment, some refused by every run, removed sources, and an order.
"""
import collections
import os
import random
import re
import subprocess
import sys
from dataclasses import dataclass, field

TOP = os.path.join(os.path.dirname(os.path.realpath(__file__)), "..", "..")
os.environ.setdefault("OFFICE_SYNC", os.path.join(TOP, "crates/office_sync/out/office_sync"))
LISTS = "/var/lib/apt/lists"
HELPER = "/usr/lib/apt/apt-helper"
ARCHS = ("amd64", "arm64")
UPLOADED = "2025-03-01"
DAYS = [f"2025-03-{day}" for day in range(10, 20)]
OLD = 9  # days between an upload that is old enough and its run
FATES = {"moves": 30, "young": 24, "buggy": 10, "blocked": 8, "unbuilt": 10, "missing": 10}
SEEDS = ("git", "gimp")
NAMES = ("Ada Low <ada@example.org>", "Max Ode <max@example.org>")


@dataclass
class Package:
    """A binary package of the lists: its fields by name, and its source."""

    fields: dict
    source: str
    version: str


def packages_of_lists():
    """The packages of the release's main list for amd64."""
    form = re.compile(r"_dists_[a-z]+_main_binary-amd64_Packages")
    path = os.path.join(LISTS, next(name for name in sorted(os.listdir(LISTS)) if form.search(name)))
    text = subprocess.run([HELPER, "cat-file", path], capture_output=True, check=True).stdout.decode()
    for part in text.split("\n\n"):
        fields = dict(re.findall(r"(?m)^([A-Za-z-]+): (.*)$", part))
        if "Package" in fields:
            source, _, version = fields.get("Source", fields["Package"]).partition(" ")
            yield Package(fields, source, version.strip("()") or fields["Version"])


def first_names(package):
    """The first alternative of each clause that a package depends on."""
    told = ", ".join(package.fields.get(name, "") for name in ("Pre-Depends", "Depends"))
    return re.findall(r"(?:^|,)\s*([a-z0-9][a-z0-9+.-]+)", told)


def chosen(leaves):
    """Packages by source: those of some seeds with all that they need, and of that many more that need no others.

    Without a number it is all packages.
    """
    every = {package.fields["Package"]: package for package in packages_of_lists()}
    by_source = collections.defaultdict(list)
    for package in every.values():
        by_source[package.source].append(package)
    if leaves is None:
        return dict(sorted(by_source.items()))
    found, todo = {}, collections.deque(SEEDS)
    while todo:
        package = every.get(todo.popleft())
        if package is not None and package.source not in found:
            found[package.source] = by_source[package.source]
            todo.extend(name for of in by_source[package.source] for name in first_names(of))
    there = {package.fields["Package"] for packages in found.values() for package in packages}
    others = [source for source, packages in by_source.items() if source not in found and
              all(there.issuperset(first_names(package)) for package in packages)]
    found.update((source, by_source[source]) for source in random.Random(4).sample(sorted(others), leaves))
    return dict(sorted(found.items()))


def paragraph(package, arch, **other):
    """A package as a paragraph of an index, on another architecture."""
    fields = {**package.fields, **other}
    if fields["Architecture"] != "all":
        fields["Architecture"] = arch
    return "".join(f"{name}: {fields[name]}\n" for name in (
        "Package", "Version", "Architecture", "Source", "Maintainer", "Pre-Depends", "Depends", "Provides")
        if name in fields)


@dataclass
class Mail:
    """The messages so far: how many each sender has, and the texts."""

    counts: dict
    texts: list = field(default_factory=list)

    def add(self, sender, kind, *lines, paragraphs=()):
        self.counts[sender] = self.counts.get(sender, 0) + 1
        head = [f"From: {sender}", f"Number: {self.counts[sender]}", f"Kind: {kind}", *lines]
        self.texts.append("\n".join(head) + "\n" + "".join(f"\n{part}" for part in paragraphs))
        return self.counts[sender]

    def order(self, day):
        covers = ", ".join(f"{sender} {count}" for sender, count in self.counts.items() if sender != "clock")
        self.add("clock", "run", f"Day: {day}", f"Covers: {covers}")

    def bag(self):
        return "".join(f"mail {len(text.encode())}\n{text}" for text in self.texts)


def newer(version):
    """A version that is above another one."""
    return version + "+n1"


def older(day, days):
    """The day that many days before one of March."""
    return f"2025-03-{max(1, int(day[-2:]) - days):02}"


class Archive:
    """The sources as unstable has them, and the mail by which they change."""

    def __init__(self, mail, sources):
        self.mail, self.sources = mail, sources
        self.draw = random.Random(7)
        self.versions = {source: packages[0].version for source, packages in sources.items()}
        self.needed_by = collections.defaultdict(set)
        owner = {package.fields["Package"]: source for source, packages in sources.items() for package in packages}
        for source, packages in sources.items():
            for package in packages:
                for name in first_names(package):
                    if owner.get(name, source) != source:
                        self.needed_by[owner[name]].add(source)
        self.touched = set()

    def some(self, count, wanted=lambda source: True):
        """Some sources that nothing was done with yet."""
        left = [source for source in self.sources if source not in self.touched and wanted(source)]
        found = self.draw.sample(left, min(count, len(left)))
        self.touched.update(found)
        return sorted(found)

    def is_small(self, source):
        return len(self.sources[source]) <= 12

    def upload(self, source, day, urgency="medium"):
        self.versions[source] = newer(self.versions[source])
        self.mail.add("ftp", "upload", f"Source: {source}", f"Version: {self.versions[source]}", f"Urgency: {urgency}",
                      f"Day: {day}", f"Maintainer: {self.sources[source][0].fields['Maintainer']}")

    def build(self, source, archs=ARCHS, rename=None, depends="", again=""):
        """The builds of a source's newest version. `rename` is a package with its new name."""
        for arch in archs:
            parts = []
            for package in self.sources[source]:
                if package.fields["Architecture"] == "all" and arch != ARCHS[0]:
                    continue
                name = package.fields["Package"]
                wanted = ", ".join(filter(None, [package.fields.get("Depends", ""), depends]))
                wanted = wanted.replace(f"(= {package.fields['Version']})", f"(= {self.versions[source]}{again})")
                if rename:
                    name = rename[1] if name == rename[0] else name
                    wanted = re.sub(rf"(^|[ ,|]){re.escape(rename[0])}(?=$|[ ,|])(?: \([^)]*\))?",
                                    lambda found: found[1] + rename[1], wanted)
                version = self.versions[source]
                other = {"Package": name, "Version": version + again, "Source": f"{source} ({version})"}
                parts.append(paragraph(package, arch, **other, **({"Depends": wanted} if wanted else {})))
            if parts:
                self.mail.add("bd", "build", paragraphs=parts)

    def change(self, source, fate, day):
        """A newer upload with its fate."""
        self.upload(source, day if fate == "young" else older(day, OLD))
        if fate != "unbuilt":
            self.build(source, ARCHS[:1] if fate == "missing" else ARCHS)
        if fate == "buggy":
            number = 900000 + self.mail.counts.get("bts", 0)
            self.mail.add("bts", "bug", f"Bug: {number}", f"Source: {source}", "Severity: serious",
                          f"Found: {self.versions[source]}")
        if fate == "blocked":
            self.hint(f"block {source}", "Waits for the upload of its library, see the list of 12 March")

    def hint(self, text, comment=""):
        return self.mail.add("rt", "hint", f"Hint: {text}", f"By: {self.draw.choice(NAMES)}",
                             *([f"Comment: {comment}"] if comment else []))

    def rename(self, source, day):
        """A library whose package has a new name; some that need it are built again, and the others wait for that."""
        package = next(package.fields["Package"] for package in self.sources[source]
                       if re.fullmatch(r"lib.*[0-9]", package.fields["Package"]))
        rename = (package, package + "n")
        self.upload(source, older(day, OLD))
        self.build(source, rename=rename)
        for other in sorted(self.needed_by[source])[::2]:
            if other not in self.touched and self.is_small(other):
                self.touched.add(other)
                self.build(other, rename=rename, again="+b1")

    def pair(self, day):
        """Two sources that need each other's new versions: neither can move alone."""
        pair = self.some(2, lambda source: self.is_small(source) and not self.needed_by[source])
        for source in pair:
            self.upload(source, older(day, OLD))
        for source, other in zip(pair, pair[::-1]):
            name = self.sources[other][0].fields["Package"]
            self.build(source, depends=f"{name} (>= {self.versions[other]})")

    def remove(self):
        """A source that nothing needs goes out of the archive."""
        for source in self.some(1, lambda source: self.is_small(source) and not self.needed_by[source]):
            for package in self.sources[source]:
                archs = ["all"] if package.fields["Architecture"] == "all" else ARCHS
                for arch in archs:
                    self.mail.add("ftp", "drop", f"Package: {package.fields['Package']}", f"Architecture: {arch}",
                                  f"Version: {package.fields['Version']}")
            self.hint(f"remove {source}/{self.versions[source]}", "ROM; dead upstream")

    def wrong_hints(self):
        """Hints that each run refuses, or that ask nothing."""
        needed = max(self.sources, key=lambda source: len(self.needed_by[source]))
        self.hint(f"remove {needed}/{self.versions[needed]}", "Please remove")
        young = self.some(1)[0]
        self.hint(f"easy {young}/{newer(self.versions[young])}", "Not uploaded yet")
        self.hint(f"age-days 3 {young}/{self.versions[young]}")
        self.hint("unblock no-such-source/1.0-1")

    def day(self, day, place):
        """What comes on a day."""
        if place == 1:
            for number in range(1, self.mail.counts.get("rt", 0) + 1):
                self.mail.add("rt", "unhint", f"Cancels: {number}")
        for source in self.some(min(40, max(4, len(self.sources) // 60)), self.is_small):
            self.change(source, self.draw.choices(list(FATES), list(FATES.values()))[0], day)
        if place in (2, 4, 6):
            for source in self.some(1, self.is_library):
                self.rename(source, day)
        if place in (3, 5, 9):
            self.pair(day)
        if place in (4, 7):
            self.remove()
        if place == 3:
            self.wrong_hints()
        self.mail.order(day)

    def is_library(self, source):
        names = [package.fields["Package"] for package in self.sources[source]]
        return (3 <= len(self.needed_by[source]) <= 40 and self.is_small(source)
                and any(re.fullmatch(r"lib.*[0-9]", name) for name in names))


def first_bag(office, folder, sources):
    """The setup, and the bag of the archive with its first order."""
    paths = []
    for arch in ARCHS:
        paths.append(os.path.join(folder, f"Packages-{arch}"))
        with open(paths[-1], "w", encoding="utf-8") as file:
            for packages in sources.values():
                file.writelines(paragraph(package, arch) + "\n" for package in packages)
    with open(os.path.join(folder, "left-out"), "w", encoding="utf-8") as told:
        subprocess.run([os.path.join(TOP, "tools/bin/office-from-packages"), "--uploaded", UPLOADED, "--run", DAYS[0],
                        folder, *paths], check=True, stdout=subprocess.DEVNULL, stderr=told,
                       env={**os.environ, "OFFICE": office})


def counts_of(bag):
    """How many messages of each sender a bag has."""
    return dict(collections.Counter(re.findall(r"(?m)^mail \d+\nFrom: (\S+)$", bag)))


def main(office, folder, leaves="300"):
    os.makedirs(folder, exist_ok=True)
    by_source = chosen(None if leaves == "all" else int(leaves))
    first_bag(office, folder, by_source)
    path = os.path.join(folder, "bag")
    with open(path, encoding="utf-8") as file:
        first = file.read()
    archive = Archive(Mail(counts_of(first)), by_source)
    for place, day in enumerate(DAYS[1:], 1):
        archive.day(day, place)
    with open(path, "a", encoding="utf-8") as file:
        file.write(archive.mail.bag())
    print(f"{len(by_source)} sources, {sum(archive.mail.counts.values())} messages, {len(DAYS)} runs")


if __name__ == "__main__":
    if len(sys.argv) not in (3, 4):
        sys.exit(__doc__)
    main(os.path.realpath(sys.argv[1]), *sys.argv[2:])
