"""Adopts a testing that isn't clean, looks before an order, moves groups as the office proposes them, and runs days of
an archive in which things go wrong.

Usage: ways.py OFFICE FOLDER [adopted|aptly|looked|proposed|unattended|unattended-aptly..]
"""
import os
import sys
from typing import Callable, Mapping, Sequence

import clients
from loop import MANAGERS, archived, expect
from packages import BOTH, TWELVE, Package, Upload, build_all
from stage import COMMANDS, SETUP, Aptly, Archive, Failed, Office, Reprepro, Stage, command, run

LAG = [Package("lag"), Package("lag-doc", is_all=True)]
UNCLEAN = [Upload("duo", "1-1", "2025-03-01", [Package("duo"), Package("duo-bad", "nosuch, duo")]),
           Upload("lag", "1-1", "2025-03-01", LAG),
           Upload("lag", "1-2", "2025-03-02", LAG, architectures=("amd64",), lags=True)]
FIRST, NEXT, LAST = "2025-03-06", "2025-03-07", "2025-03-08"
NEWER = [Upload("lone", "0.2-1", NEXT, [Package("lone")], "critical"), Upload("lag", "1-3", NEXT, LAG, "critical")]
CALM = Upload("calm", "1-1", FIRST, [Package("calm")], "critical")
DUET = [Upload("duet", "1-1", FIRST, [Package("duet", "calm, voice")], "critical"),
        Upload("voice", "1-1", FIRST, [Package("voice")], "critical")]
RIVALS = [Upload("rival", "1-1", NEXT, [Package("rival", conflicts="calm")], "critical"),
          Upload("both", "1-1", NEXT, [Package("both-of-them", "calm, rival")], "critical"),
          Upload("fine", "1-1", NEXT, [Package("fine", "calm")], "critical"),
          Upload("voice", "1-2", NEXT, [Package("voice", conflicts="calm")], "critical"),
          Upload("pair-a", "1-1", NEXT, [Package("pair-a", "pair-b, calm")], "critical"),
          Upload("pair-b", "1-1", NEXT, [Package("pair-b", "pair-a", conflicts="calm")], "critical")]
MENDED = [Upload("voice", "1-3", LAST, [Package("voice")], "critical"),
          Upload("both", "1-2", LAST, [Package("both-of-them", "calm | rival")], "critical")]
KNOT = [Upload(name, "1-1", FIRST, [Package(name, needed)], "critical")
        for name, needed in (("above", "knota"), ("knota", "knotb"), ("knotb", "knota"))]
LONES = [Upload("lone", f"0.{number}-1", NEXT, [Package("lone")], "critical") for number in (2, 3, 4, 5)]
ALL = [*TWELVE, *UNCLEAN, *NEWER, CALM, *DUET, *RIVALS, *MENDED, *KNOT, *LONES]


def told_of(archive: Archive) -> Sequence[str]:
    """What office-adopt prints about the unclean testing."""
    beside = archive.has_versions
    return [
        "lag-doc all 1-1: left out: 1-2 is newer",
        *(["source lag 1-1: left out: 1-2 is newer"] if beside else []),
        "lag arm64 1-1: sent under lag 1-2: it was built of 1-1",
        "duo-bad amd64 1-1: sent without nosuch: nothing in testing meets it",
        "duo-bad arm64 1-1: sent without nosuch: nothing in testing meets it",
        *(["left alone: sources of which testing has no package, or packages that stay: lag 1-1"] if beside else []),
        "left alone: older packages of all, with which packages that stay were built: lag-doc 1-1"]


def adopt(program: str, folder: str, archive: Archive) -> str:
    """Makes a setup and a bag of the archive's testing, and gives the setup."""
    testing = archive.published("testing")
    files = [os.path.join(testing, "main", f"binary-{architecture}", "Packages") for architecture in BOTH]
    told = run(os.path.join(COMMANDS, "office-adopt"), "--day", FIRST, "--sources",
               os.path.join(testing, "main/source/Sources.gz"), folder, *files, OFFICE=program)
    expect("what is told otherwise", [f"office-adopt: {line}" for line in told_of(archive)], told.stderr.splitlines())
    expect("adoption", "adopted: 14 sources, 32 packages; 0 wait, 0 refused", told.stdout.splitlines()[-1])
    return os.path.join(folder, "setup.conf")


def adopted(program: str, folder: str, manager: str = "reprepro") -> str:
    """An office begins with all of an unclean testing, and the first apply changes nothing.

    An older package of `all` stays until its source moves on all architectures.
    """
    office = Office(program, folder)
    archive = MANAGERS[manager](folder)
    stage = Stage(office, archive, folder, os.path.join(os.path.dirname(folder), "built"))
    stage.takes([*TWELVE, *UNCLEAN])
    stage.line = archive.ready()
    archive.copy_all("lag_1-1_amd64")
    setup = adopt(program, folder, archive)
    with open(os.path.join(folder, "bag"), encoding="utf-8") as bag:
        run(program, "replay", "--conf", setup, "--db", office.store, given=bag.read())
    office.start(setup)
    try:
        digest = stage.digest()
        for more in (("--dry-run",), ()):
            told = command("office-apply", *more, *stage.apply_words())
            expect("what would come and go", 1, len(told.stdout.splitlines()))
        expect("the first apply", digest, stage.digest())
        beside = {"lag-doc 1-1 all", *(["lag 1-1 source"] if archive.has_versions else [])}
        expect("the archive's testing", sorted(office.rows() | beside), sorted(archived(archive)))
        stage.takes(NEWER)
        stage.line = archive.ready()
        stage.feed(NEXT)
        expect("update 2", ["accept lag 1-3", "accept lone 0.2-1"], list(office.update(2)))
        stage.apply()
        expect("testing", sorted(office.rows()), sorted(archived(archive)))
    finally:
        office.stop()
    return f"{manager}: adopted: 14 sources, 32 packages, nothing changed by the first apply"


def adopted_by_aptly(program: str, folder: str) -> str:
    """The same over an archive that has several versions of a source and of a package."""
    return adopted(program, folder, "aptly")


def look_words(stage: Stage, day: str, *more: str) -> Sequence[str]:
    """The words of office-look on a day: it judges, and orders."""
    return ["--url", stage.office.url, "--conf", SETUP, "--cache", os.path.join(stage.folder, "look"), "--day", day,
            "--order", *more, *(stage.archive.published(suite) for suite in ("testing", stage.line.split()[1]))]


def look(stage: Stage, day: str, *more: str) -> Sequence[str]:
    """Feeds the office, looks before the order, and applies: what is blocked."""
    stage.feed(day, "--no-order")
    told = run(os.path.join(COMMANDS, "office-look"), *look_words(stage, day, *more), may_fail=True,
               OFFICE=stage.office.program)
    lines = told.stderr.splitlines()
    expect(f"the status of a look that says {told.stdout}{told.stderr}", int(bool(lines)), told.returncode)
    stage.apply()
    clients.look(stage.archive, stage.folder)
    return sorted(" ".join(line.split(":")[2].split()) for line in lines)


def looked(program: str, folder: str) -> str:
    """What can't be installed is blocked before the order, in a proposed group, too, until a next version is right.

    So is what breaks a package that stays.
    """
    office = Office(program, folder)
    archive = Reprepro(folder)
    stage = Stage(office, archive, folder, os.path.join(os.path.dirname(folder), "built"))
    office.start()
    try:
        stage.takes([CALM, *DUET])
        stage.line = archive.ready()
        expect("what a first look blocks", [], look(stage, FIRST))
        stage.takes(RIVALS)
        archive.ready()
        expect("what a look blocks", ["both 1-1", "pair-a 1-1", "pair-b 1-1", "voice 1-2"],
               look(stage, NEXT, "--propose"))
        expect("update 2", ["accept fine 1-1", "accept rival 1-1"], list(office.update(2))[:2])
        stage.takes(MENDED)
        archive.ready()
        expect("what a later look blocks", ["pair-a 1-1", "pair-b 1-1"], look(stage, LAST, "--propose"))
        expect("update 4", ["accept both 1-2", "accept voice 1-3"], list(office.update(4))[-2:])
    finally:
        office.stop()
    return "looked before an order: what libsolv can't install is blocked until a next version is right, all else moves"


def proposed(program: str, folder: str) -> str:
    """Sources that need each other are moved by the hints that the feed mails; the next feed takes these back."""
    office = Office(program, folder)
    archive = Reprepro(folder)
    stage = Stage(office, archive, folder, os.path.join(os.path.dirname(folder), "built"))
    office.start()
    try:
        stage.takes([CALM, *KNOT])
        stage.line = archive.ready()
        stage.feed(FIRST, "--propose")
        expect("update 1", ["accept calm 1-1", *(f"wait {name} 1-1 uninstallable amd64 {name}"
                                                 for name in ("above", "knota", "knotb"))], list(office.update(1)))
        expect("update 2", ["easy 1 accept knota 1-1 knotb 1-1", "accept above 1-1"], list(office.update(2)))
        stage.apply()
        expect("testing", sorted(office.rows()), sorted(archived(archive)))
        clients.look(archive, folder)
        for number in (2, 2):
            stage.feed(NEXT, "--propose")
            expect("mail of rt", number, office.service.kept()["rt"].kept)
        expect("hints in force", [], list(office.service.hints().items))
        expect("update 3", [], list(office.update(3)))
    finally:
        office.stop()
    return "proposed: a knot and what rests on it moved by the feed's hint, which the next feed took back"


class Unattended:
    """An archive that office-day runs."""

    def __init__(self, program: str, folder: str, manager: str = "reprepro") -> None:
        self.office = Office(program, folder)
        self.archive = MANAGERS[manager](folder)
        self.stage = Stage(self.office, self.archive, folder, os.path.join(os.path.dirname(folder), "built"))
        self.folder = folder
        self.stage.line = self.archive.ready()
        pull = f"aptly -config={self.archive.config} publish update -skip-signing -batch unstable" \
            if isinstance(self.archive, Aptly) else f"reprepro --silent -b {self.archive.base} pull ordered"
        with open(os.path.join(folder, "day.conf"), "w", encoding="utf-8") as file:
            file.write(f"Url: {self.office.url}\nSetup: {SETUP}\nState: {folder}/state\nPull: {pull}\n"
                       f"Feed: --changes {folder}/changes\n --apt 'deb [trusted=yes arch={','.join(BOTH)}] "
                       f"{self.stage.line}'\n --apt 'deb-src [trusted=yes] {self.stage.line}'\n"
                       f"Apply: {' '.join(self.archive.apply_words())}\n")

    def day(self, day: str, due: int) -> str:
        """Runs a day, which has to end with this status, and returns what doesn't move."""
        told = run(os.path.join(COMMANDS, "office-day"), "--conf", os.path.join(self.folder, "day.conf"), "--day", day,
                   may_fail=True, OFFICE=self.office.program)
        expect(f"{day}: {told.stdout}{told.stderr}", due, told.returncode)
        clients.look(self.archive, self.folder)
        return told.stderr

    def ordered(self, day: str) -> None:
        """A day that nobody applies."""
        self.stage.line = self.archive.ready()
        self.stage.feed(day, "--no-order")
        run(os.path.join(COMMANDS, "office-look"), *look_words(self.stage, day), OFFICE=self.office.program)

    def vendor(self) -> None:
        """A package comes whose source the archive hasn't."""
        place = os.path.join(self.folder, "vendor")
        os.makedirs(os.path.join(place, "DEBIAN"))
        with open(os.path.join(place, "DEBIAN/control"), "w", encoding="utf-8") as file:
            file.write("Package: vendor-tool\nVersion: 1.0\nArchitecture: amd64\nMaintainer: A Tester <t@example.org>\n"
                       "Section: misc\nPriority: optional\nDescription: tiny\n")
        run("dpkg-deb", "--root-owner-group", "-b", place, place + ".deb")
        if isinstance(self.archive, Aptly):
            self.archive.aptly("repo", "add", "unstable", place + ".deb")
        elif isinstance(self.archive, Reprepro):
            self.archive.reprepro("includedeb", "unstable", place + ".deb")

    def withdraw(self, source: str) -> None:
        """Puts testing's version of a source into unstable in the place of the one there."""
        self.archive.drop_source(source)
        if isinstance(self.archive, Aptly):
            self.archive.aptly("repo", "copy", "testing", "unstable", f"$Source ({source}) | Name ({source})")
        elif isinstance(self.archive, Reprepro):
            self.archive.reprepro("copysrc", "unstable", "testing", source)
        self.archive.ready()

    def testing(self) -> Sequence[str]:
        """The sources and packages of the archive's testing, without those of arm64."""
        return sorted(line for line in archived(self.archive) if not line.endswith("arm64"))


def unattended(program: str, folder: str, manager: str = "reprepro") -> str:
    """A package without a source, an apply that was missed, and an upload that is withdrawn between order and apply."""
    days = Unattended(program, folder, manager)
    days.office.start()
    try:
        days.stage.takes([CALM, *DUET])
        days.vendor()
        days.day(FIRST, 0)
        days.stage.takes([LONES[0]])
        days.ordered("2025-03-11")
        days.stage.takes([LONES[1]])
        days.day("2025-03-12", 0)
        expect("update 4", ["accept lone 0.3-1"], list(days.office.update(3)))
        expect("testing", ["calm 1-1 amd64", "calm 1-1 source", "duet 1-1 amd64", "duet 1-1 source", "lone 0.3-1 amd64",
                           "lone 0.3-1 source", "vendor-tool 1.0 amd64", "voice 1-1 amd64", "voice 1-1 source"],
               days.testing())
        days.stage.takes([LONES[2], next(upload for upload in RIVALS if upload.source == "fine")])
        days.ordered("2025-03-13")
        days.withdraw("lone")
        told = days.day("2025-03-14", 1)
        if "held back: lone 0.4-1: there is no source lone 0.4-1 to copy" not in told:
            raise Failed(told)
        expect("testing without what was withdrawn", ["fine 1-1 amd64", "fine 1-1 source", "lone 0.3-1 amd64",
                                                      "lone 0.3-1 source"],
               [line for line in days.testing() if line.startswith(("fine", "lone"))])
        days.stage.takes([LONES[3]])
        days.day("2025-03-15", 0)
        days.day("2025-03-15", 0)
        expect("testing at the end", ["lone 0.5-1 amd64", "lone 0.5-1 source"],
               [line for line in days.testing() if line.startswith("lone")])
    finally:
        days.office.stop()
    return f"{manager}: a missed apply, a withdrawn upload and a package without a source stop nothing"


def unattended_by_aptly(program: str, folder: str) -> str:
    """The same over an archive that keeps several versions."""
    return unattended(program, folder, "aptly")


WAYS: Mapping[str, Callable[[str, str], str]] = {
    "adopted": adopted, "aptly": adopted_by_aptly, "looked": looked, "proposed": proposed, "unattended": unattended,
    "unattended-aptly": unattended_by_aptly}


def main(words: Sequence[str]) -> None:
    """Tries all of them, or those that are named."""
    program, folder, *parts = words
    build_all(ALL, os.path.join(folder, "built"))
    told = []
    for name in parts or WAYS:
        os.makedirs(os.path.join(folder, name))
        told.append(WAYS[name](program, os.path.join(folder, name)))
    print("\n".join(told))


if __name__ == "__main__":
    try:
        main(sys.argv[1:])
    except Failed as failed:
        sys.exit(f"failed: {failed}")
