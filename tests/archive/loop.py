"""The days of the tests over an archive: feed, order, apply; after each, testing is the office's and can be installed.

Usage: loop.py OFFICE FOLDER [reprepro|aptly..]
"""
import gzip
import os
import shutil
import signal
import sys
import time
from typing import Callable, Mapping, Sequence

import clients
from days import DAYS, Day
from packages import BOTH, build_all
from stage import Aptly, Archive, Failed, Office, Reprepro, Stage, command

MANAGERS: Mapping[str, Callable[[str], Archive]] = {"reprepro": Reprepro, "aptly": Aptly}

OLD_SOURCE = "libfoo 2.0-1 source"
MADE_UP = {
    "lone 0.3-1+b1 source": "lone 0.3-1 source", "lone 0.3-1+b2 source": "lone 0.3-1 source",
    "mailer 5-2+b1 source": "mailer 5-2 source", "smooth-libfoo2 2.0-1 source": OLD_SOURCE,
    "cyca 1-1+gone source": "cyca 1-1 source", "cycb 1-1+gone source": "cycb 1-1 source",
    "cyca 1-1+gone amd64": "cyca 1-1 amd64", "cyca 1-1+gone arm64": "cyca 1-1 arm64",
    "cycb 1-1+gone amd64": "cycb 1-1 amd64", "cycb 1-1+gone arm64": "cycb 1-1 arm64"}
"""What the office has by hand-made mail, and what the archive has in its place. The old library's source stays beside
the new one's, where the manager has several versions of a source in a suite."""


def expect(what: str, due: object, found: object) -> None:
    """Fails where two values differ."""
    if due != found:
        raise Failed(f"{what}:\n due   {due}\n found {found}")


def archived(archive: Archive) -> set[str]:
    """What is in the published testing: a line NAME VERSION ARCHITECTURE for each row and source."""
    found: set[str] = set()
    for place in (*BOTH, "source"):
        folder, name = (f"binary-{place}", "Packages") if place != "source" else ("source", "Sources")
        path = os.path.join(archive.published("testing"), "main", folder, name + ".gz")
        with gzip.open(path, "rt", encoding="utf-8") as file:
            for part in file.read().split("\n\n"):
                at = dict(line.split(": ", 1) for line in part.splitlines() if ": " in line and line[0] != " ")
                if at:
                    own = "source" if place == "source" else at["Architecture"]
                    found.add(f"{at['Package']} {at['Version']} {own}")
    return found


def due(stage: Stage) -> set[str]:
    """What the archive's testing has to have."""
    found = {MADE_UP.get(line, line) for line in stage.office.rows()}
    return found if stage.archive.has_versions else found - {OLD_SOURCE} | (found & stage.office.rows())


def live(stage: Stage, number: int, day: Day) -> None:
    """One day."""
    stage.takes(day.uploads)
    for source in day.gone:
        stage.archive.drop_source(source)
    for package, architecture in day.less:
        stage.archive.drop_package(package, architecture)
    stage.line = stage.archive.ready()
    for letter in day.mail:
        stage.office.post(*letter)
    stage.feed(day.day, *day.words, status=day.status)
    expect(f"update {number}", list(day.update), list(stage.office.update(number)))
    if not day.is_settled:
        return
    before = stage.office.service.kept()
    stage.feed(day.day, *day.words)
    expect("a second feed sends nothing", before, stage.office.service.kept())


def apply(stage: Stage, number: int) -> int:
    """Applies a run, twice, and looks at what clients meet."""
    stage.apply()
    expect(f"the archive's testing behind run {number}", sorted(due(stage)), sorted(archived(stage.archive)))
    digest = stage.digest()
    stage.apply()
    expect("a second apply changes nothing", digest, stage.digest())
    return clients.look(stage.archive, stage.folder)


def restart(stage: Stage) -> None:
    """The office is ended by force, what the feed remembers is lost, and the office starts again."""
    stage.office.stop(signal.SIGKILL)
    shutil.rmtree(os.path.join(stage.folder, "cache"))
    stage.office.start()


def check_refused(stage: Stage) -> None:
    """What the office wants, or a suite, is missing: nothing is changed."""
    digest = stage.digest()
    lacking = os.path.join(stage.folder, "lacking")
    with open(lacking, "w", encoding="utf-8") as file:
        text = stage.office.service.good_text("/testing")
        file.write(text.replace("source lone 0.3-1+b2\n", "source lone 0.9-1\n").replace(" lone 0.3-1", " lone 0.9-1"))
    told = command("office-apply", "--testing", lacking, *stage.archive.apply_words(), may_fail=True)
    expect("an apply without what it needs", 1, told.returncode)
    if "held back: lone 0.9-1: there is no source lone 0.9-1 to copy" not in told.stderr:
        raise Failed(told.stderr)
    words = ["nowhere" if word in ("ordered", "unstable") else word for word in stage.apply_words()]
    told = command("office-apply", *words, may_fail=True)
    expect("an apply from a suite that isn't there", (3, True), (told.returncode, "nowhere" in told.stderr))
    expect("what is published behind a refused apply", digest, stage.digest())
    expect("testing behind a refused apply", "", command("office-apply", "--dry-run", *stage.apply_words()).stderr)


def loop(program: str, folder: str, manager: str) -> str:
    """All days over one manager."""
    began = time.monotonic()
    office = Office(program, folder)
    stage = Stage(office, MANAGERS[manager](folder), folder, os.path.join(os.path.dirname(folder), "built"))
    office.start()
    installed = 0
    try:
        for number, day in enumerate(DAYS, 1):
            live(stage, number, day)
            installed += apply(stage, number)
            print(f"{manager}: run {number}: {day.title}: {len(archived(stage.archive))} rows and sources")
            if number in (2, 7):
                restart(stage)
        check_refused(stage)
    finally:
        office.stop()
    return (f"{manager}: {len(DAYS)} runs, {installed} installations by apt, none broken for dose and libsolv, "
            f"{time.monotonic() - began:.0f} s")


def main(words: Sequence[str]) -> None:
    """Builds the packages, and lives all days over each manager."""
    program, folder, *managers = words
    build_all([upload for day in DAYS for upload in day.uploads], os.path.join(folder, "built"))
    told = []
    for manager in managers or list(MANAGERS):
        os.makedirs(os.path.join(folder, manager))
        told.append(loop(program, os.path.join(folder, manager), manager))
    print("\n".join(told))


if __name__ == "__main__":
    try:
        main(sys.argv[1:])
    except Failed as failed:
        sys.exit(f"failed: {failed}")
