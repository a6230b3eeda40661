"""office-apply: makes a suite of an archive what the office's testing says."""
import argparse
import functools
import os
from typing import Optional, Sequence

from office_tools import faults, reports
from office_tools.apply import marks
from office_tools.apply.aptly import Aptly
from office_tools.apply.contents import ALL, Contents, Indexes, Target, check_taken, target, wanted
from office_tools.apply.holding import Evidence, Groups
from office_tools.apply.managers import Manager
from office_tools.apply.plans import Plan, Terms, plan_to
from office_tools.apply.published import (heidi_of, is_whole, packages_of, read_folder, read_heidi, read_indexes,
                                          read_release)
from office_tools.apply.reprepro import Reprepro
from office_tools.apply.turn import Turn, counts, tell_alone
from office_tools.control import raw_sections
from office_tools.counts import count
from office_tools.faults import Exit, Fault
from office_tools.files import decoded, locked, read_bytes, write_whole
from office_tools.look.judge import judge, read_known
from office_tools.reports import Outcome
from office_tools.service import DEFAULT_URL, Service, service_at

NAME = "office-apply"
PUBLIC = "."

tell = functools.partial(faults.tell, NAME)


def parser() -> argparse.ArgumentParser:
    """The command's words."""
    words = argparse.ArgumentParser(
        prog=NAME, description="Makes the suite testing of an archive what the office's testing says.",
        epilog="Status 0: it is. 1: it isn't, since something is held back, or with --dry-run something would change; "
               "each difference is printed. 2: the words are wrong. 3: refused, and nothing was changed. 4: the office "
               "or the archive's manager failed.")
    words.add_argument("--url", help=f"the service ({DEFAULT_URL})")
    words.add_argument("--testing", metavar="FILE", help="the text of testing, in place of a service's")
    words.add_argument("--dry-run", action="store_true", help="print what would change, and change nothing")
    words.add_argument("--gone", type=count, metavar="N",
                       help="how many packages and sources may leave testing (40, or 2 %% if that is more)")
    words.add_argument("--back", action="store_true", help="allow packages and sources to go back to a lower version")
    managers = words.add_subparsers(dest="manager", required=True, metavar="MANAGER")
    part = managers.add_parser("reprepro", help="an archive of reprepro: copies from the suite FROM into TESTING")
    part.add_argument("base", metavar="BASE", help="the archive's folder, with conf and db")
    part.add_argument("origin", metavar="FROM", help="the codename of the suite that the last order saw")
    part.add_argument("suite", metavar="TESTING", help="the codename of testing")
    part.add_argument("--dists", metavar="FOLDER", help="where reprepro publishes (BASE/dists)")
    part = managers.add_parser("aptly", help="local repositories of aptly: copies from FROM into TESTING")
    part.add_argument("config", metavar="CONFIG", help="aptly's file of configuration")
    part.add_argument("origin", metavar="FROM", help="the repository that packages come from")
    part.add_argument("suite", metavar="TESTING", help="the repository testing, published under the same name")
    part.add_argument("--prefix", default=PUBLIC, help="the prefix that testing is published under (.)")
    part.add_argument("--publish", action="append", default=[], metavar="WORD",
                      help="a word for aptly publish update, such as --publish=-skip-signing; may be repeated")
    part = managers.add_parser("heidi", help="a file HeidiResult, for dak control-suite --set testing")
    part.add_argument("--sources", action="append", default=[], metavar="SOURCES", help="a file Sources of testing")
    part.add_argument("file", metavar="FILE", help="where it is written")
    part.add_argument("packages", metavar="PACKAGES", nargs="*",
                      help="a file Packages of testing, or its folder dists/SUITE alone: FILE also has what is left "
                           "alone there")
    part = managers.add_parser("select", help="prints those paragraphs of files Packages that testing has")
    part.add_argument("architecture", metavar="ARCHITECTURE", help="of this architecture and of all")
    part.add_argument("packages", metavar="PACKAGES", nargs="+", help="a file Packages")
    part = managers.add_parser("compare", help="indexes of any archive: they are only compared")
    part.add_argument("--sources", action="append", default=[], metavar="SOURCES", help="a file Sources")
    part.add_argument("packages", metavar="PACKAGES", nargs="+",
                      help="a file Packages, or a folder dists/SUITE alone")
    return words


def manager_of(asked: argparse.Namespace) -> tuple[Manager, str]:
    """The manager that the words name, and the file or the folder by which its archive is locked."""
    if asked.manager == "aptly":
        return Aptly(asked.config, (asked.origin, asked.suite), asked.prefix, asked.publish), asked.config
    return Reprepro(asked.base, asked.origin, asked.suite, asked.dists), asked.base


def testing_of(url: Optional[str], path: Optional[str]) -> reports.Testing:
    """What is in the office's testing."""
    if path is None:
        return service_at(url or DEFAULT_URL).testing()
    return reports.read_testing(decoded(path, read_bytes(path)), path)


def groups_of(service: Optional[Service], finished: int) -> Groups:
    """How to find the groups by which runs moved sources: from the last run back until the move of each is found."""
    def found(names: frozenset[str]) -> Sequence[frozenset[str]]:
        groups: list[frozenset[str]] = []
        left = set(names)
        number = finished if service else 0
        while service and left and number:
            moved = [frozenset(item.source for item in change.items) for change in service.update(number).changes
                     if change.outcome is Outcome.ACCEPTED]
            groups += [group for group in moved if len(group) > 1 and group & left]
            left -= {name for group in moved for name in group}
            number -= 1
        return groups
    return found


def to_heidi(testing: reports.Testing, path: str, published: Optional[Contents], terms: Terms, is_dry: bool) -> int:
    """Writes the file if it isn't what the office wants, and prints what changes.

    The file sets the suite whole, so it also has what is left alone of the published indexes: it is the list that
    `office-plan` gets as the target.
    """
    want = wanted(testing, sorted({row.architecture for row in testing.rows}), Indexes.ONCE)
    before = read_heidi(path)
    check_taken(want, before)
    if published is None:
        goal, have = Target(want, want), before
    else:
        check_taken(want, published)
        goal, have = target(want, published), published
        tell_alone(goal, tell)
    terms.plan(goal, have, goal.contents)
    if published is not None and not published.sources:
        raise Fault("there is no file Sources: what is left alone would leave the suite", Exit.REFUSED)
    due = goal.contents
    found = Plan(due.without(before), before.without(due))
    is_same = found.is_empty and os.path.exists(path)
    if not is_dry and not is_same:
        write_whole(path, heidi_of(due))
    for line in found.lines("came", "went"):
        print(line)
    print(f"testing {testing.finished}: {counts(due)}; came {counts(found.come)}; went {counts(found.go)}")
    return int(is_dry and not is_same)


def compared(testing: reports.Testing, packages: Sequence[str], sources: Sequence[str]) -> int:
    """Prints how the indexes differ from what the office wants."""
    have = indexes_of(packages, sources)
    architectures = sorted({row.architecture for row in have.rows})
    want = wanted(testing, architectures, Indexes.ONCE)
    if not have.sources:
        tell("no sources are compared: there is no file Sources")
        want = Contents(have.sources, want.rows, want.built_of)
    goal = target(want, have)
    tell_alone(goal, tell)
    found = plan_to(goal, have)
    for line in found.lines():
        print(line)
    print(f"testing {testing.finished}: {counts(want)}; missing {counts(found.come)}; too much {counts(found.go)}")
    return int(not found.is_empty)


def indexes_of(packages: Sequence[str], sources: Sequence[str]) -> Contents:
    """What the files have, or the folder of a suite."""
    if len(packages) > 1 or not os.path.isdir(packages[0]):
        return read_indexes([("", path) for path in packages], sources)
    stated = read_release(packages[0])
    if stated is None or not is_whole(packages[0], stated):
        raise Fault(f"{packages[0]}: its indexes aren't those that its file Release states", Exit.REFUSED)
    return read_folder(packages[0], stated, Indexes.ONCE)


def select(testing: reports.Testing, architecture: str, paths: Sequence[str]) -> int:
    """Prints the paragraph of each row of testing on an architecture, and reports the rows without one."""
    want = {(row.package, marks.package_version(row.version), row.architecture) for row in testing.rows
            if row.architecture in (architecture, ALL)}
    for path in paths:
        for paragraph, text in raw_sections(path):
            key = tuple(paragraph.get(name, "") for name in ("Package", "Version", "Architecture"))
            if key in want:
                want.remove((key[0], key[1], key[2]))
                print(text.rstrip("\n"), end="\n\n")
    for name, version, own in sorted(want):
        tell(f"the files have no {own} {name} {version}")
    return int(bool(want))


def main(words: Sequence[str]) -> int:
    """Makes testing what the office says, or compares both."""
    known = parser()
    asked = known.parse_args(words)
    if asked.url and asked.testing:
        known.error("--url and --testing exclude each other")
    if asked.manager == "heidi" and asked.sources and not asked.packages:
        known.error("name files Packages, too")
    testing = testing_of(asked.url, asked.testing)
    terms = Terms(asked.gone, asked.back)
    if asked.manager == "heidi":
        published = indexes_of(asked.packages, asked.sources) if asked.packages else None
        return to_heidi(testing, asked.file, published, terms, asked.dry_run)
    if asked.manager == "select":
        return select(testing, asked.architecture, asked.packages)
    if asked.manager == "compare":
        return compared(testing, asked.packages, asked.sources)
    manager, place = manager_of(asked)
    locked(place, NAME, " on this archive")
    service = service_at(asked.url or DEFAULT_URL) if asked.testing is None else None
    architectures = list(dict.fromkeys(row.architecture for row in testing.rows if row.architecture != ALL))
    evidence = Evidence(groups_of(service, testing.finished), judge(), architectures,
                        lambda: read_known(
                            [path for folder in manager.published_folders() for path in packages_of(folder)]))
    turn = Turn(manager, testing, print, tell, terms, evidence)
    return turn.compare() if asked.dry_run else turn.apply()
