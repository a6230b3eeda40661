"""office-look: judges the testing that the next order would make, and blocks what can't be installed there."""
import argparse
import functools
import os
import sys
from typing import Iterator, Optional, Sequence

from office_tools import days, faults
from office_tools.apply.published import packages_of
from office_tools.bags import bag_of
from office_tools.faults import Exit, Fault
from office_tools.files import cache_of, locked, made
from office_tools.look import looking
from office_tools.look.blame import Eye
from office_tools.look.copy import Copy
from office_tools.look.judge import DOSE, INSTALLCHECK, judge, read_known
from office_tools.look.looking import Found, Look, is_due
from office_tools.order import check_day, check_gaps
from office_tools.service import DEFAULT_URL, Service, service_at

NAME = "office-look"
SETUP = "/etc/office/setup.conf"

tell = functools.partial(faults.tell, NAME)


def parser() -> argparse.ArgumentParser:
    """The command's words."""
    words = argparse.ArgumentParser(
        prog=NAME, description="Tries the run that the next order would make, has the testing that it leaves judged by "
                               "installcheck or dose-debcheck, and blocks what can't be installed there.",
        epilog="Status 0: nothing is blocked, and with --order the run is finished. 1: something is blocked or should "
               "be, a run waits for mail, or with --dry-run something would be sent. 2: the words are wrong. 3: "
               "refused: nothing was ordered. 4: the office, the program or the judge failed.")
    words.add_argument("--url", default=DEFAULT_URL, help=f"the service ({DEFAULT_URL})")
    words.add_argument("--conf", default=SETUP, metavar="SETUP", help=f"the office's setup ({SETUP})")
    words.add_argument("--day", type=days.day, default=days.today(),
                       help="the day of the run, as 2025-03-20 (today by the system's clock, in UTC)")
    words.add_argument("--order", action="store_true", help="mail the order that was judged, if one is due")
    words.add_argument("--propose", action="store_true",
                       help="then mail hints for the groups that the office proposes, and judge and order once more")
    words.add_argument("--force", action="store_true",
                       help="allow a day after today, or before the last order's")
    words.add_argument("--gap", action="append", default=[], metavar="SENDER",
                       help="allow an order although mail of this sender is missing; may be repeated")
    words.add_argument("--judge", choices=(INSTALLCHECK, DOSE, "none"),
                       help="the judge (the first of these two that is installed); none: order without a look")
    words.add_argument("--dry-run", action="store_true", help="print what would be sent, as a bag, and send nothing")
    words.add_argument("--cache", metavar="DIR", help="where a copy of the office's store is kept")
    words.add_argument("packages", metavar="PACKAGES", nargs="*",
                       help="a file Packages, or a folder dists/SUITE: those of testing and of unstable")
    return words


def files_of(names: Sequence[str]) -> Iterator[str]:
    """The named files Packages, and those of the named folders."""
    for name in names:
        found = list(packages_of(name)) if os.path.isdir(name) else [name]
        if not found:
            raise Fault(f"{name}: no file Release there states files Packages", Exit.REFUSED)
        yield from found


def eye_of(asked: argparse.Namespace) -> Optional[Eye]:
    """The judge over the archive's paragraphs; None if nothing is to be looked at."""
    if asked.judge == "none":
        return None
    found = judge(asked.judge)
    if found is None:
        raise Fault(f"neither {INSTALLCHECK} (libsolv-tools) nor {DOSE} (dose-distcheck) is installed: --judge none "
                    "orders without a look", Exit.REFUSED)
    return Eye(found, read_known(list(files_of(asked.packages))))


def waits(service: Service) -> Sequence[str]:
    """The lines of what an ordered run waits for, once all that is ready is finished."""
    status = service.status()
    if status.ready > status.finished:
        service.post("/settle")
    lines = service.good_text("/waiting").splitlines()[1:]
    return [line for line in lines if " of " in line]


def shown(found: Found, told: set[str]) -> int:
    """Prints what a run does, and what is blocked, unless it was printed already: the status."""
    gone = len(found.step.removed)
    print(f"run {found.step.before.finished + 1}: moves {len(found.step.moved)}, removes {gone}, "
          f"blocks {len(found.blocked)}")
    lines = [f"blocked: {name} {why}" for name, why in sorted(found.blocked.items())]
    lines += [f"not held back: {name}: {why}: an unblock or a remove hint is in force"
              for name, why in sorted(found.loose.items())]
    for line in lines:
        if line not in told:
            tell(line)
    told.update(lines)
    return Exit.NEGATIVE if found.blocked or found.loose else Exit.DONE


def step(look: Look, asked: argparse.Namespace, told: set[str], hints: Sequence[str] = ()) -> int:
    """Looks at a run, mails what blocks, and orders the run: the status."""
    found = look.look(hints)
    status = shown(found, told)
    if asked.dry_run:
        sys.stdout.buffer.write(bag_of([*found.texts, *([found.order] if asked.order else [])]))
        return Exit.NEGATIVE if found.texts or asked.order else status
    looking.send(look.service, found.texts)
    if asked.order:
        looking.send(look.service, [found.order])
        lines = waits(look.service)
        for line in lines:
            tell(line)
        status = Exit.NEGATIVE if lines else status
    return status


def main(words: Sequence[str]) -> int:
    """Looks at the next run, and orders it."""
    known = parser()
    asked = known.parse_args(words)
    if not asked.packages and asked.judge != "none":
        known.error("name files Packages, or folders dists/SUITE")
    if asked.propose and not asked.order:
        known.error("--propose needs --order")
    service = service_at(asked.url)
    folder = made(asked.cache or cache_of(NAME, service.url))
    locked(folder, NAME)
    copy = Copy(service, asked.conf, folder)
    waiting = waits(service)
    for line in waiting:
        tell(line)
    if waiting:
        return Exit.NEGATIVE
    order = service.order(asked.day)
    check_gaps(service.kept(), asked.gap)
    if not asked.force:
        check_day(service, order, asked.day)
    status = 0
    told: set[str] = set()
    look = Look(service, copy, eye_of(asked), asked.day)
    look.begin()
    if is_due(service, order, asked.day):
        status = step(look, asked, told)
    else:
        print("no run is due: all mail is covered, and the day is that of the last order")
        for block in look.standing:
            status = Exit.NEGATIVE
            tell(f"blocked: {block.source} {block.version}")
    if asked.propose and not asked.dry_run:
        look.begin()
        hints = service.new_proposals(asked.day)
        print(f"proposed {len(hints)}")
        if hints:
            status = max(status, step(look, asked, told, hints))
    return status
