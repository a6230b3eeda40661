"""office-day: a day of an archive that the office runs, as one command."""
import argparse
import datetime
import functools
import os
from typing import Mapping, Optional, Sequence

from office_tools import days, faults
from office_tools.day.settings import read_settings
from office_tools.day.standing import MEMORY, Line, Memory, standing, waiting
from office_tools.day.steps import Ran, Steps
from office_tools.faults import Exit, Fault
from office_tools.files import locked, made
from office_tools.service import Service, service_at

NAME = "office-day"
CONF = "/etc/office/day.conf"
STEPS = ("feed", "bugs", "tests", "look", "apply")
SHOWN = 50  # lines of one part of a summary
TITLES: Mapping[int, str] = {
    Exit.DONE: "all well", Exit.NEGATIVE: "something stands still", Exit.USAGE: "the settings are wrong",
    Exit.REFUSED: "refused", Exit.FAILED: "failed"}

tell = functools.partial(faults.tell, NAME)


def parser() -> argparse.ArgumentParser:
    """The command's words."""
    words = argparse.ArgumentParser(
        prog=NAME, description="Runs a day of an archive: applies testing, pulls unstable, feeds the office, mails it "
                               "bugs and results of tests, looks at the next run, orders it, and applies testing "
                               "again.",
        epilog="Status 0: all is well. 1: something stands still that a person should see. 2: the words or the "
               "settings are wrong. 3: a step refused, and the day ended there. 4: a step failed, and the day ended "
               "there.")
    words.add_argument("--conf", default=CONF, metavar="FILE", help=f"the settings ({CONF})")
    words.add_argument("--day", type=days.day, help="the day of the run, as 2025-03-20 (today, in UTC)")
    words.add_argument("--summary", action="store_true", help="print one mail at the end, with a subject")
    for step in STEPS:
        words.add_argument(f"--{step}", action="append", default=[], metavar="WORD",
                           help=f"a further word of office-{step} for this day; may be repeated")
    words.add_argument("--without", action="append", default=[], choices=("bugs", "tests"),
                       help="leave out this step, as when its list can't be had; may be repeated")
    return words


def patient(service: Service, patience: int) -> Sequence[Line]:
    """The sources that wait for long; none if the office doesn't report that."""
    try:
        finished = service.status().finished
        return list(waiting(service.excuses(finished), service.update(finished), patience)) if finished else []
    except Fault as fault:
        return [Line(0, fault.cause)]


def watched(ran: Ran) -> None:
    """Prints what a step said."""
    for line in ran.out:
        print(f"{ran.name}: {line}", flush=True)
    for line in ran.err:
        tell(f"{ran.name}: {line}")


def summary(day: datetime.date, status: int, done: Sequence[Ran], lines: Sequence[Line]) -> str:
    """A mail on what the day did, and on what doesn't move."""
    moved = [line for ran in done for line in ran.out if line.startswith(("came: source ", "went: source "))]
    other = [f"{ran.name}: {line}" for ran in done for line in ran.out if not line.startswith(("came: ", "went: "))]
    notes = list(dict.fromkeys(f"{ran.name}: {line}" for ran in done for line in ran.err))
    parts = [("Stands still", list(map(str, lines))), ("Came and went", moved), ("Steps", other), ("Notes", notes)]
    text = f"Subject: office {day}: {TITLES[status]}{f' ({len(lines)} lines)' if lines else ''}\n"
    for title, content in parts:
        if content:
            shown = [*content[:SHOWN], *([f"and {len(content) - SHOWN} more"] if len(content) > SHOWN else [])]
            text += f"\n{title}:\n" + "".join(f"  {line}\n" for line in shown)
    return text


def main(words: Sequence[str]) -> int:
    """Runs the day."""
    asked = parser().parse_args(words)
    more = {step: getattr(asked, step) for step in STEPS}
    settings = read_settings(asked.conf, more, asked.without)
    locked(made(settings.state), NAME)
    service = service_at(settings.url)
    today = asked.day or days.today()
    kept = Memory(os.path.join(settings.state, MEMORY), today)
    kept.read()
    watch = (lambda ran: None) if asked.summary else watched
    steps = Steps(settings, asked.day.isoformat() if asked.day else None, watch)
    fault: Optional[Fault] = None
    try:
        status = steps.run(service.status().finished > 0)
    except Fault as raised:
        fault, status = raised, raised.status
    others = [kept.line("day", fault.cause)] if fault else patient(service, settings.patience)
    lines = [*standing(steps.last, kept), *others]
    kept.write([*(ran.name for ran in steps.done), "day"])
    status = Exit.NEGATIVE if status == Exit.DONE and lines else status
    if asked.summary:
        print(summary(today, status, steps.done, lines), end="")
    else:
        for line in lines:
            tell(f"stands still: {line}")
        print(f"{today}: {TITLES[status]}")
    return status
