#!/usr/bin/python3
"""A seeded month of a real archive that the office runs, with faults; after each day testing is checked.

Usage: month.py OFFICE [--all] [--seed N] [--days N] [--manager reprepro|aptly] [--quiet] [--events] [--fault NAME]..

Without further words it lives a short month of six days. `--all` lives three of thirty days with reprepro, and one
with aptly. With `--quiet` no fault is made, with `--fault` this one alone (of troubles.py), on the second day, and
little else happens. Each day has a line, and each month in the end
`month SEED: N days, M faults, P problems`. With `--events` all that people do is printed, too. The exit status is 1 if
there is a problem.
"""
import argparse
import os
import shutil
import signal
import subprocess
import sys
import tempfile
import time
from typing import Mapping, Sequence

import troubles
from simulation import Simulation, begun
from stage import Failed
from troubles import OVER, SKIP, Steps, Trouble
from world import World

SHORT, LONG = 6, 30
SEEDS = ((7, "reprepro"), (11, "reprepro"), (23, "reprepro"), (5, "aptly"))
QUIET = 8  # the last days of a long month have no new events, and all that can move has to
ROOM = "400m"


def quiet_days(days: int) -> int:
    """How many of the last days have no new events."""
    return min(QUIET, days // 4)


def plan(days: int, only: Sequence[str]) -> Mapping[int, Sequence[Trouble]]:
    """On which day which faults begin: those that are named on the second one, or those of a usual month."""
    if only:
        return {2: [getattr(troubles, name) for name in only]}
    return troubles.BRIEF if days <= SHORT else troubles.USUAL


def live(month: Simulation, days: int, begins: Mapping[int, Sequence[Trouble]]) -> None:
    """All days of a month."""
    running: list[Steps] = []
    for number in range(1, days + 1):
        began = time.monotonic()
        month.number, month.told = number, []
        events = list(month.world.day(number, number > days - quiet_days(days)))
        for event in events:
            month.do(event)
        month.faults += len(begins.get(number, ()))
        month.told += [trouble.__name__.upper() for trouble in begins.get(number, ())]
        running += [trouble(month) for trouble in begins.get(number, ())]
        if not is_skipped(month, running):
            month.day()
            month.evening()
        waiting = list(month.books.behind(month.testing, month.today))
        print(f"day {number}: {len(events)} events {' '.join(month.told)}; {len(waiting)} of "
              f"{len(month.books.unstable)} behind; {time.monotonic() - began:.0f} s", flush=True)


def is_skipped(month: Simulation, running: list[Steps]) -> bool:
    """Lets each fault continue, and returns whether one of them wants no command to run today."""
    is_asked = False
    for steps in list(running):
        try:
            step = next(steps, OVER)
        except Failed as failed:
            month.problem(f"{getattr(steps, '__name__', 'a fault')}: {str(failed)[-1500:]}")
            step = OVER
        if step == OVER:
            running.remove(steps)
        is_asked = is_asked or step == SKIP
    return is_asked


def month_of(program: str, world: World, asked: argparse.Namespace, begins: Mapping[int, Sequence[Trouble]]) -> bool:
    """Lives a month in a folder of its own, and says whether there was no problem."""
    folder = tempfile.mkdtemp(prefix="month-")
    is_mounted = os.getuid() == 0 and subprocess.run(["mount", "-t", "tmpfs", "-o", f"size={ROOM}", "tmpfs", folder],
                                                     capture_output=True, check=False).returncode == 0
    month = None
    try:
        month = begun(program, folder, asked.manager, world)
        month.has_disk, month.is_loud = is_mounted, asked.events
        live(month, asked.days, begins)
    finally:
        if month is not None:
            month.stage.office.stop()
        if is_mounted:
            subprocess.run(["umount", "-l", folder], check=False)
        shutil.rmtree(folder, ignore_errors=True)
    print(f"month {world.seed}: {asked.days} days, {month.faults} faults, {len(month.problems)} problems", flush=True)
    return not month.problems


def main(words: Sequence[str]) -> int:
    """Lives the months that the words name."""
    known = argparse.ArgumentParser(prog="month.py")
    known.add_argument("office", metavar="OFFICE")
    known.add_argument("--all", action="store_true")
    known.add_argument("--seed", type=int, default=3)
    known.add_argument("--days", type=int, default=SHORT)
    known.add_argument("--manager", choices=("reprepro", "aptly"), default="reprepro")
    known.add_argument("--quiet", action="store_true")
    known.add_argument("--events", action="store_true")
    known.add_argument("--fault", action="append", default=[], metavar="NAME")
    asked = known.parse_args(words)
    program = os.path.abspath(asked.office)
    signal.signal(signal.SIGTERM, lambda number, _: sys.exit(128 + number))  # so that what was begun is cleared away
    if asked.all:
        asked.days = LONG
        good = []
        for seed, asked.manager in SEEDS:
            good.append(month_of(program, World(seed, 2), asked, troubles.USUAL))
        return int(not all(good))
    begins = {} if asked.quiet else plan(asked.days, asked.fault)
    busy = (0, 1) if asked.fault else (2, 5)
    world = World(asked.seed, 2 if asked.days >= LONG else 1, busy)
    return int(not month_of(program, world, asked, begins))


if __name__ == "__main__":
    sys.exit(main(sys.argv[1:]))
