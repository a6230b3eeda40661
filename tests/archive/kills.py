"""Ends office-feed, office-apply and office-day by SIGKILL within their work, and runs them again.

Usage: kills.py OFFICE FOLDER [feeds|days|reprepro|aptly..]

The feed is ended at each fourth message, by turns before the office got it and after that. Before it runs again, more
comes to unstable, so that what is left to send isn't what was left before. No number may be sent with two texts. The
apply is ended after each command of the manager. What clients see then is the old testing or the new one, and a second
apply makes it the new one. A day is ended with its steps at moments of a seed; the next one that isn't ended makes
testing the office's.
"""
import os
import random
import shutil
import signal
import subprocess
import sys
import time
from typing import Sequence

import clients
import ways
from days import DAYS
from loop import MANAGERS, archived, due, expect, live
from packages import TWELVE, Package, Upload, build_all
from spy import Spy
from stage import COMMANDS, Failed, Office, Stage, command, run

STEP = 4
KILLS = 4  # of one day
PAUSED = 5  # the day of DAYS whose apply is ended: packages come and go
LATER = [Upload(f"aa{number}", "1-1", "2025-03-05", [Package(f"aa{number}")], "critical") for number in range(12)]
DAY = "2025-03-06"

WRAPPER = """#!/bin/sh
number=$(($(cat "$COUNTED" 2>/dev/null || echo 0) + 1))
echo "$number" > "$COUNTED"
/usr/bin/%s "$@"
status=$?
[ "$number" = "$AT" ] && kill -9 "$PPID"
exit "$status"
"""


def started(name: str, words: Sequence[str], **more: str) -> "subprocess.Popen[bytes]":
    """Starts a command under test."""
    return subprocess.Popen([os.path.join(os.environ.get("COMMANDS", COMMANDS), name), *words],
                            stdout=subprocess.DEVNULL, stderr=subprocess.DEVNULL, env={**os.environ, **more})


def feeds(program: str, folder: str) -> str:
    """Ends feeds until all is sent."""
    office = Office(program, folder)
    stage = Stage(office, MANAGERS["reprepro"](folder), folder, os.path.join(os.path.dirname(folder), "built"))
    office.start()
    spy = Spy(office.url)
    stage.url = spy.url
    stage.takes(TWELVE)
    later = list(LATER)
    ended = 0
    try:
        while True:
            stage.line = stage.archive.ready()
            feed = started("office-feed", stage.feed_words(DAY))
            spy.arm(feed.pid, STEP, ended % 2 == 1)
            if feed.wait(60) == 0:
                break
            ended += 1
            if ended % 4 == 0:  # what the office doesn't have was never sent: what is remembered may be lost
                shutil.rmtree(os.path.join(folder, "cache"))
            stage.takes([later.pop()] if later else [])
            if ended > 40:
                raise Failed("the feeds don't come to an end")
        spy.process = None
        stage.feed(DAY)
        spy.check()
        compare(program, stage)
    finally:
        office.stop()
        spy.close()
    return f"{ended} feeds ended, {len(spy.seen)} numbers sent, none with two texts"


def compare(program: str, stage: Stage) -> None:
    """An office that is fed at once has the same testing."""
    folder = os.path.join(stage.folder, "whole")
    os.makedirs(folder)
    other = Office(program, folder)
    other.start()
    try:
        words = list(stage.feed_words(DAY))
        words[words.index("--url") + 1] = other.url
        words[words.index("--cache") + 1] = folder
        command("office-feed", *words)
        expect("testing of ended feeds", sorted(other.rows()), sorted(stage.office.rows()))
    finally:
        other.stop()


def applies(program: str, folder: str, manager: str) -> str:
    """Ends applies at each command of a manager."""
    office = Office(program, folder)
    stage = Stage(office, MANAGERS[manager](folder), folder, os.path.join(os.path.dirname(folder), "built"))
    office.start()
    try:
        for number, day in enumerate(DAYS[:PAUSED - 1], 1):
            live(stage, number, day)
            stage.apply()
        live(stage, PAUSED, DAYS[PAUSED - 1])
        return f"{manager}: {ends(stage, manager)} applies ended"
    finally:
        office.stop()


def ends(stage: Stage, manager: str) -> int:
    """Ends an apply at each command in turn, from the same archive."""
    place = os.path.join(stage.folder, "archive" if manager == "reprepro" else "aptly")
    saved = os.path.join(stage.folder, "saved")
    run("cp", "-a", place, saved)
    wrappers = os.path.join(stage.folder, "bin")
    os.makedirs(wrappers)
    with open(os.path.join(wrappers, manager), "w", encoding="utf-8") as file:
        file.write(WRAPPER % manager)
    os.chmod(os.path.join(wrappers, manager), 0o755)
    old, new = archived(stage.archive), due(stage)
    at = 0
    while True:
        at += 1
        shutil.rmtree(place)
        run("cp", "-a", saved, place)
        counted = os.path.join(stage.folder, "counted")
        if os.path.exists(counted):
            os.unlink(counted)
        ended = started("office-apply", stage.apply_words(), PATH=f"{wrappers}:{os.environ['PATH']}", COUNTED=counted,
                        AT=str(at))
        if ended.wait(120) == 0:
            return at - 1
        seen = archived(stage.archive)
        if seen not in (old, new):
            raise Failed(f"ended behind command {at}: clients see {sorted(seen ^ old)} otherwise")
        stage.apply()
        expect(f"testing behind an apply that was ended behind command {at}", sorted(new),
               sorted(archived(stage.archive)))
        told = command("office-apply", "--url", stage.office.url, "compare", stage.archive.published("testing"))
        expect("the indexes", "", told.stderr)


def whole_days(program: str, folder: str) -> str:
    """Ends days, each several times, before one comes to its end."""
    moments = random.Random(7)
    days = ways.Unattended(program, folder)
    days.office.start()
    try:
        days.stage.takes([ways.CALM, *ways.DUET])
        began = time.monotonic()
        days.day(ways.FIRST, 0)
        whole = time.monotonic() - began
        for day, uploads in ((ways.NEXT, ways.RIVALS), (ways.LAST, ways.MENDED)):
            days.stage.takes(uploads)
            for _ in range(KILLS):
                end_day(days, day, moments.random() * whole)
            days.day(day, 1)
            expect(f"testing on {day}", sorted(days.office.rows()), sorted(archived(days.archive)))
            clients.look(days.archive, folder)
    finally:
        days.office.stop()
    return f"{2 * KILLS} days ended"


def end_day(days: "ways.Unattended", day: str, seconds: float) -> None:
    """Ends a day with all its steps after this time. A lock that reprepro leaves is removed, as office-apply says."""
    words = [os.path.join(COMMANDS, "office-day"), "--conf", os.path.join(days.folder, "day.conf"), "--day", day]
    with subprocess.Popen(words, stdout=subprocess.DEVNULL, stderr=subprocess.DEVNULL, start_new_session=True,
                          env={**os.environ, "OFFICE": days.office.program}) as process:
        time.sleep(seconds)
        if process.poll() is None:
            os.killpg(process.pid, signal.SIGKILL)
    time.sleep(1)  # until the steps have ended, too
    lock = os.path.join(days.archive.base, "db", "lockfile")
    if os.path.exists(lock):
        os.unlink(lock)


def main(words: Sequence[str]) -> None:
    """Builds what comes later, and ends feeds, days and applies."""
    program, folder, *parts = words
    build_all([*LATER, *ways.ALL, *(upload for day in DAYS for upload in day.uploads)], os.path.join(folder, "built"))
    told = []
    others = {"feeds": feeds, "days": whole_days}
    for name in parts or (*others, *MANAGERS):
        part = os.path.join(folder, name)
        os.makedirs(part)
        told.append(others[name](program, part) if name in others else applies(program, part, name))
    print("\n".join(told))


if __name__ == "__main__":
    try:
        main(sys.argv[1:])
    except Failed as failed:
        sys.exit(f"failed: {failed}")
