#!/usr/bin/python3
"""Garbled files of each kind that a tool reads: each ends by a status and a sentence, never by a traceback or a signal.

Usage: garbled.py OFFICE [--jobs N] [--first NUMBER] [--minutes N] [COUNT [KIND..]]

COUNT files of each kind are drawn, 100 if nothing is stated, from a seed that is the kind and a NUMBER (from 0 on). A
tool reads each by its own `main`, up to a hundred files in a process that is forked from this one, in a folder that is
put right after each. What a program or the office answered is answered again to the same question. All kinds come by
turns, N parts at once (1), until the MINUTES are over. A file that ends a tool wrongly is kept, and named with the
command. The exit status is 1 if there is one. Set TMPDIR to a folder in memory, since the tools wait until a disk has
what they write.
"""
import argparse
import contextlib
import fcntl
import glob
import importlib
import multiprocessing
import os
import random
import re
import shutil
import signal
import sqlite3
import subprocess
import sys
import tempfile
import time
import traceback
from collections import Counter
from dataclasses import dataclass, field
from typing import Callable, Iterator, Mapping, Optional, Sequence, TextIO

from stage import TOP, Office, run

sys.path.insert(0, os.path.join(TOP, "tools"))

from answers import asked_once, content  # noqa: E402
from restored import Folder, write  # noqa: E402
from office_tools import faults  # noqa: E402
from office_tools.bags import framed  # noqa: E402
from office_tools.mirror import held  # noqa: E402

MODULES: Mapping[str, str] = {"bugs": "bugs.command", "mend": "mend", "tests": "autopkgtests.command"}
"""Where a tool's words are read, if it isn't in the module `command` of its own folder."""
PAGES = "out/.state/state.db"
CACHED = {"bag": "cache/bag", "known": "cache/known.json", "memory": "cache/memory.json",
          "indexes": "cache/indexes.json", "ends": "look/ends", "copy": "look/store.db", "pages": PAGES}
"""The files in which office-feed, office-look and office-pages remember something."""
BRITNEY = {"packages": ("Packages_amd64",), "sources": ("Sources",), "bugs": ("BugsV",), "dates": ("Dates",),
           "urgencies": ("Urgency",), "hints": ("Hints/me",)}
"""The files of a suite in a data folder of britney's."""
STATUSES = range(5)
TRACED = 99  # what counts as the status of a tool that ended by a traceback
SECONDS, LONGEST = 60, 1200  # of processor that a tool may take for a file, and of time, on a machine that does more
BATCH = 100  # files that one process tries
WRITTEN = os.O_WRONLY | os.O_CREAT | os.O_TRUNC
FOLDERS = ("out/.state", "ch", "cache", "states", "look", "dists/main/binary-amd64", "root/public/dists/testing",
           "data/testing", "data/unstable/Hints")
"""The folders of a case."""
DAY = "2025-03-06"
MAKE = ("from-packages", "--no-hints", "--uploaded", DAY, "--run", DAY)
TAKE = ("apply", "--testing", "testing")
PAGE = ("pages", "--excuses", "excuses", "--update", "update", "--testing", "testing", "out")
NUMBER = re.compile(b"[0-9]+")

PACKAGES = b"""Package: aa
Version: 1.0-1
Architecture: amd64
Maintainer: A <a@example.org>
Depends: libbb1 (>= 1.0) | cc, dd:any
Description: tiny
 A tiny package.

Package: libbb1
Source: bb (1:2.0-1)
Version: 1:2.0-1+b1
Architecture: amd64
Provides: virtual (= 1), other
Pre-Depends: dd
Filename: pool/b/bb.deb

Package: dd
Version: 0~rc1
Architecture: all
Multi-Arch: foreign
Description: tiny
"""
SOURCES = b"""Package: aa
Binary: aa
Version: 1.0-1
Files:
 d41d8cd98f00b204e9800998ecf8427e 0 aa_1.0-1.dsc

Package: bb
Version: 1:2.0-1
Extra-Source-Only: no

Package: dd
Version: 0~rc1
"""
CHANGES = b"""Format: 1.8
Date: Sat, 01 Mar 2025 09:00:00 +0000
Source: aa
Binary: aa
Architecture: source amd64
Version: 1.0-1
Distribution: unstable
Urgency: medium
Maintainer: A <a@example.org>
Changes:
 aa (1.0-1) unstable; urgency=medium
 .
   * New.
Files:
 d41d8cd98f00b204e9800998ecf8427e 0 misc optional aa_1.0-1.dsc
"""
MAIL = (
    b"From: hand\nNumber: 1\nKind: drop\nPackage: zz\nArchitecture: amd64\nVersion: 1\n",
    b"From: bts\nNumber: 1\nKind: bug\nBug: 1001\nSource: aa\nSeverity: grave\nFound: 1.0-1\nFixed: 1.0-2\n",
    b"From: rt\nNumber: 1\nKind: hint\nHint: age-days 3 bb/1:2.0-1\n",
    b"From: rt\nNumber: 2\nKind: hint\nHint: block aa\nComment: a person\n",
    b"From: rt\nNumber: 3\nKind: unhint\nCancels: 2\n",
    b"From: rt\nNumber: 4\nKind: delays\nLow: 10\nMedium: 5\nHigh: 2\nCritical: 0\n")
"""Messages of the kinds that office-from-packages doesn't make."""
BUGS = b"aa 1001,1002\nbb 1003\n"
TESTS = b"""[{"package": "aa", "suite": "unstable", "arch": "amd64", "version": "1.0-1", "status": "fail",
  "trigger": "aa/1.0-1", "date": "2025-03-05T10:00:00.000Z"}, {"package": "bb", "suite": "testing", "arch": "amd64",
  "version": "1:2.0-1", "status": "pass", "trigger": null, "date": "2025-03-05T10:00:00.000Z"}]
"""
SETTINGS = b"""Url: http://127.0.0.1:9
Setup: setup
State: states
Feed: --rebuilds packages
Apply: heidi out/heidi dists
Look: dists
Bugs: --close 3 bugs bugs
Tests: tests
Patience: 30
"""
HEIDI = b"aa 1.0-1 source\naa 1.0-1 amd64\ndd 0~rc1 all\n"
STANDING = b'{"apply: held back: aa": "2025-03-01", "day: no office answers": "2025-03-02"}\n'
NOTIFIED = b'{"run": 0, "done": ["a@example.org"]}\n'
PEOPLE = b"aa\tA <a@example.org>\nbb\tB of C <b@example.org>\n"
DATES = b"aa 1.0-1 20148\nbb 1:2.0-1 20149\n"
URGENCIES = b"aa 1.0-1 low\nbb 1:2.0-1 high\ndd 0~rc1 medium\n"
HINTS = b"# a person\nblock aa\nurgent bb/1:2.0-1\neasy aa/1.0-1 bb/1:2.0-1\nfinished\n"
APTLY = b'{\n  "rootDir": "root",\n  "architectures": ["amd64"],\n  "gpgDisableSign": true\n}\n'
NETRC = b"machine 127.0.0.1 login ftp password secret\ndefault login other password more\n"

TOKENS = (
    b"\xc3:", b"\xc3\xa9", b"\xff", b"\0", b"\xc2\xa0", b"\r", b"\r\n", b"\n", b"\n\n", b"\n ", b"\t", b"\x0b",
    b"\x1c", b"\xe2\x80\xa8", b":", b": ", b",", b"|", b"(", b")", b"((", b"<<", b"[amd64]", b"<!x>", b"~", b"+", b"-",
    b"1:", b"0", b"-1", b"99999999999999999999", b"9" * 5000, b"1e999", b"NaN", b"Infinity", b"null",
    b"{", b"[", b"[" * 3000, b"]", b'"', b"\\u0000", b"\\ud800", b"#", b"mail ", b"mail 5\n", b"mail 999999999\n",
    b"From: ftp\n", b"Package: ",
    b"Version: ", b"=?utf-8?q?x?=", b"-----BEGIN PGP SIGNED MESSAGE-----\n\n", b"-----BEGIN PGP SIGNATURE-----\n",
    b"\x1f\x8b", b"\xfd7zXZ\0", b"BZh9", b"x" * 5000, b"../../etc/passwd", b"\x1b[2J", b"\xef\xbb\xbf", b"\xff\xfe")


def garbled(random_: random.Random, text: bytes) -> bytes:
    """A text with some faults in it."""
    for _ in range(random_.choice((1, 1, 1, 2, 3, 8))):
        text = random_.choice(WAYS)(random_, text)
    return text


def place(random_: random.Random, text: bytes) -> int:
    """A place in a text."""
    return random_.randint(0, len(text))


def part(random_: random.Random, text: bytes) -> tuple[int, int]:
    """A part of a text, mostly a short one."""
    first = place(random_, text)
    return first, min(len(text), first + random_.choice((1, 2, 8, 40, 400)))


def flipped(random_: random.Random, text: bytes) -> bytes:
    """Another byte somewhere."""
    at = place(random_, text)
    return text[:at] + bytes([random_.randrange(256)]) + text[at + 1:]


def inserted(random_: random.Random, text: bytes) -> bytes:
    """Something strange somewhere."""
    at = place(random_, text)
    return text[:at] + random_.choice(TOKENS) + text[at:]


def value(random_: random.Random, text: bytes) -> bytes:
    """Something strange in the place of a word."""
    lines = text.split(b"\n")
    at = random_.randrange(len(lines))
    words = lines[at].split(b" ")
    words[random_.randrange(len(words))] = random_.choice(TOKENS)
    lines[at] = b" ".join(words)
    return b"\n".join(lines)


def number(random_: random.Random, text: bytes) -> bytes:
    """Thousands of digits in the place of a number."""
    numbers = list(NUMBER.finditer(text))
    if not numbers:
        return inserted(random_, text)
    found = random_.choice(numbers)
    return text[:found.start()] + b"9" * 5000 + text[found.end():]


def without(random_: random.Random, text: bytes) -> bytes:
    """A part less."""
    first, last = part(random_, text)
    return text[:first] + text[last:]


def doubled(random_: random.Random, text: bytes) -> bytes:
    """A part twice."""
    first, last = part(random_, text)
    return text[:last] + text[first:]


def cut(random_: random.Random, text: bytes) -> bytes:
    """The beginning alone."""
    return text[:place(random_, text)]


def swapped(random_: random.Random, text: bytes) -> bytes:
    """Two lines in each other's place."""
    lines = text.split(b"\n")
    left, right = (random_.randrange(len(lines)) for _ in range(2))
    lines[left], lines[right] = lines[right], lines[left]
    return b"\n".join(lines)


def noise(random_: random.Random, text: bytes) -> bytes:
    """Bytes that mean nothing."""
    return random_.randbytes(random_.choice((0, 1, 2, 20, 300)))


WAYS: Sequence[Callable[[random.Random, bytes], bytes]] = (
    flipped, flipped, flipped, inserted, inserted, inserted, inserted, value, value, value, number, without, doubled,
    cut, swapped, noise)


@dataclass(frozen=True)
class Reading:
    """How a tool reads a kind of file: its place in the case's folder, and the tool's name with its words."""

    place: str
    words: Sequence[str]
    is_input: bool = False


@dataclass(frozen=True)
class Case:
    """A file, by its kind and number, and how a tool reads it."""

    kind: str
    number: int
    reading: Reading


@dataclass(frozen=True)
class Part:
    """Some files of a kind, by their numbers."""

    kind: str
    numbers: range


@dataclass
class Tried:
    """How many files of a kind were tried, and what was wrong."""

    kind: str
    count: int = 0
    faults: list[str] = field(default_factory=list)


def parts(kinds: Sequence[str], numbers: range) -> Iterator[Part]:
    """The files of all kinds, which come by turns."""
    for start in range(0, len(numbers), BATCH):
        yield from (Part(kind, numbers[start:start + BATCH]) for kind in kinds)


@dataclass
class Bench:
    """A running office, good files of each kind, and what was found."""

    url: str
    folder: str
    good: Mapping[str, bytes] = field(default_factory=dict)
    compiled: Mapping[str, bytes] = field(default_factory=dict)  # the templates that office-pages keeps, by the paths
    last: float = float("inf")  # the end of the time, by the monotonic clock

    def readings(self, kind: str) -> Sequence[Reading]:
        """How files of a kind are read. The folder has a good file of each other kind, under its kind's name."""
        known = {**self.of_archive(kind), **self.of_office(kind), **self.of_memory(kind)}
        beside = [Reading(place, ("from-britney", "bag", "--day", DAY, "data", "out")) for place in places(kind)]
        return [reading for reading in (*known.get(kind, ()), *beside) if main_of(reading.words[0]) is not None]

    @property
    def feeds(self) -> Sequence[str]:
        """The words of a feed."""
        return ("feed", "--url", self.url, "--dry-run", "--day", DAY, "--cache", "cache")

    @property
    def looks(self) -> Sequence[str]:
        """The words of a look."""
        return ("look", "--url", self.url, "--conf", "setup", "--cache", "look", "--dry-run", "--day", DAY)

    def of_archive(self, kind: str) -> Mapping[str, Sequence[Reading]]:
        """How the files of an archive, of a bug tracker and of debci are read."""
        feeds, bugs = self.feeds, ("bugs", "--url", self.url, "--dry-run")
        aptly = (*TAKE, "aptly", "aptly.conf", "unstable", "testing")
        return {
            "packages": [Reading(kind, words) for words in (
                (*MAKE, "out", kind), ("adopt", "--dry-run", "--no-check", "out", kind), (*feeds, kind),
                (*TAKE, "compare", kind), (*TAKE, "select", "amd64", kind), (*self.looks, kind))],
            "sources": [Reading(kind, words) for words in (
                (*MAKE, "--sources", kind, "out", "packages"), (*feeds, "--sources", kind, "packages"),
                ("adopt", "--dry-run", "--no-check", "--sources", kind, "out", "packages"),
                (*TAKE, "compare", "--sources", kind, "packages"),
                ("notify", "--url", self.url, "--run", "1", "--sources", kind), (*PAGE, "--maintainers", kind))],
            "release": [*(Reading("dists/Release", words) for words in (
                (*TAKE, "compare", "dists"), (*TAKE, "heidi", "out/heidi", "dists"), (*self.looks, "dists"))),
                        Reading("root/public/dists/testing/Release", aptly)],
            "changes": [Reading("ch/a.changes", (*MAKE, "--changes", "ch", "out", "packages")),
                        Reading("ch/a.changes", (*feeds, "--changes", "ch", "packages"))],
            "heidi": [Reading(kind, (*TAKE, "heidi", kind)),
                      Reading(kind, ("from-britney", "compare", "--url", self.url, kind))],
            "bugs": [Reading(kind, (*bugs, kind, "tests")), Reading(kind, (*bugs, "bugs", kind))],
            "tests": [Reading(kind, ("tests", "--url", self.url, "--dry-run", kind))],
            "people": [Reading(kind, (*PAGE, "--maintainers", kind))],
            "aptly": [Reading("aptly.conf", aptly)]}

    def of_office(self, kind: str) -> Mapping[str, Sequence[Reading]]:
        """How mail, setups and reports are read."""
        britney = ("from-britney", "bag", "--day", DAY, "--after", "bag", "data", "out")
        return {
            "bag": [Reading(kind, ("lint", "--conf", "setup", kind)), Reading(kind, ("lint", "--url", self.url, kind)),
                    Reading(kind, (*MAKE, "--after", kind, "out", "packages")), Reading(kind, britney),
                    Reading(kind, ("mend", "ftp", "1", "message"), True),
                    Reading("cache/bag", (*self.feeds, "packages"))],
            "message": [Reading(kind, ("lint", "--conf", "setup", kind)),
                        Reading(kind, ("lint", "--url", self.url, kind)), Reading(kind, ("mend", "ftp", "1", kind))],
            "setup": [Reading(kind, ("lint", "--conf", kind, "bag")), Reading(kind, (*self.looks, "packages"))],
            "testing": [Reading(kind, words) for words in (
                (*TAKE, "compare", "packages"), (*TAKE, "select", "amd64", "packages"),
                (*TAKE, "heidi", "out/heidi"), PAGE)],
            "excuses": [Reading(kind, PAGE)], "update": [Reading(kind, PAGE)],
            "settings": [Reading(kind, ("day", "--conf", kind, "--day", DAY))],
            "netrc": [Reading(".netrc", ("bugs", "--url", self.url.replace("//", "//ftp@"), "--dry-run", "bugs",
                                         "bugs"))]}

    def of_memory(self, kind: str) -> Mapping[str, Sequence[Reading]]:
        """How the files are read in which tools remember something."""
        state = os.path.basename(held.place_of("", self.url, self.url))
        feed = (*self.feeds, "packages")
        return {
            "state": [Reading("states/" + state, ("mirror", "--state", "states", self.url, self.url))],
            "outgoing": [Reading("cache/outgoing", feed)], "known": [Reading("cache/known.json", feed)],
            "memory": [Reading("cache/memory.json", feed)], "indexes": [Reading("cache/indexes.json", feed)],
            "standing": [Reading("states/memory.json", ("day", "--conf", "settings", "--day", DAY))],
            "notified": [Reading(kind, ("notify", "--url", self.url, "--state", kind))],
            **{name: [Reading(CACHED[name], (*self.looks, "packages"))] for name in ("ends", "copy")},
            "pages": [Reading(PAGES, PAGE)], "compiled": [Reading(path, PAGE) for path in list(self.compiled)[:1]]}

    def kinds(self) -> Sequence[str]:
        """The kinds of files that some tool reads."""
        return [kind for kind in self.good if self.readings(kind)]

    def laid_out(self) -> Folder:
        """A new folder for cases, which has a good file of each kind."""
        files = {path: text for kind, text in self.good.items() for path in (kind, *places(kind))}
        files |= {f"{name}/Release": self.good["release"] for name in ("dists", "root/public/dists/testing")}
        files |= {path: self.good[kind] for kind, path in CACHED.items() if kind in self.good}
        files |= {"dists/main/binary-amd64/Packages": PACKAGES, "aptly.conf": self.good["aptly"],
                  ".netrc": self.good["netrc"], **self.compiled}
        return Folder(self.cases(os.getpid()), FOLDERS, files, (".netrc",))

    def cases(self, process: int) -> str:
        """The folder in which a process tries cases."""
        return os.path.join(self.folder, f"cases-{process}")

    def place(self, case: Case) -> str:
        """Where the folder of a case stays that ended wrongly."""
        return os.path.join(self.folder, f"{case.kind}-{case.number}")

    def try_part(self, part: Part) -> Tried:
        """Tries files of a kind, if there is time. The tools that read it take turns."""
        readings = self.readings(part.kind)
        found = Tried(part.kind)
        cases = [Case(part.kind, number, readings[number % len(readings)]) for number in part.numbers]
        while found.count < len(cases) and time.monotonic() < self.last:
            self.try_some(found, cases[found.count:])
        return found

    def try_some(self, found: Tried, cases: Sequence[Case]) -> None:
        """Tries cases in a process of its own. One that ended by a signal is its last."""
        report = os.path.join(self.folder, f"report-{os.getpid()}")
        child = os.fork()
        if child == 0:
            try:
                with open(report, "w", encoding="utf-8") as file:
                    self.try_here(cases, file)
            finally:
                os._exit(0)
        _, status = os.waitpid(child, 0)
        told = read(report).split("\n")[:-1]
        if len(told) < len(cases):
            os.rename(self.cases(child), self.place(cases[len(told)]))
            told.append(f"ended by signal {os.WTERMSIG(status)}" if os.WIFSIGNALED(status) else "the test failed")
        found.count += len(told)
        found.faults += [f"{case.kind} {case.number}: office-{' '.join(case.reading.words)}: {fault}\n  in "
                         f"{self.place(case)}" for case, fault in zip(cases, told) if fault]

    def try_here(self, cases: Sequence[Case], report: TextIO) -> None:
        """Tries cases, and writes a line for each: what is wrong."""
        folder = self.laid_out()
        for case in cases:
            text = garbled(random.Random(f"{case.kind} {case.number}"), self.good[case.kind])
            fault = self.fault_of(case.reading, text)
            if fault is None:
                folder.restore()
            else:
                folder.keep(self.place(case))
            print(fault or "", file=report, flush=True)
        folder.remove()

    def fault_of(self, reading: Reading, text: bytes) -> Optional[str]:
        """What is wrong with how a tool ends that reads this text."""
        write(reading.place, text)
        fault = judged(*ended(reading, reading.place if reading.is_input else os.devnull))
        unlock()
        return fault

    def warm_up(self, kinds: Sequence[str]) -> None:
        """Lets the tools read good files here, so that all later processes have their modules and the answers."""
        streams, outputs = (sys.stdin, sys.stdout, sys.stderr), [os.dup(number) for number in range(3)]
        folder = self.laid_out()
        for kind in kinds:
            for reading in self.readings(kind):
                self.fault_of(reading, self.good[kind])
                folder.restore()
        folder.remove()
        sys.stdin, sys.stdout, sys.stderr = streams
        for number, output in enumerate(outputs):
            os.dup2(output, number)
            os.close(output)


def places(kind: str) -> Sequence[str]:
    """The places of a kind of file in a data folder of britney's. Testing has no hints."""
    return [f"data/{suite}/{name}" for name in BRITNEY.get(kind, ()) for suite in ("testing", "unstable")
            if kind != "hints" or suite == "unstable"]


def main_of(name: str) -> Optional[faults.Main]:
    """What a tool runs; nothing if there is no such tool."""
    try:
        module = importlib.import_module("office_tools." + MODULES.get(name, name.replace("-", "_") + ".command"))
    except ModuleNotFoundError:
        return None
    found: faults.Main = module.main
    return found


def ended(reading: Reading, given: str) -> tuple[int, str, str]:
    """How a tool ends that runs in this process: its status, and both outputs."""
    called = main_of(reading.words[0])
    assert called is not None
    redirect(given)
    name, *words = reading.words
    sys.argv = ["office-" + name, *words]
    signal.setitimer(signal.ITIMER_PROF, SECONDS)
    signal.alarm(LONGEST)
    status = TRACED
    try:
        faults.run("office-" + name, called)
    except SystemExit as end:
        status = end.code if isinstance(end.code, int) else 0 if end.code is None else TRACED
    except BaseException:  # noqa: B902  # whatever it is, it is a traceback to the user
        traceback.print_exc()
    signal.setitimer(signal.ITIMER_PROF, 0)
    signal.alarm(0)
    for stream in (sys.stdout, sys.stderr):
        flush(stream)
    return status, read("stdout"), read("stderr")


def unlock() -> None:
    """Ends the locks that a tool holds until its process ends, which is this one: the next tool needs them."""
    for number in map(int, os.listdir("/proc/self/fd")):
        with contextlib.suppress(OSError):
            fcntl.flock(number, fcntl.LOCK_UN)


def redirect(given: str) -> None:
    """Lets this process read a file, and write both outputs into files here."""
    for number, (path, mode) in enumerate(((given, os.O_RDONLY), ("stdout", WRITTEN), ("stderr", WRITTEN))):
        opened = os.open(path, mode, 0o644)
        os.dup2(opened, number)
        os.close(opened)
    sys.stdin = open(0, encoding="utf-8", closefd=False)
    sys.stdout = open(1, "w", encoding="utf-8", closefd=False)
    sys.stderr = open(2, "w", encoding="utf-8", errors="backslashreplace", closefd=False)


def flush(stream: object) -> None:
    """Writes what is left."""
    try:
        stream.flush()  # type: ignore[attr-defined]
    except (OSError, ValueError):
        pass


def read(path: str) -> str:
    """What a file holds."""
    with open(path, encoding="utf-8", errors="backslashreplace") as file:
        return file.read()


def judged(status: int, out: str, err: str) -> Optional[str]:
    """What is wrong with how a tool ended."""
    if "Traceback" in err:
        return f"status {status}, a traceback: {err.strip().splitlines()[-1][:300]}"
    if status not in STATUSES:
        return f"status {status}: {err[-300:]!r}"
    if status and not err.strip() and not out.strip():
        return f"status {status} without a sentence"
    return None


def good_files(program: str, folder: str) -> Mapping[str, bytes]:
    """A good file of each kind."""
    out = os.path.join(folder, "good")
    os.makedirs(out)
    for name, text in (("Packages", PACKAGES), ("Sources", SOURCES)):
        write(os.path.join(out, name), text)
    command = os.path.join(TOP, "tools/bin/office-from-packages")
    run(command, "--uploaded", "2025-02-01", "--run", DAY, "--no-hints", "--with-uninstallable", "--sources",
        os.path.join(out, "Sources"), out, os.path.join(out, "Packages"))
    with open(os.path.join(out, "bag"), "rb") as file:
        bag = file.read() + b"".join(map(framed, MAIL))
    told = subprocess.run([program, "replay", "--conf", os.path.join(out, "setup.conf")], input=bag, check=True,
                          capture_output=True).stdout
    parts = {name: told[told.index(b"\n" + name.encode() + b" ") + 1:] for name in ("excuses", "update", "testing")}
    digest = subprocess.run(["sha256sum", os.path.join(out, "Packages")], check=True, capture_output=True).stdout[:64]
    release = (b"Suite: testing\nCodename: testing\nDate: Sat, 01 Mar 2025 09:00:00 UTC\nArchitectures: amd64\n"
               b"Components: main\nSHA256:\n " + digest + b" %d main/binary-amd64/Packages\n" % len(PACKAGES))
    first = bag[bag.index(b"\n") + 1:]
    message = first[:int(bag.split(b"\n", 1)[0].split()[1])]
    with open(os.path.join(out, "setup.conf"), "rb") as file:
        setup = file.read()
    return {"packages": PACKAGES, "sources": SOURCES, "release": release, "changes": CHANGES, "bag": bag,
            "message": message, "state": b'{"bd": [[1, 2]], "ftp": [[1, 3]]}\n', "outgoing": bag, "setup": setup,
            "testing": parts["testing"], "excuses": parts["excuses"][:parts["excuses"].index(b"\nupdate ") + 1],
            "update": parts["update"][:parts["update"].index(b"\ntesting ") + 1], "heidi": HEIDI, "bugs": BUGS,
            "tests": TESTS, "settings": SETTINGS, "standing": STANDING, "notified": NOTIFIED, "people": PEOPLE,
            "dates": DATES, "urgencies": URGENCIES, "hints": HINTS, "aptly": APTLY, "netrc": NETRC}


def remember(bench: Bench) -> None:
    """Lets office-feed, office-look and office-pages remember something, and takes over their files."""
    folder = bench.laid_out()
    for words in ((*bench.feeds, "packages"), (*bench.looks, "packages"), PAGE):
        name, *more = (word for word in words if word != "--dry-run" or words[0] != "feed")
        run(os.path.join(TOP, f"tools/bin/office-{name}"), *more, *(["--no-order"] if name == "feed" else []),
            may_fail=True)
    with contextlib.closing(sqlite3.connect(PAGES, isolation_level=None)) as database:
        # In smaller pages more of the bytes say something.
        for statement in ("PRAGMA journal_mode = DELETE", "PRAGMA page_size = 512", "VACUUM"):
            database.execute(statement)
    templates = sorted(glob.glob("out/.state/*.compiled"), key=os.path.getsize, reverse=True)
    bench.compiled = {path: content(path) or b"" for path in templates}
    found = {kind: content(path) for kind, path in (*CACHED.items(), ("compiled", templates[0]))}
    bench.good = {**bench.good, **{kind: text for kind, text in found.items() if text is not None}}
    folder.remove()


@contextlib.contextmanager
def laid_out(program: str) -> Iterator[Bench]:
    """A running office, and good files of each kind. The folder stays if a file in it ended a tool wrongly."""
    folder = tempfile.mkdtemp(prefix="garbled-")
    bench = Bench("", folder, good_files(program, folder))
    setup = os.path.join(folder, "good/setup.conf")
    run(program, "replay", "--conf", setup, "--db", os.path.join(folder, "store.db"),
        given=bench.good["bag"].decode())
    os.environ["OFFICE"] = program
    office = Office(program, folder)
    office.start(setup)
    bench.url = office.url
    try:
        remember(bench)
        with asked_once():
            yield bench
    finally:
        office.stop()
        os.chdir("/")


def try_all(bench: Bench, asked: argparse.Namespace) -> tuple[Counter[str], int]:
    """Tries the files of the kinds: how many of each, and how many of all ended a tool wrongly."""
    kinds = asked.kinds or bench.kinds()
    bench.warm_up(kinds)
    numbers = range(asked.first, asked.first + asked.count)
    count: Counter[str] = Counter({kind: 0 for kind in kinds})
    wrong = 0
    with multiprocessing.get_context("fork").Pool(asked.jobs) as pool:
        for tried in pool.imap_unordered(bench.try_part, parts(kinds, numbers)):
            count[tried.kind] += tried.count
            wrong += len(tried.faults)
            for fault in tried.faults:
                print(fault, flush=True)
    return count, wrong


def main(words: Sequence[str]) -> int:
    """Tries the files of each kind."""
    known = argparse.ArgumentParser(prog="garbled.py")
    known.add_argument("office")
    known.add_argument("count", type=int, nargs="?", default=100)
    known.add_argument("kinds", metavar="KIND", nargs="*")
    known.add_argument("--jobs", type=int, default=1)
    known.add_argument("--first", type=int, default=0, metavar="NUMBER")
    known.add_argument("--minutes", type=float, default=float("inf"))
    asked = known.parse_intermixed_args(words)
    last = time.monotonic() + 60 * asked.minutes
    with laid_out(os.path.abspath(asked.office)) as bench:
        bench.last = last
        count, wrong = try_all(bench, asked)
    if not wrong:
        shutil.rmtree(bench.folder)
    if min(count.values()) < asked.count:
        print(", ".join(f"{kind} {tried}" for kind, tried in count.items()))
    print(f"garbled: {sum(count.values())} files of {len(count)} kinds, {wrong} ended wrongly")
    return int(wrong > 0)


if __name__ == "__main__":
    sys.exit(main(sys.argv[1:]))
