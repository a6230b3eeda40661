"""Pages that were made run by run are those that are made from nothing, byte for byte."""
import contextlib
import io
import os
import random
import re
import shutil
import sqlite3
import tempfile
import unittest

from helpers import needs_office, Serving
from office_tools.pages import command
from office_tools.service import Service

SOURCES = 24
RUNS = 7
ARCHS = ("amd64", "arm64")
FATES = ("moves", "moves", "young", "buggy", "blocked", "unbuilt", "missing", "renamed")
PEOPLE = ("Ann <ann@example.org>", "Ben <ben@example.org>", "Foo Team <foo@lists.example.org>", "Zoë <zoe@example.org>")
TIMES = re.compile(rb"First answered after .*|<dt>Fetched</dt>.*|\"made\": .*")


class Archive:
    """An archive whose mail is drawn, the same at each call: each source needs the libraries of two others."""

    def __init__(self, service):
        self.service, self.draw, self.counts = service, random.Random(3), {}
        self.version = dict.fromkeys(range(SOURCES), 0)
        self.library = {source: f"lib{source}-1" for source in range(SOURCES)}
        self.blocks, self.gone = {}, set()

    def mail(self, sender, kind, *lines, paragraphs=()):
        number = self.counts[sender] = self.counts.get(sender, 0) + 1
        text = f"From: {sender}\nNumber: {number}\nKind: {kind}\n" + "".join(line + "\n" for line in lines)
        reply = self.service.post("/mail", (text + "".join(f"\n{part}" for part in paragraphs)).encode())
        assert reply.is_good, reply.told
        return number

    def upload(self, source, day, archs=ARCHS, again=""):
        """A newer version of a source with its builds. Its maintainer may be another one than before."""
        if not again:
            self.version[source] += 1
            self.mail("ftp", "upload", f"Source: s{source}", f"Version: {self.version[source]}-1", "Urgency: medium",
                      f"Day: {day}", f"Maintainer: {self.draw.choice(PEOPLE)}",
                      *([f"Uploaders: {self.draw.choice(PEOPLE)}"] if self.draw.random() < 0.3 else []))
        needed = [self.library[other] for other in range(max(0, source - 3), source - 1)]
        for arch in archs:
            self.mail("bd", "build", paragraphs=[
                f"Package: {name}\nVersion: {self.version[source]}-1{again}\nArchitecture: {arch}\n"
                f"Source: s{source} ({self.version[source]}-1)\n"
                + (f"Depends: {', '.join(needed)}\n" if needed and name[0] == "b" else "")
                for name in (f"b{source}", self.library[source])])

    def change(self, source, fate, day, old):
        """A newer upload, and what becomes of it."""
        if fate == "renamed":
            self.library[source] += "n"
        self.upload(source, day if fate == "young" else old, {"unbuilt": (), "missing": ARCHS[:1]}.get(fate, ARCHS))
        if fate == "buggy":
            self.mail("bts", "bug", f"Bug: {1000 + source}", f"Source: s{source}", "Severity: serious",
                      f"Found: {self.version[source]}-1")
        if fate == "blocked":
            self.blocks[source] = self.mail("rt", "hint", f"Hint: block s{source}", "By: Ann", "Comment: a <b> & c")

    def remove(self, source):
        """A source goes out of the archive, and a hint asks for its removal."""
        self.gone.add(source)
        for arch in ARCHS:
            for name in f"b{source}", self.library[source]:
                self.mail("ftp", "drop", f"Package: {name}", f"Architecture: {arch}",
                          f"Version: {self.version[source]}-1")
        self.mail("rt", "hint", f"Hint: remove s{source}/{self.version[source]}-1")

    def run(self, number):
        """What comes before a run, and its order."""
        day, old = f"2025-03-{10 + number:02}", f"2025-02-{10 + number:02}"
        if number == 1:
            for source in range(SOURCES):
                self.upload(source, old)
            self.mail("rt", "hint", "Hint: easy " + " ".join(f"s{source}/1-1" for source in range(SOURCES)))
        else:
            for source in self.draw.sample(sorted(set(range(SOURCES)) - self.gone), 4):
                self.change(source, self.draw.choice(FATES), day, old)
            self.change(number, "renamed", day, old)
            for source in self.draw.sample(sorted(set(range(SOURCES)) - self.gone), 2):
                self.upload(source, old, again=f"+b{number}")
            if self.blocks and number % 2:
                self.mail("rt", "unhint", f"Cancels: {self.blocks.pop(min(self.blocks))}")
            if number in (4, 6):
                self.remove(SOURCES - number)
            self.mail("rt", "hint", f"Hint: easy s{number}/9-1")
        covers = ", ".join(f"{sender} {count}" for sender, count in self.counts.items() if sender != "clock")
        self.mail("clock", "run", f"Day: {day}", f"Covers: {covers}")


@needs_office
class Again(unittest.TestCase):
    """A folder that is kept fresh from run to run, beside others."""

    def setUp(self):
        self.folder = self.enterContext(tempfile.TemporaryDirectory())
        self.url = self.enterContext(Serving()).url

    def make(self, folder, *words):
        told = io.StringIO()
        with contextlib.redirect_stderr(told):
            self.assertEqual(command.main(["--url", self.url, *words, folder]), 0, told.getvalue())

    def files(self, folder):
        """All public files, with their bytes."""
        found = {}
        for place, folders, names in os.walk(folder):
            folders[:] = [name for name in folders if name[0] != "."]
            for name in names:
                path = os.path.join(place, name)
                with open(path, "rb") as file:
                    found[os.path.relpath(path, folder)] = file.read()
        return found

    def assert_same(self, due, shown):
        self.assertEqual(sorted(due), sorted(shown))
        for name, data in due.items():
            self.assertEqual(data, shown[name], name)

    def assert_made_of_what_is_kept(self):
        """Pages that are made anew of what the folder keeps, whose earlier pages aren't known, are the same."""
        with tempfile.TemporaryDirectory() as other:
            shutil.copytree(os.path.join(self.folder, ".state"), os.path.join(other, ".state"))
            with contextlib.closing(sqlite3.connect(os.path.join(other, ".state", "state.db"))) as database, database:
                database.execute("DELETE FROM page")
                database.execute("DELETE FROM built")
            self.make(other, "--why-seconds", "0")
            self.assert_same(self.files(other), self.files(self.folder))

    def assert_made_from_nothing(self):
        """Another folder is the same but for what tells when the office was asked."""
        with tempfile.TemporaryDirectory() as other:
            self.make(other, "--why-seconds", "60")
            self.assert_same(*({name: TIMES.sub(b"", data) for name, data in self.files(folder).items()}
                               for folder in (other, self.folder)))

    def test_run_by_run(self):
        archive = Archive(Service(self.url))
        seen = set()
        for number in range(1, RUNS + 1):
            archive.run(number)
            if number % 3 == 2:
                # No time to ask: the pages are made without answers, and then with them.
                self.make(self.folder, "--why-seconds", "0")
                self.assert_made_of_what_is_kept()
            self.make(self.folder, "--why-seconds", "60")
            self.assert_made_of_what_is_kept()
            self.assert_made_from_nothing()
            seen.update(path.partition("/")[0] for path in self.files(self.folder) if "/" in path)
        self.assertEqual(seen, {"people", "run", "source", "transition"})

    def test_what_stays_is_not_written_again(self):
        archive = Archive(Service(self.url))
        for number in range(1, RUNS):
            archive.run(number)
            self.make(self.folder, "--why-seconds", "60")
        stamps = {name: os.stat(os.path.join(self.folder, name)).st_mtime_ns for name in self.files(self.folder)}
        before = self.files(self.folder)
        archive.run(RUNS)
        self.make(self.folder, "--why-seconds", "60")
        same = {name for name, data in self.files(self.folder).items() if before.get(name) == data}
        self.assertGreater(len(same), SOURCES // 2)
        for name in same:
            self.assertEqual(os.stat(os.path.join(self.folder, name)).st_mtime_ns, stamps[name], name)


if __name__ == "__main__":
    unittest.main()
