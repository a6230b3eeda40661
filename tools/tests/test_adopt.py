"""office-adopt: what its manual page and docs/ARCHIVE.md say of it."""
import os
import shutil
import tempfile
import unittest
import unittest.mock

from helpers import needs_due, needs_sync, tool
from office_tools import setups

PACKAGES = """Package: one
Version: 1
Architecture: amd64
Depends: two, nosuch (>= 2) | neither, three

Package: two
Version: 1
Architecture: amd64
Pre-Depends: one

Package: three
Version: 1-1
Architecture: amd64
Depends: four

Package: three
Version: 1-2
Architecture: arm64
Source: three

Package: four
Version: 1
Architecture: all
Depends: only-amd64

Package: only-amd64
Version: 1
Architecture: amd64

Package: five
Version: 1
Architecture: arm64
Depends: four
"""
SOURCES = "".join(f"Package: {name}\nVersion: {version}\n\n" for name, version in (
    ("one", "1"), ("two", "1"), ("three", "1-2"), ("four", "1"), ("only-amd64", "1"), ("five", "1"), ("idle", "1")))


class Adopt(unittest.TestCase):

    def setUp(self):
        self.folder = tempfile.mkdtemp()
        self.addCleanup(shutil.rmtree, self.folder)
        for name, text in (("Packages", PACKAGES), ("Sources", SOURCES)):
            with open(self.path(name), "w", encoding="utf-8") as file:
                file.write(text)

    def path(self, name):
        return os.path.join(self.folder, name)

    def adopt(self, *words):
        return tool("office-adopt", "--day", "2025-03-06", "--sources", self.path("Sources"), *words,
                    self.path("week"), self.path("Packages"))

    def test_what_is_told(self):
        """`four` isn't watched on arm64, so its own clause stays, and that of `five` goes."""
        told = self.adopt("--dry-run")
        self.assertEqual(told.returncode, 0, told.stderr)
        self.assertEqual(told.stderr.splitlines(), [
            "office-adopt: three amd64 1-1: sent under three 1-2: it was built of 1-1",
            "office-adopt: one amd64 1: sent without nosuch (>= 2) | neither: nothing in testing meets it",
            "office-adopt: five arm64 1: sent without four: nothing in testing meets it"])
        self.assertEqual(told.stdout, "sources 6, packages 7: under another version 1, clauses taken out 2\n")
        self.assertFalse(os.path.exists(self.path("week")))

    @needs_sync
    def test_all_is_adopted(self):
        told = self.adopt()
        self.assertEqual(told.returncode, 0, told.stdout + told.stderr)
        self.assertEqual(told.stdout.splitlines()[1:], [
            "uploads 6, builds 6, hints 1, orders 1, unhints 1", "adopted: 6 sources, 7 packages; 0 wait, 0 refused"])
        self.assertIn("left alone: sources of which testing has no package, or packages that stay: idle 1",
                      told.stderr)

    @needs_sync
    def test_setup(self):
        self.assertEqual(self.adopt("--no-check", "--spare", "3").returncode, 0)
        setup = setups.read_setup(self.path("week/setup.conf"))
        self.assertEqual(setup.architectures, ["amd64", "arm64"])
        self.assertEqual(list(setup.senders), ["ftp", "hand", "again3", "again2", "again1", "bd", "bts", "rt", "clock"])
        self.assertEqual([setup.senders[name].value for name in ("hand", "again3", "again1")],
                         ["upload", "build", "build"])

    @needs_sync
    def test_older_versions(self):
        """The office has one version of a package: the others go with the first apply."""
        with open(self.path("Packages"), "a", encoding="utf-8") as file:
            file.write("\nPackage: only-amd64\nVersion: 0.9\nArchitecture: amd64\n")
        told = self.adopt()
        self.assertEqual(told.returncode, 0, told.stdout + told.stderr)
        self.assertIn("goes with the first apply, for testing has another version: binary amd64 only-amd64 0.9",
                      told.stdout.splitlines())

    @needs_sync
    def test_older_packages_of_all(self):
        """They stay as long as what was built with them: here `three` of amd64."""
        with open(self.path("Packages"), "a", encoding="utf-8") as file:
            file.writelines(f"\nPackage: three-doc\nVersion: 1-{number}\nArchitecture: all\nSource: three\n"
                            for number in (1, 2))
        told = self.adopt()
        self.assertEqual(told.returncode, 0, told.stdout + told.stderr)
        self.assertEqual(told.stdout.splitlines()[2:], ["adopted: 6 sources, 8 packages; 0 wait, 0 refused"])
        self.assertIn("left alone: older packages of all, with which packages that stay were built: three-doc 1-1",
                      told.stderr)

    @needs_sync
    def test_a_package_without_its_source(self):
        """It is adopted, and that its source is missing is printed and no difference."""
        with open(self.path("Packages"), "a", encoding="utf-8") as file:
            file.write("\nPackage: vendor-tool\nVersion: 1.0\nArchitecture: amd64\nSource: vendor\n")
        told = self.adopt()
        self.assertEqual(told.returncode, 0, told.stdout + told.stderr)
        self.assertEqual(told.stdout.splitlines()[1:], [
            "uploads 7, builds 7, hints 1, orders 1, unhints 1", "adopted: 7 sources, 8 packages; 0 wait, 0 refused"])
        self.assertIn("office-adopt: testing has no version of these sources, and has their packages: vendor 1.0\n",
                      told.stderr)

    def by(self, program):
        """What the command does by another program in the place of office."""
        with unittest.mock.patch.dict(os.environ, OFFICE=program):
            return self.adopt()

    @needs_sync
    def test_ended_by_force(self):
        """Each file is written whole or not at all, and the next one makes both."""
        with open(self.path("office"), "w", encoding="utf-8") as file:
            file.write('#!/bin/sh\nkill -9 "$PPID"\n')
        os.chmod(self.path("office"), 0o755)
        self.assertEqual(self.by(self.path("office")).returncode, -9)
        self.assertEqual(os.listdir(self.path("week")), ["setup.conf"])
        self.assertEqual(self.adopt().returncode, 0)
        self.assertEqual(sorted(os.listdir(self.path("week"))), ["bag", "setup.conf"])

    @needs_due
    def test_no_program(self):
        told = self.by(self.path("none"))
        self.assertEqual((told.returncode, told.stderr.splitlines()[-1]),
                         (4, f"office-adopt: {self.path('none')}: No such file or directory"))

    def test_refusals(self):
        for words, status, cause in [(("--spare", "9"), 2, "invalid spares value"),
                                     (("--sources", self.path("none")), 1, "No such file or directory")]:
            told = self.adopt(*words)
            self.assertEqual(told.returncode, status, told.stderr)
            self.assertIn(cause, told.stderr)
        with open(self.path("Packages"), "w", encoding="utf-8"):
            pass
        self.assertIn("begin with the indexes of unstable by office-from-packages", self.adopt().stderr)


if __name__ == "__main__":
    unittest.main()
