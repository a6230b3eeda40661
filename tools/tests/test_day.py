"""office-day: what its manual page says of it. A whole archive is run by tests/archive."""
import contextlib
import datetime
import fcntl
import io
import os
import re
import shutil
import subprocess
import tempfile
import unittest
import unittest.mock

from helpers import OFFICE, TOOLS, Serving, example, needs_office, office
from office_tools import reports
from office_tools.day.settings import read_settings
from office_tools.day.standing import Line, Memory, waiting
from office_tools.faults import Fault

STUB = """#!/bin/sh
name=${0##*/}
echo "$name $*" >> "$STEPS"
number=$(grep -c "^$name " "$STEPS")
[ -f "$STEPS.$name.$number" ] && { . "$STEPS.$name.$number"; exit $?; }
echo "$name did its work"
"""


class Settings(unittest.TestCase):

    def setUp(self):
        self.folder = tempfile.mkdtemp()
        self.addCleanup(shutil.rmtree, self.folder)

    def read(self, text):
        path = os.path.join(self.folder, "day.conf")
        with open(path, "w", encoding="utf-8") as file:
            file.write(text)
        return read_settings(path, {})

    WORDS = "Feed: --apt 'deb file:/srv x main'\n --rebuilds\nApply: reprepro /srv/archive ordered testing\n"

    def test_defaults(self):
        with unittest.mock.patch.dict(os.environ, {"STATE_DIRECTORY": "/var/lib/office-day"}):
            found = self.read(self.WORDS)
        self.assertEqual((found.url, found.setup, found.state, found.propose, found.patience),
                         ("http://127.0.0.1:8080", "/etc/office/setup.conf", "/var/lib/office-day", True, 30))
        self.assertEqual((found.feed, found.pull), (["--apt", "deb file:/srv x main", "--rebuilds"], []))
        self.assertEqual((found.bugs, found.tests), ([], []))
        self.assertEqual(found.look, ["/srv/archive/dists/testing", "/srv/archive/dists/ordered"])

    def test_all_fields(self):
        found = self.read(self.WORDS + "Url: http://x:1\nSetup: s\nState: t\nPull: a 'b c'\nLook: d e\nPropose: no\n"
                                       "Patience: 7\nBugs: --close 7 u https://x/t\nTests: --testing t 'a b' c\n")
        self.assertEqual((found.url, found.setup, found.state, found.pull, found.look, found.propose, found.patience),
                         ("http://x:1", "s", "t", ["a", "b c"], ["d", "e"], False, 7))
        self.assertEqual((found.bugs, found.tests),
                         (["--close", "7", "u", "https://x/t"], ["--testing", "t", "a b", "c"]))

    def test_refusals(self):
        for text, cause in [
                ("", "it has 0 paragraphs"), ("Feed: x\n", "the fields Feed and Apply are needed"),
                (self.WORDS + "Fed: x\n", "there is no field Fed"),
                (self.WORDS + "\nUrl: x\n", "it has 2 paragraphs"), (self.WORDS + "nonsense\n", ""),
                (self.WORDS + "Pull: 'x\n", "Pull: No closing quotation"),
                (self.WORDS + "Propose: maybe\n", "it is yes or no"), (self.WORDS + "Patience: -1\n", "number of days"),
                (self.WORDS + f"Patience: {'9' * 5000}\n", "number of days, of at most nine digits"),
                (self.WORDS.replace("reprepro", f"--gone {'9' * 5000} reprepro"),
                 "office-apply doesn't take these words"),
                (self.WORDS + f"Bugs: --close {'9' * 5000} u t\n", "Bugs: office-bugs doesn't take these words"),
                (self.WORDS + "Bugs: u\n", "Bugs: office-bugs doesn't take these words"),
                (self.WORDS + "Bugs: --dry-run u t\n", "Bugs: --dry-run"),
                (self.WORDS + "Tests: --what\n", "Tests: office-tests doesn't take these words"),
                (self.WORDS + "Tests: --dry-run r\n", "Tests: --dry-run"),
                (self.WORDS.replace("--rebuilds", "--propose"), "--propose"),
                (self.WORDS.replace("reprepro", "nothing"), "office-apply doesn't take these words"),
                (self.WORDS.replace("reprepro /srv/archive ordered testing", "heidi x"), "the field Look is needed")]:
            with self.assertRaises(Fault) as refused, contextlib.redirect_stderr(io.StringIO()):
                self.read(text)
            self.assertEqual(refused.exception.status, 2, text)
            self.assertIn(cause, refused.exception.cause)


class Standing(unittest.TestCase):

    def test_days(self):
        folder = tempfile.mkdtemp()
        self.addCleanup(shutil.rmtree, folder)
        path = os.path.join(folder, "memory.json")

        def day(number):
            found = Memory(path, datetime.date(2025, 3, number))
            found.read()
            return found

        first = day(1)
        self.assertEqual(first.line("apply", "held back: x"), Line(0, "apply: held back: x"))
        first.write(["apply"])
        later = day(4)
        self.assertEqual(str(later.line("apply", "held back: x")), "for 3 days: apply: held back: x")
        self.assertEqual(str(later.line("feed", "for 1 day: y")), "for 1 day: feed: y")
        later.write(["apply"])
        # A step that wasn't done says nothing of its lines; one that was done and doesn't repeat a line ends it.
        between = day(5)
        between.write(["pull"])
        self.assertEqual(day(6).line("apply", "held back: x").days, 5)
        between.write(["apply"])
        self.assertEqual(day(7).line("apply", "held back: x").days, 0)
        with open(path, "w", encoding="utf-8") as file:
            file.write("no JSON")
        self.assertEqual(day(8).line("apply", "held back: x").days, 0)

    def test_waiting(self):
        """An urgency of 5 days, and sources of 40 days: what keeps each."""
        excuses = reports.read_excuses(
            "excuses 7 2025-04-10\nbuggy 1 2\n age 40 of 5\n new bug 7\n missing on arm64\n not a candidate\n"
            "fresh 1 2\n age 6 of 5\n new bug 8\n not a candidate\nmoved 1 2\n age 40 of 5\n candidate\n"
            "stuck 1 2\n age 36 of 5\n candidate\n")
        update = reports.read_update("update 7 2025-04-10\naccept moved 2\nwait stuck 2 uninstallable amd64 app\n")
        self.assertEqual(list(map(str, waiting(excuses, update, 30))), [
            "for 35 days: buggy 2 waits: new bug 7, missing on arm64",
            "for 31 days: stuck 2 waits: uninstallable amd64 app"])


@needs_office
class Day(unittest.TestCase):
    """The steps are other programs here, which write down that they were called, and with which words."""

    @classmethod
    def setUpClass(cls):
        cls.store = tempfile.mkdtemp()
        cls.addClassCleanup(shutil.rmtree, cls.store)
        setup = os.path.join(os.path.dirname(TOOLS), "examples/setup.conf")
        path = os.path.join(cls.store, "store.db")
        office("replay", "--conf", setup, "--db", path, given=example("archive.bag"))
        cls.serving = cls.enterClassContext(Serving(store=path))
        cls.empty = cls.enterClassContext(Serving())

    def setUp(self):
        self.folder = tempfile.mkdtemp()
        self.addCleanup(shutil.rmtree, self.folder)
        self.steps = os.path.join(self.folder, "steps")
        self.state = os.path.join(self.folder, "state")
        for name in (*dict.fromkeys(self.WHOLE), "pull"):
            self.write(name, STUB)
        os.symlink(os.path.join(TOOLS, "bin/office-day"), os.path.join(self.folder, "office-day"))
        self.configure(self.serving.url)

    def write(self, name, text):
        path = os.path.join(self.folder, name)
        with open(path, "w", encoding="utf-8") as file:
            file.write(text)
        os.chmod(path, 0o755)

    def configure(self, url, more=""):
        self.write("day.conf", f"Url: {url}\nSetup: setup\nState: {self.state}\nPull: {self.folder}/pull all\n"
                               f"Feed: --apt 'deb x'\nApply: reprepro base ordered testing\nLook: a b\n{more}")

    def does(self, name, number, script):
        """What a step does when it is called for this time."""
        self.write(f"steps.{name}.{number}", script)

    def day(self, *words):
        told = subprocess.run([os.path.join(self.folder, "office-day"), "--conf", os.path.join(self.folder, "day.conf"),
                               *words], capture_output=True, text=True, timeout=600, check=False,
                              env={**os.environ, "STEPS": self.steps, "OFFICE": OFFICE})
        self.called = []
        with contextlib.suppress(FileNotFoundError), open(self.steps, encoding="utf-8") as file:
            self.called = file.read().splitlines()
            os.unlink(self.steps)
        return told

    ALL = ["office-apply", "pull", "office-feed", "office-look", "office-apply"]
    WHOLE = [*ALL[:3], "office-bugs", "office-tests", *ALL[3:]]
    LISTS = "Bugs: --close 3 unstable testing\nTests: results more\n"

    def names(self):
        return [line.split()[0] for line in self.called]

    def test_the_steps(self):
        told = self.day("--day", "2025-03-22", "--apply=--gone=3", "--look=--gap=bts")
        self.assertEqual((told.returncode, told.stderr, self.names()), (0, "", self.ALL))
        url, day = f"--url {self.serving.url}", "--day 2025-03-22"
        self.assertEqual(self.called[:4], [
            f"office-apply {url} --gone=3 reprepro base ordered testing", "pull all",
            f"office-feed {url} {day} --no-order --cache {self.state}/feed --apt deb x",
            f"office-look {url} {day} --conf setup --cache {self.state}/look --order --propose --gap=bts a b"])
        self.assertEqual(told.stdout.splitlines()[-1], "2025-03-22: all well")

    def test_bugs_and_tests(self):
        """They come behind the feed and before the look. If a list can't be read the day ends, or a person goes on."""
        self.configure(self.serving.url, self.LISTS)
        told = self.day("--bugs=--close=9", "--tests=--take-over")
        self.assertEqual((told.returncode, told.stderr, self.names()), (0, "", self.WHOLE))
        url = f"--url {self.serving.url}"
        self.assertEqual(self.called[3:5], [f"office-bugs {url} --close 3 unstable testing --close=9",
                                            f"office-tests {url} results more --take-over"])
        for step, at in (("bugs", 3), ("tests", 4)):
            self.does(f"office-{step}", 1, f"echo 'office-{step}: http://x/list: 404: Not Found' >&2; exit 3")
            told = self.day("--summary")
            self.assertEqual((told.returncode, self.names()), (3, self.WHOLE[:at + 1]))
            self.assertIn(f"Stands still:\n  {step}: http://x/list: 404: Not Found\n", told.stdout)
            told = self.day(f"--without={step}")
            self.assertEqual((told.returncode, self.names()), (0, [name for name in self.WHOLE
                                                                   if name != f"office-{step}"]))
            os.unlink(os.path.join(self.folder, f"steps.office-{step}.1"))
        told = self.day("--without", "bugs", "--without", "tests")
        self.assertEqual((told.returncode, self.names()), (0, self.ALL))
        self.assertEqual(self.day("--without", "feed").returncode, 2)

    def test_before_the_first_run_nothing_is_applied(self):
        self.configure(self.empty.url)
        self.assertEqual(self.day().returncode, 0)
        self.assertEqual(self.names(), self.ALL[1:])

    def test_where_a_day_ends(self):
        for step, number, status, due in [
                ("office-apply", 1, 3, 3), ("office-apply", 1, 4, 4), ("pull", 1, 1, 4), ("office-feed", 1, 3, 3),
                ("office-look", 1, 3, 3), ("office-look", 1, 2, 2), ("office-apply", 2, 4, 4)]:
            with self.subTest(step=step, number=number, status=status):
                self.does(step, number, f"echo '{step}: the cause' >&2; exit {status}")
                told = self.day()
                self.assertEqual(told.returncode, due)
                place = self.ALL.index(step) if number == 1 else len(self.ALL) - 1
                self.assertEqual(self.names(), self.ALL[:place + 1])
                self.assertIn("the cause" if step != "pull" else "ended with status 1", told.stderr)
                os.unlink(os.path.join(self.folder, f"steps.{step}.{number}"))

    def test_a_store_that_was_restored(self):
        """The folder of the feed has mail that the office has no more: nothing is applied, and the way is named."""
        self.assertEqual(self.day().returncode, 0)
        self.assertTrue(os.path.exists(os.path.join(self.state, "feed/bag")))
        self.configure(self.empty.url)
        told = self.day()
        self.assertEqual((told.returncode, self.called), (3, []))
        self.assertIn(f"'office-feed --restore --url {self.empty.url} --cache {self.state}/feed' sends it again",
                      told.stderr)

    def test_a_step_that_is_killed_has_failed(self):
        self.does("office-feed", 1, "kill -9 $$")
        self.assertEqual(self.day().returncode, 4)

    def test_what_stands_still(self):
        held = "held back: lone 2: there is no source lone 2 to copy"
        self.does("office-apply", 1, f"echo 'office-apply: left alone: x' >&2; echo 'office-apply: {held}' >&2; exit 1")
        self.does("office-apply", 2, f"echo 'office-apply: {held}' >&2; exit 1")
        self.does("office-feed", 1, "echo 'office-feed: for 9 days: left out' >&2; exit 1")
        for day, days in (("2025-03-22", ""), ("2025-03-24", "for 2 days: ")):
            told = self.day("--day", day)
            self.assertEqual((told.returncode, self.names()), (1, self.ALL))
            lines = [line for line in told.stderr.splitlines() if "stands still" in line]
            self.assertEqual(lines, ["office-day: stands still: for 9 days: feed: left out",
                                     f"office-day: stands still: {days}apply: {held}"])

    def test_what_the_last_apply_brings_no_longer_stands(self):
        self.does("office-apply", 1, "echo 'office-apply: held back: lone 2: x' >&2; exit 1")
        told = self.day()
        self.assertEqual((told.returncode, self.names()), (0, self.ALL))
        self.assertNotIn("stands still", told.stderr)

    def test_a_summary(self):
        self.does("office-apply", 2, "echo 'came: source lone 2'; echo 'came: binary amd64 lone 2'")
        self.does("office-look", 1, "echo 'run 3: moves 1'; echo 'office-look: blocked: both 1: x' >&2; exit 1")
        told = self.day("--summary", "--day", "2025-03-22")
        self.assertEqual((told.returncode, told.stderr), (1, ""))
        self.assertEqual(told.stdout, """Subject: office 2025-03-22: something stands still (1 lines)

Stands still:
  look: blocked: both 1: x

Came and went:
  came: source lone 2

Steps:
  apply: office-apply did its work
  pull: pull did its work
  feed: office-feed did its work
  look: run 3: moves 1

Notes:
  look: blocked: both 1: x
""")

    def test_sources_that_wait(self):
        """The second run of the example has sources that aren't moved yet."""
        self.configure(self.serving.url)
        with open(os.path.join(self.folder, "day.conf"), "a", encoding="utf-8") as file:
            file.write("Patience: 0\n")
        told = self.day()
        self.assertEqual(told.returncode, int(bool(re.search(r"stands still: .* waits: ", told.stderr))))

    def test_refusals(self):
        os.makedirs(self.state)
        number = os.open(self.state, os.O_RDONLY)
        fcntl.flock(number, fcntl.LOCK_EX)
        told = self.day()
        os.close(number)
        self.assertEqual((told.returncode, told.stderr), (3, f"office-day: {self.state}: another office-day works\n"))
        self.configure("http://127.0.0.1:1")
        told = self.day("--summary")
        self.assertEqual((told.returncode, told.stderr), (4, ""))
        self.assertRegex(told.stdout,
                         r"^Subject: office \S+: failed \(1 lines\)\n\nStands still:\n  day: http.*refused\n")
        self.write("day.conf", "")
        self.assertEqual(self.day().returncode, 2)


if __name__ == "__main__":
    unittest.main()
