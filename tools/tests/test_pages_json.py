"""excuses.json of office-pages: each key has the value that office-pages(1) states, and grep-excuses reads it."""
import datetime
import json
import os
import re
import shutil
import subprocess
import tempfile
import unittest

from helpers import TOP
from office_tools.pages import command
from office_tools.pages.verdicts import verdict

EXCUSES = """excuses 7 2025-04-01
accepted 2 3
 age 12 of 10
 candidate
c++lib 1.0-1 2:1.0-1+b1
 age 3 of 10
 too young
 new bug 7
 new bug 1042
 missing on arm64
 missing on all
 blocked
 not a candidate
grouped 1 2
 age 10 of 10
 candidate
refused 1 2
 age 10 of 10
 candidate
removed 1 2
 age 10 of 10
 removal asked
 not a candidate
stays 1 2
 age 11 of 10
 removal asked
 not a candidate
stuck - 2-1
 age 12 of 10
 candidate
young - 1
 age 0 of 5
 too young
 no binaries
 not a candidate
"""
UPDATE = """update 7 2025-04-01
remove 3 accept removed 1
remove 4 refuse stays 1 uninstallable amd64 app
easy 5 refuse c++lib/1.1-1 not a candidate
easy 6 refuse uninstallable arm64 libx1
easy 8 accept grouped 2 other 2:2.0~rc1
easy 9 refuse refused/3 not a candidate
accept accepted 3
wait refused 2 uninstallable amd64 refused-bin
wait stuck 2-1 uninstallable amd64 stuck-bin
"""
OUTCOMES = {
    "accepted": {"what": "accept"},
    "c++lib": {"what": "refused", "hint": 5, "kind": "easy", "because": "not a candidate"},
    "grouped": {"what": "accept", "hint": 8},
    # Two lines name it: the last decides.
    "refused": {"what": "wait", "arch": "amd64", "package": "refused-bin"},
    "removed": {"what": "removed", "hint": 3},
    "stays": {"what": "refused", "hint": 4, "kind": "remove", "because": "uninstallable", "arch": "amd64",
              "package": "app"},
    "stuck": {"what": "wait", "arch": "amd64", "package": "stuck-bin"},
    "young": {"what": "none"}}
LIBRARY = {
    "item-name": "c++lib", "source": "c++lib", "old-version": "1.0-1", "new-version": "2:1.0-1+b1",
    "is-candidate": False, "age-days": 3, "age-days-needed": 10,
    "reason": ["too young", "new bug 7", "new bug 1042", "missing on arm64", "missing on all", "blocked"],
    "reasons": ["age", "buggy", "missingbuild", "block"],
    "migration-policy-verdict": "REJECTED_NEEDS_APPROVAL",
    "policy_info": {
        "age": {"age-requirement": 10, "current-age": 3, "verdict": "REJECTED_TEMPORARILY"},
        "rc-bugs": {"unique-source-bugs": ["7", "1042"], "verdict": "REJECTED_PERMANENTLY"},
        "block": {"verdict": "REJECTED_NEEDS_APPROVAL"}},
    "missing-builds": {"on-architectures": ["arm64", "all"]},
    "old-enough-on": "2025-04-08",
    "outcome": OUTCOMES["c++lib"],
    "excuses": [
        "Too young, only 3 of 10 days old", "New release-critical bug: 7", "New release-critical bug: 1042",
        "Missing on arm64: no binary package of this version is built there",
        "Missing on all: no binary package of this version is built there", "Blocked by a hint", "Not a candidate",
        "Easy hint 5: refused, not a candidate"]}


class ExcusesJson(unittest.TestCase):
    """The JSON of one run, whose reports are in files."""

    @classmethod
    def setUpClass(cls):
        cls.folder = cls.enterClassContext(tempfile.TemporaryDirectory())
        words = []
        for name, text in ("excuses", EXCUSES), ("update", UPDATE):
            words += ["--" + name, os.path.join(cls.folder, name)]
            with open(words[-1], "w", encoding="utf-8") as file:
                file.write(text)
        command.main([*words, cls.folder])
        with open(os.path.join(cls.folder, "excuses.json"), encoding="utf-8") as file:
            cls.whole = json.load(file)
        cls.sources = {source["item-name"]: source for source in cls.whole["sources"]}

    def test_the_top(self):
        self.assertEqual((self.whole["run"], self.whole["generated-date"]), (7, "2025-04-01"))
        self.assertEqual(self.whole["update"], UPDATE.splitlines()[1:])
        made = datetime.datetime.strptime(self.whole["made"], "%Y-%m-%dT%H:%M:%SZ")
        self.assertLess(abs(datetime.datetime.utcnow() - made), datetime.timedelta(minutes=5))

    def test_a_source_with_all_keys(self):
        self.assertEqual(self.sources["c++lib"], LIBRARY)

    def test_outcomes(self):
        self.assertEqual({name: source["outcome"] for name, source in self.sources.items()}, OUTCOMES)

    def test_keys_that_are_left_out(self):
        self.assertNotIn("missing-builds", self.sources["young"])
        self.assertNotIn("old-enough-on", self.sources["stuck"])
        # No day is left of five: the day is the run's and five more.
        self.assertEqual(self.sources["young"]["old-enough-on"], "2025-04-06")
        self.assertEqual(self.sources["stuck"]["old-version"], "-")

    def test_each_outcome_has_its_sentence(self):
        self.assertEqual(self.sources["refused"]["excuses"], [
            "10 days old (needed 10 days)", "A candidate", "Easy hint 9: refused, not a candidate",
            "Waits: its move would leave refused-bin uninstallable on amd64"])
        self.assertEqual(self.sources["removed"]["excuses"][-1], "Remove hint 3: accepted")

    def test_verdicts(self):
        for words, due in {
                (): "PASS", ("age",): "REJECTED_TEMPORARILY", ("buggy",): "REJECTED_PERMANENTLY",
                ("age", "buggy"): "REJECTED_PERMANENTLY", ("no-binaries",): "REJECTED_PERMANENTLY",
                ("missingbuild",): "REJECTED_PERMANENTLY", ("remove",): "REJECTED_PERMANENTLY",
                ("block",): "REJECTED_NEEDS_APPROVAL", ("age", "block"): "REJECTED_NEEDS_APPROVAL"}.items():
            self.assertEqual(verdict(set(words)), due, words)

    def test_the_manual_page_names_each_key(self):
        with open(os.path.join(TOP, "share/man/office-pages.1"), encoding="utf-8") as file:
            part = file.read().split(".Sh KEYS", 1)[1].split(".Sh ", 1)[0]
        told = set(re.findall(r"^\.It Li ([a-z_-]+)", part, re.M))
        self.assertEqual(told, set(self.whole) | {key for source in self.sources.values() for key in source})

    @unittest.skipUnless(shutil.which("grep-excuses"), "devscripts isn't installed")
    def test_grep_excuses_reads_it(self):
        bin_folder = os.path.join(self.folder, "bin")
        os.makedirs(bin_folder, exist_ok=True)
        with open(os.path.join(bin_folder, "wget"), "w", encoding="utf-8") as file:
            file.write(f'#!/bin/sh\nexec cat "{self.folder}/excuses.json"\n')
        os.chmod(file.name, 0o755)
        found = subprocess.run(
            ["grep-excuses", "--no-conf", "--no-autoremovals", "c++lib"], capture_output=True, text=True, check=False,
            env={**os.environ, "PATH": bin_folder + ":" + os.environ["PATH"]})
        if "libyaml-syck-perl" in found.stderr:
            self.skipTest("libyaml-syck-perl isn't installed")
        self.assertEqual(found.stdout.splitlines(), [
            "c++lib (1.0-1 to 2:1.0-1+b1)", *("    " + sentence for sentence in LIBRARY["excuses"])])


if __name__ == "__main__":
    unittest.main()
