"""office-look: what its manual page says of it. A whole archive is looked at by tests/archive."""
import os
import shutil
import tempfile
import unittest
import unittest.mock

from helpers import OFFICE, SETUP, Serving, needs_office, tool
from office_tools import messages, reports
from office_tools.faults import Fault
from office_tools.look import judge
from office_tools.look.blame import Eye, Step
from office_tools.look.judge import Broken, Package, by_dose, by_installcheck
from office_tools.messages import Label, Urgency
from office_tools.service import Service

BOTH, CALM, RIVAL = Package("both", "1-1", "amd64"), Package("calm", "1-1", "amd64"), Package("rival", "1:1-1", "amd64")
LOST = Package("lost", "1-1", "amd64")
SAID = """can't install both-1-1.amd64:
  package rival-1:1-1.amd64 conflicts with calm provided by calm-1-1.amd64
  package both-1-1.amd64 requires rival, but none of the providers can be installed
can't install lost-1-1.amd64:
  nothing provides nosuch >= 2 | other needed by lost-1-1.amd64
"""
DOSE = """output-version: 1.2
native-architecture: amd64
report:
 -
  package: both
  version: 1-1
  architecture: amd64
  status: broken
  reasons:
   -
    conflict:
     pkg1:
      package: rival
      version: 1:1-1
      architecture: amd64
      unsat-conflict: calm:amd64
     pkg2:
      package: calm
      version: 1-1
      architecture: amd64
 -
  package: lost
  version: 1-1
  architecture: amd64
  status: broken
  reasons:
   -
    missing:
     pkg:
      package: lost
      version: 1-1
      architecture: amd64
      unsat-dependency: nosuch:amd64 (>= 2) | other:amd64

total-packages: 5
broken-packages: 2
"""


class Judges(unittest.TestCase):
    """What installcheck 0.7 and dose-debcheck 7 print of four packages."""

    def broken(self, found, said):
        with unittest.mock.patch("office_tools.look.judge.output", return_value=said):
            return found("amd64", dict.fromkeys((BOTH, CALM, RIVAL, LOST), ""))

    def test_installcheck(self):
        both, lost = self.broken(by_installcheck, SAID)
        self.assertEqual((both.package, lost.package), (BOTH, LOST))
        self.assertEqual(both.cause, "package rival-1:1-1.amd64 conflicts with calm provided by calm-1-1.amd64")
        self.assertLessEqual({"rival-1:1-1.amd64", "calm"}, both.named)
        self.assertLessEqual({"nosuch", "other"}, lost.named)
        self.assertNotIn("needed", lost.named)

    def test_dose(self):
        both, lost = self.broken(by_dose, DOSE)
        self.assertEqual((both.package, lost.package), (BOTH, LOST))
        self.assertEqual((both.cause, lost.cause), ("conflict: calm:amd64",
                                                    "dependency: nosuch:amd64 (>= 2) | other:amd64"))
        self.assertLessEqual({"rival", "calm"}, both.named)
        self.assertLessEqual({"nosuch", "other"}, lost.named)

    def test_a_package_that_was_not_given(self):
        """What a judge says is never passed over."""
        for found, said in ((by_installcheck, SAID.replace("both-1-1", "both-1-2")),
                            (by_dose, DOSE.replace("lost", "last"))):
            with self.assertRaises(Fault) as raised:
                self.broken(found, said)
            self.assertEqual(raised.exception.status, 4)

    def test_the_judges_that_are_installed(self):
        with unittest.mock.patch("shutil.which", side_effect=lambda name: name if name == judge.DOSE else None):
            self.assertEqual(judge.judge(), by_dose)
        with unittest.mock.patch("shutil.which", return_value=None):
            self.assertIsNone(judge.judge())


def testing(finished, *told):
    """A testing of packages of one source each, written as `NAME VERSION`."""
    sources = "".join(f"source {line}\n" for line in told)
    rows = "".join(f"binary amd64 {line} {line.split()[0]}\n" for line in told)
    return reports.read_testing(f"testing {finished}\n{sources}{rows}")


class Blame(unittest.TestCase):
    """Whom a package that can't be installed is laid upon."""

    def culprits(self, *broken, before=("duet 1", "voice 1"), after=("duet 1", "fine 1", "voice 2"), known=None):
        """The parts of what is found if the judge says that these are broken after the run, and none before."""
        class Judge:

            def __call__(self, architecture, packages):
                return [item for item in broken if item.package in packages]

        packages = [Package(*line.split(), "amd64") for line in (*before, *after)]
        eye = Eye(Judge(), dict.fromkeys(packages, "") if known is None else known)
        eye.seen[1, "amd64"] = frozenset()
        return eye.culprits(Step(testing(1, *before), testing(2, *after)))

    DUET = Broken(Package("duet", "1", "amd64"), "a conflict", frozenset({"voice-2.amd64", "calm"}))
    FINE = Broken(Package("fine", "1", "amd64"), "a conflict", frozenset({"calm"}))

    def test_what_breaks_a_package_that_stays(self):
        self.assertEqual(self.culprits(self.DUET, self.FINE), [
            {}, {"voice": "duet can't be installed on amd64: a conflict"},
            {"fine": "fine can't be installed on amd64: a conflict"}])

    def test_if_nothing_is_named_all_that_moved(self):
        found = self.culprits(self.DUET._replace(named=frozenset({"strange"})))
        self.assertEqual(sorted(found[1]), ["fine", "voice"])

    def test_what_the_archive_has_not(self):
        known = {Package("fine", "1", "amd64"): "", Package("duet", "1", "amd64"): ""}
        self.assertEqual(self.culprits(self.DUET, known=known),
                         [{"voice": "the archive has no voice 2 on amd64"}])

    def test_what_was_broken_before(self):
        class Judge:

            def __call__(self, architecture, packages):
                return [item for item in (Blame.DUET,) if item.package in packages]

        eye = Eye(Judge(), dict.fromkeys([Package("duet", "1", "amd64"), Package("fine", "1", "amd64")], ""))
        self.assertEqual(eye.culprits(Step(testing(1, "duet 1"), testing(2, "duet 1", "fine 1"))), [{}, {}, {}])


@needs_office
@unittest.skipUnless(shutil.which("installcheck"), "libsolv-tools isn't installed")
class Command(unittest.TestCase):
    """Orders over an office, whose archive is a file Packages."""

    def setUp(self):
        self.folder = tempfile.mkdtemp()
        self.addCleanup(shutil.rmtree, self.folder)
        self.index = os.path.join(self.folder, "Packages")
        environment = unittest.mock.patch.dict(os.environ, {"OFFICE": OFFICE})
        environment.start()
        self.addCleanup(environment.stop)
        self.serving = Serving()
        self.service = Service(self.serving.url)
        self.serving.__enter__()
        self.addCleanup(self.serving.__exit__)

    def comes(self, day, *told):
        """Packages come to unstable and into the file, each of a source of its name: `NAME VERSION`, and relations."""
        with open(self.index, "a", encoding="utf-8") as index:
            for name, version, more in (line.split(" ", 2) for line in told):
                last = {sender: count.unbroken for sender, count in self.service.kept().items()}
                self.post(messages.upload(Label("ftp", last["ftp"] + 1), name, version, Urgency.CRITICAL, day))
                fields = {"Package": name, "Version": version,
                          **{part.split(":")[0]: part.split(":")[1] for part in more.split(";") if part}}
                rows = [{**fields, "Architecture": architecture} for architecture in ("amd64", "arm64")]
                self.post(messages.build(Label("bd", last["bd"] + 1), list(map(messages.binary, rows))))
                index.writelines("".join(f"{key}: {value}\n" for key, value in row.items()) + "\n" for row in rows)

    def post(self, text):
        self.assertTrue(self.service.post("/mail", text).is_good, text)

    def look(self, day, *words):
        told = tool("office-look", "--url", self.serving.url, "--conf", SETUP, "--cache",
                    os.path.join(self.folder, "cache"), "--day", day, *words, self.index)
        lines = [" ".join(line.split(":")[1:3]).strip() for line in told.stderr.splitlines()]
        return told.returncode, lines, told.stdout

    def update(self, number):
        return self.service.good_text(f"/update/{number}").splitlines()[1:]

    FIRST, NEXT, LAST = "2025-03-06", "2025-03-07", "2025-03-08"

    def begin(self):
        self.comes(self.FIRST, "calm 1-1 ", "voice 1-1 ", "duet 1-1 Depends:calm, voice")
        self.assertEqual(self.look(self.FIRST, "--order"), (0, [], "run 1: moves 3, removes 0, blocks 0\n"))

    def test_blocks_until_a_version_is_right(self):
        self.begin()
        self.comes(self.NEXT, "both 1-1 Depends:calm, rival", "fine 1-1 Depends:calm", "rival 1-1 Conflicts:calm",
                   "voice 1-2 Conflicts:calm")
        status, blocked, _ = self.look(self.NEXT, "--order")
        self.assertEqual((status, blocked), (1, ["blocked  both 1-1", "blocked  voice 1-2"]))
        self.assertEqual(self.update(2), ["accept fine 1-1", "accept rival 1-1"])
        hint = self.service.kept_text("rt", 1).decode().splitlines()
        self.assertEqual(hint[3], "Hint: block both")
        self.assertTrue(hint[4].startswith("Looked: both 1-1: both can't be installed on amd64: package "), hint)
        self.assertEqual(self.look(self.NEXT, "--order")[0], 1)
        self.assertEqual(self.service.status().finished, 2)
        self.comes(self.LAST, "voice 1-3 ")
        self.assertEqual(self.look(self.LAST, "--order")[:2], (1, ["blocked  both 1-1"]))
        self.assertEqual(self.update(3), ["accept voice 1-3"])
        self.assertEqual([(item.words, item.item) for item in self.service.hints().items], [("block", "both")])

    def test_proposed_groups(self):
        self.begin()
        self.comes(self.NEXT, "pair-a 1-1 Depends:pair-b, calm", "pair-b 1-1 Depends:pair-a;Conflicts:calm",
                   "knot-a 1-1 Depends:knot-b", "knot-b 1-1 Depends:knot-a")
        status, blocked, _ = self.look(self.NEXT, "--order", "--propose")
        self.assertEqual((status, blocked), (1, ["blocked  pair-a 1-1", "blocked  pair-b 1-1"]))
        self.assertIn("easy 2 accept knot-a 1-1 knot-b 1-1", self.update(3))
        self.assertEqual(sorted(self.service.testing().sources), ["calm", "duet", "knot-a", "knot-b", "voice"])

    def test_nothing_is_sent(self):
        """What a trial left that was ended by force is removed."""
        self.begin()
        left = os.path.join(self.folder, "cache", "trial-x")
        os.mkdir(left)
        self.comes(self.NEXT, "voice 1-2 Conflicts:calm")
        before = self.service.kept()
        status, _, told = self.look(self.NEXT, "--order", "--dry-run")
        self.assertEqual((status, before), (1, self.service.kept()))
        self.assertFalse(os.path.exists(left))
        self.assertIn("Hint: block voice\n", told)
        self.assertIn("Kind: run\n", told)

    def test_another_office_at_the_same_url(self):
        """The copy of the store is made again."""
        self.begin()
        self.serving.__exit__()
        self.serving.__enter__()
        os.unlink(self.index)
        self.comes(self.FIRST, "calm 2-1 ")
        self.assertEqual(self.look(self.FIRST, "--order")[0], 0)
        self.assertEqual(self.service.testing().sources, {"calm": "2-1"})

    def test_refusals(self):
        self.begin()
        self.post(b"From: bts\nNumber: 2\nKind: none\n")
        self.comes(self.NEXT, "fine 1-1 ")
        told = "bts 1 is missing, and bts 2 is kept  send what is missing, or allow the gap by --gap bts"
        self.assertEqual(self.look(self.NEXT, "--order")[:2], (3, [told]))
        self.assertEqual(self.look("2025-03-05", "--order", "--gap", "bts")[0], 3)
        self.assertEqual(self.look(self.NEXT, "--order", "--gap", "bts")[0], 0)
        told = tool("office-look", "--url", self.serving.url)
        self.assertEqual(told.returncode, 2)


if __name__ == "__main__":
    unittest.main()
