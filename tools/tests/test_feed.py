"""office-feed: what its manual page and docs/ARCHIVE.md say of it. A whole archive is fed by tests/archive."""
import fcntl
import os
import shutil
import tempfile
import unittest
from unittest import mock

from helpers import SETUP, Serving, needs_sync, tool
from office_tools import bags, messages
from office_tools.feed import mailbox
from office_tools.feed.mailbox import Outgoing
from office_tools.from_packages.mail import replaced
from office_tools.from_packages.sources import Arrival
from office_tools.letters import letters
from office_tools.messages import Label, Urgency, label_of, paragraphs
from office_tools.service import Kept, Service

CHANGES = """Format: 1.8
Date: Sat, 01 Mar 2025 09:00:00 +0000
Source: lib
Architecture: source amd64
Version: 1
Urgency: high
"""


def package(name, version, *, source="", depends="", provides="", architecture="amd64"):
    """A paragraph of Packages."""
    fields = [("Package", name), ("Source", source), ("Version", version), ("Architecture", architecture),
              ("Depends", depends), ("Provides", provides)]
    return "".join(f"{field}: {value}\n" for field, value in fields if value) + "\n"


FIRST = package("lib1", "1", source="lib") + package("app", "1", depends="lib1") + \
    package("app", "1", depends="lib1", architecture="arm64") + package("lib1", "1", source="lib", architecture="arm64")


class Folder(unittest.TestCase):

    def setUp(self):
        self.folder = tempfile.mkdtemp()
        self.addCleanup(shutil.rmtree, self.folder)

    def path(self, name):
        return os.path.join(self.folder, name)

    def file(self, name, text):
        os.makedirs(os.path.dirname(self.path(name)), exist_ok=True)
        with open(self.path(name), "w", encoding="utf-8") as file:
            file.write(text)
        return self.path(name)


class OutgoingMail(Folder):
    """What a feed that was ended had written down is sent as it is, if the office doesn't keep it."""

    def left(self, **kept):
        texts = [f"From: {sender}\nNumber: {number}\nKind: none\n".encode()
                 for sender, number in (("ftp", 3), ("ftp", 4), ("bd", 1), ("clock", 2))]
        outgoing = Outgoing(self.folder)
        outgoing.write(texts)
        counts = {sender: Kept(number, number, number) for sender, number in kept.items()}
        return [(label.sender, label.number) for label in map(label_of, outgoing.left(counts))]

    def test_what_lacks(self):
        self.assertEqual(self.left(ftp=2, bd=0, clock=1), [("ftp", 3), ("ftp", 4), ("bd", 1), ("clock", 2)])
        self.assertEqual(self.left(ftp=3, bd=1, clock=1), [("ftp", 4), ("clock", 2)])
        self.assertEqual(self.left(ftp=4, bd=1, clock=2), [])

    def test_what_is_anothers(self):
        self.assertEqual(self.left(ftp=1, clock=1), [("clock", 2)])

    def test_nothing(self):
        outgoing = Outgoing(self.folder)
        outgoing.write([])
        self.assertEqual(outgoing.left({}), [])
        outgoing.clear()


class Feeding(Folder):
    """Feeds of a running office of both architectures of examples/setup.conf."""

    def setUp(self):
        super().setUp()
        self.office = Serving(SETUP)
        self.office.__enter__()
        self.addCleanup(self.office.__exit__)
        self.service = Service(self.office.url)

    def feed(self, packages, day, *more, status=0):
        """What the command prints on both outputs."""
        ended = tool("office-feed", "--url", self.office.url, "--cache", self.path("cache"), "--day", day, *more,
                     self.file("Packages", packages))
        self.assertEqual(ended.returncode, status, ended.stderr)
        return ended.stdout.splitlines(), ended.stderr.splitlines()

    def hint(self, number):
        return next(paragraphs(self.service.kept_text("rt", number) or b""))


@needs_sync
class Feeds(Feeding):

    def test_days(self):
        """Urgency and day of .changes; nothing twice; a source that is gone, and back."""
        self.file("changes/lib.changes", CHANGES)
        more = ("--changes", self.path("changes"))
        self.assertEqual(self.feed(FIRST, "2025-03-03", *more)[0],
                         ["uploads 2, drops 0, builds 2, hints 0, unhints 0, orders 1", "ready 1 finished 1"])
        self.assertIn("lib - 1\n age 2 of 2\n candidate\n", self.service.good_text("/excuses/1"))
        self.assertIn("app - 1\n age 0 of 5\n too young\n", self.service.good_text("/excuses/1"))
        self.assertEqual(self.feed(FIRST, "2025-03-03", *more)[0][0],
                         "uploads 0, drops 0, builds 0, hints 0, unhints 0, orders 0")
        self.assertEqual(self.feed(FIRST, "2025-03-08", *more)[0][1], "ready 2 finished 2")
        self.assertEqual(self.service.good_text("/update/2"), "update 2 2025-03-08\naccept app 1\n")
        without = FIRST.replace("Package: app", "Package: appendix").replace("\nVersion: 1\nArchitecture: amd64\nDep",
                                                                             "\nVersion: 2\nArchitecture: amd64\nDep")
        self.assertEqual(self.feed(without, "2025-03-09")[0][0],
                         "uploads 1, drops 2, builds 1, hints 1, unhints 0, orders 1")
        self.assertEqual((self.hint(1).value("Hint"), self.hint(1).value("Gone")), ("remove app/1", "app 1"))
        self.assertEqual(self.service.good_text("/update/3"), "update 3 2025-03-09\nremove 1 accept app 1\n")
        # The hint is done; and the packages that were dropped are back, and are sent again.
        printed, told = self.feed(without + FIRST, "2025-03-10", status=1)
        self.assertEqual(printed[0], "uploads 0, drops 0, builds 1, hints 0, unhints 1, orders 1")
        self.assertEqual(told[-1], "office-feed: app arm64 1: it is back below 1, which was dropped: sent as 1+back1")
        self.assertEqual(self.hint(2).value("Cancels"), "1")
        self.assertEqual(self.service.good_text("/update/4"), "update 4 2025-03-10\naccept app 1\n")
        self.assertIn("binary amd64 app 1+back1 app", self.service.good_text("/testing"))

    def test_maintainers(self):
        """An upload whose source has a maintainer in Sources says so; the office and its mail stay as they are."""
        sources = ("--sources", self.file("Sources", "Package: lib\nVersion: 1\nMaintainer: Team <t@example.org>,\n"
                                                     " Other <o@example.org>\n"))
        self.assertEqual(self.feed(FIRST, "2025-03-03", *sources)[0][1], "ready 1 finished 1")
        plain = b"From: ftp\nNumber: %d\nKind: upload\nSource: %s\nVersion: 1\nUrgency: medium\nDay: 2025-03-03\n"
        self.assertEqual([self.service.kept_text("ftp", number) for number in (1, 2)],
                         [plain % (1, b"app"), plain % (2, b"lib") +
                          b"Maintainer: Team <t@example.org>, Other <o@example.org>\n"])
        self.assertEqual(self.feed(FIRST, "2025-03-03", *sources)[0][0],
                         "uploads 0, drops 0, builds 0, hints 0, unhints 0, orders 0")

    def test_order(self):
        self.assertEqual(self.feed(FIRST, "2025-03-03", "--no-order")[0][1], "ready 0 finished 0")
        self.assertEqual(self.feed(FIRST, "2025-03-03")[0][1], "ready 1 finished 1")
        self.assertEqual(self.feed(FIRST, "2025-03-03", "--order")[0][1], "ready 2 finished 2")

    def test_dry_run(self):
        ended = tool("office-feed", "--url", self.office.url, "--cache", self.path("cache"), "--day", "2025-03-03",
                     "--dry-run", self.file("Packages", FIRST))
        self.assertEqual(ended.returncode, 1, ended.stderr)
        self.assertEqual(len(list(bags.messages_in(ended.stdout.encode()))), 4)
        self.assertEqual(sum(count.kept for count in self.service.kept().values()), 0)

    def test_cache_of_another_office(self):
        self.feed(FIRST, "2025-03-03")
        self.feed(FIRST, "2025-03-03")
        with Serving(SETUP) as other:
            told = tool("office-feed", "--url", other.url, "--cache", self.path("cache"), "--day", "2025-03-04",
                        self.file("Packages", FIRST))
            self.assertEqual(told.returncode, 3)
            self.assertEqual(sum(count.kept for count in Service(other.url).kept().values()), 0)
        self.assertIn("the office lacks mail that it kept before: ftp 1 to 2, bd 1 to 2, clock 1 to 1", told.stderr)

    def test_a_run_that_waits(self):
        """No order is piled upon one that waits."""
        self.service.post("/mail", b"From: clock\nNumber: 1\nKind: run\nDay: 2025-03-01\nCovers: bts 1\n")
        printed, told = self.feed(FIRST, "2025-03-03", status=1)
        self.assertEqual(printed[0], "uploads 2, drops 0, builds 2, hints 0, unhints 0, orders 0")
        self.assertEqual(told, ["office-feed: run 1 waits for bts 1 of 1"])

    def test_other_bytes(self):
        """The archive has the same version in other bytes: that is sent under a made-up version."""
        self.feed(FIRST, "2025-03-03")
        other = FIRST.replace("Source: lib\nVersion: 1\nArchitecture: amd64", "Source: lib\nVersion: 0:1\n"
                              "Architecture: amd64")
        printed, told = self.feed(other, "2025-03-04", status=1)
        self.assertEqual(printed[0], "uploads 0, drops 0, builds 1, hints 0, unhints 0, orders 1")
        self.assertEqual(told, ["office-feed: lib1 amd64 0:1: it is back below 1, which was sent: sent as "
                                "1+back1.0+c1"])

    def test_what_the_archive_has_not(self):
        """No run is ordered over an unstable that has something to be dropped after the mail, as the line says."""
        program = self.file("office-sync", "#!/bin/sh\necho drop app 1 amd64\n")
        os.chmod(program, 0o755)
        self.feed(FIRST, "2025-03-03")
        with mock.patch.dict(os.environ, OFFICE_SYNC=program):
            self.assertEqual(self.feed(FIRST, "2025-03-04", status=3),
                             ([], ["office-feed: the office's unstable has what the archive hasn't: app 1 amd64: no "
                                   "run is ordered before it is dropped"]))
        self.assertEqual(self.service.kept()["clock"].kept, 1)

    def test_refusals(self):
        self.feed(FIRST, "2025-03-03", "--no-order")
        only = FIRST.replace("arm64", "amd64")
        self.assertIn("the indexes have no package of arm64, and the office was sent 2 of arm64: all would be dropped",
                      self.feed(only, "2025-03-03", status=3)[1][-1])
        self.assertIn("the office has another setup than the archive",
                      self.feed(FIRST + package("odd", "1", architecture="riscv64"), "2025-03-03", status=3)[1][-1])
        self.service.post("/mail", b"From: rt\nNumber: 2\nKind: none\n")
        self.assertEqual(self.feed(FIRST, "2025-03-03", status=3)[1],
                         ["office-feed: rt 1 isn't kept, and rt 2 is: send what is missing first, or a message of the "
                          "kind none in its place"])
        number = os.open(self.path("cache"), os.O_RDONLY)
        fcntl.flock(number, fcntl.LOCK_EX)
        self.assertIn("another office-feed works for this office", self.feed(FIRST, "2025-03-03", status=3)[1][-1])
        os.close(number)


@needs_sync
class Mail(Feeding):

    def fetched(self):
        """The messages that a feed asks for, without the ends by which it knows the office."""
        with mock.patch.object(mailbox, "letters", side_effect=letters) as asked:
            box = mailbox.fetch(self.service, self.path("cache"))
        with open(box.path, "rb") as file:
            return [call.args[1:] for call in asked.call_args_list], len(list(bags.messages_in(file.read())))

    def test_only_what_is_new_is_fetched(self):
        self.feed(FIRST, "2025-03-03")
        self.assertEqual(self.fetched(), ([], 5))
        for number in (1, 2):
            self.service.post("/mail", f"From: bts\nNumber: {number}\nKind: none\n".encode())
        self.assertEqual(self.fetched(), ([("bts", 1)], 7))
        self.service.post("/mail", b"From: bts\nNumber: 3\nKind: none\n")
        self.assertEqual(self.fetched(), ([("bts", 3)], 8))
        self.assertEqual(self.fetched(), ([], 8))


class Replaced(unittest.TestCase):
    """Which upload counts that a newer one replaced before it was sent."""

    def replaced(self, uploads, told="1"):
        """That of uploads `version urgency distribution`, the last of which is the one that the archive has."""
        known = {}
        for line in uploads:
            version, urgency, *distribution = line.split()
            known[version] = Arrival(Urgency(urgency), "2025-03-05", " ".join(distribution))
        return replaced(known, version, told)

    def test_the_most_urgent_one(self):
        self.assertEqual(self.replaced(["2 high sid", "3 critical sid", "4 medium sid", "5 low sid"]), "3")
        self.assertEqual(self.replaced(["2 high sid", "3 high sid", "4 low sid"]), "3")
        self.assertEqual(self.replaced(["2 high sid", "3 low sid"], told=None), "2")

    def test_none(self):
        self.assertIsNone(self.replaced(["2 medium sid", "3 medium sid"]))
        self.assertIsNone(self.replaced(["2 low sid", "3 high sid"]))
        self.assertIsNone(self.replaced(["1 critical sid", "2 low sid"]), "it was sent")
        self.assertIsNone(self.replaced(["9 critical sid", "2 low sid"]), "it is above the archive's")
        self.assertIsNone(replaced({"2": Arrival(Urgency.HIGH, "2025-03-05", "sid")}, "3", "1"), "3 has no file")

    def test_uploads_to_other_suites(self):
        self.assertIsNone(self.replaced(["2 high experimental", "3 low sid"]))
        self.assertEqual(self.replaced(["2 critical experimental", "3 high sid", "4 low sid"]), "3")

    def test_files_without_a_distribution(self):
        """They brought no source, or say too little."""
        self.assertIsNone(self.replaced(["2 high", "3 low sid"]))
        self.assertIsNone(self.replaced(["2 high", "3 low"]))

    def test_what_is_no_version(self):
        self.assertIsNone(self.replaced(["2_1 high sid", "3 low sid"]))


@needs_sync
class Replacing(Feeding):

    def changes(self, version, urgency, distribution="unstable", architecture="source"):
        text = CHANGES.replace("Version: 1", f"Version: {version}").replace("Urgency: high", f"Urgency: {urgency}")
        self.file(f"changes/lib_{version}_{architecture}.changes", text.replace("source amd64", architecture) +
                  f"Distribution: {distribution}\n")

    def test_its_urgency_counts(self):
        """Three uploads on a day, one of them to another suite, and what was built of one of them alone."""
        more = ("--changes", self.path("changes"))
        self.changes(1, "medium")
        self.feed(FIRST, "2025-03-03", *more)
        self.changes(2, "high")
        self.changes(3, "critical", "experimental")
        self.changes(4, "critical", architecture="amd64")
        self.changes(5, "low")
        newer = FIRST.replace("Source: lib\nVersion: 1", "Source: lib\nVersion: 5")
        printed, told = self.feed(newer, "2025-03-08", *more)
        self.assertEqual(printed[0], "uploads 2, drops 0, builds 1, hints 0, unhints 0, orders 1")
        self.assertIn("office-feed: source lib 2: it was replaced before it was sent; its urgency, high, counts",
                      told)
        plain = b"From: ftp\nNumber: %d\nKind: upload\nSource: lib\nVersion: %d\nUrgency: %s\nDay: 2025-03-08\n"
        self.assertEqual([self.service.kept_text("ftp", number) for number in (3, 4)],
                         [plain % (3, 2, b"high"), plain % (4, 5, b"low")])
        self.assertIn("lib - 5\n age 0 of 2\n too young\n", self.service.good_text("/excuses/2"))
        self.assertEqual(self.feed(newer, "2025-03-08", *more)[0][0],
                         "uploads 0, drops 0, builds 0, hints 0, unhints 0, orders 0")


KNOT = "".join(package(name, "1", depends=other, architecture=arch) for arch in ("amd64", "arm64")
               for name, other in (("one", "two"), ("two", "one")))


@needs_sync
class Proposing(Feeding):
    """Groups that the office proposes: mailed with an order, or written down; and taken back once they have moved."""

    def knot(self, *more):
        """A feed of two sources that need each other, old enough by their files .changes."""
        for name in ("one", "two"):
            self.file(f"changes/{name}.changes", CHANGES.replace("Source: lib", f"Source: {name}"))
        return self.feed(KNOT, "2025-03-09", "--changes", self.path("changes"), *more)[0]

    def test_mailed(self):
        self.assertEqual(self.knot("--propose"), [
            "uploads 2, drops 0, builds 2, hints 0, unhints 0, orders 1", "ready 1 finished 1",
            "proposed 1, orders 1", "ready 2 finished 2"])
        self.assertEqual((self.hint(1).value("Hint"), self.hint(1).value("Proposed")),
                         ("easy one/1 two/1", "2025-03-09"))
        self.assertEqual(self.service.good_text("/update/2"), "update 2 2025-03-09\neasy 1 accept one 1 two 1\n")
        # Its group has moved, so it is taken back; nothing is proposed any more.
        self.assertEqual(self.feed(KNOT, "2025-03-09", "--propose")[0], [
            "uploads 0, drops 0, builds 0, hints 0, unhints 1, orders 1", "ready 3 finished 3",
            "proposed 0, orders 0", "ready 3 finished 3"])
        self.assertEqual(self.hint(2).value("Cancels"), "1")
        self.assertEqual(self.feed(KNOT, "2025-03-09", "--propose")[0][0],
                         "uploads 0, drops 0, builds 0, hints 0, unhints 0, orders 0")

    def test_no_order(self):
        """Without orders the hints stay until somebody orders a run, and are mailed once."""
        self.knot()
        self.assertEqual(self.feed(KNOT, "2025-03-09", "--propose", "--no-order")[0][2], "proposed 1, orders 0")
        self.assertEqual(self.feed(KNOT, "2025-03-09", "--propose", "--no-order")[0][2], "proposed 0, orders 0")
        self.assertEqual(self.service.kept()["rt"].kept, 1)

    def test_written_down(self):
        printed = self.knot("--proposals", self.path("hints"))
        self.assertEqual(printed[2:], [f"proposed 1, in {self.path('hints')}"])
        with open(self.path("hints"), "rb") as file:
            self.assertEqual(list(bags.messages_in(file.read())), [
                b"From: rt\nNumber: 1\nKind: hint\nHint: easy one/1 two/1\nProposed: 2025-03-09\n"])
        self.assertEqual(self.service.kept()["rt"].kept, 0)
        self.assertEqual(self.feed(KNOT, "2025-03-09", "--propose", "--proposals", "x", status=2)[1][-1],
                         "office-feed: error: name one of --propose and --proposals")

    def test_what_is_over(self):
        """A proposal for versions that aren't unstable's any more is taken back; a person's hint isn't."""
        self.knot()
        self.service.post("/mail", b"From: rt\nNumber: 1\nKind: hint\nHint: easy one/1 two/1\nProposed: x\n")
        self.service.post("/mail", b"From: rt\nNumber: 2\nKind: hint\nHint: easy one/1 two/1\n")
        newer = KNOT.replace("Version: 1", "Version: 2")
        self.assertEqual(self.feed(newer, "2025-03-10", "--no-order")[0][0],
                         "uploads 2, drops 0, builds 2, hints 0, unhints 0, orders 0")
        self.assertEqual(self.feed(newer, "2025-03-10", "--no-order")[0][0],
                         "uploads 0, drops 0, builds 0, hints 0, unhints 1, orders 0")
        self.assertEqual(self.hint(3).value("Cancels"), "1")

    def test_no_run(self):
        """After no run there is nothing to propose."""
        self.assertEqual(self.feed(KNOT, "2025-03-09", "--propose", "--no-order")[0][2], "proposed 0, orders 0")


SPARE_SETUP = """Architectures: amd64 arm64

Sender: ftp
Role: upload

Sender: again1
Role: build

Sender: bd
Role: build

Sender: bts
Role: bugs

Sender: rt
Role: release

Sender: clock
Role: runs
"""


@needs_sync
class Rebuilding(Folder):
    """A rebuild is sent under a version of its own: by the spare senders, and then under made-up versions."""

    def feed(self, packages, *more, rebuilds=("--rebuilds",), status=0):
        ended = tool("office-feed", "--url", self.service.url, "--cache", self.path("cache"), "--day", "2025-03-09",
                     *rebuilds, *more, self.file("Packages", packages))
        self.assertEqual(ended.returncode, status, ended.stderr)
        return ended.stdout.splitlines()[0], ended.stderr.splitlines()

    BOTH = package("lib1", "1", source="lib") + package("lib-data", "1", source="lib", architecture="all") + \
        package("lib1", "1", source="lib", architecture="arm64")

    def test_told_before_it_was_asked_for(self):
        """A rebuild that didn't move is sent so that it does, all of it by the spare sender; and it is sent once."""
        self.file("changes/lib.changes", CHANGES)
        with Serving(self.file("setup.conf", SPARE_SETUP)) as office:
            self.service = Service(office.url)
            self.feed(self.BOTH, "--changes", self.path("changes"))
            once = self.BOTH.replace("Source: lib\nVersion: 1\nArchitecture: a", "Source: lib (1)\nVersion: 1+b1\n"
                                     "Architecture: a").replace("lib (1)\nVersion: 1+b1\nArchitecture: all",
                                                                "lib\nVersion: 1\nArchitecture: all")
            self.feed(once, rebuilds=())
            self.assertEqual(self.service.good_text("/update/2"), "update 2 2025-03-09\n")
            self.assertEqual(self.feed(once, status=1)[0], "uploads 1, drops 0, builds 1, hints 0, unhints 0, orders 1")
            self.assertEqual(self.service.good_text("/update/3"), "update 3 2025-03-09\naccept lib 1+b1\n")
            self.assertEqual(self.service.good_text("/testing").splitlines()[2:], [
                "binary amd64 lib1 1+b1 lib", "binary arm64 lib1 1+b1 lib", "binary all lib-data 1 lib"])
            self.assertEqual(self.feed(once)[0], "uploads 0, drops 0, builds 0, hints 0, unhints 0, orders 0")

    def test_a_newer_version_waits(self):
        """A rebuild waits no days, whatever the delays are, and the version behind it waits as any other."""
        self.file("changes/lib.changes", CHANGES)
        once = self.BOTH.replace("Source: lib\nVersion: 1\n", "Source: lib (1)\nVersion: 1+b1\n")
        with Serving(self.file("setup.conf", SPARE_SETUP)) as office:
            self.service = Service(office.url)
            self.feed(self.BOTH, "--changes", self.path("changes"))
            for text in (messages.message(Label("rt", 1), messages.Kind.DELAYS, ("40", "5", "2", "0")),
                         messages.hint(Label("rt", 2), "block lib")):
                self.assertTrue(self.service.post("/mail", text).is_good)
            self.feed(once)
            self.assertIn("lib 1 1+b1\n age 40 of 40\n blocked\n", self.service.good_text("/excuses/2"))
            self.service.post("/mail", messages.unhint(Label("rt", 3), 2))
            self.feed(self.BOTH.replace("Version: 1", "Version: 2"))
            self.assertIn("lib 1 2\n age 0 of 5\n too young\n", self.service.good_text("/excuses/3"))

    def test_behind_the_last_spare_sender(self):
        self.file("changes/lib.changes", CHANGES)
        both = self.BOTH
        with Serving(self.file("setup.conf", SPARE_SETUP)) as office:
            self.service = Service(office.url)
            self.feed(both, "--changes", self.path("changes"))
            self.assertEqual(self.service.good_text("/update/1"), "update 1 2025-03-09\naccept lib 1\n")
            once = both.replace("Version: 1\nArchitecture: amd64", "Version: 1+b1\nArchitecture: amd64") \
                .replace("lib\nVersion: 1+b1", "lib (1)\nVersion: 1+b1")
            self.assertEqual(self.feed(once, status=1), (
                "uploads 1, drops 0, builds 2, hints 0, unhints 0, orders 1",
                ["office-feed: lib: rebuilt: sent as 1+b1", "office-feed: lib: its last spare sender is used: its next "
                 "rebuild takes made-up versions of packages"]))
            self.assertEqual(self.service.good_text("/update/2"), "update 2 2025-03-09\naccept lib 1+b1\n")
            self.assertEqual(self.service.good_text("/testing").splitlines()[2:], [
                "binary amd64 lib1 1+b1 lib", "binary arm64 lib1 1 lib", "binary all lib-data 1 lib"])
            self.assertEqual(self.feed(once)[0], "uploads 0, drops 0, builds 0, hints 0, unhints 0, orders 0")
            twice = once.replace("1+b1", "1+b2")
            self.assertEqual(self.feed(twice)[1], ["office-feed: lib: rebuilt: sent as 1+b2"])
            self.assertEqual(self.service.good_text("/update/3"), "update 3 2025-03-09\naccept lib 1+b2\n")
            self.assertEqual(self.service.good_text("/testing").splitlines()[2:], [
                "binary amd64 lib1 1+b2 lib", "binary arm64 lib1 1+back1 lib", "binary all lib-data 1+back1 lib"])
            self.assertEqual(self.feed(twice)[0], "uploads 0, drops 0, builds 0, hints 0, unhints 0, orders 0")


class Words(Folder):

    def test_refusals(self):
        packages = self.file("Packages", FIRST)
        for words, status, cause in [
                ((), 2, "name files Packages, or lines for apt by --apt"),
                ((packages, "--apt", "deb file:/nowhere x main"), 2, "name files Packages"),
                (("--day", "2025-3-1", packages), 2, "invalid day value"),
                (("--url", "http://127.0.0.1:1", "--cache", self.folder, packages), 4, "http://127.0.0.1:1/kept: "),
                (("--url", "http://127.0.0.1:1", "--cache", self.folder, "--apt", "deb file:/nowhere x main"), 4,
                 "apt-get: "),
                (("--url", "http://127.0.0.1:1", "--cache", self.folder, self.file("none", "")), 3,
                 "the indexes have no package")]:
            told = tool("office-feed", *words)
            self.assertEqual(told.returncode, status, told.stderr)
            self.assertIn(cause, told.stderr)


if __name__ == "__main__":
    unittest.main()
