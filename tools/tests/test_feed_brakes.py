"""What office-feed refuses before it sends anything, and what it prints as long as something doesn't move."""
import datetime
import os
import unittest
from unittest import mock

from helpers import SETUP, Serving, needs_sync, tool
from office_tools import bags, messages
from office_tools.faults import Fault
from office_tools.feed import brakes
from office_tools.feed.archive import Release
from office_tools.feed.command import Feed
from office_tools.feed.mailbox import Outgoing
from office_tools.feed.memory import ChangesRead
from office_tools.feed.sending import Sending
from office_tools.from_packages import told
from office_tools.messages import Label, Urgency, paragraphs
from office_tools.service import Service, Status
from test_feed import CHANGES, FIRST, Feeding, Folder, package

BOTH = ("amd64", "arm64")
NOTHING = "uploads 0, drops 0, builds 0, hints 0, unhints 0, orders 0"


def on_both(name, version, **more):
    """A package on both architectures."""
    return "".join(package(name, version, architecture=architecture, **more) for architecture in BOTH)


@needs_sync
class Gone(Feeding):
    """Drops of many packages, or of one that others need, are refused unless their number is allowed."""

    def test_many(self):
        many = "".join(on_both(f"app{number}", "1") for number in range(15))
        few = "".join(on_both(f"app{number}", "1") for number in range(4))
        self.feed(many, "2025-03-03")
        before = self.service.good_text("/kept")
        told = self.feed(few, "2025-03-04", status=3)[1]
        self.assertIn("22 of 30 packages are gone from the archive: app10 amd64, app10 arm64, ", told[-1])
        self.assertIn("allow it by --gone 22", told[-1])
        self.feed(few, "2025-03-04", "--gone", "21", status=3)
        self.assertEqual(self.feed(few, "2025-03-04", "--dry-run", status=3)[0], [])
        self.assertEqual(self.service.good_text("/kept"), before)
        self.assertEqual(self.feed(few, "2025-03-04", "--gone", "22")[0][0],
                         "uploads 0, drops 22, builds 0, hints 0, unhints 0, orders 1")

    def test_what_others_need(self):
        """A library that testing's app needs; not if a newer version of its source takes its place."""
        self.file("changes/lib.changes", CHANGES)
        self.file("changes/app.changes", CHANGES.replace("Source: lib", "Source: app"))
        first = on_both("lib1", "1", source="lib") + on_both("app", "1", depends="lib1")
        self.feed(first, "2025-03-03", "--changes", self.path("changes"))
        self.assertIn("source app 1\n", self.service.good_text("/testing"))
        told = self.feed(on_both("app", "1", depends="lib1"), "2025-03-04", status=3)[1]
        self.assertEqual(told[-1], "office-feed: lib1 amd64, lib1 arm64: gone from the archive, and needed by app "
                                   "amd64 and 1 more: if this is meant, allow it by --gone 2")
        newer = on_both("lib2", "2", source="lib") + on_both("app", "1", depends="lib1")
        self.assertEqual(self.feed(newer, "2025-03-04")[0][0],
                         "uploads 1, drops 2, builds 1, hints 0, unhints 0, orders 1")


class Releases(unittest.TestCase):
    """What the files Release say is compared with what was seen last."""

    def release(self, day, architectures="amd64 arm64", components="main"):
        return {"x_Release": Release(datetime.datetime(2025, 3, day, tzinfo=datetime.timezone.utc),
                                     frozenset(architectures.split()), frozenset(components.split()))}

    def test_refusals(self):
        before = brakes.remembered_releases(self.release(5))
        for found, cause in ((self.release(4), "was put back"), (self.release(6, "amd64"), "the architectures arm64"),
                             (self.release(6, components="contrib"), "the components main")):
            with self.subTest(cause=cause), self.assertRaisesRegex(Fault, f"{cause}.* --other-release"):
                brakes.check_releases(found, before)
        brakes.check_releases(self.release(5), before)
        brakes.check_releases(self.release(6, "amd64 arm64 riscv64", "main contrib"), before)
        brakes.check_releases(self.release(4), {"x_Release": {"date": "no date"}})

    def test_days(self):
        day = datetime.date(2025, 3, 10)
        brakes.check_day(None, day, datetime.date(2025, 3, 3))
        brakes.check_day(day, day, datetime.date(2026, 1, 1))
        for last in (datetime.date(2025, 3, 2), datetime.date(2025, 3, 11)):
            with self.assertRaisesRegex(Fault, "--day"):
                brakes.check_day(None, day, last)


@needs_sync
class Offices(Feeding):
    """A gap, a day by the clock, and an office that isn't the one that the folder knows."""

    def test_a_gap(self):
        self.feed(FIRST, "2025-03-03")
        self.service.post("/mail", b"From: bts\nNumber: 2\nKind: none\n")
        self.assertIn("bts 1 isn't kept, and bts 2 is: ", self.feed(FIRST, "2025-03-04", status=3)[1][-1])
        self.assertEqual(self.feed(FIRST, "2025-03-04", "--gap", "bts")[0][1], "ready 2 finished 2")

    def test_the_clock(self):
        self.feed(FIRST, "2025-03-03")
        told = tool("office-feed", "--url", self.office.url, "--cache", self.path("cache"), self.path("Packages"))
        self.assertEqual(told.returncode, 3)
        self.assertIn("by the clock, and the last order is of 2025-03-03, more than 7 days before", told.stderr)

    def test_a_store_that_was_restored(self):
        """It gets its mail again, each message, also of senders that aren't the feed's."""
        self.service.post("/mail", b"From: bts\nNumber: 1\nKind: none\n")
        self.feed(FIRST, "2025-03-03")
        kept = self.service.good_text("/kept")
        with open(self.path("cache/bag"), "rb") as file:
            texts = list(bags.messages_in(file.read()))
        self.assertEqual(len(texts), 6)
        with Serving(SETUP) as other:
            words = ("office-feed", "--url", other.url, "--cache", self.path("cache"))
            restored = Service(other.url)
            restored.post("/mail", next(text for text in texts if b"From: ftp\nNumber: 1\n" in text))
            refused = tool(*words, "--day", "2025-03-04", self.path("Packages"))
            self.assertEqual(refused.returncode, 3)
            self.assertIn("the office lacks mail that it kept before: bts 1 to 1, ftp 2 to 2, ", refused.stderr)
            self.assertIn(f"'office-feed --restore --url {other.url} --cache {self.path('cache')}'", refused.stderr)
            ended = tool(*words, "--restore")
            self.assertEqual((ended.returncode, ended.stdout), (0, "sent again 5\nready 1 finished 1\n"), ended.stderr)
            self.assertEqual(restored.good_text("/kept"), kept)
            self.assertEqual(tool(*words, "--day", "2025-03-03", self.path("Packages")).stdout.splitlines()[0], NOTHING)

    def test_another_office(self):
        self.feed(FIRST, "2025-03-03")
        with Serving(SETUP) as other:
            Service(other.url).post("/mail", b"From: ftp\nNumber: 1\nKind: none\n")
            words = ("--url", other.url, "--cache", self.path("cache"))
            told = tool("office-feed", *words, "--day", "2025-03-04", self.path("Packages"))
            self.assertEqual(told.returncode, 3)
            self.assertIn("which keeps another text as ftp 1: name another folder", told.stderr)
            self.assertEqual(tool("office-feed", *words, "--restore").returncode, 3)

    def test_another_setup(self):
        with open(SETUP, encoding="utf-8") as file:
            setup = self.file("other.conf", file.read().replace("Sender: ftp", "Sender: dak"))
        with Serving(setup) as other:
            told = tool("office-feed", "--url", other.url, "--cache", self.path("other"), self.file("Packages", FIRST))
        self.assertEqual((told.returncode, told.stderr),
                         (3, "office-feed: the office has another setup: it has no sender ftp\n"))

    def test_a_cut_bag(self):
        """A folder whose bag was cut off or garbled is mended by the office's mail; the garbled one is kept."""
        self.feed(FIRST, "2025-03-03")
        path = self.path("cache/bag")
        with open(path, "rb") as file:
            whole = file.read()
        os.truncate(path, len(whole) - 5)
        self.assertEqual(self.feed(FIRST, "2025-03-03")[0][0], NOTHING)
        with open(path, "rb") as file:
            self.assertEqual(sorted(bags.messages_in(file.read())), sorted(bags.messages_in(whole)))
        self.file("cache/bag", "no bag")
        self.assertEqual(self.feed(FIRST, "2025-03-03", status=1)[0][0], NOTHING)
        with open(self.path("cache/bag.bad1"), encoding="utf-8") as file:
            self.assertEqual(file.read(), "no bag")


@needs_sync
class Refused(Feeding):
    """What the office refuses is left out, and all else is sent under numbers without a gap."""

    def test_an_upload_and_a_package(self):
        def upload(number, source, version):
            return messages.upload(Label("ftp", number), source, version, Urgency.LOW, "2025-03-01")

        def paragraph(name, version):
            return messages.binary({"Package": name, "Version": version, "Architecture": "amd64"})
        texts = [upload(1, "aa", "1_0"), upload(2, "bb", "1"), upload(3, "cc", ""), upload(4, "dd", "2"),
                 messages.build(Label("bd", 1), [paragraph("bb", "1"), paragraph("bb-bad", "1_0")]),
                 messages.build(Label("bd", 2), [paragraph("cc", "1_0"), paragraph("c", "1")]),
                 messages.build(Label("bd", 3), [paragraph("dd", "2")])]
        sending = Sending(self.service, "clock", Outgoing(self.folder))
        self.assertEqual(sending.send(texts), 4)
        kept = self.service.kept()
        self.assertEqual([kept[name].unbroken for name in ("ftp", "bd")], [2, 2])
        self.assertEqual([next(paragraphs(self.service.kept_text("ftp", number))).value("Source")
                          for number in (1, 2)], ["bb", "dd"])
        self.assertEqual([paragraph.value("Package") for number in (1, 2)
                          for paragraph in list(paragraphs(self.service.kept_text("bd", number)))[1:]], ["bb", "dd"])
        self.assertFalse(os.path.exists(self.path("outgoing")))


@needs_sync
class Standing(Feeding):
    """What doesn't move gives status 1 each day, with its days; a note only on its first."""

    def test_lines(self):
        odd = FIRST + package("odd", "1", depends="aa\u00a0(>= 1)")
        self.file("changes/bad.changes", "nothing")
        more = ("--changes", self.path("changes"))
        told = self.feed(odd, "2025-03-03", *more, status=1)[1]
        self.assertEqual(told, ["office-feed: odd 1: left out: bad Depends 'aa\\xa0(>= 1)'",
                                f"office-feed: {self.path('changes/bad.changes')}: it states no source and version: "
                                "left out"])
        told = self.feed(odd, "2025-03-05", *more, status=1)[1]
        self.assertEqual(told, ["office-feed: for 2 days: odd 1: left out: bad Depends 'aa\\xa0(>= 1)'",
                                "office-feed: 1 lines of before aren't repeated (--all-lines)"])
        self.assertEqual(self.feed(FIRST, "2025-03-06", *more, status=0)[1],
                         ["office-feed: 1 lines of before aren't repeated (--all-lines)"])
        self.assertEqual(len(self.feed(FIRST, "2025-03-07", *more, "--all-lines")[1]), 1)

    def test_ages(self):
        """After the first order an upload came on the day on which the feed first saw it."""
        self.feed(FIRST, "2025-03-03")
        self.file("changes/new.changes", CHANGES.replace("Source: lib", "Source: new"))
        self.feed(FIRST + on_both("new", "1"), "2025-03-09", "--changes", self.path("changes"))
        self.assertIn("new - 1\n age 0 of 2\n", self.service.good_text("/excuses/2"))


class CutOff(unittest.TestCase):
    """A run that was cut off when the office was killed is finished first, which is printed once."""

    def settled(self, *after):
        service = mock.Mock()
        service.status.side_effect = [Status(2, 1), *after]
        lines = []
        with mock.patch.object(told, "listener", lambda what, weight: lines.append(what)):
            Feed(service, mock.Mock(), mock.Mock()).settle()
        return service.post.mock_calls, lines

    def test_settle(self):
        self.assertEqual(self.settled(Status(2, 2)), ([mock.call("/settle")],
                                                      ["run 2 was cut off, and is finished now"]))
        self.assertEqual(self.settled(Status(2, 1)), ([mock.call("/settle")], []))


class Changes(Folder):
    """A file .changes is read once, and again when it changes or couldn't be read."""

    def test_once(self):
        path = self.file("one.changes", CHANGES)
        first = ChangesRead({})
        stated = first.read(path)
        self.assertEqual((stated.source, stated.version, stated.urgency), ("lib", "1", "high"))
        with mock.patch("office_tools.feed.memory.read_changes", side_effect=Fault("read again")):
            later = ChangesRead(first.now)
            self.assertEqual(later.read(path), stated)
            self.assertEqual(later.now, first.now)
            self.file("one.changes", CHANGES + "More: x\n")
            with self.assertRaisesRegex(Fault, "read again"):
                later.read(path)
            with self.assertRaisesRegex(Fault, "No such file"):
                later.read(self.path("none.changes"))

    def test_what_an_older_version_wrote(self):
        """It read fewer fields, so the file is read again."""
        path = self.file("one.changes", CHANGES + "Distribution: unstable\n")
        first = ChangesRead({})
        self.assertEqual(first.read(path).distribution, "unstable")
        del first.now[path]["distribution"]
        self.assertEqual(ChangesRead(first.now).read(path).distribution, "unstable")


class Restoring(Folder):

    def test_words(self):
        told = tool("office-feed", "--restore", self.file("Packages", FIRST))
        self.assertEqual(told.returncode, 2)
        self.assertEqual(tool("office-feed", "--gone", "-1", self.path("Packages")).returncode, 2)


if __name__ == "__main__":
    unittest.main()
