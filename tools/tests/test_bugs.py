"""office-bugs: the lists of release-critical bugs of unstable and of testing."""
import datetime
import os
import tempfile
import unittest

from helpers import Serving, needs_office, tool
from office_tools import bags, messages, reports
from office_tools.bugs import changes, lists
from office_tools.messages import Label, Range, Severity, Urgency, paragraphs
from office_tools.service import Service


def binary(name, version, source=None):
    """The paragraph of a package."""
    fields = {"Package": name, "Version": version, "Architecture": "amd64"}
    return messages.binary(fields | ({"Source": source} if source else {}))


WORLD = [
    # In testing: chat 1-1 and editor 1-1. Newer in unstable: chat 2-1 and editor 2-1.
    messages.upload(Label("ftp", 1), "chat", "1-1", Urgency.CRITICAL, "2025-03-01"),
    messages.upload(Label("ftp", 2), "editor", "1-1", Urgency.CRITICAL, "2025-03-01"),
    messages.build(Label("bd", 1), [binary("chat", "1-1"), binary("libchat0", "1-1", "chat"), binary("editor", "1-1")]),
    messages.run(Label("clock", 1), "2025-03-01", {"ftp": 2, "bd": 1}),
    messages.upload(Label("ftp", 3), "chat", "2-1", Urgency.LOW, "2025-03-02"),
    messages.upload(Label("ftp", 4), "editor", "2-1", Urgency.LOW, "2025-03-02"),
    messages.build(Label("bd", 2), [binary("chat", "2-1"), binary("libchat0", "2-1", "chat"), binary("editor", "2-1")])]


class Lists(unittest.TestCase):

    def read(self, text):
        with tempfile.NamedTemporaryFile() as file:
            file.write(text)
            file.flush()
            return lists.read_list(file.name)

    def test_lists(self):
        self.assertEqual(self.read(b""), [])
        self.assertEqual(self.read(b"chat 1,22\n\nsrc:editor 3\n"), [("chat", 1), ("chat", 22), ("src:editor", 3)])
        self.assertEqual(self.read(b"chat 1\r\n"), [("chat", 1)])

    def test_refusals(self):
        for text, cause in [(b"chat 1\neditor 2", "its last line has no end: the file was cut off"),
                            (b"chat 1\neditor\n", "it isn't NAME BUG[,BUG..]: 'editor'"),
                            (b"chat #1\n", "it isn't NAME BUG[,BUG..]: 'chat #1'"),
                            (b"chat 1, 2\n", "it isn't NAME BUG[,BUG..]: 'chat 1, 2'"),
                            (b"chat 0\n", "0 is no number of a bug"),
                            (b"chat 1234567890\n", "1234567890 is no number of a bug"),
                            (b"ch\xe4t 1\n", "it is no text in UTF-8")]:
            with self.assertRaises(lists.Fault) as raised:
                self.read(text)
            self.assertTrue(raised.exception.cause.endswith(cause), raised.exception.cause)
            self.assertEqual(raised.exception.status, 3)


class States(unittest.TestCase):
    """What is said about a bug, by the versions of its source and the lists that it is in."""

    def state(self, unstable, testing, in_unstable, in_testing):
        state = changes.Standing(unstable, testing).state(changes.Listing(in_unstable, in_testing))
        return state.severity, state.affected

    def test_states(self):
        serious = Severity.SERIOUS
        for given, due in [
                (("2-1", "1-1", True, True), (serious, Range())),
                (("2-1", "1-1", True, False), (serious, Range(found="2-1"))),
                (("2-1", "1-1", False, True), (serious, Range(fixed="2-1"))),
                (("2-1", "1-1", False, False), (Severity.WISHLIST, Range())),
                # A source that isn't in testing has no bug there, whatever the list says.
                (("2-1", None, True, True), (serious, Range(found="2-1"))),
                (("2-1", None, False, True), (Severity.WISHLIST, Range())),
                # Nothing newer is in unstable: the next version is meant, whatever it will be.
                (("1-1", "1-1", True, False), (serious, Range(found="1-1A~"))),
                (("1-1", "1-1", False, True), (serious, Range(fixed="1-1A~"))),
                # A rebuild that the office got as a version of its own is the same version in the archive.
                (("1-1+b1", "1-1", True, False), (serious, Range(found="1-1+b1A~")))]:
            self.assertEqual(self.state(*given), due, given)

    def test_above(self):
        """The versions that an archive has above one, by Debian Policy 5.6.12, are above what comes just above it."""
        compare = changes.versions.compare
        for version in ["1-1", "1.0", "2:1.0~rc1-3", "1-1+b1"]:
            just = changes.above(version)
            self.assertGreater(compare(just, version), 0)
            for suffix in ["+b2", ".1", "+deb12u1", "ubuntu1", "5", "a"]:
                self.assertGreater(compare(version + suffix, just), 0, version + suffix)
            self.assertLess(compare(version + "~bpo1", just), 0)

    def test_names(self):
        unstable = reports.Unstable(1, {"chat": "1", "talk": "1", "smooth-chat": "1"}, [
            reports.Row("amd64", "chat", "1", "talk"), reports.Row("amd64", "libchat", "1", "chat"),
            reports.Row("amd64", "libold", "1", "smooth-chat"), reports.Row("amd64", "lost", "1", "gone")])
        names = lists.names_of(unstable)
        for name, due in [("chat", {"chat", "talk"}), ("src:chat", {"chat"}), ("libchat", {"chat"}), ("talk", {"talk"}),
                          ("libold", set()), ("lost", set()), ("src:libchat", set()), ("wnpp", set())]:
            self.assertEqual(names.sources(name), due, name)


@needs_office
class Bugs(unittest.TestCase):

    def setUp(self):
        folder = tempfile.TemporaryDirectory()
        self.addCleanup(folder.cleanup)
        self.folder = folder.name
        serving = Serving()
        serving.__enter__()
        self.addCleanup(serving.__exit__)
        self.url = serving.url
        self.service = Service(self.url)
        for text in WORLD:
            self.assertTrue(self.service.post("/mail", text).is_good, text)

    def bugs(self, unstable, testing, *words):
        """What the command prints on both outputs for these lists, and its status."""
        paths = []
        for name, text in (("unstable", unstable), ("testing", testing)):
            paths.append(os.path.join(self.folder, name))
            with open(paths[-1], "w", encoding="ascii") as file:
                file.write(text)
        told = tool("office-bugs", "--url", self.url, *words, *paths)
        return told.stdout.splitlines(), told.stderr.replace(self.folder + "/", ""), told.returncode

    def kept(self):
        """The messages on bugs that the office keeps: number in the office, source, severity, found, fixed."""
        found = []
        for text in bags.messages_in(self.service.bag("bts", 1)):
            first = next(paragraphs(text))
            found.append(tuple(first.value(name) for name in ("Bug", "Source", "Severity", "Found", "Fixed")))
        return found

    def run_of(self, day):
        """The reasons of each source in the run that a new order makes."""
        self.assertTrue(self.service.post("/mail", self.service.order(day)).is_good)
        excuses = self.service.excuses(self.service.status().finished)
        return {excuse.source: [reason.text for reason in excuse.reasons] for excuse in excuses.excuses}

    def test_a_bug_of_two_sources(self):
        """Each source is held by a bug that both have, and freed by its own closing alone."""
        day = datetime.date(2025, 3, 20)
        self.assertEqual(self.bugs("chat 6001\neditor 6001\n", ""), (
            ["bug 6001 of chat: serious found in 2-1", "bug 6001 of editor as 100006001: serious found in 2-1",
             "bugs 2, new 2, changed 0, closed 0"], "", 0))
        self.assertEqual(self.run_of(day), {"chat": ["new bug 6001"], "editor": ["new bug 100006001"]})
        self.assertEqual(self.bugs("editor 6001\n", "")[0],
                         ["bug 6001 of chat: closed", "bugs 1, new 0, changed 0, closed 1"])
        self.assertEqual(self.run_of(day), {"chat": [], "editor": ["new bug 100006001"]})

    def test_twice(self):
        """A second call with the same lists sends nothing, nor does one after a newer upload with the same bugs."""
        given = "src:chat 1,2\neditor 3\n", "chat 2\nlibchat0 4\n"
        told, words, status = self.bugs(*given)
        self.assertEqual((told[-1], words, status), ("bugs 4, new 4, changed 0, closed 0", "", 0))
        due = [("1", "chat", "serious", "2-1", None), ("2", "chat", "serious", None, None),
               ("4", "chat", "serious", None, "2-1"), ("3", "editor", "serious", "2-1", None)]
        self.assertEqual(self.kept(), due)
        for _ in range(2):
            self.assertEqual(self.bugs(*given), (["bugs 4, new 0, changed 0, closed 0"], "", 0))
        self.service.post("/mail", messages.upload(Label("ftp", 5), "chat", "3-1", Urgency.LOW, "2025-03-03"))
        self.assertEqual(self.bugs(*given), (["bugs 4, new 0, changed 0, closed 0"], "", 0))
        self.assertEqual(self.kept(), due)

    def test_numbers_stay(self):
        """A pair has its number for good: it is closed and opened again under it."""
        self.bugs("chat 7\neditor 7\n", "")
        self.bugs("", "", "--close", "2")
        self.assertEqual(self.bugs("editor 7\n", "")[0][0], "bug 7 of editor as 100000007: serious found in 2-1")
        self.assertEqual(self.bugs("chat 7\neditor 7\n", "")[0][0], "bug 7 of chat: serious found in 2-1")

    def test_what_another_sent(self):
        """A bug that a person has the last word on is left alone unless it is taken over."""
        self.service.post("/mail", messages.bug(Label("bts", 1), 8, "chat", Severity.WISHLIST))
        self.service.post("/mail", messages.bug(Label("bts", 2), 9, "chat", Severity.SERIOUS))
        self.service.post("/mail", messages.bug(Label("bts", 3), 5, "editor", Severity.GRAVE))
        told, words, status = self.bugs("chat 8,5\n", "")
        self.assertEqual((told, status), (["bug 5 of chat as 100000005: serious found in 2-1",
                                           "bugs 2, new 1, changed 0, closed 0"], 0))
        self.assertEqual(words, "office-bugs: bug 8 of chat: serious found in 2-1: left alone: its last message isn't "
                                "of office-bugs; --take-over sends it\n")
        self.assertEqual(self.bugs("chat 8,5\n", "", "--take-over")[0][0], "bug 8 of chat: serious found in 2-1")
        # The same of a number that this command made.
        self.service.post("/mail", messages.bug(Label("bts", 6), 100000005, "chat", Severity.WISHLIST))
        told, words, status = self.bugs("chat 8,5\n", "")
        self.assertEqual((told, status), (["bugs 2, new 0, changed 0, closed 0"], 0))
        self.assertIn("bug 5 of chat as 100000005: serious found in 2-1: left alone", words)

    def test_a_short_list(self):
        """A list that closes many bugs is refused, and so is an empty one: nothing is sent."""
        numbers = ",".join(map(str, range(1, 101)))
        self.bugs(f"chat {numbers}\n", "")
        told = self.bugs("chat 1\n", "")
        cause = "office-bugs: 99 of 100 open bugs are in no list any more: --close 99 closes them\n"
        self.assertEqual(told, ([], cause, 3))
        self.assertEqual(self.bugs("", "")[2], 3)
        self.assertEqual(self.bugs("chat 1\n", "", "--close", "99")[0][-1], "bugs 1, new 0, changed 0, closed 99")
        self.assertEqual(self.bugs("", "")[2], 3)
        self.assertEqual(self.bugs("wnpp 4\n", "", "--close", "1")[1],
                         "office-bugs: no source or package of the office: wnpp\n")
        self.assertEqual(self.bugs("", "")[2], 0)

    def test_dry_run(self):
        told, words, status = self.bugs("chat 1\n", "", "--dry-run")
        self.assertEqual((told[1:3], words, status), (["From: bts", "Number: 1"],
                                                      "office-bugs: bugs 1, new 1, changed 0, closed 0\n", 1))
        self.assertEqual(self.service.kept()["bts"].kept, 0)

    def test_refusals(self):
        self.assertEqual(self.bugs("chat\n", "")[1:],
                         ("office-bugs: unstable:1: it isn't NAME BUG[,BUG..]: 'chat'\n", 3))
        self.service.post("/mail", messages.none(Label("bts", 2)))
        told = self.bugs("chat 1\n", "")
        self.assertEqual((told[0], told[2]), ([], 3))
        self.assertIn("bts 1 isn't kept, and bts 2 is: send what is missing first", told[1])
        told = tool("office-bugs", "--url", "http://127.0.0.1:1", *[os.path.join(self.folder, name)
                                                                    for name in ("testing", "testing")])
        self.assertEqual(told.returncode, 4)


if __name__ == "__main__":
    unittest.main()
