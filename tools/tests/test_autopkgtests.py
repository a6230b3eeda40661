"""office-tests: results of autopkgtests as bugs of the new version."""
import datetime
import json
import os
import tempfile
import unittest

from helpers import Serving, needs_office, tool
from office_tools import messages
from office_tools.autopkgtests import changes, results
from office_tools.autopkgtests.results import Outcome, Result, Trigger
from office_tools.messages import Label, Severity, Urgency
from office_tools.service import Service
from test_bugs import WORLD

REFERENCE = "migration-reference/0"
NOON = 1741168800.0


def entry(package, status, trigger=None, **others):
    """A finished test as debci has it in packages.json, and in the answer of its API."""
    return {"run_id": 1, "suite": "testing", "arch": "amd64", "package": package, "version": "1-1", "trigger": trigger,
            "status": status, "date": "2025-03-05T10:00:00.000Z", "message": "", "pin_packages": []} | others


class Read(unittest.TestCase):

    def read(self, told):
        with tempfile.NamedTemporaryFile("w", encoding="utf-8") as file:
            file.write(told if isinstance(told, str) else json.dumps(told))
            file.flush()
            return results.read_results(file.name, "testing")

    def test_debci(self):
        chat = Trigger("chat", "2-1")
        for told, due in [
                ([], []),
                ([entry("editor", "pass", "chat/2-1")], [Result(chat, "editor", "amd64", "1-1", Outcome.PASS, NOON)]),
                ([entry("editor", "fail", "chat/2-1 libchat/3")],
                 [Result(trigger, "editor", "amd64", "1-1", Outcome.FAIL, NOON)
                  for trigger in (chat, Trigger("libchat", "3"))]),
                # Testing as it is, by britney's own trigger and without one; a package of unstable on its own.
                ([entry("editor", "fail", REFERENCE), entry("editor", "fail")],
                 [Result(None, "editor", "amd64", "1-1", Outcome.FAIL, NOON)] * 2),
                ([entry("chat", "neutral", "by hand", suite="unstable", version="2-1")],
                 [Result(chat, "chat", "amd64", "2-1", Outcome.NEUTRAL, NOON)]),
                # Not finished, or without a verdict.
                ([entry("editor", "fail", "chat/2-1", date=None), entry("editor", None, "chat/2-1"),
                  entry("editor", "tmpfail", "chat/2-1")], [])]:
            self.assertEqual(self.read(told), due)
            self.assertEqual(self.read({"until": 1, "results": told}), due)

    def test_britney(self):
        told = {"chat/2-1": {"editor": {"amd64": ["FAIL", "1-1", "77", 1741168800], "arm64": ["OLD_PASS", "1", "", 2]}},
                REFERENCE: {"editor": {"amd64": [True, "1-1", "3", 1]}},
                "gone/1": {"editor": {"amd64": ["NONE", None, "", 0]}}}
        chat = Trigger("chat", "2-1")
        self.assertEqual(set(self.read(told)), {
            Result(chat, "editor", "amd64", "1-1", Outcome.FAIL, NOON),
            Result(chat, "editor", "arm64", "1", Outcome.PASS, 2.0),
            Result(None, "editor", "amd64", "1-1", Outcome.PASS, 1.0)})

    def test_refusals(self):
        form = "a/1 b c: it isn't [OUTCOME, VERSION, RUN, SECONDS]"
        for told, cause in [
                ("", "it is no JSON"), ("[" * 100000, "it is no JSON"), ("7", "it has no results of debci or britney"),
                ([7], "result 1: it is no object"),
                ([entry(None, "fail")], "result 1: it has no text under package"),
                ([entry("editor", "broken")], "result 1: 'broken' is no outcome of a test"),
                ([entry("editor", "fail", date="yesterday")], "result 1: 'yesterday' is no date"),
                ([entry("editor", "fail", date=5)], "result 1: '5' is no date"),
                ({"chat/2-1": 5}, "chat/2-1: it is no object"), ({"a/1": {"b": {"c": ["PASS"]}}}, form),
                ('{"a/1": {"b": {"c": ["PASS", "1", "", NaN]}}}', form)]:
            with self.assertRaises(results.Fault) as raised:
                self.read(told)
            self.assertTrue(raised.exception.cause.endswith(": " + cause), raised.exception.cause)
            self.assertEqual(raised.exception.status, 3)


class Verdicts(unittest.TestCase):
    """What the results say about the version in unstable: chat 2-1; testing has editor."""

    def verdict(self, *found, package="editor", unstable="2-1"):
        told = [Result(trigger, package, "amd64", version, outcome, seconds)
                for trigger, version, outcome, seconds in found]
        verdicts = changes.verdicts_of(iter(told), {"chat": unstable}, {"editor": "1-1"})
        return verdicts.verdict(changes.Test("chat", package, "amd64")).name

    def test_verdicts(self):
        new, old = Trigger("chat", "2-1"), Trigger("chat", "1-1")
        fail, good, neutral = Outcome.FAIL, Outcome.PASS, Outcome.NEUTRAL
        for found, due in [
                ([], "NONE"), ([(new, "1-1", fail, 1)], "REGRESSION"), ([(new, "1-1", neutral, 1)], "PASSED"),
                ([(old, "1-1", fail, 1)], "NONE"),
                ([(new, "1-1", good, 1), (new, "1-1", fail, 2)], "PASSED"),
                ([(None, "1-1", fail, 1), (new, "1-1", fail, 2)], "FAILS_BEFORE"),
                ([(None, "1-1", fail, 1), (None, "1-1", good, 3), (new, "1-1", fail, 2)], "REGRESSION")]:
            self.assertEqual(self.verdict(*found), due, found)
        self.assertEqual(self.verdict((new, "1-1", fail, 1), unstable="2-1+b1"), "REGRESSION")
        self.assertEqual(self.verdict((new, "1-1", fail, 1), package="lost"), "NOT_NEEDED")
        # Its own test counts from its new version on, also if testing doesn't have it.
        self.assertEqual(self.verdict((new, "2-1", fail, 1), package="chat"), "REGRESSION")
        self.assertEqual(self.verdict((new, "1-1", fail, 1), package="chat"), "NONE")


@needs_office
class Failed(unittest.TestCase):

    def setUp(self):
        folder = tempfile.TemporaryDirectory()
        self.addCleanup(folder.cleanup)
        self.path = os.path.join(folder.name, "debci.json")
        serving = Serving()
        serving.__enter__()
        self.addCleanup(serving.__exit__)
        self.url = serving.url
        self.service = Service(self.url)
        for text in WORLD:
            self.assertTrue(self.service.post("/mail", text).is_good, text)

    def told(self, *entries, words=()):
        """What the command prints on both outputs for these results, and its status."""
        with open(self.path, "w", encoding="utf-8") as file:
            json.dump(list(entries), file)
        ran = tool("office-tests", "--url", self.url, *words, self.path)
        return ran.stdout.splitlines(), ran.stderr, ran.returncode

    def reasons(self):
        """The reasons of each source in the run that a new order makes."""
        self.assertTrue(self.service.post("/mail", self.service.order(datetime.date(2025, 3, 20))).is_good)
        excuses = self.service.excuses(self.service.status().finished)
        return {excuse.source: [reason.text for reason in excuse.reasons] for excuse in excuses.excuses}

    def test_fails_and_passes(self):
        fails = entry("editor", "fail", "chat/2-1"), entry("editor", "fail", "chat/2-1", arch="arm64")
        self.assertEqual(self.told(*fails), ([
            "bug 900000001: test of editor on amd64 with chat 2-1 fails",
            "bug 900000002: test of editor on arm64 with chat 2-1 fails", "tests 2, failed 2, lifted 0"], "", 0))
        text = self.service.kept_text("bts", 1)
        self.assertEqual(text.decode().splitlines()[3:],
                         ["Bug: 900000001", "Source: chat", "Severity: serious", "Found: 2-1", "Test: editor amd64"])
        self.assertEqual(self.reasons()["chat"], ["new bug 900000001", "new bug 900000002"])
        self.assertEqual(self.told(*fails), (["tests 2, failed 0, lifted 0"], "", 0))
        passes = entry("editor", "pass", "chat/2-1")
        self.assertEqual(self.told(passes, *fails)[0],
                         ["bug 900000001: test of editor on amd64 with chat passed: lifted",
                          "tests 2, failed 0, lifted 1"])
        self.assertEqual(self.reasons()["chat"], ["new bug 900000002"])
        # Testing fails, too: it is no fault of the new version.
        before = entry("editor", "fail", REFERENCE, arch="arm64")
        self.assertEqual(self.told(before, *fails)[0],
                         ["bug 900000001: test of editor on amd64 with chat 2-1 fails",
                          "bug 900000002: test of editor on arm64 with chat fails in testing, too: lifted",
                          "tests 2, failed 1, lifted 1"])

    def test_a_newer_version(self):
        """A failed test holds up later versions until one of them passes."""
        self.told(entry("editor", "fail", "chat/2-1"))
        self.service.post("/mail", messages.upload(Label("ftp", 5), "chat", "3-1", Urgency.LOW, "2025-03-03"))
        told, words, status = self.told()
        self.assertEqual((told, status), (["tests 0, failed 0, lifted 0"], 0))
        self.assertEqual(words, "office-tests: test of editor on amd64 with chat: 3-1 has no result yet: it stays "
                                "failed\n")
        self.assertEqual(self.told(entry("editor", "pass", "chat/3-1"))[0][0],
                         "bug 900000001: test of editor on amd64 with chat passed: lifted")

    def test_a_person_lifts(self):
        """A failed test that a person lifts is left alone, unless it is taken over."""
        fails = entry("editor", "fail", "chat/2-1")
        self.told(fails)
        self.service.post("/mail", messages.bug(Label("bts", 2), 900000001, "chat", Severity.WISHLIST))
        told, words, status = self.told(fails)
        self.assertEqual((told, status), (["tests 1, failed 0, lifted 0"], 0))
        self.assertEqual(words, "office-tests: bug 900000001: test of editor on amd64 with chat 2-1 fails: left alone: "
                                "its last message isn't of office-tests; --take-over sends it\n")
        self.assertEqual(self.told(fails, words=["--take-over"])[0][-1], "tests 1, failed 1, lifted 0")

    def test_refusals(self):
        with open(self.path, "w", encoding="utf-8") as file:
            file.write('[{"run_id"')
        ran = tool("office-tests", "--url", self.url, self.path)
        self.assertEqual((ran.stdout, ran.stderr, ran.returncode),
                         ("", f"office-tests: {self.path}: it is no JSON\n", 3))
        self.assertEqual(self.service.kept()["bts"].kept, 0)


if __name__ == "__main__":
    unittest.main()
