"""office-ask: the same text and exit status as the program over the store of a stopped office with the same mail."""
import os
import tempfile
import unittest

from helpers import SETUP, Serving, example, needs_office, office, tool, tool_here
from office_tools import bags
from office_tools.ask import command
from office_tools.service import Service

# Words of the program, each put to both. In the store's mail, that of examples/archive.bag and LATER, two runs are
# finished; a third one is ordered, and waits.
ASKED = [
    ["why", "libgreet"], ["why", "greeter", "libgreet"], ["why", "nosuch"], ["why", "greeter", "nosuch", "libgreet"],
    ["why", "Not/A=Name"], ["why", ""], ["why", "--run", "1", "libgreet"], ["why", "--run", "2", "greeter"],
    ["why", "--run", "7", "greeter"], ["why", "--hint", "1"], ["why", "--hint", "1", "2", "9"],
    ["why", "--hint", "--run", "1", "1"], ["why", "--hint", "none"],
    ["try", "remove libgreet/1.2-1"], ["try", "unblock libgreet/2.0-1"], ["try", "block greeter"],
    ["try", "block greeter", "age-days 0 libgreet/2.0-1"], ["try", "block nosuch"], ["try", "force greeter/1"],
    ["try", "block greeter", "unblock greeter"], ["try", ""], ["try", "block greeter", "--all"],
    ["try", "block greeter", "--day", "2025-04-02"], ["try", "unblock libgreet/2.0-1", "--all", "--day", "2025-04-02"],
    ["try", "block\ngreeter"], ["try", "block greeter\r"], ["try", *["block greeter"] * 18],
    ["breaks", "libgreet"], ["breaks", "greeter", "nosuch"], ["breaks", "remove libgreet/1.2-1", "remove greeter/7"],
    ["breaks", "easy libgreet/2.0-1 greeter/0.9-2"], ["breaks", "--run", "1", "libgreet"], ["breaks", "block greeter"],
    ["breaks", "--run", "7", "greeter"], ["breaks", "remove greeter"], ["breaks", ""], ["breaks", "Not/A=Name"],
    ["propose"], ["propose", "libgreet"], ["propose", "greeter"], ["propose", "nosuch"],
    ["propose", "libgreet", "greeter"],
    ["propose", "--day", "2025-04-02", "--all"], ["propose", "No"],
    ["hints"], ["runs"], ["waiting"], ["mail"], ["mail", "--list"], ["order", "--day", "2025-04-01"],
    ["report", "testing"], ["report", "unstable"], ["report", "1", "excuses"], ["report", "2", "update"],
    ["report", "+02", "excuses"], ["report", "3", "update"], ["report", "99", "excuses"], ["report", "0", "excuses"],
    ["report", "1", "reports"]]
LATER = [b"From: rt\nNumber: 3\nKind: hint\nHint: remove nothing/1\n", b"From: bts\nNumber: 3\nKind: none\n",
         b"From: clock\nNumber: 3\nKind: run\nDay: 2025-03-22\nCovers: ftp 9, bts 3\n"]


class Compared(unittest.TestCase):
    """Puts words to a service over a store, and then to the program over the store."""

    def compare(self, setup, texts, asked):
        """The statuses, once both agree on each."""
        with tempfile.TemporaryDirectory() as folder:
            store = os.path.join(folder, "store.db")
            with Serving(setup, store) as serving:
                service = Service(serving.url)
                for text in texts:
                    self.assertTrue(service.post("/mail", text).is_good, text)
                served = ["--url", serving.url, "--conf", setup]
                told = [tool_here("office-ask", command.main, *words, *served) for words in asked]
            over = ["--conf", setup, "--db", store]
            for words, answered in zip(asked, told):
                due = office(*words, *over)
                with self.subTest(words=words):
                    self.assertEqual((answered[0], answered[2]), (due.stdout.decode(), due.returncode))
            return [status for _, _, status in told]


@needs_office
class Ask(Compared):

    def test_archive(self):
        texts = [*bags.messages_in(example("archive.bag")), *LATER]
        statuses = self.compare(SETUP, texts, ASKED)
        # Each status of the program is there but that of an office which doesn't answer.
        self.assertEqual(set(statuses), {0, 1, 2, 3})

    def test_no_run(self):
        asked = [["why", "greeter"], ["why", "--run", "0", "greeter"], ["why", "--run", "1", "greeter"],
                 ["breaks", "greeter"], ["why", "--hint", "1"], ["try", "block greeter"],
                 ["try", "--all", "block greeter"],
                 ["try", "--all", "--day", "2025-03-01", "block greeter"], ["try", "--day", "2025-03-01", "block aa"],
                 ["propose"], ["propose", "greeter"], ["propose", "--all", "--day", "2025-03-01"], ["hints"], ["runs"],
                 ["waiting"], ["report", "testing"], ["report", "1", "excuses"]]
        self.compare(SETUP, list(bags.messages_in(example("archive.bag")))[:6], asked)

    def test_groups(self):
        """Hints for groups, lines that show that none frees a source, and a source that moves alone."""
        indexes = [os.path.join(os.path.dirname(SETUP), name) for name in ("Sources", "Packages")]
        with tempfile.TemporaryDirectory() as folder:
            tool("office-from-packages", "--no-hints", "--uploaded", "2025-03-01", "--run", "2025-03-06", "--sources",
                 indexes[0], folder, indexes[1])
            with open(os.path.join(folder, "bag"), "rb") as file:
                texts = list(bags.messages_in(file.read()))
            asked = [["propose"], ["propose", "base"], ["propose", "libbase"], ["propose", "base", "libbase"],
                     ["propose", "chess"], ["propose", "broken"], ["why", "base", "libbase", "chess"]]
            setup = os.path.join(folder, "setup.conf")
            self.compare(setup, texts, asked)
            blocked = b"From: rt\nNumber: 1\nKind: hint\nHint: block base\n"
            self.compare(setup, [*texts, blocked], asked + [["try", "unblock base/12-1"], ["why", "--hint", "1"]])


@needs_office
class Sentences(unittest.TestCase):
    """What is said on standard error."""

    def asked(self, *words):
        with Serving() as serving:
            for text in bags.messages_in(example("archive.bag")):
                Service(serving.url).post("/mail", text)
            told = tool("office-ask", *words, "--url", serving.url)
        return told.stdout, told.stderr, told.returncode

    def test_unfinished(self):
        due = ("", "office-ask: run 99 isn't finished: 2 are\n", 1)
        self.assertEqual(self.asked("report", "99", "update"), due)
        self.assertEqual(self.asked("why", "--run", "99", "greeter"), due)

    def test_refused_hint(self):
        due = ("", "office-ask: 'force greeter/1': refused BadValue Hint\n", 3)
        self.assertEqual(self.asked("try", "block greeter", "force greeter/1"), due)

    def test_no_setup(self):
        """What no route answers needs the setup."""
        cause = "no route answers this: it needs the program and the office's setup (--conf): none: No such file or"
        told = self.asked("why", "--hint", "1", "--conf", "none")
        self.assertEqual(told, ("", f"office-ask: {cause} directory\n", 4))

    def test_other_setup(self):
        with tempfile.NamedTemporaryFile("w", suffix=".conf") as other:
            with open(SETUP, encoding="utf-8") as file:
                other.write(file.read().replace("Sender: rt", "Sender: team"))
            other.flush()
            told = self.asked("why", "--hint", "1", "--conf", other.name)
        due = f"office-ask: {other.name}: the office has other senders: ftp bd bts rt clock\n"
        self.assertEqual(told[1:], (due, 4))


class Words(unittest.TestCase):
    """Words that are wrong, and a missing office."""

    def test_words(self):
        for words in [[], ["how"], ["why"], ["try"], ["report"], ["hints", "rt"], ["order"], ["runs", "--all"],
                      ["why", "greeter", "--day", "2025-03-01"], ["try", "block aa", "--day", "2025-3-1"],
                      ["why", "greeter", "--run", "x"], ["why", "greeter", "--run", "0"], ["why", "\udcff"]]:
            told = tool("office-ask", *words)
            self.assertEqual((told.stdout, told.returncode), ("", 2), words)

    def test_no_office(self):
        for words in [["why", "greeter"], ["hints"], ["report", "1", "update"], ["try", "block greeter"], ["mail"]]:
            told = tool("office-ask", *words, "--url", "http://127.0.0.1:1")
            self.assertEqual((told.stdout, told.returncode), ("", 4), words)
            self.assertRegex(told.stderr, r"^office-ask: http://127\.0\.0\.1:1/\S+: Connection refused\n$")


if __name__ == "__main__":
    unittest.main()
