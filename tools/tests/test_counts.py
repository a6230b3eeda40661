"""Numbers that people write: those that the office takes, and thousands of digits in each word that is a number."""
import importlib
import unittest

from helpers import tool_here
from office_tools.counts import count, number

MANY = "9" * 5000
URL = f"http://127.0.0.1:{MANY}"
WORDS = (
    ("adopt", "--spare", MANY, "folder", "Packages"), ("adopt", "--day", MANY, "folder", "Packages"),
    ("apply", "--gone", MANY, "heidi", "file"), ("apply", "--url", URL, "heidi", "file"),
    ("ask", "--run", MANY, "why", "aa"), ("ask", "--run", f"+{MANY}", "why", "aa"), ("ask", "--day", MANY, "order"),
    ("bugs", "--close", MANY, "unstable", "testing"), ("day", "--day", MANY),
    ("feed", "--gone", MANY, "Packages"), ("feed", "--day", MANY, "Packages"), ("feed", "--url", URL, "Packages"),
    ("from_britney", "bag", "--spare", MANY, "data", "folder"),
    ("from_packages", "--uploaded", "2025-03-01", "--run", "2025-03-01", "--spare", MANY, "folder", "Packages"),
    ("from_packages", "--uploaded", f"2025-03-{MANY}", "--run", "2025-03-01", "folder", "Packages"),
    ("hint", "--day", MANY, "block aa"), ("hint", "--url", URL, "--back", MANY), ("lint", "--days", MANY, "file"),
    ("look", "--day", MANY, "Packages"), ("mend", "clock", MANY, "file"), ("mend", "clock", "\u0663", "file"),
    ("mend", "--undo", MANY, "--conf", "setup", "--db", "store"),
    ("mend", "--undo", f"rt/1-{MANY}", "--conf", "setup", "--db", "store"), ("notify", "--run", MANY),
    ("order", MANY), ("pages", "--why-seconds", MANY, "folder"), ("pages", "--url", URL, "folder"))


class Counts(unittest.TestCase):

    def test_counts(self):
        self.assertEqual([count(word) for word in ("0", "007", "999999999")], [0, 7, 999999999])
        self.assertEqual([number(word) for word in ("1", "07")], [1, 7])
        for word in ("", "-1", "+1", "1.0", " 1", "1\n", "\u0663", "\u00b2", "1000000000", MANY):
            with self.assertRaises(ValueError):
                count(word)
        with self.assertRaises(ValueError):
            number("0")

    def test_words(self):
        """Each command says that its words are wrong, whatever number of digits they have."""
        for name, *words in WORDS:
            place = name if name in ("mend", "order") else name + ".command"
            module = importlib.import_module("office_tools." + place)
            with self.subTest(name=name, words=[word[:30] for word in words]):
                _, told, status = tool_here("office-" + name, module.main, *words)
                self.assertEqual((status, bool(told)), (2, True), told[-300:])


if __name__ == "__main__":
    unittest.main()
