"""office-hint: hints are looked at, tried, shown, mailed under the next number, and taken back."""
import unittest
from unittest import mock

from helpers import Serving, example, needs_office, tool, tool_here
from office_tools import bags
from office_tools.hint import command
from office_tools.hint.team import Team
from office_tools.service import Service

DAY = ["--day", "2025-03-22", "--by", "elbrus"]
# The office of examples/archive.bag: unstable has libgreet 2.0-1, testing 1.2-1; rt 2 blocks libgreet. rt 1 has moved.
SHOWN = "try 3 2025-03-22 rt 3 unblock libgreet/2.0-1\n-excuse libgreet 1.2-1 2.0-1 blocked\n"


@needs_office
class Hints(unittest.TestCase):

    def setUp(self):
        serving = Serving()
        serving.__enter__()
        self.addCleanup(serving.__exit__)
        self.service = Service(serving.url)
        for text in bags.messages_in(example("archive.bag")):
            self.service.post("/mail", text)

    def hint(self, *words, answer=None):
        """What is printed, and the status; with an answer at a terminal."""
        with mock.patch("sys.stdin") as terminal, mock.patch("builtins.input", return_value=answer) as asked:
            terminal.isatty.return_value = answer is not None
            told = tool_here("office-hint", command.main, "--url", self.service.url, *DAY, *words)
            self.asked = asked.called
        return told

    def kept(self, number):
        text = self.service.kept_text("rt", number)
        return text.decode() if text else None

    def test_yes(self):
        told = self.hint("--yes", "--comment", "#1234", "unblock  libgreet/2.0-1")
        self.assertEqual(told, (SHOWN + "held rt 3\n", "", 0))
        due = "From: rt\nNumber: 3\nKind: hint\nHint: unblock libgreet/2.0-1\nBy: elbrus\nComment: #1234\n"
        self.assertEqual(self.kept(3), due)

    def test_answers(self):
        self.assertEqual(self.hint("unblock libgreet/2.0-1", answer="n"), (SHOWN, "", 1))
        self.assertEqual(self.hint("unblock libgreet/2.0-1", answer=""), (SHOWN, "", 1))
        told = self.hint("unblock libgreet/2.0-1")
        self.assertEqual(told, (SHOWN, "office-hint: nothing is mailed: answer at a terminal, or say --yes\n", 1))
        self.assertIsNone(self.kept(3))
        self.assertEqual(self.hint("unblock libgreet/2.0-1", answer="y"), (SHOWN + "held rt 3\n", "", 0))

    def test_twice(self):
        """The same hint again is warned of, so the same words by a script mail it once."""
        words = ["--yes", "unblock libgreet/2.0-1", "age-days 0 libgreet/2.0-1"]
        self.assertEqual(self.hint(*words)[2], 0)
        told = self.hint(*words)
        self.assertEqual(told[1:], ("", 1))
        self.assertIn("warning: rt 3 in force asks libgreet/2.0-1 already\n", told[0])
        self.assertEqual(self.service.kept()["rt"].greatest, 4)
        self.assertEqual(self.hint("--force", *words)[2], 0)
        self.assertEqual(self.service.kept()["rt"].greatest, 6)

    def test_slips(self):
        """A hint that is refused, one with a slip, and one that changes nothing aren't mailed."""
        told = self.hint("--yes", "block greeter", "force greeter/1")
        cause = "'force' is no hint: block, unblock, easy, age-days, remove, block-all source"
        self.assertEqual(told, ("", f"office-hint: refused BadValue Hint: {cause}\n", 3))
        told = self.hint("--yes", "unblock greter/0.9-2")
        self.assertEqual(told[1:], ("", 1))
        self.assertIn("warning: no source greter\nwarning: the next run would decide the same without it\n", told[0])
        told = self.hint("--yes", "remove libgreet/1.2-1")
        self.assertIn("warning: the next run would say: remove 3 refuse libgreet 1.2-1 uninstallable amd64 greeter\n",
                      told[0])
        self.assertIsNone(self.kept(3))

    def test_another_took_the_number(self):
        """The next number is taken; what changes is the same, so it isn't asked again."""
        mail = Team.mail

        def late(team, letter):
            if self.service.kept()["rt"].greatest == 2:
                label = team.next_label()
                self.service.post("/mail", b"From: rt\nNumber: 3\nKind: none\n")
                with mock.patch.object(team, "next_label", return_value=label):
                    return mail(team, letter)
            return mail(team, letter)

        with mock.patch.object(Team, "mail", late):
            told = self.hint("unblock libgreet/2.0-1", answer="y")
        self.assertEqual(told, (SHOWN + "rt 3 is another message now: the next number is taken\nheld rt 4\n", "", 0))

    def test_a_gap(self):
        self.service.post("/mail", b"From: rt\nNumber: 5\nKind: none\n")
        told = self.hint("--yes", "unblock libgreet/2.0-1")
        cause = "rt 3 isn't kept, and rt 5 is: mail that message first, or one of the kind none"
        self.assertEqual(told, ("", f"office-hint: {cause}\n", 1))

    def test_taking_back_an_item(self):
        """The rest is mailed first, with the name and the reason that the hint had."""
        wish = b"From: rt\nNumber: 3\nKind: hint\nHint: unblock libgreet/2.0-1 greeter/0.9-2\nBy: adsb\nComment: why\n"
        self.service.post("/mail", wish)
        told = self.hint("--yes", "--take-back", "unblock greeter/0.9-2")
        line = "rt 3 is taken back: unblock libgreet/2.0-1 greeter/0.9-2, and again unblock libgreet/2.0-1\n"
        self.assertEqual(told, (line + "held rt 4\nheld rt 5\n", "", 0))
        due = "From: rt\nNumber: 4\nKind: hint\nHint: unblock libgreet/2.0-1\nBy: adsb\nComment: why\n"
        self.assertEqual(self.kept(4), due)
        self.assertEqual(self.kept(5), "From: rt\nNumber: 5\nKind: unhint\nCancels: 3\nBy: elbrus\n")
        told = self.hint("--yes", "--take-back", "unblock greeter/0.9-2")
        self.assertEqual(told, ("", "office-hint: no hint in force asks 'unblock greeter/0.9-2'\n", 1))

    def test_taking_back_after_a_cut(self):
        """If the rest was mailed and the hint not taken back, the rest isn't mailed once more."""
        for text in (b"From: rt\nNumber: 3\nKind: hint\nHint: unblock libgreet/2.0-1 greeter/0.9-2\n",
                     b"From: rt\nNumber: 4\nKind: hint\nHint: unblock libgreet/2.0-1\n"):
            self.service.post("/mail", text)
        told = self.hint("--yes", "--take-back", "unblock greeter/0.9-2")
        self.assertEqual(told[0].count("held"), 1)
        self.assertEqual(self.kept(5), "From: rt\nNumber: 5\nKind: unhint\nCancels: 3\nBy: elbrus\n")

    def test_taking_back_whole(self):
        for wish in ["block libgreet", "2"]:
            told = self.hint("--take-back", wish, answer="n")
            self.assertEqual(told, ("rt 2 is taken back: block libgreet\n", "", 1))
        self.assertEqual(self.hint("--yes", "--take-back", "2"),
                         ("rt 2 is taken back: block libgreet\nheld rt 3\n", "", 0))
        told = self.hint("--yes", "--take-back", "2")
        self.assertEqual(told[1:], ("office-hint: no hint in force asks '2'\n", 1))

    def test_days_of_a_later_hint_stay(self):
        """Of age-days the greatest number counts for an item: the rest leaves out what a later hint names."""
        for text in (b"From: rt\nNumber: 3\nKind: hint\nHint: age-days 3 libgreet/2.0-1 greeter/9-1\n",
                     b"From: rt\nNumber: 4\nKind: hint\nHint: age-days 30 libgreet/2.0-1\n"):
            self.service.post("/mail", text)
        told = self.hint("--yes", "--take-back", "age-days 3 greeter/9-1")
        self.assertEqual(told[0], "rt 3 is taken back: age-days 3 libgreet/2.0-1 greeter/9-1\nheld rt 5\n")

    def test_tidy(self):
        """A hint all of whose items moved, or that a newer version overtook; one of a version to come stays."""
        for text in (b"From: rt\nNumber: 3\nKind: hint\nHint: unblock libgreet/1.5-1\n",
                     b"From: rt\nNumber: 4\nKind: hint\nHint: unblock libgreet/2.1-1\n",
                     b"From: rt\nNumber: 5\nKind: hint\nHint: age-days 2 greeter/0.9-2 libgreet/2.0-1\n"):
            self.service.post("/mail", text)
        told = self.hint("--tidy", "--yes")
        due = ("rt 1 is taken back: age-days 3 libgreet/1.2-1 greeter/0.9-2: moved\n"
               "rt 3 is taken back: unblock libgreet/1.5-1: over\nheld rt 6\nheld rt 7\n")
        self.assertEqual(told, (due, "", 0))
        self.assertIn("\nCancels: 1\n", self.kept(6))
        self.assertIn("\nCancels: 3\n", self.kept(7))
        self.assertEqual(self.hint("--tidy", "--yes"), ("nothing is over\n", "", 0))


class Words(unittest.TestCase):

    def test_words(self):
        for words in [[], ["--tidy", "block aa"], ["--take-back"], ["--force", "block aa"], [" "],
                      ["--tidy", "--take-back"], ["--day", "2025-3-1", "block aa"]]:
            told = tool_here("office-hint", command.main, *words)
            self.assertEqual((told[0], told[2]), ("", 2), words)

    def test_no_office(self):
        told = tool("office-hint", "--url", "http://127.0.0.1:1", "block aa")
        self.assertEqual((told.stdout, told.returncode), ("", 4))
        self.assertEqual(told.stderr, "office-hint: http://127.0.0.1:1/kept: Connection refused\n")


if __name__ == "__main__":
    unittest.main()
