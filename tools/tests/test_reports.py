"""Reports: docs/RULES.md, parts 9 and 12."""
import datetime
import unittest

from helpers import SETUP, example, needs_office, office
from office_tools import reports
from office_tools.faults import Fault
from office_tools.reports import HintItem, Hints, Item, ItemStanding, Offender, Outcome, Reason, ReasonKind, Row, Word

EXCUSES = """excuses 7 2025-04-01
c++lib 1.0-1 2:1.0-1+b1
 age 3 of 10
 too young
 new bug 1042
 no binaries
 missing on amd64
 blocked
 removal asked
 not a candidate
stuck - 2-1
 age 12 of 10
 candidate
"""
UPDATE = """update 7 2025-04-01
remove 3 accept old 1.0
remove 4 refuse gone 1.0 uninstallable amd64 app
easy 8 accept one 1.0 two 2:2.0~rc1
easy 5 refuse c++lib/1.1-1 not a candidate
easy 6 refuse uninstallable arm64 libx1
accept three 3
wait stuck 2-1 uninstallable amd64 stuck-bin
"""
HINTS = """hints 2
rt 1 covered age-days 3 libgreet/1.2-1: moved
rt 2 covered block libgreet: in force
rt 3 new unblock greeeter/2.0-1: no source
rt 4 new easy libgreet/2.0-9: unstable 2.0-1
rt 5 new block-all source: in force
"""
UNSTABLE = """unstable 7
source c++lib 2.0-1
binary amd64 one-bin 1.0+b1 one
"""
TESTING = """testing 7
source c++lib 1.0-1
source one 1.0
binary amd64 one-bin 1.0+b1 one
binary all c++lib-doc 1.0-1 c++lib
"""


class Reports(unittest.TestCase):

    def test_hints(self):
        found = reports.read_hints(HINTS)
        self.assertEqual((found.finished, found.sender), (2, "rt"))
        self.assertEqual(found.items[0], HintItem(1, True, "age-days 3", "libgreet/1.2-1", ItemStanding.MOVED))
        self.assertEqual([item.standing for item in found.items[1:]], [
            ItemStanding.IN_FORCE, ItemStanding.NO_SOURCE, ItemStanding.OTHER_VERSION, ItemStanding.IN_FORCE])
        self.assertEqual((found.items[3].other, found.items[3].words, found.items[3].is_covered),
                         ("2.0-1", "easy", False))
        self.assertEqual(reports.read_hints("hints 0\n"), Hints(0, None, []))
        for bad in ("", "hints\n", HINTS + "rt 6 new block aa: waits\n", HINTS + "rt 6 old block aa: moved\n"):
            with self.assertRaises(Fault):
                reports.read_hints(bad)

    def test_unstable(self):
        """A row may be of a missing source."""
        found = reports.read_unstable(UNSTABLE)
        self.assertEqual((found.finished, found.sources), (7, {"c++lib": "2.0-1"}))
        self.assertEqual(found.rows, [Row("amd64", "one-bin", "1.0+b1", "one")])
        with self.assertRaises(Fault):
            reports.read_unstable(TESTING)

    def test_excuses(self):
        excuses = reports.read_excuses(EXCUSES)
        self.assertEqual((excuses.run, excuses.date), (7, datetime.date(2025, 4, 1)))
        first, second = excuses.excuses
        self.assertEqual((first.source, first.testing, first.unstable, first.age, first.needed, first.is_candidate),
                         ("c++lib", "1.0-1", "2:1.0-1+b1", 3, 10, False))
        self.assertEqual([reason.kind for reason in first.reasons], list(ReasonKind))
        self.assertEqual(first.reasons[1], Reason("new bug 1042", ReasonKind.NEW_BUG, bug=1042))
        self.assertEqual(first.reasons[3], Reason("missing on amd64", ReasonKind.MISSING, architecture="amd64"))
        self.assertEqual((second.testing, second.reasons, second.is_candidate), (None, (), True))

    def test_update(self):
        update = reports.read_update(UPDATE)
        self.assertEqual([change.line for change in update.changes], UPDATE.splitlines()[1:])
        self.assertEqual([(change.word, change.outcome, change.hint) for change in update.changes], [
            (Word.REMOVE, Outcome.ACCEPTED, 3), (Word.REMOVE, Outcome.UNINSTALLABLE, 4),
            (Word.EASY, Outcome.ACCEPTED, 8), (Word.EASY, Outcome.NO_CANDIDATE, 5),
            (Word.EASY, Outcome.UNINSTALLABLE, 6), (Word.ACCEPT, Outcome.ACCEPTED, None),
            (Word.WAIT, Outcome.WAITS, None)])
        self.assertEqual(update.changes[2].items, (Item("one", "1.0"), Item("two", "2:2.0~rc1")))
        self.assertEqual(update.changes[3].items, (Item("c++lib", "1.1-1"),))
        self.assertEqual((update.changes[4].items, update.changes[4].offender), ((), Offender("arm64", "libx1")))
        self.assertEqual(update.changes[6].offender, Offender("amd64", "stuck-bin"))

    def test_testing(self):
        testing = reports.read_testing(TESTING)
        self.assertEqual((testing.finished, testing.sources), (7, {"c++lib": "1.0-1", "one": "1.0"}))
        self.assertEqual(testing.rows, [Row("amd64", "one-bin", "1.0+b1", "one"),
                                        Row("all", "c++lib-doc", "1.0-1", "c++lib")])

    def test_faults(self):
        for reader, text, cause in [
                (reports.read_excuses, UPDATE, "x:1: the line `excuses K DATE` is due here"),
                (reports.read_excuses, EXCUSES[:-1], "x: its last line has no end"),
                (reports.read_excuses, EXCUSES.replace("04-01", "04-31"), "x:1: 2025-04-31 is no day"),
                (reports.read_excuses, EXCUSES.replace("blocked", "stopped"), "x:8: the office has no such reason"),
                (reports.read_excuses, EXCUSES.replace("not a ", ""),
                 "x:10: a source is a candidate where it has no reason, and there alone"),
                (reports.read_excuses, EXCUSES.removesuffix(" candidate\n"),
                 "x:13: a reason, or whether it is a candidate is due here"),
                (reports.read_update, UPDATE + "accepted a 1\n", "x:9: the office has no such line in an update"),
                *((reports.read_update, UPDATE + line, "x:9: the office has no such line in an update") for line in (
                    "accept ../../etc/x 1\n", "easy 8 accept one 1.0 a/b 1\n", "easy 5 refuse ../x not a candidate\n")),
                (reports.read_testing, TESTING + "source late 1\n", "x:6: a source or a binary is due here"),
                (reports.read_testing, TESTING + "binary all a 1 b\n", "x:6: the source b isn't in testing"),
                (reports.read_runs, "run 1\n", "x:1: the line of a run is due here")]:
            with self.subTest(cause=cause), self.assertRaises(Fault) as found:
                reader(text, "x")
            self.assertEqual(found.exception.cause, cause)

    @needs_office
    def test_the_office_writes_them(self):
        told = office("replay", "--conf", SETUP, given=example("archive.bag")).stdout.decode()
        excuses, rest = told[told.index("excuses 1 "):].split("update 1 ")
        update, rest = rest.split("excuses 2 ")
        self.assertEqual(reports.read_excuses(excuses).run, 1)
        self.assertEqual(reports.read_update("update 1 " + update).run, 1)
        self.assertEqual(reports.read_testing(rest[rest.index("testing "):]).finished, 2)


if __name__ == "__main__":
    unittest.main()
