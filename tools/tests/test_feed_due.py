"""What of an office's unstable office-feed compares with an archive, and what it refuses."""
import unittest

from helpers import needs_due
from office_tools import reports
from office_tools.faults import Fault
from office_tools.from_packages.binaries import Binary
from office_tools.from_packages.due import Due as Lines, lists_of


def binary(name, version, architecture="amd64", source=""):
    """A package of the archive."""
    return Binary(name, version, architecture, source or name, version, {})


def told(*rows, **sources):
    """An office's unstable: rows `NAME VERSION ARCHITECTURE SOURCE`."""
    parts = [row.split(" ") for row in rows]
    return reports.Unstable(1, sources, [reports.Row(architecture, name, version, source)
                                         for name, version, architecture, source in parts])


class Lists(unittest.TestCase):

    def test_marks(self):
        """A mark stands for the archive's version, and what stays or leaves by one is in no list."""
        lists = lists_of(told("app 2+back1.1 amd64 app", "app2 1+b1 amd64 app", "old 1 amd64 smooth-old",
                              "gone 1+gone amd64 gone", app="1+b2", back="2+back1.1"),
                         {"app": "1"}, [binary("app", "1")], {("app", "amd64"): "2", ("lib", "amd64"): "3+back1"})
        self.assertEqual(lists.unstable, {("app", "source"): "1", ("back", "source"): "1", ("app", "amd64"): "1",
                                          ("app2", "amd64"): "1+b1"})
        self.assertEqual(lists.index, {("app", "source"): "1", ("app", "amd64"): "1"})
        self.assertEqual(lists.dropped, {("lib", "amd64"): "3"})


@needs_due
class Due(unittest.TestCase):

    def test_what_is_due(self):
        lists = lists_of(told("app 1 amd64 app", "doc 1 all doc", "low 2 amd64 low", app="1"), {"app": "2"},
                         [binary("app", "1:0"), binary("low", "1"), binary("back", "1")], {("back", "amd64"): "1"})
        self.assertEqual(lists.due(), Lines({("app", "amd64"): "1:0", ("app", "source"): "2"},
                                            {("doc", "all"): "1", ("low", "amd64"): "2"},
                                            {("back", "amd64"): "1", ("low", "amd64"): "1"}))

    def test_refusals(self):
        rows = [f"p{number} 1 amd64 p" for number in range(7)]
        lists_of(told(*rows[:2], p="2"), {"p": "1"}, [binary("p0", "1"), binary("p1", "2")], {}).check()
        for count, names in ((1, "p0 1 amd64"), (7, "p0 1 amd64, p1 1 amd64, p2 1 amd64, p3 1 amd64, p4 1 amd64 and 2 "
                                                    "more")):
            with self.assertRaises(Fault) as met:
                lists_of(told(*rows[:count]), {}, [], {}).check()
            self.assertEqual((met.exception.cause, met.exception.status),
                             (f"the office's unstable has what the archive hasn't: {names}: no run is ordered before "
                              "it is dropped", 3))
