"""Control data of an archive, read by Debian's libraries."""
import os
import tempfile
import unittest

import helpers
from office_tools import control, relations
from office_tools.faults import Fault

INDEX = b"""Package: one
version: 1.0-1
Depends: two (>= 1),
 three,
\tfour
Description: a text
 with a paragraph
 .

Package: two
"""


class Indexes(unittest.TestCase):

    def sections(self, data, names=("Package", "Version", "Depends")):
        with tempfile.TemporaryDirectory() as folder:
            path = os.path.join(folder, "Packages")
            with open(path, "wb") as file:
                file.write(data)
            return list(control.sections(path, names))

    def test_fields(self):
        self.assertEqual(self.sections(INDEX), [
            {"Package": "one", "Version": "1.0-1", "Depends": "two (>= 1), three, four"}, {"Package": "two"}])
        self.assertEqual(self.sections(b""), [])

    def test_a_long_paragraph(self):
        """A value may be longer than what apt reads at once."""
        many = ", ".join(f"package-{number} (= 1)" for number in range(20000))
        found = self.sections(INDEX + b"\nPackage: long\nDepends: " + many.encode() + b"\n\nPackage: last\n")
        self.assertEqual((found[2]["Depends"], found[3]), (many, {"Package": "last"}))

    def test_examples(self):
        names = [section["Package"] for section in control.sections(helpers.EXAMPLES + "/Packages", ["Package"])]
        self.assertEqual((len(names), names[0], names[-1]), (11, "base", "postie"))

    def test_faults(self):
        with self.assertRaisesRegex(Fault, "it is no text in UTF-8"):
            self.sections(b"Package: \xff\n")
        with self.assertRaisesRegex(Fault, "^/none: No such file or directory$"):
            list(control.sections("/none", ["Package"]))


class Relations(unittest.TestCase):
    """docs/RULES.md, part 3."""

    def test_clauses(self):
        found = relations.clauses("aa (>= 1) | bb:any, , cc(<2)", "Depends")
        self.assertEqual([relations.written(clause) for clause in found], ["aa (>= 1) | bb", "cc (< 2)"])

    def test_refused(self):
        for value in ("aa [amd64]", "aa <!nocheck>", "Aa", "a", "aa (1)", "aa (= 1_0)", "aa | ", "aa bb", "aa: any"):
            with self.subTest(value=value), self.assertRaises(relations.Bad):
                relations.clauses(value, "Depends")
        for value in ("aa (>= 1)", "aa | bb"):
            with self.subTest(value=value), self.assertRaises(relations.Bad):
                relations.provisions(value)

    def test_what_meets_an_alternative(self):
        """Without a version each provision meets it; with one, a provision whose version is in the relation."""
        one, two = relations.alternative("aa", "Depends"), relations.alternative("aa (>= 1)", "Depends")
        self.assertEqual([part.is_met_by(version) for part in (one, two) for version in (None, "0", "2")],
                         [True, True, True, False, False, True])

    def test_sources(self):
        self.assertEqual([relations.source_of(value, "pp", "1") for value in (None, "ss", "ss (2)")],
                         [("pp", "1"), ("ss", "1"), ("ss", "2")])
        for value in ("", "S", "ss (", "ss (1_0)"):
            with self.assertRaises(relations.Bad):
                relations.source_of(value, "pp", "1")


if __name__ == "__main__":
    unittest.main()
