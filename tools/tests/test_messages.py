"""Messages and control data: docs/RULES.md, parts 2 and 6."""
import os
import re
import unittest

from helpers import SETUP, TOP, example, needs_office, office
from office_tools import bags, messages
from office_tools.faults import Fault
from office_tools.messages import (Kind, Label, ParagraphCause, ParagraphFault, Range, Role, Severity, Urgency,
                                   paragraphs)

with open(os.path.join(TOP, "docs/RULES.md"), encoding="utf-8") as file:
    RULES = file.read().split("\n## 6. Messages\n")[1].split("\n## 7. ")[0]


def table(head):
    """The rows of the table of the rules whose head has these cells, each a list of its cells."""
    text = RULES.split("| " + " | ".join(head) + " |\n")[1].split("\n\n")[0].rstrip("\n")
    return [[cell.strip() for cell in line.strip("|").split("|")] for line in text.split("\n")[1:]]


def words(cell):
    """The words in backquotes of a cell, each with what follows it."""
    return re.findall(r"`([^`]+)`(\??)", cell)


class Tables(unittest.TestCase):
    """The tables are those of the rules."""

    def test_kinds_of_roles(self):
        due = {Role(words(role)[0][0]): [Kind(kind) for kind, _ in words(kinds)]
               for role, kinds in table(("Role", "Kinds"))}
        self.assertEqual({role: list(kinds) for role, kinds in messages.KINDS_OF.items()}, due)

    def test_head(self):
        self.assertEqual([rule.name for rule in messages.HEAD_FIELDS],
                         [words(field)[0][0] for field, _ in table(("Field", "Value"))])

    def test_fields_of_kinds(self):
        for kind, fields in table(("Kind", "Fields, in order")):
            due = [(field, not mark) for field, mark in words(fields)]
            rules = messages.BINARY_FIELDS if kind == "`build`" else messages.FIELDS_OF[Kind(words(kind)[0][0])]
            self.assertEqual([(rule.name, rule.needed) for rule in rules], due, kind)

    def test_words(self):
        urgencies = re.search(r"`Urgency`\s+\(.*?\)\s+is\s+(.*?),\s+without", RULES, re.S)
        self.assertEqual([urgency.value for urgency in Urgency], [word for word, _ in words(urgencies[1])])
        self.assertEqual([severity.value for severity in Severity],
                         [word for word, _ in words(re.search(r"`Severity`\s+is\s+(.*?)\.\s+The", RULES, re.S)[1])])


class Reading(unittest.TestCase):
    """Paragraphs, with lines."""

    def read(self, text):
        return [[(field.name, field.line, field.value, field.value_line) for field in paragraph.fields]
                for paragraph in paragraphs(text)]

    def test_paragraphs(self):
        self.assertEqual(self.read(b""), [])
        self.assertEqual(self.read(b"\n \t\r\n\n"), [])
        self.assertEqual(self.read(b"A: 1\r\nb:2 \n\n \nC:\n"),
                         [[("A", 1, "1", 1), ("b", 2, "2", 2)], [("C", 5, "", 5)]])

    def test_lines_of_values(self):
        self.assertEqual(self.read(b"\nDepends:\n a,\n\tb \nX: y"),
                         [[("Depends", 2, "a,\n\tb", 3), ("X", 5, "y", 5)]])
        field = next(paragraphs(b"\nDepends:\n a,\n\tb")).field("depends")
        self.assertEqual([field.line_at(place) for place in (0, 2, 3)], [3, 3, 4])

    def test_names(self):
        first = next(paragraphs(b"FROM: a"))
        self.assertEqual((first.value("From"), first.value("Kind")), ("a", None))

    def test_faults(self):
        for text, reason, line in [
                (b" a: b", ParagraphCause.FIRST_LINE_CONTINUES, 1),
                (b"A: 1\n\n\tb", ParagraphCause.FIRST_LINE_CONTINUES, 3),
                (b"A: 1\nword", ParagraphCause.NO_COLON, 2), (b"# a: b", ParagraphCause.BAD_NAME, 1),
                (b"-a: b", ParagraphCause.BAD_NAME, 1), (b": b", ParagraphCause.BAD_NAME, 1),
                (b"a b: c", ParagraphCause.BAD_NAME, 1), ("\u00e4: c".encode(), ParagraphCause.BAD_NAME, 1),
                (b"A: 1\nB: 2\na: 3", ParagraphCause.REPEATED_FIELD, 3),
                (b"A: 1\nB: \xff", ParagraphCause.NOT_UTF8, 2)]:
            with self.subTest(text=text):
                with self.assertRaises(ParagraphFault) as found:
                    list(paragraphs(text))
                self.assertEqual((found.exception.reason, found.exception.line), (reason, line))

    @needs_office
    def test_faults_are_those_of_the_office(self):
        """What can't be read is what the office refuses as BadParagraph."""
        head = b"From: bts\nNumber: 1\nKind: none\n"
        texts = [head + more for more in (
            b"X: 1", b"\r\n", b" more", b"#X: 1", b"-X: 1", b"x#-: 1", b"X : 1", b": 1", b"word", b"from: a", b"X:\n y",
            "\u00e4: 1".encode(), "X: \u00e4".encode(), b"X: \xc3", b"\n b", b"X:1\x00", b"\rX: 1", b"X\x7f: 1")]
        told = office("replay", "--conf", SETUP, given=b"".join(map(bags.framed, texts))).stdout.decode().split("\n")
        for text, reply in zip(texts, told):
            try:
                list(paragraphs(text))
                is_read = True
            except ParagraphFault:
                is_read = False
            self.assertEqual(is_read, reply != "refused BadParagraph", (text, reply))

    def test_labels(self):
        for text in bags.messages_in(example("archive.bag")):
            first = next(paragraphs(text))
            self.assertEqual(messages.label_of(text), (first.value("From"), int(first.value("Number"))))
        self.assertEqual(messages.label_of(b"\nnumber: 7\nfrom: rt\n\nNumber: 8"), Label("rt", 7))
        for text in (b"", b"From: rt", b"Number: 7", b"From: rt\nNumber: 07", b"From: rt\nNumber: 0", b"word",
                     b"From: rt\nNumber: 1234567890", b"From: rt\n\nNumber: 7", b"From: rt\nNumber: 7\nFrom: rt"):
            self.assertIsNone(messages.label_of(text), text)


def made():
    """A message of each kind, as the rules show it."""
    greeting = {"Package": "foo", "Version": "1.0-1+b1", "Architecture": "amd64", "Source": "foo (1.0-1)",
                "Depends": "libfoo1 (>= 1.0) | libbar1", "Section": "misc"}
    library = {"Package": "libfoo1", "Version": "1.0-1", "Architecture": "amd64", "Source": "foo",
               "Provides": "virtual-foo (= 1.0)"}
    yield messages.upload(Label("ftp", 1), "foo", "1.0-1", Urgency.HIGH, "2025-03-01")
    yield messages.drop(Label("ftp", 2), "libfoo1", "arm64", "1.0-1")
    yield messages.build(Label("bd", 1), [messages.binary(greeting), messages.binary(library)])
    yield messages.bug(Label("bts", 1), 1042, "foo", Severity.SERIOUS, Range("1.0-1", "1.1-1"))
    yield messages.none(Label("bts", 2))
    for number, wish in enumerate(("block foo bar", "unblock foo/1.0-1", "easy foo/1.0-1 bar/2:0",
                                   "age-days 3 foo/1.0-1", "remove foo/1.0-1", "block-all source"), 1):
        yield messages.hint(Label("rt", number), wish)
    yield messages.unhint(Label("rt", 7), 1)
    yield messages.message(Label("rt", 8), Kind.DELAYS, ("20", "6", "3", "1"))
    yield messages.run(Label("clock", 1), "2025-03-06", {"rt": 8, "bts": 0, "ftp": 2})


class Writing(unittest.TestCase):

    def test_each_kind(self):
        """The texts are the examples of the rules, but for an urgency and covers; most are in tables."""
        due = {messages.label_of(text.encode()): text.encode()
               for text in re.split(r"\n(?=From: )", re.search(r"```\n(From: .*?)```", RULES, re.S)[1])}
        for label, fields in table(("Message", "Its further fields, each in a line")):
            sender, number, kind = words(label)[0][0].split()
            lines = [f"From: {sender}", f"Number: {number}", f"Kind: {kind}", *(field for field, _ in words(fields))]
            due[sender, int(number)] = "".join(line + "\n" for line in lines).encode()
        for number, (_, _, example_of) in enumerate(table(("Hint", "What it asks", "Example")), 1):
            due["rt", number] = f"From: rt\nNumber: {number}\nKind: hint\nHint: {words(example_of)[0][0]}\n".encode()
        due["ftp", 1] = due["ftp", 1].replace(b"HIGH (fix)", b"high")
        due["clock", 1] = due["clock", 1].replace(b"rt 8, , ftp 2", b"rt 8, ftp 2")
        self.assertEqual({messages.label_of(text): text for text in made()}, due)

    @needs_office
    def test_the_office_holds_them(self):
        told = office("replay", "--conf", SETUP, given=b"".join(map(bags.framed, made()))).stdout.decode().split("\n")
        due = ["held %s %d" % messages.label_of(text) for text in made()]
        self.assertEqual(told[:len(due)], due)

    def test_a_bug_of_all_versions(self):
        self.assertEqual(messages.bug(Label("bts", 3), 7, "foo", Severity.MINOR),
                         b"From: bts\nNumber: 3\nKind: bug\nBug: 7\nSource: foo\nSeverity: minor\n")

    def test_a_line_end_in_a_value(self):
        with self.assertRaises(Fault):
            messages.hint(Label("rt", 1), "block foo\nKind: none")


if __name__ == "__main__":
    unittest.main()
