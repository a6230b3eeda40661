"""Garbled files of each kind that the tools of bugs, tests, britney, mirrors, mending and signing read.

Each reader takes such a file, or refuses it with a sentence: a `Fault`. GARBLED in the environment is how many files of
each kind there are (100), and GARBLED_SEED another seed.
"""
import io
import json
import os
import random
import tempfile
import time
import unittest
from contextlib import redirect_stderr, redirect_stdout

import helpers  # noqa: F401
from office_tools import bags, mend, messages, openpgp
from office_tools.autopkgtests import changes as tests
from office_tools.autopkgtests import results
from office_tools.bugs import changes, kept, lists
from office_tools.faults import Fault
from office_tools.from_britney import compare, folder, hints
from office_tools.from_packages.sources import Arrival
from office_tools.messages import Label, Severity, Urgency
from office_tools.mirror import held
from office_tools.pages.state import State
from office_tools.undo import outcome, selection
from test_autopkgtests import entry
from test_from_britney import RELEASE, WORLD
from test_undo import world

COUNT = int(os.environ.get("GARBLED") or 100)
SEED = int(os.environ.get("GARBLED_SEED") or 7)

PIECES = (
    b"\x81", b"\xc3", b"\xff\xfe", b"\x00", b"\xc2\xa0", b"\xe2\x80\xa8", b"\x0b", b"\x0c", b"\x1c", b"\x85", b"\r",
    b"\n\n", b"\n", b": ", b":", b" ", b"\t", b"-", b"#", b"/", b",", b"~", b"9" * 30, b"9" * 5000,
    b"0", b"-1", b"1e999", b"NaN", b"Infinity", b"null", b"true", b"x" * 300, b"\xd9\xa3", b"\xc2\xb2", b"[", b"{",
    b"[" * 5000, b"\"", b"src:", b"A~",
    b"mail 5\n", b"mail 999999999\n", b"-----BEGIN PGP MESSAGE-----\n", b"-----END PGP MESSAGE-----\n", b"\xa3\x01")
VERSIONS = {"app": "2-1", "lone": "2-1", "tool": "2-1"}
NAMES = lists.Names(VERSIONS, {"libfoo1": {"app"}}), lists.Names({"app": "1-1"}, {})
LETTER = b"""-----BEGIN PGP MESSAGE-----

owGbwMvMwMHYuPC0v4fFGlnG0wxJDKn5WUW5+YUKbkX5uQogXlFiblFRfnFmSWZ+
=abcd
-----END PGP MESSAGE-----
"""
PACKETS = b"\x90\x0d\x03\x00\x08\x16abcdefgh\x01\xcb\x04b\x00ab\x88\x03\x04\x00\x16"


def garbled(chance, data):
    """A text with up to four changes: a piece put in or in the place of a part, or a part doubled or left out."""
    for _ in range(chance.randint(0, 4)):
        start = chance.randint(0, len(data))
        end = min(len(data), start + chance.choice((0, 1, 1, 3, 20, 200)))
        part, piece, byte = data[start:end], chance.choice(PIECES), bytes([chance.randrange(256)])
        data = data[:start] + chance.choice((piece, piece, b"", part + part, byte)) + data[end:]
    return data


class Garbled(unittest.TestCase):

    def setUp(self):
        place = tempfile.TemporaryDirectory()
        self.addCleanup(place.cleanup)
        self.path = os.path.join(place.name, "file")

    def read(self, good, reader):
        """Lets a reader read garbled files; whatever isn't a `Fault` is a failure. Some are read, and some refused."""
        chance = random.Random(f"{SEED} {self.id()}")
        ends = {"read": 0, "refused": 0}
        for place in range(COUNT):
            data = garbled(chance, good)
            with open(self.path, "wb") as file:
                file.write(data)
            with redirect_stderr(io.StringIO()), redirect_stdout(io.TextIOWrapper(io.BytesIO())):
                try:
                    reader(self.path)
                    ends["read"] += 1
                except Fault as fault:
                    self.assertTrue(fault.cause, data)
                    ends["refused"] += 1
                except Exception as fault:
                    raise AssertionError(f"file {place}: {data!r}") from fault
        self.assertGreater(ends["read"], 0)
        return ends

    def test_lists_of_bugs(self):
        """What a list says can be sent, whatever is in it."""
        book = kept.Book("bts", changes.LISTED)

        def read(path):
            found = changes.read_pairs(lists.read_list(path), lists.read_list(path), NAMES)
            for place, change in enumerate(changes.changes(found, book, NAMES)):
                self.assertIn(b"\nBug: ", change.text(book.label(place)))

        ends = self.read(b"app 7,8\nsrc:lone 7\nlibfoo1 100\n\ntool 123456\nwnpp 9\n", read)
        self.assertGreater(ends["refused"], 0)

    def test_bugs_that_are_kept(self):
        """What others wrote into the fields of these tools is read, or let be."""
        text = messages.bug(Label("bts", 1), 7, "app", Severity.SERIOUS, messages.Range("1-1", "2-1"))

        def read(path):
            for mark in (changes.LISTED, tests.TEST):
                book = kept.Book("bts", mark)
                with open(path, "rb") as file:
                    first = next(messages.paragraphs(file.read()), messages.Paragraph(1, ()))
                number = first.value("Bug") or ""
                if messages.kind_of(first) is messages.Kind.BUG and messages.NUMBER.fullmatch(number):
                    book.take(kept.bug_of(first))
                changes.numbers_of(book)
                list(map(lambda number: tests.test_of(book, number), book.bugs))

        self.read(text + b"Listed: 7\nTest: app amd64\n", read)

    def verdicts(self, path):
        """Lets the results of a file be sent."""
        found = tests.verdicts_of(iter(results.read_results(path, "testing")), VERSIONS, {"app": "1-1"})
        book = kept.Book("bts", tests.TEST)
        for place, change in enumerate(tests.changes(found, book).changes):
            self.assertIn(b"\nTest: ", change.text(book.label(place)))

    def test_results_of_debci(self):
        entries = [entry("app", "fail", "lone/2-1 tool/2-1"), entry("app", "pass", "migration-reference/0"),
                   entry("lone", "tmpfail", None, suite="unstable")]
        self.assertGreater(self.read(json.dumps(entries).encode(), self.verdicts)["refused"], 0)
        self.read(json.dumps({"until": 7, "results": entries}).encode(), self.verdicts)

    def test_results_of_britney(self):
        told = {"lone/2-1": {"app": {"amd64": ["FAIL", "1-1", "77", 1741168800], "arm64": [True, "1-1", "", 2]}},
                "migration-reference/0": {"app": {"amd64": ["PASS", "1-1", "3", 1]}}}
        self.assertGreater(self.read(json.dumps(told).encode(), self.verdicts)["refused"], 0)

    def test_dates_and_urgencies(self):
        for name in ("Dates", "Urgency"):
            place = os.path.join(os.path.dirname(self.path), name)
            os.makedirs(os.path.join(place, "testing"))

            def read(path, place=place, name=name):
                os.replace(path, os.path.join(place, "testing", name))
                found = folder.Folder(place).arrivals(VERSIONS, {"tool": "1-1"}, Arrival(Urgency.MEDIUM, "2025-03-20"))
                self.assertEqual(len(found), len(VERSIONS))

            self.read(WORLD[f"testing/{name}"].encode(), read)

    def test_hints(self):
        """Each hint that is taken is one that a message may have: a line of words."""
        def read(path):
            for number, wish in enumerate(hints.wishes([path]), 1):
                self.assertRegex(wish.hint, r"\A[a-z-]+( [!-~]+)+\Z")
                self.assertEqual(wish.text(Label("rt", number)).count(b"\n"), 5)

        self.read(RELEASE.encode(), read)

    def test_heidi(self):
        self.assertGreater(self.read(b"app 2-1 amd64 net\napp 2-1 source net\nlone 1-1 all\nlone 1-1 source\n",
                                     compare.read_heidi)["refused"], 0)

    def test_state_of_a_mirror(self):
        def read(path):
            found = held.read(path)
            held.write(path, found)
            self.assertEqual(held.read(path), found)

        self.assertGreater(self.read(b'{"bd": [[1, 20], [22, 22]], "clock": [], "ftp": [[1, 999999999]]}\n',
                                     read)["refused"], 0)

    def test_bags(self):
        """The mail of a store, in which a slip is taken back."""
        def read(path):
            with open(path, "rb") as file:
                data = file.read()
            letters = selection.read(list(bags.messages_in(data)))
            list(selection.without(letters, list(selection.chosen(letters, [2, selection.slip("rt/1-9")]))))
            list(mend.mended(data, Label("clock", 2), b"From: clock\nNumber: 2\nKind: none\n"))

        self.assertGreater(self.read(b"".join(map(bags.framed, world())), read)["refused"], 0)

    def test_reports(self):
        def read(path):
            with open(path, "rb") as file:
                lines = file.read().decode(errors="backslashreplace").split("\n")
            found = outcome.Outcome([])
            outcome.take(found, lines)
            self.assertEqual(list(outcome.differences(found, found)), [])

        self.read(b"excuses 1 2025-03-01\napp - 1\n age 1 of 2\n too young\n not a candidate\nupdate 1 2025-03-01\n"
                  b"accept app 1\ntesting 1\nsource app 1\n", read)

    def test_letters(self):
        """Whether an input is one message is answered for any bytes."""
        def read(path):
            with open(path, "rb") as file:
                self.assertIn(openpgp.is_one_message(file.read()), (True, False))

        for good in (LETTER, PACKETS, PACKETS + PACKETS, b"\xa3\x01" + PACKETS, b"\xc8\xe5\x02x\x9c" + PACKETS):
            self.read(good, read)

    def test_packets(self):
        """The packets here are one message, and twice they are two."""
        self.assertTrue(openpgp.is_one_message(PACKETS))
        self.assertFalse(openpgp.is_one_message(PACKETS + PACKETS))
        self.assertFalse(openpgp.is_one_message(PACKETS[:-1]))

    def test_bugs_without_a_number(self):
        """A bag may have one, though no office keeps it."""
        for told in (b"", b"Bug:\n", b"Bug: x\n", b"Bug: " + b"9" * 5000 + b"\n"):
            first = next(messages.paragraphs(b"From: bts\nNumber: 1\nKind: bug\nSource: app\n" + told))
            with self.subTest(told=told[:20]):
                self.assertRaises(Fault, kept.bug_of, first)

    def test_a_run_that_the_pages_lost(self):
        """A damaged line of a run may name a number that no run has."""
        state = State(self.path)
        self.addCleanup(state.close)
        self.assertRaises(Fault, state.run, 5)

    def test_many_packets(self):
        """The longest letter, of packets that say nothing, costs no more than its length."""
        began = time.process_time()
        self.assertTrue(openpgp.is_one_message(PACKETS + b"\xca\0" * 500_000))
        self.assertLess(time.process_time() - began, 10)


if __name__ == "__main__":
    unittest.main()
