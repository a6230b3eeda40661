"""office-mirror: what it remembers, and what it brings to an office and into a bag."""
import os
import random
import tempfile
import unittest

from helpers import Serving, example, needs_office, tool
from office_tools import bags
from office_tools.mirror import held
from office_tools.mirror.held import Numbers
from office_tools.mirror.turn import Turn, joined
from office_tools.service import Service

TEXTS = list(bags.messages_in(example("archive.bag")))


def numbers(*all_of_them):
    found = Numbers()
    for number in sorted(all_of_them):
        found.add(number)
    return found


class Remembered(unittest.TestCase):

    def test_numbers(self):
        draw = random.Random(1)
        for _ in range(300):
            some, others = ({draw.randint(1, 12) for _ in range(draw.randint(0, 8))} for _ in range(2))
            last = draw.randint(0, 14)
            self.assertEqual(numbers(*some).next_missing(last), next(n for n in range(last, 20) if n not in some))
            self.assertEqual(numbers(*some).upto(last), numbers(*(n for n in some if n <= last)))
            self.assertEqual(joined(numbers(*some), numbers(*others)), numbers(*some, *others))
            self.assertEqual([n for n in range(15) if numbers(*some).has(n)], sorted(some))

    def test_file(self):
        with tempfile.TemporaryDirectory() as folder:
            path = held.place_of(folder, "http://a:1", "http://b:2")
            self.assertEqual(os.path.dirname(path), folder)
            self.assertEqual(held.read(path), {})
            known = {"ftp": numbers(1, 2, 5), "bd": numbers()}
            held.write(path, known)
            self.assertEqual(held.read(path), known)

    def test_damaged_file(self):
        """A damaged file is refused with a sentence."""
        with tempfile.NamedTemporaryFile() as file:
            for text in [b"", b"[", b"[]", b"7", b'{"ftp": 7}', b'{"ftp": [[1, Infinity]]}', b'{"ftp": [[1, 2.5]]}',
                         b'{"ftp": [[2, 1]]}', b'{"ftp": [[1, 5], [3, 9]]}', b'{"ftp": [[0, 1]]}', b'{"ftp": [[1]]}',
                         b'{"ftp": [[1, 9999999999]]}', b'{"ftp": [["1", "2"]]}', b'{"ftp": [[true, 2]]}', b"\xff",
                         b'{"ftp": ' + b"[" * 100000]:
                file.seek(0)
                file.truncate()
                file.write(text)
                file.flush()
                with self.assertRaises(held.Fault) as raised:
                    held.read(file.name)
                self.assertEqual((raised.exception.cause, raised.exception.status),
                                 (f"{file.name}: it is damaged: remove it, and all mail is sent once more", 2), text)


@needs_office
class Mirror(unittest.TestCase):

    def setUp(self):
        folder = tempfile.TemporaryDirectory()
        self.addCleanup(folder.cleanup)
        self.state = folder.name
        self.one, self.other = (self.enterContext(Serving()) for _ in range(2))
        self.services = [Service(serving.url) for serving in (self.one, self.other)]

    def post(self, place, *texts):
        for text in texts:
            self.services[place].post("/mail", text)

    def turn(self, *words):
        """What a turn prints, with short names of the offices, and its status."""
        told = tool("office-mirror", *words, self.one.url, self.other.url)
        self.assertEqual(told.stdout, "")
        return told.stderr.replace(self.one.url, "A").replace(self.other.url, "B"), told.returncode

    def test_turns(self):
        state = ["--state", self.state]
        self.post(0, *TEXTS[:8])
        self.assertEqual(self.turn(*state), ("office-mirror: B: sent 8\n", 0))
        self.post(0, *TEXTS)
        self.assertEqual(self.turn(*state), ("office-mirror: B: sent 3\n", 0))
        self.assertEqual(self.turn(*state), ("office-mirror: B: sent 0\n", 0))
        self.assertEqual(self.turn(), ("office-mirror: B: sent 11\n", 0))
        self.assertEqual(self.turn("--all", *state), ("office-mirror: B: sent 11\n", 0))
        for page in ("/kept", "/testing", "/status", "/update/1", "/excuses/2"):
            self.assertEqual(*(service.get(page) for service in self.services))

    def test_conflict(self):
        """A number with two texts is printed at each turn, and keeps nothing else from its office."""
        form = b"From: rt\nNumber: %d\nKind: hint\nHint: block %s\n"
        self.post(0, *TEXTS, form % (3, b"aa"), form % (4, b"cc"))
        self.post(1, form % (3, b"bb"))
        told = "office-mirror: B: rt 3: keeps another text than A\noffice-mirror: B: sent %d\n"
        self.assertEqual(self.turn("--state", self.state), (told % 13, 1))
        self.assertEqual(self.turn("--state", self.state), (told % 1, 1))
        self.assertEqual(self.services[1].kept()["rt"].unbroken, 4)

    def test_office_set_back(self):
        """An office that lost its mail gets it again."""
        self.post(0, *TEXTS)
        self.turn("--state", self.state)
        with Serving() as empty:
            old, new = (held.place_of(self.state, self.one.url, url) for url in (self.other.url, empty.url))
            os.rename(old, new)
            told = tool("office-mirror", "--state", self.state, self.one.url, empty.url)
            self.assertEqual(told.stderr, f"office-mirror: {empty.url}: sent 11\n")

    def test_gaps(self):
        """Mail after a gap is brought, too, however far after it is."""
        none = b"From: bd\nNumber: %d\nKind: none\n"
        self.post(0, none % 1, none % 3, none % 9)
        self.assertEqual(self.turn("--state", self.state), ("office-mirror: B: sent 3\n", 0))
        self.assertEqual(self.turn("--state", self.state), ("office-mirror: B: sent 0\n", 0))
        self.assertEqual(self.services[1].kept(), self.services[0].kept())
        self.post(0, none % 999999999)
        self.assertEqual(self.turn("--state", self.state), ("office-mirror: B: sent 1\n", 0))
        self.assertEqual(self.services[1].kept(), self.services[0].kept())
        self.post(0, none % 999999, none % 2)
        self.post(0, b"From: rt\nNumber: 1\nKind: none\n")
        self.assertEqual(self.turn("--state", self.state)[1], 0)
        self.assertEqual(self.services[1].kept(), self.services[0].kept())

    def test_cut_off(self):
        """What was held before a turn is ended by force isn't sent again."""
        self.post(0, *(b"From: bd\nNumber: %d\nKind: none\n" % number for number in range(1, 251)))
        path = held.place_of(self.state, self.one.url, self.other.url)
        found = {}

        def save():
            held.write(path, found)
            if found["bd"].has(200):
                raise KeyboardInterrupt

        with self.assertRaises(KeyboardInterrupt):
            Turn(print, save).to_office(self.services[0], self.services[1], found)
        self.assertEqual(held.read(path), {"clock": Numbers(), "ftp": Numbers(), "bd": numbers(*range(1, 201))})
        self.assertEqual(self.turn("--state", self.state), ("office-mirror: B: sent 50\n", 0))

    def test_parts(self):
        """Mail of more than one part of a bag is brought whole."""
        note = b"From: bts\nNumber: %d\nKind: none\nNote: " + b"x" * 30000 + b"\n"
        self.post(0, *(note % number for number in range(1, 8)))
        self.assertEqual(self.turn(), ("office-mirror: B: sent 7\n", 0))
        told = tool("office-mirror", self.one.url, "-")
        self.assertEqual(list(bags.messages_in(told.stdout.encode())), [note % number for number in range(1, 8)])

    def test_bag(self):
        self.post(0, *TEXTS)
        told = tool("office-mirror", self.one.url, "-")
        self.assertEqual((told.stderr, told.returncode), ("office-mirror: 11 messages in the bag\n", 0))
        found = list(bags.messages_in(told.stdout.encode()))
        self.assertEqual(sorted(found), sorted(TEXTS))
        self.assertEqual([text.startswith(b"From: clock") for text in found], [True] * 2 + [False] * 9)

    def test_no_office(self):
        """An office that doesn't answer keeps no other one from its mail."""
        self.post(0, *TEXTS)
        told = tool("office-mirror", self.one.url, "http://127.0.0.1:1", self.other.url)
        self.assertEqual(told.returncode, 4)
        self.assertIn("office-mirror: http://127.0.0.1:1/kept: Connection refused\n", told.stderr)
        self.assertEqual(self.services[1].kept(), self.services[0].kept())

    def test_another_setup(self):
        """An office of other senders gets nothing."""
        self.post(0, *TEXTS)
        with tempfile.NamedTemporaryFile(suffix=".conf") as conf:
            conf.write(example("setup.conf").replace(b"Sender: bts", b"Sender: bugs"))
            conf.flush()
            with Serving(setup=conf.name) as third:
                told = tool("office-mirror", self.one.url, third.url, self.other.url)
        due = f"office-mirror: {third.url}: it has other senders than {self.one.url}\n"
        self.assertEqual((told.stderr.replace(f"office-mirror: {third.url}: sent 0\n", ""), told.returncode),
                         (due + f"office-mirror: {self.other.url}: sent 11\n", 3))

    def test_words(self):
        for words in [[], ["http://127.0.0.1:1"], ["ftp://x", "-"], ["http://127.0.0.1:1", "y"]]:
            self.assertEqual(tool("office-mirror", *words).returncode, 2, words)


if __name__ == "__main__":
    unittest.main()
