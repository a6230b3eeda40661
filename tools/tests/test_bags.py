"""Bags: the grammar of docs/RULES.md, part 8."""
import unittest

from helpers import OFFICE, SETUP, example, needs_office, office
from office_tools import bags
from office_tools.bags import BagFault, BagRefusal


def read(data):
    """The messages that a bag hands out, and its refusal with its place."""
    found = []
    try:
        for text in bags.messages_in(data):
            found.append(text)
    except BagFault as fault:
        return found, fault.refusal, fault.place
    return found, None, None


class Bags(unittest.TestCase):

    def test_messages(self):
        self.assertEqual(read(b""), ([], None, None))
        self.assertEqual(read(b"mail 0\nmail 3\nab\n"), ([b"", b"ab\n"], None, None))
        self.assertEqual(read(b"mail 7\nmail 3\n"), ([b"mail 3\n"], None, None))

    def test_refusals(self):
        bad, cut = BagRefusal.BAD_HEADER, BagRefusal.TRUNCATED
        for data, refusal, place in [
                (b"male 1\na", bad, 2), (b"mail  1\na", bad, 5), (b"mail 01\na", bad, 6), (b"mail 1a", bad, 6),
                (b"mail \n", bad, 5), (b"mail 1234567890\n", bad, 14), (b"From: ftp\n", bad, 0), (b"mail -1\n", bad, 5),
                (b"mail 1\r\na", bad, 6), (b"m", cut, 1), (b"mail 12", cut, 7), (b"mail 3\nab", cut, 9)]:
            with self.subTest(data=data):
                self.assertEqual(read(data), ([], refusal, place))
                self.assertEqual(read(b"mail 1\nx" + data), ([b"x"], refusal, place + 8))

    @needs_office
    def test_refusals_are_those_of_the_office(self):
        for data in [b"male 1\na", b"mail  1\na", b"mail 01\na", b"mail 1234567890\n", b"mail \n", b"m", b"mail 12",
                     b"mail 3\nab", b"", b"mail 0\n", b"mail 1\r\na"]:
            _, refusal, _ = read(data)
            told = office("replay", "--conf", SETUP, given=data).stdout.decode()
            said = [line for line in told.split("\n") if line.startswith("bag refused")]
            self.assertEqual(said, [f"bag refused {refusal.value}"] if refusal else [], (OFFICE, data))

    def test_is_bag(self):
        self.assertTrue(bags.is_bag(example("archive.bag")))
        self.assertFalse(bags.is_bag(example("archive/01-ftp-1-upload-lib")))
        self.assertFalse(bags.is_bag(b""))

    def test_framed(self):
        data = example("archive.bag")
        self.assertEqual(b"".join(map(bags.framed, bags.messages_in(data))), data)


if __name__ == "__main__":
    unittest.main()
