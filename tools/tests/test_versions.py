"""Versions: apt's order is the office's, and what the office takes."""
import itertools
import random
import unittest

from helpers import needs_office, office
from office_tools import versions

NASTY = [
    "0", "00", "0:0", "1.0", "1.0-0", "0:1.00", "1.0-1", "1.0~", "1.0~~", "1.0~~a", "1.0a", "1.0+", "1.0+b1", "1.0.",
    "1:0", "00001:1", "2147483647:1", "1:1:1", "1:1:1-1", "1.0-1-1", "1.0-1+b1", "1.0-1~bpo12+1", "~", "~~", "a", "A",
    "z", "+", ".", "-1-1", "1.9999999999999999999999999999", "1.10000000000000000000000000000", "1-0", "1-00", "1-~",
    "0~", "0-0~", "1a2", "1a02", "1.2.3-4.5", "1" * 256]
NO_VERSIONS = [
    "", "1-", "1:", ":1", "a:1", "-1:1", "2147483648:1", "1_0", "1 0", "1:1-1:1", "-1", "1" * 257, "1-a_b", "1:1-",
    "1:-1", "\u00e4", "1/2"]


def drawn(random_state):
    """A version of few letters, so that many are alike."""
    text = "".join(random_state.choice("01129aB.+~") for _ in range(random_state.randint(1, 6)))
    epoch = random_state.choice(["", "", "", "0:", "1:", "01:"])
    revision = random_state.choice(["", "", "-0", "-1", "-1~", "-1+b1", "-a"])
    return epoch + text + revision


class Versions(unittest.TestCase):

    def test_order(self):
        """The order that docs/RULES.md shows, and Debian Policy's examples."""
        for below, above in itertools.pairwise(["~~", "~~a", "~", "", "a"]):
            self.assertLess(versions.compare("1" + below, "1" + above), 0)
        self.assertEqual(versions.compare("0:1.00", "1.0-0"), 0)
        self.assertEqual(sorted(["1:1", "2", "10", "2~rc1", "2-1"], key=versions.key),
                         ["2~rc1", "2", "2-1", "10", "1:1"])

    def test_relations(self):
        """`<` and `>` mean `<=` and `>=`."""
        for relation, due in [("<<", "<"), ("<=", "<="), ("<", "<="), ("=", "="), (">=", ">="), (">", ">="),
                              (">>", ">")]:
            found = {sign for sign, version in zip("<=>", ["1", "2", "3"])
                     if versions.holds(relation, version, "2")}
            self.assertEqual(found, set(due), relation)

    def test_forms(self):
        for text in NASTY:
            self.assertTrue(versions.is_version(text), text)
        for text in NO_VERSIONS:
            self.assertFalse(versions.is_version(text), text)

    @needs_office
    def test_the_office_takes_them(self):
        for text in NASTY + NO_VERSIONS:
            if text.startswith("-"):  # the program takes it for an option
                continue
            status = office("compare", text, "eq", text).returncode
            self.assertEqual(status, 0 if versions.is_version(text) else 3, text)

    @needs_office
    def test_the_office_orders_them_so(self):
        random_state = random.Random(1)
        pairs = list(itertools.combinations(NASTY, 2))
        pairs = random_state.sample(pairs, 300) + [(drawn(random_state), drawn(random_state)) for _ in range(500)]
        for left, right in pairs:
            if versions.is_version(left) and versions.is_version(right) and "-" not in (left[:1], right[:1]):
                order = versions.compare(left, right)
                operator = "lt" if order < 0 else "gt" if order > 0 else "eq"
                self.assertEqual(office("compare", left, operator, right).returncode, 0, (left, operator, right))


if __name__ == "__main__":
    unittest.main()
