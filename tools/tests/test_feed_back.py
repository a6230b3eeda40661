"""What the archive withdrew, and what came back: nothing moves that the archive hasn't, and all else can."""
import unittest

from helpers import needs_sync, tool
from office_tools import versions
from office_tools.apply import marks
from test_feed import CHANGES, Feeding, package
from test_feed_brakes import on_both


class Marks(unittest.TestCase):
    """A version above another one that means a third (docs/ARCHIVE.md)."""

    def test_there_and_back(self):
        for above, version in (("0.4-1", "0.3-3"), ("0.4-1", "0.4-1"), ("1:2.0~rc1-1+b2", "1:1.9+dfsg-1+b10"),
                               ("1.0", "0.9"), ("0.4-1+back1.0.3+m3", "0.4-1"), ("2+back9", "1:0-1")):
            made = marks.back(above, version)
            with self.subTest(made=made):
                self.assertTrue(versions.is_version(made))
                self.assertGreater(versions.compare(made, above), 0)
                self.assertEqual(marks.package_version(made), version)

    def test_below_what_comes_next(self):
        for later in ("0.4-2", "0.4-1.1", "0.4-1+deb12u1", "0.5-1", "1:0.1-1"):
            self.assertGreater(versions.compare(later, marks.back("0.4-1", "0.3-3")), 0)


@needs_sync
class Withdrawn(Feeding):
    """An upload that unstable has no more."""

    def moved(self, version="1", **more):
        """Version 1 of a source, which is in testing."""
        self.file("changes/lone.changes", CHANGES.replace("Source: lib", "Source: lone").replace(
            "Version: 1", f"Version: {version}"))
        self.feed(self.lone(version, **more), "2025-03-03", "--changes", self.path("changes"))
        self.assertIn(f"source lone {version}\n", self.service.good_text("/testing"))

    def lone(self, version, **more):
        """The archive with a version of a source of two packages, which need each other by version."""
        return on_both("lone", version, depends=f"lone-data (= {version})") + on_both(
            "lone-data", version, source="lone", **more) + package("other", "1")

    def real(self):
        """The lines of testing with the archive's versions."""
        return [" ".join([*line.split(" ")[:-2], marks.package_version(line.split(" ")[-2])])
                for line in self.service.good_text("/testing").splitlines()
                if " lone" in line and line.startswith("binary ")]

    def test_back_to_what_testing_has(self):
        """It is dropped, so it never moves; the next upload does."""
        self.moved()
        self.feed(self.lone("2"), "2025-03-04")
        printed, told = self.feed(self.lone("1"), "2025-03-05", status=1)
        self.assertEqual(printed[0], "uploads 0, drops 4, builds 0, hints 0, unhints 0, orders 1")
        self.assertEqual(told, ["office-feed: source lone 2: it was withdrawn, and is dropped; unstable has 1"])
        self.assertEqual(self.feed(self.lone("1"), "2025-03-12")[0][1], "ready 4 finished 4")
        self.assertIn("lone 1 2\n age 8 of 5\n no binaries\n", self.service.good_text("/excuses/4"))
        self.assertIn("source lone 1\n", self.service.good_text("/testing"))
        self.feed(self.lone("2.1"), "2025-03-13")
        self.feed(self.lone("2.1"), "2025-03-18")
        self.assertIn("source lone 2.1\n", self.service.good_text("/testing"))

    def test_back_to_something_between(self):
        """The present version moves under a version above the withdrawn one, with the age that it had."""
        self.moved()
        self.feed(self.lone("1.5"), "2025-03-04")
        self.feed(self.lone("2"), "2025-03-06")
        printed, told = self.feed(self.lone("1.5"), "2025-03-07", status=1)
        self.assertEqual(printed[0], "uploads 1, drops 0, builds 1, hints 0, unhints 0, orders 1")
        self.assertEqual(told, ["office-feed: source lone 2: it was withdrawn: 1.5 is sent as 2+back1.1.5"])
        self.assertIn("lone 1 2+back1.1.5\n age 3 of 5\n too young\n", self.service.good_text("/excuses/4"))
        self.assertEqual(self.feed(self.lone("1.5"), "2025-03-09")[0][0][-8:], "orders 1")
        self.assertIn("source lone 2+back1.1.5\n", self.service.good_text("/testing"))
        self.assertEqual(self.real(), ["binary amd64 lone 1.5", "binary amd64 lone-data 1.5", "binary arm64 lone 1.5",
                                       "binary arm64 lone-data 1.5"])
        select = tool("office-apply", "--url", self.office.url, "select", "amd64", self.path("Packages"))
        self.assertEqual((select.returncode, select.stdout.count("Version: 1.5\n")), (0, 2), select.stderr)
        self.assertEqual(self.feed(self.lone("1.5"), "2025-03-09")[0][0],
                         "uploads 0, drops 0, builds 0, hints 0, unhints 0, orders 0")
        # The withdrawn version itself may come again, and a newer one.
        self.feed(self.lone("2"), "2025-03-10")
        self.feed(self.lone("2"), "2025-03-14")
        self.assertNotIn("source lone 2+back2\n", self.service.good_text("/testing"))
        self.feed(self.lone("2"), "2025-03-15")
        self.assertIn("source lone 2+back2\n", self.service.good_text("/testing"))
        self.feed(self.lone("2.1"), "2025-03-17")
        self.feed(self.lone("2.1"), "2025-03-23")
        self.assertIn("source lone 2.1\n", self.service.good_text("/testing"))

    def test_accepted_and_withdrawn(self):
        """What testing has already goes back only if this is allowed, and then at once."""
        self.moved("2")
        told = self.feed(self.lone("1.5"), "2025-03-04", status=1)[1]
        self.assertIn("office-feed: source lone: testing has 2, and unstable has 1.5 only: if testing is to go back, "
                      "allow it by --back lone", told)
        told = self.feed(self.lone("1.5"), "2025-03-06", status=1)[1]
        self.assertIn("office-feed: for 2 days: source lone: testing has 2, ", told[0])
        self.feed(self.lone("1.5"), "2025-03-06", "--back", "lone", status=1)
        self.assertEqual(self.real(), ["binary amd64 lone 1.5", "binary amd64 lone-data 1.5", "binary arm64 lone 1.5",
                                       "binary arm64 lone-data 1.5"])
        self.assertEqual(self.feed(self.lone("1.5"), "2025-03-07")[1], [])

    def test_a_need_that_the_older_version_does_not_meet(self):
        """A made-up version never meets a relation that the archive's own doesn't: it is dropped and reported."""
        self.moved()
        self.feed(self.lone("1.5"), "2025-03-04")
        user = on_both("user", "1", depends="lone (>= 2)")
        self.feed(self.lone("2") + user, "2025-03-06")
        told = self.feed(self.lone("1.5") + user, "2025-03-07", status=1)[1]
        self.assertIn("office-feed: lone amd64 1.5: left out: user 1 needs lone (>= 2), which the version that it "
                      "would be sent as meets", told)
        self.feed(self.lone("1.5") + user, "2025-03-20", status=1)
        self.assertIn("source lone 1\n", self.service.good_text("/testing"))
        self.assertNotIn("source user", self.service.good_text("/testing"))
        self.feed(self.lone("1.5") + on_both("user", "1.1", depends="lone (>= 1.2)"), "2025-03-21", status=1)
        self.assertIn("source lone 2+back1.1.5\n", self.service.good_text("/testing"))

    def test_a_rebuild_that_was_withdrawn(self):
        """A package alone that is back at its version of before."""
        self.moved()
        rebuilt = self.lone("1").replace("Package: lone\nVersion: 1\n",
                                         "Package: lone\nSource: lone (1)\nVersion: 1+b1\n")
        self.feed(rebuilt, "2025-03-04", "--rebuilds")
        self.assertIn("binary amd64 lone 1+b1", self.real())
        self.feed(self.lone("1"), "2025-03-05", "--rebuilds", status=1)
        self.assertIn("binary amd64 lone 1", self.real())
        self.assertEqual(self.feed(self.lone("1"), "2025-03-05", "--rebuilds")[0][0],
                         "uploads 0, drops 0, builds 0, hints 0, unhints 0, orders 0")


@needs_sync
class CameBack(Feeding):
    """A slip of the archive took everything out, and everything is back."""

    def test_all_of_it(self):
        names = [f"app{number}" for number in range(12)]
        for name in names:
            self.file(f"changes/{name}.changes", CHANGES.replace("Source: lib", f"Source: {name}"))
        whole = "".join(on_both(name, "1") for name in names)
        self.feed(whole, "2025-03-03", "--changes", self.path("changes"))
        self.feed(on_both("app0", "1"), "2025-03-04", "--gone", "22")
        self.assertEqual(self.service.good_text("/testing").count("source "), 1)
        printed, told = self.feed(whole, "2025-03-05", "--rebuilds", status=1)
        self.assertEqual(printed[0], "uploads 0, drops 0, builds 11, hints 0, unhints 11, orders 1")
        self.assertEqual(self.service.good_text("/testing").count("source "), 12)
        self.assertEqual(self.feed(whole, "2025-03-05", "--rebuilds")[0][0],
                         "uploads 0, drops 0, builds 0, hints 0, unhints 0, orders 0")

    def test_leaves_first(self):
        """Sources that are gone leave in one run, those first that others of them need last."""
        for name in ("aa", "bb", "cc"):
            self.file(f"changes/{name}.changes", CHANGES.replace("Source: lib", f"Source: {name}"))
        chain = on_both("aa", "1", provides="api") + on_both("bb", "1", depends="api") + \
            on_both("cc", "1", depends="bb (= 1)") + on_both("dd", "1")
        self.feed(chain, "2025-03-03", "--changes", self.path("changes"))
        self.feed(on_both("dd", "1"), "2025-03-04")
        self.assertEqual(self.service.good_text("/update/2"), "update 2 2025-03-04\nremove 1 accept cc 1\n"
                         "remove 2 accept bb 1\nremove 3 accept aa 1\n")
        self.assertEqual(self.feed(on_both("dd", "1"), "2025-03-05")[0][0],
                         "uploads 0, drops 0, builds 0, hints 0, unhints 3, orders 1")


if __name__ == "__main__":
    unittest.main()
