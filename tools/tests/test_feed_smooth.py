"""Old packages that stay next to newer ones of their source (--smooth), as docs/ARCHIVE.md says."""
import unittest

from helpers import Serving, needs_sync
from office_tools.service import Service
from test_feed import CHANGES, SPARE_SETUP, Feeding
from test_feed_brakes import on_both

OLD = on_both("libfoo2", "1", source="libfoo", depends="libfoo-data (= 1)") + \
    on_both("libfoo-data", "1", source="libfoo")
NEW = on_both("libfoo3", "2", source="libfoo") + on_both("libfoo-bin", "2", source="libfoo")
APP, NEXT_APP = on_both("app", "1", depends="libfoo2"), on_both("app", "2", depends="libfoo3")


@needs_sync
class Smooth(Feeding):

    def start(self):
        for name in ("libfoo", "app"):
            self.file(f"changes/{name}.changes", CHANGES.replace("Source: lib\n", f"Source: {name}\n"))
        self.feed(OLD + APP, "2025-03-03", "--changes", self.path("changes"))
        self.assertEqual(self.sources(), ["app 1", "libfoo 1"])

    def sources(self):
        return [line[7:] for line in self.service.good_text("/testing").splitlines() if line.startswith("source ")]

    def day(self, packages, day):
        return self.feed(packages, day, "--smooth")

    def through(self, *, cruft=""):
        """The library moves without app, its old package stays with what that needs, and goes once app has moved."""
        self.start()
        told = self.day(NEW + cruft + APP, "2025-03-04")[1]
        self.assertEqual(sorted(told), [
            f"office-feed: {name} {architecture} 1: stays as smooth-{name} 1, as testing needs it"
            for name in ("libfoo-data", "libfoo2") for architecture in ("amd64", "arm64")])
        self.assertEqual(self.sources(), ["app 1", "libfoo 1", "smooth-libfoo-data 1", "smooth-libfoo2 1"])
        self.day(NEW + APP, "2025-03-09")
        self.assertEqual(self.sources(), ["app 1", "libfoo 2", "smooth-libfoo-data 1", "smooth-libfoo2 1"])
        self.assertIn("binary amd64 libfoo2 1", self.service.good_text("/testing"))
        self.assertEqual(self.day(NEW + APP, "2025-03-10")[0][0],
                         "uploads 0, drops 0, builds 0, hints 0, unhints 0, orders 1")
        self.day(NEW + NEXT_APP, "2025-03-11")
        self.day(NEW + NEXT_APP, "2025-03-16")
        self.assertIn("app 2", self.sources())
        self.day(NEW + NEXT_APP, "2025-03-17")
        self.assertEqual(self.sources(), ["app 2", "libfoo 2"])
        self.assertEqual(self.day(NEW + NEXT_APP, "2025-03-18")[0][0],
                         "uploads 0, drops 4, builds 0, hints 0, unhints 2, orders 1")
        self.day(NEW + NEXT_APP, "2025-03-19")
        self.assertEqual(self.sources(), ["app 2", "libfoo 2"])
        self.assertNotIn("libfoo2", self.service.good_text("/testing"))

    def test_by_made_up_versions(self):
        self.through()

    def test_while_it_is_still_in_unstable(self):
        self.through(cruft=OLD.replace("Source: libfoo\n", "Source: libfoo (1)\n"))

    def test_by_a_spare_sender(self):
        with Serving(self.file("setup.conf", SPARE_SETUP)) as office:
            self.office, self.service = office, Service(office.url)
            self.through()
            self.assertEqual(self.service.kept()["again1"].kept, 1)

    def test_what_nothing_needs(self):
        """Without an app the old library goes with its source."""
        self.file("changes/libfoo.changes", CHANGES.replace("Source: lib\n", "Source: libfoo\n"))
        self.feed(OLD, "2025-03-03", "--changes", self.path("changes"))
        self.assertEqual(self.day(NEW, "2025-03-04")[1], [])
        self.day(NEW, "2025-03-09")
        self.assertEqual(self.sources(), ["libfoo 2"])


if __name__ == "__main__":
    unittest.main()
