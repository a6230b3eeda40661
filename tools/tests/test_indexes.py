"""What office-feed remembers of indexes: the same paragraphs as without it, whatever is remembered."""
import gzip
import os
import random
import tempfile
import unittest
from unittest import mock

import helpers  # noqa: F401
from office_tools import control, messages
from office_tools.faults import Fault
from office_tools.feed import memory
from office_tools.from_packages import told
from office_tools.from_packages.binaries import read_binaries
from office_tools.from_packages.sources import read_sources
from test_foreign import PACKAGES, SOURCES, garbled

NAMES = [rule.name for rule in messages.BINARY_FIELDS]
MORE = b"\n\nPackage: bad\nVersion: 1_0\nArchitecture: amd64\n\n\n"


class Remembered(unittest.TestCase):

    def setUp(self):
        place = tempfile.TemporaryDirectory()
        self.addCleanup(place.cleanup)
        self.folder = place.name
        self.lines = []
        patch = mock.patch.object(told, "listener", lambda what, weight: self.lines.append(what))
        patch.start()
        self.addCleanup(patch.stop)
        self.asked = 0

    def file(self, name, text):
        path = os.path.join(self.folder, name)
        with open(path, "wb") as file:
            file.write(text)
        return path

    def ended(self, read):
        """What a reader gives, or the cause of its fault; and what it told."""
        self.lines.clear()
        try:
            found = read()
        except Fault as fault:
            found = fault.cause
        return found, list(self.lines)

    def turn(self, path):
        """What is read of a file with and without what is remembered, which have to be the same; and what apt read."""
        found = memory.indexes_in(self.folder)
        asked = []

        def counted(name, names):
            for fields in control.sections(name, names):
                asked.append(fields)
                yield fields

        with mock.patch.object(memory, "sections", counted):
            own = self.ended(lambda: read_binaries([path], found.sections))
        found.write()
        plain = self.ended(lambda: read_binaries([path]))
        self.assertEqual(own, plain)
        if not isinstance(own[0], str):
            for left, right in zip(own[0][0], plain[0][0]):
                self.assertEqual((left.clauses, left.provisions), (right.clauses, right.provisions))
        return len(asked)

    def test_only_what_is_new_is_read(self):
        path = self.file("Packages", PACKAGES + MORE)
        self.assertEqual(self.turn(path), 3)
        self.assertEqual(self.turn(path), 0)
        self.file("Packages", PACKAGES.replace(b"3", b"4") + MORE)
        self.assertEqual(self.turn(path), 2)
        self.file("Packages", PACKAGES)
        self.assertEqual(self.turn(path), 2)  # what is gone is forgotten
        self.assertEqual(self.turn(path), 0)

    def test_sources(self):
        path = self.file("Sources", SOURCES)
        for _ in range(2):
            found = memory.indexes_in(self.folder)
            self.assertEqual(read_sources([path], [], found.sections), read_sources([path], []))
            found.write()

    def test_other_files(self):
        """A compressed file and one with other line ends are read as they were."""
        for name, text in (("Packages.gz", gzip.compress(PACKAGES)), ("lines", PACKAGES.replace(b"\n", b"\r\n")),
                           ("empty", b""), ("strange", PACKAGES + b"\nno colon\n"), ("white", b"\n \n" + PACKAGES)):
            for _ in range(2):
                self.turn(self.file(name, text))

    def test_garbled_files(self):
        chance = random.Random(7)
        for _ in range(int(os.environ.get("FOREIGN", "300"))):
            self.turn(self.file("Packages", garbled(chance, PACKAGES + MORE)))

    def test_a_damaged_memory(self):
        path = self.file("Packages", PACKAGES)
        self.turn(path)
        with open(os.path.join(self.folder, memory.INDEXES), "rb") as file:
            good = file.read()
        for text in (good[:-1], good.replace(b"lib1", b"lib2"), b"", b"{}", b"[" * 5000, good.replace(b"\n", b" ")):
            self.file(memory.INDEXES, text)
            self.assertEqual(memory.indexes_in(self.folder).before, {})
            self.assertEqual(self.turn(path), 2)

    def test_a_full_disk(self):
        path = self.file("Packages", PACKAGES)
        with mock.patch.object(memory.tempfile, "NamedTemporaryFile", side_effect=OSError(28, "No space left")), \
                mock.patch.object(memory, "write_whole", side_effect=Fault("x")):
            self.assertEqual(self.turn(path), 2)


if __name__ == "__main__":
    unittest.main()
