"""Files that others write: whatever is in them, their reader reports it or ends by a `Fault`.

Each file is a good one that was garbled by a generator of a fixed seed. FOREIGN states how many of each kind there are
(300), and FOREIGN_SEED another seed.
"""
import os
import random
import tempfile
import unittest
from unittest import mock

import helpers  # noqa: F401
from office_tools import control, relations
from office_tools.bags import framed
from office_tools.faults import Fault
from office_tools.feed import archive, known, memory
from office_tools.feed.mailbox import Folder, Outgoing
from office_tools.files import read_bytes, sealed
from office_tools.from_packages import told
from office_tools.from_packages.binaries import fitting, read_binaries
from office_tools.from_packages.sources import Arrival, read_arrivals, read_sources
from office_tools.messages import Label, Urgency, build, label_of, upload

COUNT = int(os.environ.get("FOREIGN", "300"))
SEED = int(os.environ.get("FOREIGN_SEED", "78"))

PACKAGES = b"""Package: app
Source: lib (1:2.0-1)
Version: 1:2.0-1+b1
Architecture: amd64
Depends: libc6 (>= 2.36), lib1:any (= 1:2.0-1) | lib-virtual,
 other
Provides: app-api (= 3), mail

Package: lib1
Version: 3
Architecture: all
Pre-Depends: dpkg
"""
SOURCES = b"""Package: lib
Version: 1:2.0-1
Maintainer: A <a@example.org>
Extra-Source-Only: no

Package: other
Version: 3
"""
CHANGES = b"""-----BEGIN PGP SIGNED MESSAGE-----
Hash: SHA512

Format: 1.8
Date: Sat, 01 Mar 2025 09:00:00 +0000
Source: lib
Architecture: source amd64
Version: 1:2.0-1
Urgency: high
Changes:
 lib (1:2.0-1) unstable; urgency=high
Checksums-Sha1:
 da39a3ee5e6b4b0d3255bfef95601890afd80709 0 lib_2.0.dsc
Files:
 d41d8cd98f00b204e9800998ecf8427e 0 net optional lib_2.0.dsc
-----BEGIN PGP SIGNATURE-----

iQ
-----END PGP SIGNATURE-----
"""
RELEASE = b"""Suite: x
Date: Sat, 11 Jul 2026 10:16:37 UTC
Architectures: all amd64 arm64
Components: main contrib
SHA256:
 d41d8cd98f00b204e9800998ecf8427e 0 main/binary-amd64/Packages
"""
BAG = b"".join(map(framed, (
    b"From: ftp\nNumber: 1\nKind: upload\nSource: lib\nVersion: 1:2.0-1\nUrgency: high\nDay: 2025-03-01\n",
    b"From: bd\nNumber: 1\nKind: build\n\nPackage: app\nVersion: 3\nArchitecture: amd64\nSource: lib (1:2.0-1)\n",
    b"From: clock\nNumber: 1\nKind: run\nDay: 2025-03-01\nCovers: ftp 1, bd 1\n")))
PIECES = (
    b"\x81", b"\xc3", b"\xff\xfe", b"\x00", b"\xc2\xa0", b"\xe2\x80\xa8", b"\x0b", b"\x0c", b"\x1c", b"\x85", b"\r",
    b"\r\n", b"\n\n", b"\n", b": ", b":", b" ", b"\t", b"-", b"#", b"(", b")", b"|", b",", b"=", b"<<", b"+b1", b"~",
    b"9" * 30, b"9" * 5000, b"99999999999999999999", b"+9999", b"x" * 300, b"\xf0\x9f\x92\xa9", b"\xed\xa0\x80",
    b"[", b"{", b"-----BEGIN PGP SIGNED MESSAGE-----\n", b"Version: 1\n", b"Package: aa\n",
    b"Date: Sat, 01 Mar 0 0:0:0\n", b"mail 5\n", b"mail 999999999\n", b"1e999", b"-1", b"[[[[", b"\"")


def garbled(chance: random.Random, data: bytes) -> bytes:
    """A text with one to four changes: a piece put in, put in the place of a part, a part out, doubled or moved."""
    for _ in range(chance.randint(1, 4)):
        start = chance.randint(0, len(data))
        end = min(len(data), start + chance.choice((0, 1, 1, 3, 20, 200)))
        part = data[start:end]
        piece, other = chance.choice(PIECES), bytes([chance.randrange(256)])
        new = chance.choice((piece, piece, b"", part + part, other))
        data = data[:start] + new + data[end:]
    return data


class Reading(unittest.TestCase):
    """A folder for a file, and the lines that are printed."""

    def setUp(self):
        folder = tempfile.TemporaryDirectory()
        self.addCleanup(folder.cleanup)
        self.folder = folder.name
        self.path = os.path.join(self.folder, "x.changes")
        self.lines = []
        patch = mock.patch.object(told, "listener", lambda what, weight: self.lines.append(what))
        patch.start()
        self.addCleanup(patch.stop)


class Garbled(Reading):

    def each(self, data, read, name="x.changes"):
        """Reads many garbled files of a kind. Anything but an answer or a `Fault` fails, and shows the file."""
        chance = random.Random(f"{SEED} {read.__name__}")
        good = 0
        for _ in range(COUNT):
            text = garbled(chance, data)
            with open(os.path.join(self.folder, name), "wb") as file:
                file.write(text)
            try:
                read(os.path.join(self.folder, name))
                good += 1
            except Fault as fault:
                self.assertTrue(fault.cause)
            except Exception as fault:
                raise AssertionError(repr(text)) from fault
        self.assertGreater(good, 0)

    def test_packages(self):
        """What is taken fits into a message whose paragraphs are as many."""
        def read(path):
            for binary in fitting(read_binaries([path])[0]):
                text = build(Label("bd", 1), [binary.paragraph()])
                self.assertEqual(label_of(text), Label("bd", 1))
        self.each(PACKAGES, read)

    def test_sources(self):
        def read(path):
            found = read_sources([path], [])
            for name, version in found.versions.items():
                relations.checked_version(version)
                text = upload(Label("ftp", 1), name, version, Urgency.LOW, "2025-03-01", found.maintainers.get(name))
                self.assertEqual(label_of(text), Label("ftp", 1))
        self.each(SOURCES, read)

    def test_changes(self):
        """No file ends the reading of a folder."""
        def read(_):
            for arrival in read_arrivals(self.folder, Arrival(Urgency.MEDIUM, "2025-03-01")).values():
                self.assertRegex(arrival.day, r"^[0-9]{4}-[0-9]{2}-[0-9]{2}$")
        self.each(CHANGES, read)
        self.assertTrue(self.lines)

    def test_release(self):
        def read(path):
            archive.release_of(path)
        self.each(RELEASE, read)

    def test_sent_mail(self):
        def read(path):
            known.sent_in(path, read_bytes(path))
        self.each(BAG, read)

    def test_the_folder_of_a_feed(self):
        def read(_):
            Folder(self.folder).read()
            Outgoing(self.folder).left({})
            for name in os.listdir(self.folder):
                if ".bad" in name:
                    os.unlink(os.path.join(self.folder, name))
        self.each(BAG, read, "bag")
        self.each(BAG, read, "outgoing")

    def test_what_a_feed_knows(self):
        found = known.Known({"ftp": 1}, {"lib": "1"}, {("aa", "amd64"): "1"}, {("bb", "all"): "2"}, {}, {
            (("aa", "amd64"), "1"): {"again1"}}, {3: "From: rt\n"}, {"ftp": 1}, "2025-03-01", {"ftp": ["x", "y"]})
        text = found.written(3, "abc")
        self.assertEqual((known.read(text).known, known.read(text).size), (found, 3))

        def read(path):
            with open(path, "rb") as file:
                data = file.read()
            if data != text:
                self.assertRaises(Fault, known.read, data)
        self.each(text, read)

    def test_what_a_feed_knows_in_another_form(self):
        for text in (b"", b"[]", b"{}", b'{"form": 1}', b'{"form": 2}', b'{"form": 2, "taken": {}}', b"[" * 5000,
                     b"\xff"):
            with self.subTest(text=text[:20]):
                self.assertRaises(Fault, known.read, sealed(text))

    def test_what_a_feed_remembers(self):
        memory.Memory({"a line": "2025-03-01"}, {"x_Release": {"date": "2025-03-01"}}).write(self.folder)
        self.assertEqual(memory.remembered(self.folder).lines, {"a line": "2025-03-01"})
        with open(os.path.join(self.folder, memory.MEMORY), "rb") as file:
            data = file.read()

        def read(_):
            memory.remembered(self.folder)
        self.each(data, read, memory.MEMORY)


class Named(Reading):
    """Files that once ended a command."""

    def arrivals(self, data, name="x.changes"):
        with open(os.path.join(self.folder, name), "wb") as file:
            file.write(data)
        return read_arrivals(self.folder, Arrival(Urgency.MEDIUM, "2025-03-05"))

    def test_bytes_of_no_encoding(self):
        self.assertEqual(self.arrivals(b"\x81"), {})
        self.assertEqual(len(self.lines), 1)

    def test_a_date_that_is_no_date(self):
        date = b"Sat, 01 Mar 99999999999999999999 10:00:00 +0100"
        found = self.arrivals(CHANGES.replace(b"Sat, 01 Mar 2025 09:00:00 +0000", date))
        self.assertEqual(found, {("lib", "1:2.0-1"): Arrival(Urgency.HIGH, "2025-03-05")})

    def test_a_pipe_and_a_folder(self):
        os.mkfifo(self.path)
        os.mkdir(os.path.join(self.folder, "y.changes"))
        self.assertEqual(self.arrivals(CHANGES, "z.changes"),
                         {("lib", "1:2.0-1"): Arrival(Urgency.HIGH, "2025-03-01")})
        self.assertEqual([line.split(": ", 1)[1] for line in self.lines],
                         ["it is no plain file: left out", "Is a directory: left out"])

    def test_a_name_that_is_not_ascii(self):
        for name in (b"\xc3", "\u00e9".encode(), "Vers\u2028ion".encode()):
            with open(self.path, "wb") as file:
                file.write(name + b": x\n\nPackage: aa\nVersion: 1\n")
            with self.assertRaises(Fault):
                list(control.sections(self.path, ["Package"]))

    def test_white(self):
        """Only space, tab and line ends are white to the office (docs/RULES.md, parts 2 and 3)."""
        for white in ("\u00a0", "\x0b", "\x0c", "\x1c", "\x85", "\u2028"):
            for value in (f"aa{white}(>= 1)", f"aa (>={white}1)", f"aa,{white}bb", f"{white}aa"):
                with self.subTest(value=value), self.assertRaises(relations.Bad):
                    relations.clauses(value, "Depends")
            with self.assertRaises(relations.Bad):
                relations.source_of(f"aa{white}(1)", "aa", "1")
        self.assertEqual(len(relations.clauses("aa\t(>=\r\n1) , bb", "Depends")), 2)


if __name__ == "__main__":
    unittest.main()
