"""office-from-packages: what docs/FIRST_WEEK.md and the manual page say of it."""
import bz2
import gzip
import lzma
import os
import shutil
import tempfile
import unittest
from unittest import mock

from helpers import EXAMPLES, example, needs_due, needs_office, office, tool
from office_tools import bags, messages, setups
from office_tools.messages import Kind, Label, kind_of, paragraphs

DAYS = ("--uploaded", "2025-03-01", "--run", "2025-03-06")
PACKAGES = EXAMPLES + "/Packages"
SOURCES = ("--sources", EXAMPLES + "/Sources")
NEXT = ("--uploaded", "2025-03-07", "--run", "2025-03-12")


def package(name, version, *, source="", depends="", provides="", architecture="amd64"):
    """A paragraph of Packages."""
    fields = [("Package", name), ("Source", source), ("Version", version), ("Architecture", architecture),
              ("Depends", depends), ("Provides", provides)]
    return "".join(f"{field}: {value}\n" for field, value in fields if value) + "\n"


@needs_due
class Folder(unittest.TestCase):
    """A folder for the files of a test, and the command in it."""

    def setUp(self):
        self.folder = tempfile.mkdtemp()
        self.addCleanup(shutil.rmtree, self.folder)

    def path(self, name):
        return os.path.join(self.folder, name)

    def file(self, name, text):
        path = self.path(name)
        with open(path, "wb") as file:
            file.write(text if isinstance(text, bytes) else text.encode())
        return path

    def convert(self, *words, hints=False):
        """What the command prints on both outputs; it has to end with status 0. Hints need the program."""
        ended = tool("office-from-packages", *([] if hints else ["--no-hints"]), *words)
        self.assertEqual(ended.returncode, 0, ended.stderr)
        return ended.stdout, ended.stderr.splitlines()

    def messages(self, name):
        """The messages of a bag."""
        with open(self.path(name + "/bag"), "rb") as file:
            return list(bags.messages_in(file.read()))

    def bag(self, name):
        """The same, each a list of its paragraphs."""
        return [list(paragraphs(text)) for text in self.messages(name)]

    def values(self, name, kind, field):
        """The values of a field of the messages of a kind."""
        return [text[0].value(field) for text in self.bag(name) if kind_of(text[0]) is kind]


class FirstWeek(Folder):
    """The archive of examples/."""

    @needs_office
    def test_first_day(self):
        printed, told = self.convert(*DAYS, *SOURCES, self.path("week"), PACKAGES, hints=True)
        self.assertEqual(printed, "uploads 8, drops 0, builds 6, hints 1, orders 1\n")
        self.assertEqual(told, [
            "office-from-packages: odd-tool 1.0_1: left out: bad version '1.0_1'",
            "office-from-packages: libgreet1 amd64 2.0-1: left out: 2.1-1 is newer",
            "office-from-packages: source libgreet 2.0-1: left out: "
            "it is kept for packages that were built with it alone",
            "office-from-packages: broken 0.9-1 amd64: left out: nothing installable meets libgone1 (>= 2)"])
        self.assertEqual(self.values("week", Kind.HINT, "Hint"), ["easy base/12-1 libbase/3.2-4"])
        self.assertEqual(self.values("week", Kind.HINT, "Proposed"), ["2025-03-06"])
        self.assertEqual(self.values("week", Kind.RUN, "Covers"), ["ftp 8, bd 6, rt 1"])
        with open(self.path("week/setup.conf"), "rb") as file:
            setup = setups.parse(file.read())
        self.assertEqual(list(setup.architectures), ["amd64"])
        plain = setups.parse(example("setup.conf")).senders
        self.assertEqual({name: setup.senders[name] for name in plain}, plain)
        self.assertEqual(list(setup.senders), ["ftp", "hand", *(f"again{number}" for number in range(8, 0, -1)), "bd",
                                               "bts", "rt", "clock"])

    def test_spare_senders(self):
        self.convert(*DAYS, "--spare", "2", self.path("week"), self.file("Packages", package("aa", "1")))
        with open(self.path("week/setup.conf"), "rb") as file:
            self.assertEqual(list(setups.parse(file.read()).senders),
                             ["ftp", "hand", "again2", "again1", "bd", "bts", "rt", "clock"])

    def test_maintainers(self):
        """The maintainers of files Sources come with the uploads, as their last field; all else keeps its bytes."""
        self.file("plain", "".join(package(name, "1") for name in ("aa", "bb", "cc", "dd")))
        self.convert(*DAYS, self.path("without"), self.path("plain"))
        mail = {"aa": "C\u00e9line <c@example.org>", "bb": "x" * 1001, "cc": "bell \a <c@example.org>", "ee": "E <e@x>"}
        self.file("Sources", "".join(f"Package: {name}\nVersion: 1\nMaintainer: {value}\n\n"
                                     for name, value in mail.items()))
        self.convert(*DAYS, "--sources", self.path("Sources"), self.path("with"), self.path("plain"))
        due = self.messages("without")
        due[0] += f"Maintainer: {mail['aa']}\n".encode()
        due[4:4] = [b"From: ftp\nNumber: 5\nKind: upload\nSource: ee\nVersion: 1\nUrgency: medium\n"
                    b"Day: 2025-03-01\nMaintainer: E <e@x>\n"]
        due[-1] = due[-1].replace(b"ftp 4", b"ftp 5")
        self.assertEqual(self.messages("with"), due)

    @needs_office
    def test_next_day(self):
        self.convert(*DAYS, *SOURCES, self.path("week"), PACKAGES, hints=True)
        packages = example("Packages").decode().replace("\nVersion: 5-2", "\nVersion: 5-3")
        self.file("Packages", packages.replace("greeter-l10n", "greeter-locales"))
        printed, _ = self.convert(*NEXT, "--after", self.path("week/bag"), *SOURCES, self.path("next"),
                                  self.path("Packages"), hints=True)
        self.assertEqual(printed, "uploads 1, drops 1, builds 2, hints 0, orders 1\n")
        self.assertEqual([text[0].value("Number") for text in self.bag("next")], ["9", "10", "7", "8", "2"])
        self.assertEqual(self.values("next", Kind.RUN, "Covers"), ["ftp 10, bd 8, rt 1"])
        self.assertEqual(self.values("next", Kind.DROP, "Package"), ["greeter-l10n"])

    @needs_office
    def test_office_takes_it(self):
        self.convert(*DAYS, *SOURCES, self.path("week"), PACKAGES, hints=True)
        with open(self.path("week/bag"), "rb") as file:
            data = file.read()
        told = office("replay", "--conf", self.path("week/setup.conf"), given=data).stdout.decode().split("\n")
        self.assertEqual(sum(line.startswith("held ") for line in told), 16)
        self.assertFalse([line for line in told if line.startswith("refused")])
        self.assertIn("ready 1 finished 1", told)


@needs_office
class Hints(Folder):
    """Hints for groups, as the program proposes them, on the first day and on later ones."""

    def archive(self, one, two):
        return package("one", one, depends=f"two (= {two})") + package("two", two, depends=f"one (= {one})") + \
            package("alone", "1")

    def convert_next(self, one, two, *words, days=NEXT):
        """The hints of the day after one on which both sources had version 1."""
        self.convert(*DAYS, self.path("first"), self.file("Packages", self.archive("1", "1")), hints=True)
        self.assertEqual(self.values("first", Kind.HINT, "Hint"), ["easy one/1 two/1"])
        self.convert(*days, "--after", self.path("first/bag"), *words, self.path("next"),
                     self.file("Packages", self.archive(one, two)), hints=True)
        return self.values("next", Kind.HINT, "Hint")

    def test_nothing_is_new(self):
        self.assertEqual(self.convert_next("1", "1"), [])

    def test_one_is_new(self):
        """The other one can't move with it: no group frees it."""
        self.assertEqual(self.convert_next("2", "1"), [])

    def test_both_are_new(self):
        self.assertEqual(self.convert_next("2", "2"), ["easy one/2 two/2"])

    def test_too_young(self):
        """The office proposes what would move on the day of the run."""
        self.assertEqual(self.convert_next("2", "2", days=("--uploaded", "2025-03-07", "--run", "2025-03-08")), [])

    def test_what_stands(self):
        """A hint that was sent before isn't sent again."""
        self.convert(*DAYS, self.path("first"), self.file("Packages", self.archive("1", "1")), hints=True)
        hint = next(text for text in self.messages("first") if kind_of(next(paragraphs(text))) is Kind.HINT)
        with open(self.path("first/bag"), "rb") as file:
            data = file.read()
        without = data.replace(bags.framed(hint), bags.framed(messages.none(Label("rt", 1))))
        for sent, due in [(data, []), (without, ["easy one/1 two/1"])]:
            self.convert(*NEXT, "--after", self.file("sent", sent), self.path("next"), self.path("Packages"),
                         hints=True)
            self.assertEqual(self.values("next", Kind.HINT, "Hint"), due)

    def test_no_hints(self):
        self.assertEqual(self.convert_next("2", "2", "--no-hints"), [])

    def test_the_office_moves_them(self):
        self.assertEqual(self.convert_next("2", "2"), ["easy one/2 two/2"])
        data = b""
        for name in ("first/bag", "next/bag"):
            with open(self.path(name), "rb") as file:
                data += file.read()
        told = office("replay", "--conf", self.path("first/setup.conf"), given=data).stdout.decode().split("\n")
        self.assertIn("easy 2 accept one 2 two 2", told)
        self.assertFalse([line for line in told if line.startswith("easy") and "refuse" in line])


class NoProgram(Folder):

    def test_hints_need_the_program(self):
        with mock.patch.dict(os.environ, {"OFFICE": self.path("none")}):
            ended = tool("office-from-packages", *DAYS, self.path("out"), PACKAGES)
            self.convert(*DAYS, self.path("out"), PACKAGES)
        self.assertEqual(ended.returncode, 4)
        self.assertEqual(ended.stderr.splitlines()[-1],
                         f"office-from-packages: {self.path('none')}: No such file or directory")


class Changes(Folder):
    """Urgency and day of an upload by its file .changes."""

    def changes(self, name, architecture="source", **fields):
        stated = {"Format": "1.8", "Date": "Mon, 03 Mar 2025 23:30:00 -0500", "Source": "one", "Binary": "one",
                  "Architecture": architecture, "Version": "1.0-1", "Distribution": "unstable", "Urgency": "high",
                  "Changes": "\n one (1.0-1) unstable; urgency=high\n .\n   * More.", **fields}
        text = "".join(f"{field}: {value}\n" for field, value in stated.items() if value)
        os.makedirs(self.path("changes"), exist_ok=True)
        self.file("changes/" + name, text)
        return text

    def arrivals(self):
        """Urgency and day of the uploads one and two, and what was printed."""
        packages = self.file("Packages", package("one", "1.0-1+b1", source="one (1.0-1)") + package("two", "1.0-1"))
        _, told = self.convert(*DAYS, "--urgency", "low", "--changes", self.path("changes"), self.path("out"), packages)
        urgencies, days = (self.values("out", Kind.UPLOAD, field) for field in ("Urgency", "Day"))
        return list(zip(urgencies, days)), told

    def test_one_file(self):
        self.changes("one_1.0-1_source.changes")
        self.assertEqual(self.arrivals(), ([("high", "2025-03-03"), ("low", "2025-03-01")], []))

    def test_folders_below(self):
        """reprepro's Logdir has a folder for each file. One that can't be read is reported."""
        os.makedirs(self.path("changes/one_1.0-1_source.0000000"))
        self.changes("one_1.0-1_source.0000000/one_1.0-1_source.changes")
        os.makedirs(self.path("changes/two.changes/three"))
        self.changes("two.changes/three/one.changes", Urgency="critical")
        arrived, told = self.arrivals()
        self.assertEqual((arrived[0], told), (("high", "2025-03-03"), [
            f"office-from-packages: {self.path('changes/two.changes')}: Is a directory: left out"]))

    def test_words_behind_the_urgency(self):
        self.changes("one.changes", Urgency="EMERGENCY (security)", Source="one (1.0-1)")
        self.assertEqual(self.arrivals()[0][0], ("emergency", "2025-03-03"))

    def test_what_brings_the_source_counts(self):
        self.changes("one_1.0-1_amd64.changes", "amd64", Date="Tue, 04 Mar 2025 10:00:00 +0000")
        self.changes("one_1.0-1_source.changes", "source all")
        self.changes("one_1.0-1_zzz.changes", "arm64", Date="Wed, 05 Mar 2025 10:00:00 +0000")
        self.assertEqual(self.arrivals()[0][0], ("high", "2025-03-03"))

    def test_another_version(self):
        self.changes("one.changes", Version="1.0-2")
        self.assertEqual(self.arrivals(), ([("low", "2025-03-01"), ("low", "2025-03-01")], []))

    def test_replaced(self):
        """A more urgent upload for the same suite that a newer one replaced is sent before that one, once."""
        self.changes("one_0.9-1.changes", Version="0.9-1", Urgency="critical", Date="Sat, 01 Mar 2025 09:00:00 +0000")
        self.changes("one_0.9-2.changes", Version="0.9-2", Urgency="emergency", Distribution="experimental")
        self.changes("one_1.0-1.changes", Urgency="low")
        arrived, told = self.arrivals()
        self.assertEqual(arrived, [("critical", "2025-03-01"), ("low", "2025-03-03"), ("low", "2025-03-01")])
        self.assertEqual(told, ["office-from-packages: source one 0.9-1: it was replaced before it was sent; its "
                                "urgency, critical, counts"])
        self.assertEqual(self.values("out", Kind.UPLOAD, "Version"), ["0.9-1", "1.0-1", "1.0-1"])
        self.assertEqual(self.values("out", Kind.RUN, "Covers"), ["ftp 3, bd 2"])
        self.changes("one_1.1-1.changes", Version="1.1-1", Urgency="high")
        self.changes("one_1.2-1.changes", Version="1.2-1", Urgency="low")
        newer = self.file("newer", package("one", "1.2-1") + package("two", "1.0-1"))
        self.convert(*NEXT, "--after", self.path("out/bag"), "--changes", self.path("changes"), self.path("next"),
                     newer)
        self.assertEqual([self.values("next", Kind.UPLOAD, field) for field in ("Number", "Version", "Urgency", "Day")],
                         [["4", "5"], ["1.1-1", "1.2-1"], ["high", "low"], ["2025-03-07"] * 2])

    def test_signed(self):
        text = self.changes("one.changes")
        self.file("changes/one.changes", "-----BEGIN PGP SIGNED MESSAGE-----\nHash: SHA512\n\n" + text +
                  "-----BEGIN PGP SIGNATURE-----\n\niHUEARYKAB0=\n-----END PGP SIGNATURE-----\n")
        self.assertEqual(self.arrivals()[0][0], ("high", "2025-03-03"))

    def test_what_cannot_be_read(self):
        self.changes("one.changes", Urgency="urgent", Date="yesterday")
        arrived, told = self.arrivals()
        self.assertEqual(arrived[0], ("low", "2025-03-01"))
        path = self.path("changes/one.changes")
        self.assertEqual(told, [f"office-from-packages: {path}: its urgency is taken as low: it states urgent",
                                f"office-from-packages: {path}: its day is taken as 2025-03-01: its date is yesterday"])

    def test_a_file_that_states_nothing(self):
        self.changes("one.changes")
        self.file("changes/other.changes", "no control data")
        self.file("changes/empty.changes", "")
        arrived, told = self.arrivals()
        self.assertEqual(arrived[0], ("high", "2025-03-03"))
        cause = "it states no source and version: left out"
        self.assertEqual(told, [f"office-from-packages: {self.path('changes/' + name)}: {cause}"
                                for name in ("empty.changes", "other.changes")])

    def test_no_folder(self):
        ended = tool("office-from-packages", *DAYS, "--changes", self.path("none"), self.path("out"), PACKAGES)
        self.assertEqual((ended.returncode, ended.stderr.splitlines()[-1]),
                         (1, f"office-from-packages: {self.path('none')}: No such file or directory"))


class LeftOut(Folder):
    """What can't be sent, and what is printed about it."""

    def test_a_package_that_is_too_long(self):
        """Of a package that is too long those names of Provides alone are kept that some package depends on."""
        many = ", ".join(f"librust-winapi+feature{number}-dev (= 1.0-1)" for number in range(2000))
        packages = package("long", "1.0-1", provides=many) + package("user", "1", depends="librust-winapi+feature7-dev")
        _, told = self.convert(*DAYS, self.path("out"), self.file("Packages", packages))
        self.assertEqual(len(told), 1)
        self.assertRegex(told[0], r"long amd64 1.0-1: it has \d+ bytes, and a message at most 65536: "
                         "left out are 1999 of its 2000 provisions, which nothing here needs")
        builds = [text for text in self.bag("out") if kind_of(text[0]) is Kind.BUILD]
        self.assertEqual(builds[0][1].value("Provides"), "librust-winapi+feature7-dev (= 1.0-1)")

    def test_a_package_that_is_still_too_long(self):
        depends = ", ".join(f"a-package-with-a-name-{number}" for number in range(3000))
        packages = package("long", "1.0-1", depends=depends) + package("other", "1")
        printed, told = self.convert(*DAYS, "--with-uninstallable", self.path("out"), self.file("Packages", packages))
        self.assertEqual(printed, "uploads 1, drops 0, builds 1, hints 0, orders 1\n")
        self.assertRegex(told[0], r"long amd64 1.0-1: left out: it has \d+ bytes, and a message at most 65536$")

    def test_many_binaries(self):
        """A build has at most 63 packages, and 65,536 bytes."""
        packages = "".join(package(f"part{number:03}", "1", source="many") for number in range(130))
        printed, _ = self.convert(*DAYS, self.path("out"), self.file("Packages", packages))
        self.assertEqual(printed, "uploads 1, drops 0, builds 3, hints 0, orders 1\n")
        self.assertEqual([len(text) - 1 for text in self.bag("out") if kind_of(text[0]) is Kind.BUILD], [63, 63, 4])

    def test_relations_that_the_office_refuses(self):
        for depends in ("foo [amd64]", "foo <!nocheck>", "Foo", "foo (1.0)", "foo (= 1_0)", "foo (~ 1)", "foo | "):
            with self.subTest(depends=depends):
                packages = package("bad", "1", depends=depends) + package("good", "1")
                printed, told = self.convert(*DAYS, "--with-uninstallable", self.path("out"),
                                             self.file("Packages", packages))
                self.assertEqual(printed, "uploads 1, drops 0, builds 1, hints 0, orders 1\n")
                self.assertRegex(told[0], "^office-from-packages: bad 1: left out: bad ")

    def test_older_versions_and_what_is_gone(self):
        self.convert(*DAYS, self.path("out"), self.file("Packages", package("one", "2") + package("two", "1")))
        printed, told = self.convert(*NEXT, "--after", self.path("out/bag"), self.path("next"),
                                     self.file("Packages", package("one", "1")))
        self.assertEqual(printed, "uploads 0, drops 1, builds 0, hints 0, orders 1\n")
        self.assertEqual(told, [
            "office-from-packages: source two 1: it is gone, and nothing takes an upload back",
            "office-from-packages: source one 1: left out: 2 was sent, and is newer",
            "office-from-packages: one amd64 1: left out: 2 was sent, and is newer"])


class Files(Folder):
    """Files of each form, and faults of files."""

    def test_compressed(self):
        whole = example("Packages")
        plain, told = self.convert(*DAYS, self.path("plain"), PACKAGES)
        for name, compress in [("P.gz", gzip.compress), ("P.xz", lzma.compress), ("P.bz2", bz2.compress)]:
            with self.subTest(name=name):
                self.assertEqual(self.convert(*DAYS, self.path("out"), self.file(name, compress(whole))), (plain, told))
                with open(self.path("out/bag"), "rb") as found, open(self.path("plain/bag"), "rb") as due:
                    self.assertEqual(found.read(), due.read())
        ended = tool("office-from-packages", *DAYS, "--no-hints", self.path("out"), "-", given=whole)
        self.assertEqual((ended.stdout, ended.stderr.splitlines()), (plain, told))

    def test_faults(self):
        one = self.file("Packages", package("one", "1"))
        for words, cause in [
                ((self.path("none"),), f"{self.path('none')}: No such file or directory"),
                ((self.file("empty", ""),), "the files name 0 architectures; 1 to 16 are taken"),
                ((self.file("text", "A line without more\n"),), f"{self.path('text')}: apt can't read it: "),
                ((self.file("lines", "Package: one\nVersion: 1\nArchitecture: amd64\n\nA line without: more\n"),),
                 f"{self.path('lines')}: a line has no colon: A line without"),
                ((self.file("bytes", b"Package: \xff\n"),), f"{self.path('bytes')}: it is no text in UTF-8"),
                ((self.file("bad.gz", b"no gzip"),), f"{self.path('bad.gz')}: "),
                (("--after", self.path("none"), one), f"{self.path('none')}: No such file or directory"),
                (("--after", one, one), f"{one}: it is no whole bag: BadHeader at byte 0")]:
            with self.subTest(cause=cause):
                ended = tool("office-from-packages", *DAYS, self.path("out"), *words)
                self.assertEqual(ended.returncode, 1, ended.stderr)
                self.assertTrue(ended.stderr.startswith("office-from-packages: " + cause), ended.stderr)
                self.assertFalse(os.path.exists(self.path("out")))

    def test_words(self):
        for words in ((), ("--uploaded", "2025-02-30", "--run", "2025-03-01", "a", "b"), (*DAYS, "--urgent", "a", "b")):
            self.assertEqual(tool("office-from-packages", *words).returncode, 2)
        self.assertEqual(tool("office-from-packages", "--help").returncode, 0)


if __name__ == "__main__":
    unittest.main()
