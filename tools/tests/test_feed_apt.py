"""office-feed: what apt fetches for lines of a sources.list, and archives that are signed."""
import datetime
import email.utils
import hashlib
import os
import shlex
import shutil
import subprocess
import unittest

from helpers import TOP, Keyring, Serving, needs_sync, tool
from office_tools.control import sections
from office_tools.faults import Fault
from office_tools.feed import archive, brakes
from office_tools.messages import paragraphs
from test_feed import FIRST, Folder

NOBODY = "http://127.0.0.1:1"
SUITE = """Codename: {name}
Suite: {name}
Architectures: amd64 arm64 source
Components: main
Description: a suite
SignWith: archive@example.org
{more}
"""
DSC = """Format: 1.0
Source: lone
Binary: lone
Architecture: any
Version: 0.1-1
Maintainer: A <a@example.org>
Standards-Version: 4.6.2
Files:
 {digest} {size} lone_0.1-1.tar.gz
"""
DEB = "Package: lone\nVersion: 0.1-1\nArchitecture: {}\nMaintainer: A <a@example.org>\nDescription: tiny\n"
PLACE = ("-S", "misc", "-P", "optional")


class Fetching(Folder):

    def publish(self, packages, day):
        """Makes an archive without signature, of one architecture; the line for apt."""
        self.file("archive/dists/x/main/binary-amd64/Packages", packages)
        self.file("archive/dists/x/Release", f"Suite: x\nDate: {email.utils.format_datetime(day)}\n"
                  "Architectures: amd64\nComponents: main\nSHA256:\n "
                  f"{hashlib.sha256(packages.encode()).hexdigest()} {len(packages)} main/binary-amd64/Packages\n")
        return f"deb [trusted=yes arch=amd64] file:{self.folder}/archive x main"

    def test_an_archive_that_was_put_back(self):
        """apt itself keeps the newer lists. The feed reads what is there, and sees that it is older."""
        days = [datetime.datetime(2025, 3, day, tzinfo=datetime.timezone.utc) for day in (4, 3)]
        found = [archive.fetched([self.publish(text, day)], self.path("apt")) for text, day in zip(
            (FIRST.replace("Version: 1", "Version: 2"), FIRST), days)]
        self.assertEqual([{fields["Version"] for fields in sections(files.packages[0], ["Version"])}
                          for files in found[1:]], [{"1"}])
        newer, older = (files.releases for files in found)
        self.assertEqual([release.date for release in (*newer.values(), *older.values())], days)
        with self.assertRaisesRegex(Fault, "was put back.* --other-release"):
            brakes.check_releases(older, brakes.remembered_releases(newer))

    def test_apt_fetches_into_a_folder_that_is_named_from_here(self):
        line = self.publish(FIRST, datetime.datetime.now(datetime.timezone.utc))
        here = os.getcwd()
        os.chdir(self.folder)
        self.addCleanup(os.chdir, here)
        told = tool("office-feed", "--url", NOBODY, "--cache", "cache", "--apt", line)
        self.assertEqual(told.returncode, 4, told.stderr)
        self.assertIn(f"{NOBODY}/kept: ", told.stderr)


def lines_of_the_page():
    """The lines for apt of the settings that docs/ARCHIVE.md shows."""
    with open(os.path.join(TOP, "docs/ARCHIVE.md"), encoding="utf-8") as file:
        text = file.read()
    block = text[text.index("    Pull: reprepro"):]
    shown = "".join(line[4:] + "\n" for line in block[:block.index("\n\n")].splitlines())
    words = shlex.split(next(paragraphs(shown.encode())).value("Feed"))
    return [words[place + 1] for place, word in enumerate(words) if word == "--apt"]


@unittest.skipUnless(all(map(shutil.which, ("reprepro", "gpg", "dpkg-deb"))), "there is no reprepro, gpg or dpkg-deb")
class Signed(Folder):
    """A signed archive of reprepro, by the lines of docs/ARCHIVE.md."""

    def setUp(self):
        super().setUp()
        os.chmod(self.folder, 0o755)  # apt reads as another user
        self.keyring = Keyring(self.path("home"))
        self.addCleanup(self.keyring.end)
        self.keys = {name: self.key(name) for name in ("archive", "other")}
        self.file("archive/conf/distributions", SUITE.format(name="unstable", more="") +
                  SUITE.format(name="ordered", more="Pull: - all\n"))
        self.file("archive/conf/pulls", "Name: all\nFrom: unstable\n")
        self.reprepro(*PLACE, "includedeb", "unstable", *map(self.deb, ("amd64", "arm64")))
        self.reprepro(*PLACE, "includedsc", "unstable", self.dsc())
        self.reprepro("pull", "ordered")

    def key(self, name):
        public = self.keyring.make(name)
        with open(self.path(name + ".gpg"), "wb") as file:
            file.write(public)
        return self.path(name + ".gpg")

    def deb(self, architecture):
        self.file(f"{architecture}/DEBIAN/control", DEB.format(architecture))
        path = self.path(f"lone_0.1-1_{architecture}.deb")
        subprocess.run(["dpkg-deb", "--root-owner-group", "-b", self.path(architecture), path], check=True,
                       stdout=subprocess.DEVNULL)
        return path

    def dsc(self):
        text = "the source"
        self.file("lone_0.1-1.tar.gz", text)
        return self.file("lone_0.1-1.dsc", DSC.format(digest=hashlib.md5(text.encode()).hexdigest(), size=len(text)))

    def reprepro(self, *words):
        subprocess.run(["reprepro", "--silent", "--gnupghome", self.keyring.home, "-b", self.path("archive"), *words],
                       check=True, stdout=subprocess.DEVNULL)

    def lines(self, signed_by):
        """The page's lines for this archive, with a key or without one."""
        found = [line.replace("/srv/archive", self.path("archive")) for line in lines_of_the_page()]
        known = " signed-by=/etc/office/archive.gpg"
        self.assertEqual([line.count(known.strip()) for line in found], [1, 1])
        option = f" signed-by={self.keys[signed_by]}" if signed_by else ""
        return [line.replace(known, option).replace(f"[{known.strip()}]", f"[{option.strip()}]" if option else "")
                for line in found]

    def test_what_is_fetched(self):
        """All of both architectures, and the sources."""
        files = archive.fetched(self.lines("archive"), self.path("apt"))
        found = [fields["Architecture"] for path in files.packages for fields in sections(path, ["Architecture"])]
        self.assertEqual(sorted(found), ["amd64", "arm64"])
        self.assertEqual([dict(fields) for path in files.sources for fields in sections(path, ["Package", "Version"])],
                         [{"Package": "lone", "Version": "0.1-1"}])
        self.assertEqual([release.architectures for release in files.releases.values()], [{"amd64", "arm64"}])

    def test_a_key_that_is_missing(self):
        """Without the archive's key, or with another one, a sentence says what the line lacks."""
        for signed_by in (None, "other"):
            with self.subTest(signed_by=signed_by), self.assertRaises(Fault) as raised:
                archive.fetched(self.lines(signed_by), self.path("apt"))
            due = (f"apt-get: The repository 'file:{self.path('archive')} ordered InRelease' is not signed by a key "
                   "that apt trusts here: name the archive's key in the line, as [signed-by=/etc/office/archive.gpg]")
            self.assertEqual((raised.exception.cause, raised.exception.status), (due, 4))

    @needs_sync
    def test_a_feed(self):
        with Serving() as office:
            words = ("office-feed", "--url", office.url, "--cache", self.path("cache"), "--day", "2025-03-03")
            refused, fed = (tool(*words, *(word for line in self.lines(signed_by) for word in ("--apt", line)))
                            for signed_by in ("other", "archive"))
        self.assertEqual((refused.returncode, refused.stdout), (4, ""))
        self.assertEqual((fed.returncode, fed.stdout.splitlines()),
                         (0, ["uploads 1, drops 0, builds 1, hints 0, unhints 0, orders 1", "ready 1 finished 1"]))


if __name__ == "__main__":
    unittest.main()
