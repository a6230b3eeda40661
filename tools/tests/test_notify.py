"""office-notify: one mail for each maintainer whose sources a run moved, once."""
import mailbox
import os
import stat
import tempfile
import unittest

from helpers import Serving, needs_office, tool, tool_here
from office_tools.notify import command
from office_tools.notify.maintainers import address_of
from office_tools.service import Service

# Run 1 moves aa and bb (one maintainer), cc (another one), dd (none). Run 2 moves a new aa, and takes cc out.
OWN = "Ann, the first <ann@example.org>"


def upload(number, source, version, *more):
    lines = [f"From: ftp\nNumber: {number}\nKind: upload\nSource: {source}\nVersion: {version}\nUrgency: critical",
             "Day: 2025-03-01", *more]
    return "\n".join(lines) + "\n"


def build(number, package, version):
    return f"From: bd\nNumber: {number}\nKind: build\n\nPackage: {package}\nVersion: {version}\nArchitecture: all\n"


FIRST = [upload(1, "aa", "1-1", f"Maintainer: {OWN}"), upload(2, "bb", "2-1", "Maintainer: Ann <Ann@example.org>"),
         upload(3, "cc", "3-1", "Maintainer: C\u00e9line <celine@example.org>"), upload(4, "dd", "4-1"),
         *[build(number, name, f"{number}-1") for number, name in enumerate(("aa", "bb", "cc", "dd"), 1)],
         "From: clock\nNumber: 1\nKind: run\nDay: 2025-03-01\nCovers: ftp 4, bd 4\n"]
SECOND = [upload(5, "aa", "1-2", f"Maintainer: {OWN}"), build(5, "aa", "1-2"),
          "From: rt\nNumber: 1\nKind: hint\nHint: remove cc/3-1\n",
          "From: clock\nNumber: 2\nKind: run\nDay: 2025-03-02\nCovers: ftp 5, bd 5, rt 1\n"]
NONE = "office-notify: run 1: dd: no maintainer is known\n"


@needs_office
class Notify(unittest.TestCase):

    def setUp(self):
        self.serving = Serving()
        self.serving.__enter__()
        self.addCleanup(self.serving.__exit__)
        folder = tempfile.TemporaryDirectory()
        self.addCleanup(folder.cleanup)
        self.folder = folder.name
        self.mail(FIRST)

    def mail(self, texts):
        for text in texts:
            self.assertTrue(Service(self.serving.url).post("/mail", text.encode()).is_good)

    def path(self, name):
        return os.path.join(self.folder, name)

    def notify(self, *words):
        own = ["--url", self.serving.url, "--from", "office@example.net"]
        return tool_here("office-notify", command.main, *own, *words)

    def box(self):
        """The recipients, subjects and lines of the mails, as they were added."""
        box = mailbox.mbox(self.path("mbox"))
        self.addCleanup(box.close)
        return [(str(mail["To"]), mail["Subject"], mail.get_payload(decode=True).decode().splitlines()) for mail in box]

    def test_a_run(self):
        told = self.notify("--run", "1", "--mbox", self.path("mbox"), "--pages", "https://example.org/office/")
        self.assertEqual(told, ("", NONE, 0))
        (to, subject, lines), (other, of_cc, _) = self.box()
        self.assertIn("<ann@example.org>", to)
        self.assertEqual(subject, "2 of your sources migrated to testing or left it")
        page = "    https://example.org/office/source/"
        self.assertEqual(lines, ["Run 1 of 2025-03-01:", "", "  aa 1-1 migrated to testing (it is new in testing)",
                                 page + "aa.html", "  bb 2-1 migrated to testing (it is new in testing)",
                                 page + "bb.html"])
        self.assertIn("<celine@example.org>", other)
        self.assertEqual(of_cc, "cc 3-1 migrated to testing")

    def test_state(self):
        """The first call begins with the next run; each run is mailed once."""
        words = ["--state", self.path("state"), "--mbox", self.path("mbox")]
        told = self.notify(*words)
        self.assertEqual(told, ("", f"office-notify: {self.path('state')} is new: it begins after run 1\n", 0))
        self.assertEqual(self.notify(*words), ("", "", 0))
        self.mail(SECOND)
        for _ in range(2):
            self.assertEqual(self.notify(*words), ("", "", 0))
            self.assertEqual([(subject, lines[2:]) for _, subject, lines in self.box()],
                             [("cc 3-1 was taken out of testing", ["  cc 3-1 was taken out of testing"]),
                              ("aa 1-2 migrated to testing", ["  aa 1-2 migrated to testing (testing had 1-1)"])])

    def test_a_mailer_that_fails(self):
        """Who got mail before the mailer failed doesn't get it again."""
        mailer = self.path("mailer")
        with open(mailer, "w", encoding="ascii") as file:
            file.write(f'#!/bin/sh\n[ ! -e {self.folder}/full ] || exit 75\ncat >> {self.folder}/sent\n'
                       f'[ -e {self.folder}/once ] || touch {self.folder}/full\n')
        os.chmod(mailer, stat.S_IRWXU)
        with open(self.path("state"), "w", encoding="ascii") as file:
            file.write('{"run": 0, "done": []}')
        words = ["--state", self.path("state"), "--sendmail", mailer]
        told = self.notify(*words)
        self.assertEqual(told[2], 3)
        self.assertIn("status 75: the mail to", told[1])
        os.rename(self.path("full"), self.path("once"))
        self.assertEqual(self.notify(*words), ("", NONE, 0))
        with open(self.path("sent"), encoding="utf-8") as file:
            sent = file.read()
        self.assertEqual((sent.count("ann@example.org"), sent.count("celine@example.org")), (1, 1))
        self.assertIn("Auto-Submitted: auto-generated\n", sent)

    def test_sources(self):
        """A file Sources has the maintainers of sources whose upload names none; else it goes to a stated address."""
        with open(self.path("Sources"), "w", encoding="utf-8") as file:
            file.write("Package: dd\nMaintainer: D <dd@example.org>\n\nPackage: aa\nMaintainer: X <x@example.org>\n")
        told = self.notify("--run", "1", "--sources", self.path("Sources"))
        self.assertEqual(told[1:], ("", 0))
        self.assertIn("To: D <dd@example.org>\n", told[0])
        self.assertNotIn("x@example.org", told[0])
        told = self.notify("--run", "1", "--to", "team@example.org")
        self.assertEqual((told[0].count("To: team@example.org\n"), told[1:]), (1, ("", 0)))

    def test_refusals(self):
        self.assertEqual(self.notify("--run", "2")[1:], ("office-notify: run 2 isn't finished: 1 are\n", 2))
        for words in [[], ["--run", "0"], ["--run", "1", "--state", "x"], ["--run", "1", "--to", "nobody"]]:
            self.assertEqual(self.notify(*words)[2], 2, words)
        with open(self.path("state"), "wb") as file:
            file.write(b"\xff\x00")
        self.assertEqual(self.notify("--state", self.path("state"))[2], 2)


class Addresses(unittest.TestCase):

    def test_addresses(self):
        for value, due in [("A B <a@b.org>", "a@b.org"), ("a@b.org", "a@b.org"), ("A,\n B <a@b.org>", "a@b.org"),
                           ("", None), ("A B", None), ("A <a@b> <c@d>", None), ("<@b.org>", None),
                           ("A <a@b.org>\nBcc: x@y", None), ("\u00e9 <\u00e9@b.org>", None)]:
            found = address_of(value)
            self.assertEqual(found.addr_spec if found else None, due, value)

    def test_no_office(self):
        told = tool("office-notify", "--url", "http://127.0.0.1:1", "--run", "1")
        self.assertEqual((told.stdout, told.returncode), ("", 4))


if __name__ == "__main__":
    unittest.main()
