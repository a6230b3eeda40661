"""What office-lint says of single messages: each slip that a message may have, and what is due of it."""
import os
import tempfile
import unittest

from helpers import SETUP, Serving, example, needs_office, office, tool, tool_here
from office_tools import bags
from office_tools.lint import command
from office_tools.service import Service

TODAY = "2025-03-22"


def message(sender, number, kind, *lines):
    """A message of these further lines."""
    return "\n".join([f"From: {sender}", f"Number: {number}", f"Kind: {kind}", *lines, ""]).encode()


def hint(number, wish):
    return message("rt", number, "hint", "Hint: " + wish)


def upload(number, source, version, day="2025-03-14"):
    return message("ftp", number, "upload", "Source: " + source, "Version: " + version, "Urgency: low", "Day: " + day)


def build(number, *lines):
    return message("bd", number, "build", "", *lines)


def delays(number, *days):
    names = ["Low", "Medium", "High", "Critical"]
    return message("rt", number, "delays", *[f"{name}: {of}" for name, of in zip(names, days)])


def order(number, covers, day="2025-03-22"):
    return message("clock", number, "run", "Day: " + day, "Covers: " + covers)


def bug(number, *lines):
    return message("bts", number, "bug", "Bug: 1001", *lines)


# An office that keeps this. Unstable has greeter 2.0-1 and mailer 5-2, and the hint rt 9 is in force.
KEPT = [
    upload(1, "greeter", "1.0-1"), upload(2, "greeter", "2.0-1"), upload(3, "mailer", "5-2"), upload(4, "chess", "7-1"),
    build(1, "Package: greeter", "Version: 2.0-1", "Architecture: amd64"),
    build(2, "Package: mailer", "Version: 5-2", "Architecture: amd64"),
    build(3, "Package: mailer", "Version: 5-2", "Architecture: arm64"),
    *[message("rt", number, "none") for number in range(1, 9)], hint(9, "block chess"),
    message("bts", 1, "none"), order(1, "ftp 1", "2025-03-02"), order(2, "ftp 3, bd 3, rt 8, bts 1", "2025-03-10")]

# A name, a message, and the lines that are due of it: `LINE: ..`.
SLIPS = [
    ("a hint for a misspelt source", hint(10, "unblock greeeter/2.0-1"), ["4: warning: no source greeeter"]),
    ("a block of a misspelt source", hint(10, "block greeeter"), ["4: warning: no source greeeter"]),
    ("a removal of another version", hint(10, "remove mailer/9-9"),
     ["4: warning: testing has no mailer: this removes nothing"]),
    ("days for a version to come", hint(10, "age-days 99 mailer/5-3"), ["4: warning: unstable has mailer 5-2"]),
    ("a group with a misspelt source", hint(10, "easy greeter/2.0-1 nosuch/1-1"), ["4: warning: no source nosuch"]),
    ("a good hint", hint(10, "unblock greeter/2.0-1"), []),
    ("no such hint", message("rt", 10, "unhint", "Cancels: 77"),
     ["4: warning: no hint in force has the number 77"]),
    ("a message that is no hint", message("rt", 10, "unhint", "Cancels: 8"),
     ["4: warning: no hint in force has the number 8"]),
    ("a hint in force", message("rt", 10, "unhint", "Cancels: 9"), []),
    ("a bug of a misspelt source", bug(2, "Source: chesss", "Severity: serious"), ["5: warning: no source chesss"]),
    ("a drop of a misspelt package",
     message("ftp", 5, "drop", "Package: greeetr", "Architecture: amd64", "Version: 2.0-1"),
     ["4: warning: unstable has no row of greeetr on amd64: this drops nothing"]),
    ("a drop up to a lower version",
     message("ftp", 5, "drop", "Package: greeter", "Architecture: amd64", "Version: 1.0-1"),
     ["4: warning: unstable has 2.0-1 of greeter on amd64: this drops nothing"]),
    ("a drop on another architecture",
     message("ftp", 5, "drop", "Package: greeter", "Architecture: arm64", "Version: 2.0-1"),
     ["4: warning: unstable has no row of greeter on arm64: this drops nothing"]),
    ("a good drop", message("ftp", 5, "drop", "Package: greeter", "Architecture: amd64", "Version: 2.0-1"), []),
    ("an upload below unstable", upload(5, "greeter", "1.5-1"),
     ["5: warning: unstable has greeter 2.0-1: this upload changes nothing"]),
    ("the same version in other letters", upload(5, "greeter", "0:2.0-01"),
     ["5: warning: unstable has greeter 2.0-1: this upload changes nothing"]),
    ("a good upload", upload(5, "greeter", "2.0-2"), []),
    ("a build of a misspelt source",
     build(4, "Package: mailer", "Version: 5-2", "Architecture: amd64", "Source: mailerr"),
     ["8: warning: no source mailerr",
      "5: warning: unstable has mailer 5-2 on amd64: this build changes nothing"]),
    ("a build of a version to come", build(4, "Package: mailer", "Version: 5-3", "Architecture: amd64"),
     ["5: warning: unstable has mailer 5-2"]),
    ("a rebuild", build(4, "Package: mailer", "Version: 5-2+b1", "Architecture: amd64", "Source: mailer (5-2)"), []),
    ("misspelt optional fields", bug(2, "Source: chess", "Severity: serious", "Foundin: 7-1", "Fixd: 7-2"),
     ["7: warning: the office reads no field Foundin here: is Found meant?",
      "8: warning: the office reads no field Fixd here: is Fixed meant?"]),
    ("a misspelt list of what is needed",
     build(4, "Package: mailer", "Version: 5-2", "Architecture: amd64", "Depend: greeter", "Conflicts: exim"),
     ["8: warning: the office reads no field Depend here: is Depends meant?",
      "5: warning: unstable has mailer 5-2 on amd64: this build changes nothing"]),
    ("an upload of ten years ago", upload(5, "greeter", "2.0-2", "2015-03-14"),
     ["7: warning: day 2015-03-14 is more than 30 days before today"]),
    ("an upload to come", upload(5, "greeter", "2.0-2", "2099-03-14"),
     ["7: warning: day 2099-03-14 is after today, 2025-03-22"]),
    ("a good order", order(3, "ftp 4, rt 9"), []),
    ("a run to come", order(3, "ftp 4, rt 9", "2052-03-12"),
     ["4: warning: day 2052-03-12 is after today, 2025-03-22"]),
    ("a run over mail that isn't there", order(3, "ftp 4, bd 4000, rt 9"),
     ["5: warning: bd 4 isn't kept: this run and all later ones wait"]),
    ("a sender left out", order(3, "ftp 4"), ["5: warning: rt 9 to 9 isn't covered"]),
    ("a number that an earlier order is above", order(3, "ftp 4, bd 2, rt 9"),
     ["5: warning: bd: an earlier order covers 3: this changes nothing"]),
    ("a day that an earlier order is behind", order(3, "ftp 4, rt 9", "2025-03-09"),
     ["4: warning: an earlier order has day 2025-03-10: this one has no effect"]),
    ("an order twice, with another text", order(2, "ftp 4"),
     ["1: refused OtherText: another text is kept under this number"]),
    ("a number that was skipped", hint(12, "block mailer"), ["2: warning: number 12 of rt: 10 is the next"]),
    ("a number that is kept", hint(9, "block chess"), []),
]

# The same office once testing has lone 1-1, and bug 6001 was reported of chess.
LATER = [*KEPT, upload(5, "lone", "1-1", "2025-03-01"),
         build(4, "Package: lone", "Version: 1-1", "Architecture: all", "Provides: solo, aa (= 1)"),
         message("bts", 2, "bug", "Bug: 6001", "Source: chess", "Severity: serious"),
         order(3, "ftp 5, bd 4, rt 9, bts 2", "2025-03-20")]


def drop(version, package="greeter"):
    return message("ftp", 6, "drop", "Package: " + package, "Architecture: amd64", "Version: " + version)


def about(bug, source, *lines):
    return message("bts", 3, "bug", f"Bug: {bug}", "Source: " + source, "Severity: serious", *lines)


# What has a greater effect than is meant, or none.
EFFECTS = [
    ("a drop up to a greater version", drop("99-1"),
     ["6: warning: unstable has 2.0-1 of greeter on amd64: no build up to 99-1 will count"]),
    ("a drop of the row", drop("2.0-1"), []),
    ("an upload with an epoch", upload(6, "greeter", "11:2.1-1"),
     ["5: warning: unstable has greeter 2.0-1, of a lower epoch: no version below 11:2.1-1 will count"]),
    ("an upload that looks like a day", upload(6, "greeter", "20250322-1"),
     ["5: warning: unstable has greeter 2.0-1: no version below 20250322-1 will count"]),
    ("a dot too few", upload(6, "greeter", "21-1"),
     ["5: warning: unstable has greeter 2.0-1: no version below 21-1 will count"]),
    ("a next version", upload(6, "greeter", "10.0-1"), []),
    ("a removal of unstable's version", hint(10, "remove mailer/5-2"),
     ["4: warning: testing has no mailer: this removes nothing, and keeps 5-2 out"]),
    ("a removal of testing's version", hint(10, "remove lone/1-1"), []),
    ("a removal of another version", hint(10, "remove lone/1-2"),
     ["4: warning: testing has lone 1-1: this removes nothing"]),
    ("all is blocked", hint(10, "block-all source"),
     ["4: warning: this keeps all sources out: 3 are newer in unstable"]),
    ("a block that is in force", hint(10, "block mailer chess"), ["4: warning: rt 9 in force asks chess already"]),
    ("an unblock of what is blocked", hint(10, "unblock chess/7-1"), []),
    ("shorter delays", delays(10, 1, 5, 2, 0), ["4: warning: Low is 10 now", "4: warning: Low is below Medium"]),
    ("much longer delays", delays(10, 1000, 5, 2, 0), ["4: warning: Low is 10 now"]),
    ("twice the delays", delays(10, 20, 10, 4, 0), []),
    ("delays in the wrong order", delays(10, 10, 2, 5, 0), ["5: warning: Medium is below High"]),
    ("a build again", build(5, "Package: greeter", "Version: 2.0-1", "Architecture: amd64"),
     ["5: warning: unstable has greeter 2.0-1 on amd64: this build changes nothing"]),
    ("what it needs isn't there",
     build(5, "Package: greeter", "Version: 2.0-1+b1", "Architecture: amd64", "Source: greeter (2.0-1)",
           "Depends: mailer, solo (>= 1) | none,", " nosuch | none (>= 2)"),
     ["10: warning: greeter: nothing in unstable is nosuch or none"]),
    ("a bug that is found above unstable", about(7, "greeter", "Found: 9.9-9"),
     ["7: warning: unstable has greeter 2.0-1: no version up to it has this bug"]),
    ("a bug that is fixed where it was found", about(7, "greeter", "Found: 2.0-1", "Fixed: 2.0-1"),
     ["8: warning: 2.0-1 isn't above 2.0-1, where it was found: no version has this bug"]),
    ("a bug of another source", about(6001, "greeter"),
     ["5: warning: bug 6001 was of chess, which no longer has it then"]),
    ("a bug again", about(6001, "chess", "Fixed: 7-1"), []),
]

# A name, a message, its refusal and the line, and what has to be in the cause.
REFUSALS = [
    ("another architecture", build(4, "Package: aa", "Version: 1", "Architecture: amd64", "",
                                   "Package: bb", "Version: 1", "Architecture: i386"),
     "11: refused UnknownArchitecture: bb: 'i386': "),
    ("a bad version", upload(5, "greeter", "1.0_1"), "5: refused BadValue Version: '1.0_1': "),
    ("a bad day", upload(5, "greeter", "3", "2025-02-30"), "7: refused BadValue Day: '2025-02-30': "),
    ("another role's kind", message("bd", 4, "hint", "Hint: block aa"),
     "3: refused WrongRole: 'hint': bd sends build, none"),
    ("no kind", message("ftp", 5, "uplod"), "3: refused UnknownKind: 'uplod': "),
    ("a bad number", b"From: ftp\nNumber: 05\nKind: none\n", "2: refused BadNumber: '05': "),
    ("no such sender", b"From: ftpd\nNumber: 5\nKind: none\n",
     "1: refused UnknownSender: 'ftpd': a sender of the setup is due: ftp, bd, bts, rt, clock"),
    ("no such field", b"\nFrom: ftp\nNumber: 5\n", "2: refused MissingField Kind: there is no field Kind"),
    ("a binary without a version", build(4, "Package: aa", "Version: 1", "Architecture: all", "", "Package: bb",
                                         "Architecture: all"),
     "9: refused MissingField Version: bb has no field Version"),
    ("a build of nothing", message("bd", 4, "build"), "1: refused MissingField Package: a build has a paragraph for "),
    ("a paragraph too many", upload(5, "aa", "1") + b"\nX: 1\n",
     "9: refused TooManyParagraphs: a paragraph too many: the kind upload has one alone"),
    ("a line of prose", message("ftp", 5, "none", "all of it"), "4: refused BadParagraph: 'all of it' has no colon"),
    ("a comment", message("ftp", 5, "none", "# a: b"),
     "4: refused BadParagraph: '# a' is no name of a field: comments aren't taken"),
    ("a field twice", message("ftp", 5, "none", "kind: none"),
     "4: refused BadParagraph: the field kind occurs twice"),
    ("a first line that continues", b" From: ftp\n", "1: refused BadParagraph: ' From: ftp' continues no field"),
    ("another coding", b"From: ftp\nNumber: 5\nKind: none\nNote: \xe9\n", "4: refused BadParagraph: "),
    ("no text at all", b"", "1: refused MissingField From: "),
    ("a message too long", message("ftp", 5, "none", "Note: " + "x" * 65536), "4: refused TooLong: it has "),
    ("a clause with architectures",
     build(4, "Package: aa", "Version: 1", "Architecture: all", "", "Package: bb", "Version: 1", "Architecture: all",
           "Depends: cc (>= 1), dd,", " ee [amd64]"),
     "13: refused BadValue Depends: bb: clause 3, 'ee [amd64]': architecture lists aren't taken"),
    ("a clause with a profile",
     build(4, "Package: aa", "Version: 1", "Architecture: all", "Pre-Depends: bb | cc <!nocheck>"),
     "8: refused BadValue Pre-Depends: aa: clause 1, 'bb | cc <!nocheck>': build profiles aren't taken"),
    ("alternatives of what is provided",
     build(4, "Package: aa", "Version: 1", "Architecture: all", "Provides: bb, cc | dd"),
     "8: refused BadValue Provides: aa: clause 2, 'cc | dd': "),
    ("a block with a version", hint(10, "block broken/0.9-1"),
     "4: refused BadValue Hint: 'block broken/0.9-1': `block` takes names without versions"),
    ("a no-break space", hint(10, "unblock\u00a0greeter/2.0-1"),
     "4: refused BadValue Hint: 'unblock\\xa0greeter/2.0-1' with NO-BREAK SPACE (U+00A0) is no hint: "),
    ("a letter that looks like another", hint(10, "easy gre\u0435ter/2.0-1"),
     "4: refused BadValue Hint: 'gre\u0435ter/2.0-1' with CYRILLIC SMALL LETTER IE (U+0435): NAME/VERSION is due"),
    ("another office's hint", hint(10, "urgent greeter/2.0-1"), "4: refused BadValue Hint: 'urgent' is no hint: "),
    ("an item without a version", hint(10, "easy greeter/2.0-1 mailer"),
     "4: refused BadValue Hint: 'mailer': NAME/VERSION is due"),
    ("a group that names a source twice", hint(10, "easy aa/1 aa/2"),
     "4: refused BadValue Hint: 'easy aa/1 aa/2': a source occurs twice"),
    ("days that are none", hint(10, "age-days ten aa/1"), "4: refused BadValue Hint: 'ten': a number of days "),
    ("a hint of nothing", hint(10, "unblock"), "4: refused BadValue Hint: 'unblock': it names no source"),
    ("an order over a sender that isn't there", order(3, "ftp 4, bdd 3"),
     "5: refused BadValue Covers: 'bdd 3': a sender of ftp, bd, bts, rt, a space and a number are due"),
    ("an order over the orders", order(3, "clock 2, ftp 4"), "5: refused BadValue Covers: 'clock 2': "),
    ("an order that names a sender twice", order(3, "ftp 4, ftp 3"), "5: refused BadValue Covers: 'ftp 4, ftp 3': "),
]

# The messages of a sample over examples/archive, in the groups that are looked at together, and what is due.
SAMPLE = [
    {"h1": hint(3, "unblock greeeter/2.0-1")},
    {"h3": hint(3, "age-days 9 libgreet/1.2-1")},
    {"u1": message("rt", 3, "unhint", "Cancels: 77")},
    {"h4": hint(3, "block broken/0.9-1")},
    {"b1": bug(2, "Source: greeter", "Severity: serious", "Foundin: 0.9-1")},
    {"up": upload(4, "libgreet", "1.5-1", "2099-03-14")},
    {"dr": message("ftp", 4, "drop", "Package: greetr", "Architecture: amd64", "Version: 1")},
    {"bu": build(4, "Package: greeter", "Version: 0.9-2", "Architecture: amd64", "Depends: libc6,",
                 " libgreet1 [amd64]")},
    {"n1": message("bts", 2, "none"), "n2": message("bd", 4, "none"),
     "or": order(3, "ftp 3, bd 99, rt 2", "2025-03-21")},
    {"or2": order(3, "ftp 2", "2025-03-21")},
    {"cm": b"#c\n" + message("ftp", 4, "none")},
    {"ot": order(2, "")},
]
DUE = """\
h1:4: warning: no source greeeter
h3:4: warning: libgreet 1.2-1 is in testing already
u1:4: warning: no hint in force has the number 77
h4:4: refused BadValue Hint: 'block broken/0.9-1': `block` takes names without versions
b1:7: warning: the office reads no field Foundin here: is Found meant?
up:7: warning: day 2099-03-14 is after today, 2025-03-22
up:5: warning: unstable has libgreet 2.0-1: this upload changes nothing
dr:4: warning: unstable has no row of greetr on amd64: this drops nothing
bu:9: refused BadValue Depends: greeter: clause 2, 'libgreet1 [amd64]': architecture lists aren't taken
or:5: warning: bd 5 isn't kept: this run and all later ones wait
or:5: warning: bts 2 to 2 isn't covered
or2:5: warning: ftp: an earlier order covers 3: this changes nothing
cm:1: refused BadParagraph: '#c' has no colon
ot:1: refused OtherText: another text is kept under this number
"""


class Folder(unittest.TestCase):
    """A test in a folder of its own, over an office that keeps mail."""

    KEPT = b"".join(map(bags.framed, KEPT))

    def setUp(self):
        kept = tempfile.TemporaryDirectory()
        self.addCleanup(kept.cleanup)
        before = os.getcwd()
        self.addCleanup(os.chdir, before)
        os.chdir(kept.name)
        told = office("replay", "--conf", SETUP, "--db", "store.db", given=self.KEPT)
        self.assertEqual((told.returncode, told.stderr), (0, b""))

    def lint(self, *words, today=TODAY):
        """What office-lint prints, and its status."""
        told = tool_here("office-lint", command.main, "--conf", SETUP, "--today", today, *words)
        self.assertEqual(told[1], "")
        return told[0], told[2]

    def put(self, name, text):
        with open(name, "wb") as file:
            file.write(text)
        return name


@needs_office
class Slips(Folder):

    def test_slips(self):
        for name, text, due in SLIPS:
            with self.subTest(name):
                status = 3 if any("refused" in line for line in due) else 1 if due else 0
                told = "".join(f"m:{line}\n" for line in due)
                self.assertEqual(self.lint("--db", "store.db", self.put("m", text)), (told, status))

    def test_refusals(self):
        for name, text, due in REFUSALS:
            with self.subTest(name):
                told, status = self.lint("--db", "store.db", self.put("m", text))
                self.assertEqual(status, 3)
                self.assertEqual(told.count("\n"), 1)
                self.assertEqual(told[:len("m:" + due)].rstrip("\n"), "m:" + due)

    def test_days(self):
        text = upload(5, "greeter", "2.0-2", "2025-02-01")
        words = ["--db", "store.db", self.put("m", text)]
        due = "m:7: warning: day 2025-02-01 is more than 30 days before today\n"
        self.assertEqual(self.lint(*words, today="2025-03-04"), (due, 1))
        self.assertEqual(self.lint(*words, today="2025-03-03"), ("", 0))
        self.assertEqual(self.lint("--days", "31", *words, today="2025-03-04"), ("", 0))

    def test_bag(self):
        """A bag is judged as a whole: an upload and its build, or a hint for what the bag brings, are no slips."""
        texts = [upload(5, "duo", "1-1"), build(4, "Package: duo", "Version: 1-1", "Architecture: all"),
                 hint(10, "age-days 0 duo/1-1"), message("rt", 11, "unhint", "Cancels: 10"),
                 message("rt", 12, "unhint", "Cancels: 10"), order(3, "ftp 5, bd 4, rt 12")]
        self.put("bag", b"".join(map(bags.framed, texts)))
        due = "bag#5:4: warning: no hint in force has the number 10\n"
        self.assertEqual(self.lint("--db", "store.db", "bag"), (due, 1))

    def test_drop_and_build(self):
        """A drop takes the row of its version out, and no build up to it comes in again."""
        lines = ["Package: greeter", "Architecture: amd64"]
        gone = message("ftp", 5, "drop", *lines, "Version: 2.0-1")
        again = build(4, *lines, "Version: 2.0-1", "Source: greeter")
        above = build(5, *lines, "Version: 2.0-1+b1", "Source: greeter (2.0-1)")
        more = [message("ftp", number, "drop", *lines, "Version: 2.0-1+b1") for number in (6, 7, 8)]
        self.put("bag", b"".join(map(bags.framed, [gone, again, more[0], above, more[1], more[2]])))
        row = "4: warning: unstable has no row of greeter on amd64: this drops nothing\n"
        self.assertEqual(self.lint("--db", "store.db", "bag"), (f"bag#3:{row}bag#5:{row}bag#6:{row}", 1))

    def test_no_whole_bag(self):
        self.put("bag", b"mail 5\nhello\nmail")
        told = tool("office-lint", "--conf", SETUP, "bag")
        self.assertEqual((told.stdout, told.returncode), ("", 3))
        self.assertEqual(told.stderr, "office-lint: bag: it is no whole bag: BadHeader at byte 12\n")

    def test_words(self):
        for words in [["--force", "m"], ["--send", "m"], ["--today", "2025-3-1", "m"], ["--days", "-1", "m"], [],
                      ["--url", "http://127.0.0.1:1", "--db", "store.db", "m"]]:
            told = tool("office-lint", "--conf", SETUP, *words)
            self.assertEqual((told.stdout, told.returncode), ("", 2), words)

    def test_no_office(self):
        told = tool("office-lint", "--conf", SETUP, "--url", "http://127.0.0.1:1", self.put("m", b""))
        self.assertEqual((told.stdout, told.returncode), ("", 4))
        self.assertEqual(told.stderr, "office-lint: http://127.0.0.1:1/kept: Connection refused\n")


@needs_office
class Effects(Folder):

    KEPT = b"".join(map(bags.framed, LATER))

    def test_effects(self):
        """Over a store, and over a service that isn't given the setup."""
        words = ["--today", TODAY]
        with Serving(store="store.db") as serving:
            for name, text, due in EFFECTS:
                with self.subTest(name):
                    told = tool_here("office-lint", command.main, *words, "--url", serving.url, self.put("m", text))
                    self.assertEqual(told, ("".join(f"m:{line}\n" for line in due), "", 1 if due else 0))
        for name, text, due in EFFECTS:
            with self.subTest(name):
                told, _ = self.lint("--db", "store.db", self.put("m", text))
                self.assertEqual(told, "".join(f"m:{line}\n" for line in due))

    def test_within_a_bag(self):
        """A bag is an archive's, in which things may be missing; and each message is judged by those before it."""
        texts = [build(5, "Package: greeter", "Version: 2.0-1+b1", "Architecture: amd64", "Source: greeter (2.0-1)",
                       "Depends: nosuch"),
                 hint(10, "block mailer"), hint(11, "block mailer"), message("rt", 12, "unhint", "Cancels: 10"),
                 delays(13, 20, 10, 4, 0), delays(14, 35, 20, 8, 0), about(7, "greeter"),
                 message("bts", 4, "bug", "Bug: 7", "Source: mailer", "Severity: serious")]
        self.put("bag", b"".join(map(bags.framed, texts)))
        due = ("bag#3:4: warning: rt 10 in force asks mailer already\n"
               "bag#8:5: warning: bug 7 was of greeter, which no longer has it then\n")
        self.assertEqual(self.lint("--db", "store.db", "bag"), (due, 1))

    def test_tried(self):
        """What the next run makes of a hint is a warning if it refuses it, or if nothing changes."""
        with Serving(store="store.db") as serving:
            for wish, due in [("easy chess/7-1", "the next run would say: easy 10 refuse chess/7-1 not a candidate"),
                              ("unblock greeter/2.0-1", "the next run would decide the same without it"),
                              ("block greeter", None)]:
                told = self.lint("--url", serving.url, "--try", self.put("m", hint(10, wish)))
                self.assertEqual(told, (f"m:4: warning: {due}\n", 1) if due else ("", 0))


@needs_office
class Sample(Folder):

    KEPT = example("archive.bag")

    def test_sample(self):
        told, statuses = "", []
        for group in SAMPLE:
            names = [self.put(name, text) for name, text in group.items()]
            lines, status = self.lint("--db", "store.db", *names)
            told += lines
            statuses.append(status)
        self.assertEqual(told, DUE)
        self.assertEqual(statuses, [1, 1, 1, 3, 1, 1, 1, 3, 1, 1, 3, 3])


@needs_office
class Sending(Folder):
    """What is mailed to a service."""

    def send(self, serving, *words):
        return self.lint("--url", serving.url, "--send", *words)

    def test_sending(self):
        good, slip, bad = upload(5, "duo", "1-1"), hint(10, "block duoo"), message("rt", 10, "hint")
        late = message("rt", 11, "none")
        for name, text in [("good", good), ("slip", slip), ("bad", bad), ("late", late)]:
            self.put(name, text)
        with Serving(store="store.db") as serving:
            service = Service(serving.url)
            self.assertEqual(self.lint("--url", serving.url, "good"), ("", 0))
            self.assertEqual(service.kept()["ftp"].kept, 4)
            self.assertEqual(self.send(serving, "good"), ("good: held ftp 5\n", 0))
            self.assertEqual(service.kept_text("ftp", 5), good)
            # What isn't sent is missing for the messages after it.
            due = ("slip:4: warning: no source duoo\nbad:1: refused MissingField Hint: there is no field Hint\n"
                   "late:2: warning: number 11 of rt: 10 is the next\n")
            self.assertEqual(self.send(serving, "slip", "bad", "late"), (due, 3))
            self.assertEqual(service.kept()["rt"].kept, 9)
            due = "slip:4: warning: no source duoo\nslip: held rt 10\nlate: held rt 11\n"
            self.assertEqual(self.send(serving, "--force", "slip", "late"), (due, 1))
            self.assertEqual(service.kept_text("rt", 10), slip)

    def test_slips_of_a_service(self):
        """A running office is asked message by message, and says the same."""
        with Serving(store="store.db") as serving:
            for name, text, due in SLIPS:
                with self.subTest(name):
                    told = "".join(f"m:{line}\n" for line in due)
                    self.assertEqual(self.lint("--url", serving.url, self.put("m", text))[0], told)

    def test_refusals_of_a_service(self):
        with Serving(store="store.db") as serving:
            for name, text, due in REFUSALS:
                with self.subTest(name):
                    told, status = self.lint("--url", serving.url, self.put("m", text))
                    self.assertEqual((status, told[:len("m:" + due)].rstrip("\n")), (3, "m:" + due))

    def test_a_number_twice(self):
        """The second text of a number is refused, also if the first one is only looked at."""
        first, second = message("rt", 10, "none"), message("rt", 10, "none", "Note: other")
        self.put("bag", b"".join(map(bags.framed, [first, second, first])))
        due = "bag#2:1: refused OtherText: another text is kept under this number\n"
        with Serving(store="store.db") as serving:
            self.assertEqual(self.lint("--url", serving.url, "bag"), (due, 3))
        self.assertEqual(self.lint("--db", "store.db", "bag"), (due, 3))

    def test_what_was_kept_before(self):
        """A kept drop takes a build out that comes later, and a kept unhint a hint."""
        lines = ["Package: greeter", "Architecture: amd64"]
        gone = message("ftp", 5, "drop", *lines, "Version: 2.0-1")
        ahead = message("rt", 10, "unhint", "Cancels: 11")
        again = build(4, *lines, "Version: 2.0-1", "Source: greeter")
        texts = [again, message("ftp", 6, "drop", *lines, "Version: 2.0-1"), hint(11, "block mailer"),
                 message("rt", 12, "unhint", "Cancels: 11")]
        self.put("bag", b"".join(map(bags.framed, texts)))
        due = ("bag#2:4: warning: unstable has no row of greeter on amd64: this drops nothing\n"
               "bag#4:4: warning: no hint in force has the number 11\n")
        with Serving(store="store.db") as serving:
            for text in (gone, ahead):
                Service(serving.url).post("/mail", text)
            self.assertEqual(self.lint("--url", serving.url, "bag"), (due, 1))

    def test_another_setup(self):
        self.put("conf", b"Architectures: amd64\n\nSender: ftp\nRole: upload\n\nSender: rt\nRole: release\n")
        with Serving(store="store.db") as serving:
            told = tool("office-lint", "--url", serving.url, "--conf", "conf", self.put("m", b""))
        self.assertEqual((told.stdout, told.returncode), ("", 4))
        self.assertEqual(told.stderr, "office-lint: conf: the office has other senders: ftp bd bts rt clock\n")


if __name__ == "__main__":
    unittest.main()
