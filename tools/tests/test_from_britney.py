"""office-from-britney: an office next to britney, and where the two decide otherwise."""
import io
import os
import tempfile
import unittest
from contextlib import redirect_stderr

from helpers import Serving, needs_sync, office, tool
from office_tools import bags, reports
from office_tools.faults import Fault
from office_tools.from_britney import compare, folder, hints
from office_tools.from_packages.sources import Arrival
from office_tools.messages import Urgency, paragraphs
from office_tools.service import Service

DEFAULT = Arrival(Urgency.MEDIUM, "2025-03-20")
TODAY = 20167  # days from 1970-01-01 to 2025-03-20
RELEASE = """# what the release team asks
unblock lone/2-1
hint app/2-1 libfoo/2-1
urgent lone/2-1
age-days 05 app/2-1  # soon
block app
force lone/2-1
remove tool/amd64/1-1
easy -tool/1-1 app/2-1
block-all new-source
finished
block libfoo
"""


def packages(*rows):
    """The text of a file Packages of amd64: name, version, source and maybe what it needs."""
    parts = []
    for name, version, source, *needs in rows:
        fields = [("Package", name), ("Version", version), ("Architecture", "amd64"), ("Source", source)]
        fields += [("Depends", value) for value in needs]
        parts.append("".join(f"{field}: {value}\n" for field, value in fields))
    return "\n".join(parts)


def row(architecture, package, version, source=""):
    """A row of a testing; in britney's no source is known."""
    return reports.Row(architecture, package, version, source)


def sources(*rows):
    """The text of a file Sources."""
    return "\n".join(f"Package: {name}\nVersion: {version}\n" for name, version in rows)


WORLD = {
    "testing/Packages_amd64": packages(("app", "1-1", "app", "libfoo1"), ("libfoo1", "1-1", "libfoo"),
                                       ("lone", "1-1", "lone"), ("tool", "1-1", "tool"), ("old", "1-1", "old")),
    "testing/Sources": sources(("app", "1-1"), ("libfoo", "1-1"), ("lone", "1-1"), ("tool", "1-1"), ("old", "1-1")),
    "testing/BugsV": "tool 7\n",
    "testing/Dates": f"app 2-1 {TODAY - 12}\nlibfoo 2-1 {TODAY - 12}\nlone 2-1 {TODAY - 1}\ntool 2-1 {TODAY - 30}\n"
                     f"new 1-1 {TODAY - 3}\n",
    "testing/Urgency": "lone 2-1 low\nnew 1-1 critical\ntool 1.5-1 high\n",
    "unstable/Packages_amd64": packages(("app", "2-1", "app", "libfoo2"), ("libfoo2", "2-1", "libfoo"),
                                        ("lone", "2-1", "lone"), ("tool", "2-1", "tool"), ("new", "1-1", "new")),
    "unstable/Sources": sources(("app", "2-1"), ("libfoo", "2-1"), ("lone", "2-1"), ("tool", "2-1"), ("new", "1-1")),
    "unstable/BugsV": "tool 7,8\n",
    "unstable/Hints/release": "hint app/2-1 libfoo/2-1\n"}
HEIDI = """app 2-1 amd64 net
libfoo2 2-1 amd64 libs
lone 2-1 amd64 net
tool 1-1 amd64 net
app 2-1 source net
libfoo 2-1 source libs
lone 2-1 source net
tool 1-1 source net
"""


def made(place, files):
    """Writes these files into a folder."""
    for name, text in files.items():
        path = os.path.join(place, name)
        os.makedirs(os.path.dirname(path), exist_ok=True)
        with open(path, "w", encoding="utf-8") as file:
            file.write(text)


class Read(unittest.TestCase):

    def setUp(self):
        place = tempfile.TemporaryDirectory()
        self.addCleanup(place.cleanup)
        self.place = place.name

    def quiet(self, call, *words):
        """What a call gives, and the lines that it reports."""
        with redirect_stderr(io.StringIO()) as told:
            found = call(*words)
        return found, told.getvalue().replace(self.place + "/", "").splitlines()

    def test_arrivals(self):
        made(self.place, WORLD | {"testing/Urgency": WORLD["testing/Urgency"] + "tool 2-1 low\ntool 3-1 critical\n"
                                  "tool 1-1 critical\nlone\nApp 2-1 low\nlone 2-1 hihg\n"})
        unstable = {"app": "2-1", "lone": "2-1", "tool": "2-1", "new": "1-1", "late": "1-1"}
        testing = {"lone": "1-1", "tool": "1-1"}
        arrivals, told = self.quiet(folder.Folder(self.place).arrivals, unstable, testing, DEFAULT)
        self.assertEqual(arrivals, {
            ("app", "2-1"): Arrival(Urgency.MEDIUM, "2025-03-08"),
            ("lone", "2-1"): Arrival(Urgency.LOW, "2025-03-19"),
            # The most urgent upload above testing's version, up to unstable's.
            ("tool", "2-1"): Arrival(Urgency.HIGH, "2025-02-18"),
            # None is more urgent than the default where the source isn't in testing.
            ("new", "1-1"): Arrival(Urgency.MEDIUM, "2025-03-17"), ("late", "1-1"): DEFAULT})
        self.assertEqual(told, [
            "office-from-britney: testing/Urgency:7: left out: it isn't SOURCE VERSION WORD: 'lone'",
            "office-from-britney: testing/Urgency:8: left out: it isn't SOURCE VERSION WORD: 'App 2-1 low'"])

    def test_hints(self):
        made(self.place, {"release": RELEASE, "other": "block app\nblock-all source\n"})
        paths = [os.path.join(self.place, name) for name in ("other", "release")]
        found, told = self.quiet(lambda: list(hints.wishes(paths)))
        self.assertEqual([(wish.hint, wish.file) for wish in found], [
            ("block app", "other"), ("block-all source", "other"), ("unblock lone/2-1", "release"),
            ("easy app/2-1 libfoo/2-1", "release"), ("age-days 0 lone/2-1", "release"),
            ("age-days 5 app/2-1", "release")])
        head = "office-from-britney: release:"
        self.assertEqual(told, [
            head + "7: left out: the office has no such hint: 'force lone/2-1'",
            head + "8: left out: 'tool/amd64/1-1' isn't NAME/VERSION of a source: 'remove tool/amd64/1-1'",
            head + "9: left out: '-tool/1-1' isn't NAME/VERSION of a source: 'easy -tool/1-1 app/2-1'",
            head + "10: left out: the office has no such hint: 'block-all new-source'"])

    def test_days(self):
        for word, due in [("0", "1970-01-01"), (str(TODAY), "2025-03-20"), ("2932896", "9999-12-31"),
                          ("2932897", None), ("-1", None), ("x", None)]:
            self.assertEqual(folder.day_of(word), due)

    def test_heidi(self):
        made(self.place, {"heidi": "app 1-1 amd64 net\napp 1-1 source\n\n", "bad": "app 1-1\n", "none": "app 1 all\n",
                          "version": "app 1_1 source\n"})
        found = compare.read_heidi(os.path.join(self.place, "heidi"))
        self.assertEqual((found.sources, found.rows), ({"app": "1-1"}, [row("amd64", "app", "1-1")]))
        for name, cause in [("bad", "bad:1: it isn't NAME VERSION ARCHITECTURE: 'app 1-1'"),
                            ("none", "none: it has no source"), ("version", "version:1: '1_1' is no version")]:
            with self.assertRaises(Fault) as raised:
                compare.read_heidi(os.path.join(self.place, name))
            self.assertEqual((raised.exception.cause, raised.exception.status), (f"{self.place}/{cause}", 3))

    def test_compared(self):
        testing = reports.Testing(1, {"app": "1+b1", "lone": "2", "smooth-libfoo1": "1"}, [
            row("amd64", "app", "1+b1", "app"), row("amd64", "lone", "2", "lone"),
            row("amd64", "libfoo1", "1", "smooth-libfoo1")])
        unstable = reports.Unstable(1, {"new": "1"}, [row("amd64", "new", "1", "new")])
        britney = reports.Testing(0, {"app": "1", "lone": "1", "new": "1", "doc": "3"}, [
            row("amd64", "app", "1"), row("amd64", "lone", "1"), row("amd64", "new", "1"),
            row("amd64", "libfoo1", "1"), row("amd64", "odd", "1"), row("s390x", "app", "1")])
        found = compare.compared(britney, testing, unstable)
        self.assertEqual([(entry.source, entry.is_ahead, entry.is_rows_alone) for entry in found.differing],
                         [("app", False, True), ("lone", False, False), ("new", True, False)])
        self.assertEqual(list(found.differing[0].lines()), [
            "app: britney 1, office 1", " britney alone: binary amd64 app 1", " office alone: binary amd64 app 1+b1"])
        self.assertEqual((found.idle, found.strange), (["doc"], [row("amd64", "odd", "1")]))


@needs_sync
class Months(unittest.TestCase):

    def setUp(self):
        place = tempfile.TemporaryDirectory()
        self.addCleanup(place.cleanup)
        self.place = place.name
        made(os.path.join(self.place, "data"), WORLD)
        self.setup = os.path.join(self.place, "week", "setup.conf")

    def path(self, *names):
        return os.path.join(self.place, *names)

    def bag(self, *words, name="week"):
        told = tool("office-from-britney", "bag", *words, self.path("data"), self.path(name))
        return told.stdout.splitlines(), told.stderr.replace(self.place + "/", "").splitlines(), told.returncode

    def texts(self, name="week"):
        with open(self.path(name, "bag"), "rb") as file:
            return list(bags.messages_in(file.read()))

    def test_a_day(self):
        """The office begins with britney's testing, and its run has what britney's files say."""
        told, words, status = self.bag("--day", "2025-03-20")
        self.assertEqual((told, words, status), ([
            "uploads 5, builds 5, hints 0, orders 1, unhints 0",
            "uploads 5, drops 2, builds 5, hints 2, bugs 2, orders 1"],
            ["office-from-britney: source old 1-1: it is gone, and nothing takes an upload back"], 0))
        with open(self.path("week", "bag"), "rb") as file:
            ran = office("replay", "--conf", self.setup, given=file.read()).stdout.decode()
        excuses = reports.read_excuses(ran[ran.index("excuses 2"):ran.index("update 2")])
        self.assertEqual({excuse.source: (excuse.age, excuse.needed, [reason.text for reason in excuse.reasons])
                          for excuse in excuses.excuses}, {
            "app": (12, 5, []), "libfoo": (12, 5, []), "lone": (1, 10, ["too young"]), "new": (3, 5, ["too young"]),
            "tool": (30, 2, ["new bug 8"])})
        update = ran[ran.index("update 2"):ran.index("testing 2")].splitlines()[1:]
        self.assertEqual(update, ["remove 2 accept old 1-1", "easy 1 accept app 2-1 libfoo 2-1"])
        first = [next(paragraphs(text)) for text in self.texts()]
        self.assertEqual([entry.value("Britney") for entry in first if entry.value("Hint") and entry.value("Britney")],
                         ["release"])

    def test_the_next_day(self):
        """With the mail that the office keeps only what is new is written."""
        self.bag("--day", "2025-03-20")
        kept = self.path("week", "bag")
        told, words, status = self.bag("--day", "2025-03-21", "--after", kept, name="next")
        self.assertEqual((told, status), (["uploads 0, drops 0, builds 0, hints 1, bugs 0, orders 1"], 0))
        texts = self.texts("next")  # the hint for what is gone is done, and stands no longer
        self.assertEqual([text.splitlines()[2:] for text in texts[:-1]], [[b"Kind: unhint", b"Cancels: 2"]])
        made(self.path("data"), {"unstable/BugsV": "tool 7\n", "unstable/Hints/release": "block lone\n"})
        told, words, status = self.bag("--day", "2025-03-21", "--after", kept, name="next")
        self.assertEqual((told, status), (["uploads 0, drops 0, builds 0, hints 3, bugs 1, orders 1"], 0))
        with open(kept, "rb") as old, open(self.path("next", "bag"), "rb") as new:
            ran = office("replay", "--conf", self.setup, given=old.read() + new.read()).stdout.decode()
        self.assertIn("ready 3 finished 3\n", ran)
        self.assertIn("\naccept tool 2-1\n", ran)
        self.assertNotIn("refused", ran)

    def test_compare(self):
        """Each source on which both differ is printed with the office's reason."""
        self.bag("--day", "2025-03-20")
        made(self.place, {"heidi": HEIDI})
        with Serving(self.setup) as serving:
            for text in self.texts():
                self.assertTrue(Service(serving.url).post("/mail", text).is_good)
            told = tool("office-from-britney", "compare", "--url", serving.url, self.path("heidi"))
            self.assertEqual((told.stderr, told.returncode), ("", 1))
            lines = told.stdout.splitlines()
            self.assertEqual([lines[0], *lines[2:]], [
                "lone: britney 2-1, office 1-1", " age 1 of 10", " too young", " not a candidate",
                " upload ftp 8 2025-03-19", " old enough on 2025-03-29 by urgency",
                "sources 4, differ 1: britney is ahead 1, the office is ahead 0, packages alone 0"])
            made(self.place, {"same": HEIDI.replace("lone 2-1", "lone 1-1")})
            told = tool("office-from-britney", "compare", "--url", serving.url, self.path("same"))
            self.assertEqual((told.stdout, told.returncode), (
                "sources 4, differ 0: britney is ahead 0, the office is ahead 0, packages alone 0\n", 0))

    def test_refusals(self):
        os.unlink(self.path("data", "unstable", "Sources"))
        told, words, status = self.bag("--day", "2025-03-20")
        self.assertEqual((words, status), (["office-from-britney: data/unstable/Sources: there is no such file"], 3))
        os.unlink(self.path("data", "testing", "Packages_amd64"))
        told, words, status = self.bag("--day", "2025-03-20")
        self.assertEqual((words, status), (["office-from-britney: data/testing: it has no file Packages_ARCH"], 3))
        self.assertEqual(tool("office-from-britney", "bag", self.path("none"), self.path("week")).returncode, 3)


if __name__ == "__main__":
    unittest.main()
