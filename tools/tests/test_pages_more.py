"""The pages of office-pages other than excuses, runs and sources: offices of a few sources, worked out by hand."""
import contextlib
import datetime
import io
import os
import re
import shutil
import subprocess
import tempfile
import unittest
import xml.etree.ElementTree

import helpers  # noqa: F401 (it puts the package into the path)
from pages_office import FakeOffice
from office_tools.faults import Fault
from office_tools.pages import atom, britney_yaml, command, day_pages, people, plots
from office_tools.pages.change_pages import Kind, changes_of
from office_tools.pages.kept_mail import Person
from office_tools.pages.state import Event
from office_tools.pages.waits import ends_of, waits_of

ATOM = "{http://www.w3.org/2005/Atom}"

# docs/MANUAL.md, office why.
MANUAL = """why 2 node-isobject
wait node-isobject 4.0.1-1 uninstallable amd64 node-collection-visit
1 node-collection-visit 1.0.0-4 of node-collection-visit in testing, needs node-object-visit: 2
2 node-object-visit 1.0.1-5 of node-object-visit in testing, needs node-isobject: nothing
leaves node-isobject 4.0.0-2
unstable node-isobject 4.0.0-2 of node-isobject isn't current
"""
COMES_IN = """why 2 app
1 app 2-1 of app comes in, needs libx2 (>= 2) | libz: nothing
unstable libx2 2-1 of x isn't a candidate: too young, new bug 7
unstable libz 1-1 of z waits
"""

# Unstable has another name of the library: app is rebuilt on amd64 alone, tool isn't, and plug may take another one.
RUNS = """run 1 2025-03-04 excuses 4 candidates 4 accept 4 easy 0 remove 0 wait 0
run 2 2025-03-20 excuses 3 candidates 1 accept 0 easy 0 remove 0 wait 1
"""
FIRST = "excuses 1 2025-03-04\n" + "".join(f"{name} - 1-1\n age 3 of 3\n candidate\n" for name in (
    "app", "libfoo", "plug", "tool"))
EXCUSES = """excuses 2 2025-03-20
app 1-1 2-1
 age 3 of 5
 too young
 missing on arm64
 not a candidate
libfoo 1-1 2-1
 age 12 of 10
 candidate
plug 1-1 2-1
 age 4 of 5
 too young
 not a candidate
"""
TESTING = "".join(f"source {name} 1-1\n" for name in ("app", "libfoo", "plug", "tool")) + "".join(
    f"binary {arch} {package} 1-1 {source}\n" for arch in ("amd64", "arm64") for package, source in (
        ("app", "app"), ("libfoo1", "libfoo"), ("plug", "plug"), ("tool", "tool")))
UNSTABLE = """source app 2-1
source libfoo 2-1
source plug 2-1
source tool 1-1
binary amd64 app 2-1 app
binary amd64 libfoo1 1-1 libfoo
binary amd64 libfoo2 2-1 libfoo
binary amd64 plug 2-1 plug
binary amd64 tool 1-1 tool
binary arm64 app 1-1 app
binary arm64 libfoo1 1-1 libfoo
binary arm64 libfoo2 2-1 libfoo
binary arm64 plug 2-1 plug
binary arm64 tool 1-1 tool
"""
WHY = """why 2 libfoo
libfoo 1-1 2-1
 age 12 of 10
 candidate
upload ftp 5 2025-03-08
wait libfoo 2-1 uninstallable amd64 app
1 app 1-1 of app in testing, needs libfoo1: nothing
leaves libfoo1 1-1
unstable libfoo1 1-1 of libfoo isn't current
"""


def built(number, arch, package, version, source, depends=""):
    text = (f"From: bd\nNumber: {number}\nKind: build\n\nPackage: {package}\nVersion: {version}\nArchitecture: {arch}\n"
            f"Source: {source}\n" + (f"Depends: {depends}\n" if depends else ""))
    return f"mail {len(text)}\n{text}"


def uploaded(number, source, version, maintainer):
    text = (f"From: ftp\nNumber: {number}\nKind: upload\nSource: {source}\nVersion: {version}\nUrgency: low\n"
            f"Day: 2025-03-01\nMaintainer: {maintainer}\n")
    return f"mail {len(text.encode())}\n{text}"


BUILDS = [
    *((arch, package, "1-1", source, depends) for arch in ("amd64", "arm64") for package, source, depends in (
        ("app", "app", "libfoo1"), ("libfoo1", "libfoo", ""), ("plug", "plug", "libfoo1 | libother"),
        ("tool", "tool", "libfoo1 (>= 1), app"))),
    *((arch, package, "2-1", source, depends) for arch in ("amd64", "arm64") for package, source, depends in (
        ("libfoo2", "libfoo", ""), ("plug", "plug", "libfoo2 | libother"))),
    ("amd64", "app", "2-1", "app", "libfoo2 (>= 2)")]


def answers(builds=BUILDS, unstable=UNSTABLE):
    """What the office of this module answers after its second run."""
    return {
        "/runs": RUNS, "/excuses/1": FIRST, "/excuses/2": EXCUSES, "/hints": "hints 2\n", "/propose": "",
        "/update/1": "update 1 2025-03-04\n" + "".join(
            f"accept {name} 1-1\n" for name in ("app", "libfoo", "plug", "tool")),
        "/update/2": "update 2 2025-03-20\nwait libfoo 2-1 uninstallable amd64 app\n",
        "/testing": "testing 2\n" + TESTING, "/unstable": "unstable 2\n" + unstable, "/propose/libfoo": "",
        "/kept": f"mail ftp 2 kept, 1 to 2, greatest 2\nmail bd {len(builds)} kept, 1 to {len(builds)}, "
                 f"greatest {len(builds)}\nmail rt 0 kept\n",
        "/bag/ftp/1": uploaded(1, "app", "1-1", "Ann <ann@example.org>")
        + uploaded(2, "libfoo", "1-1", "Foo Team <foo@lists.example.org>"),
        "/bag/bd/1": "".join(built(number, *build) for number, build in enumerate(builds, 1)),
        "/why/libfoo": WHY, "/why/app": "why 2 app\n", "/why/plug": "why 2 plug\n"}


class Pages(unittest.TestCase):
    """The pages of the office above."""

    def setUp(self):
        self.folder = self.enterContext(tempfile.TemporaryDirectory())
        self.office = self.enterContext(FakeOffice(0))
        self.office.answers = answers()

    def make(self, *words):
        told = io.StringIO()
        with contextlib.redirect_stderr(told):
            self.assertEqual(command.main(["--url", self.office.url, *words, self.folder]), 0, told.getvalue())

    def read(self, name):
        with open(os.path.join(self.folder, name), encoding="utf-8") as file:
            return file.read()

    def rows(self, name, look):
        """The cells of each row of the table of this class."""
        table = re.search(f'<table class="{look}".*?</table>', self.read(name), re.S)
        return [[re.sub("<[^>]*>", " ", cell).split() for cell in re.findall("<td[^>]*>(.*?)</td>", row, re.S)]
                for row in re.findall("<tr[^>]*>(.*?)</tr>", table[0], re.S)[1:]] if table else []

    def words(self, name, look):
        return [[" ".join(cell).replace(" ,", ",") for cell in row] for row in self.rows(name, look)]

    def test_a_transition(self):
        self.make()
        self.assertEqual(self.words("transitions.html", "transitions"), [
            ["libfoo", "libfoo1 → libfoo2", "0 of 2", "level 1: 1, level 2: 1", "2-1 waits"]])
        self.assertEqual(self.words("transition/libfoo.html", "users"), [
            ["app", "1", "rebuilt", "not built", "needs the old one",
             "2-1 doesn&#39;t move: too young until 2025-03-22, missing on arm64"],
            ["tool", "2", "to rebuild", "to rebuild", "needs the old one", "unstable has nothing newer"]])
        page = re.sub("<[^>]*>", "", self.read("transition/libfoo.html"))
        self.assertIn("Level 1: app (not built on arm64)", page)
        self.assertIn("Level 2: tool (to rebuild)", page)
        # Rebuilt, to rebuild and not built on each architecture.
        self.assertEqual(self.words("transition/libfoo.html", "by"), [
            ["amd64", "1", "0", "1", "0", "0"], ["arm64", "0", "0", "1", "1", "0"]])

    def test_a_rebuild_is_seen_without_a_run(self):
        """The last build comes, and then the next run: only the new mail is asked for."""
        self.make()
        more = [*BUILDS, ("arm64", "app", "2-1", "app", "libfoo2 (>= 2)")]
        self.office.answers = answers(more, UNSTABLE.replace("arm64 app 1-1", "arm64 app 2-1"))
        run = RUNS + RUNS.splitlines(keepends=True)[1].replace("run 2", "run 3")
        self.office.answers |= {
            "/runs": run, "/excuses/3": EXCUSES.replace("excuses 2", "excuses 3").replace(" missing on arm64\n", ""),
            "/update/3": self.office.answers["/update/2"].replace("update 2", "update 3"),
            "/testing": "testing 3\n" + TESTING, "/hints": "hints 3\n",
            "/unstable": self.office.answers["/unstable"].replace("unstable 2\n", "unstable 3\n"),
            f"/bag/bd/{len(more)}": built(len(more), *more[-1])}
        for name in ("app", "libfoo", "plug"):
            self.office.answers[f"/why/{name}"] = self.office.answers[f"/why/{name}"].replace("why 2", "why 3")
        asked = len(self.office.asked)
        self.make()
        self.assertEqual([path for path in self.office.asked[asked:] if path.startswith("/bag")],
                         [f"/bag/bd/{len(more)}"])
        self.assertEqual(self.words("transitions.html", "transitions")[0][2:4], ["1 of 2", "level 2: 1"])

    def test_a_rebuild_that_cannot_move(self):
        """tool is built again of the source version that testing has: a run moves no rebuild alone."""
        self.office.answers = answers([*BUILDS, *((arch, "tool", "1-1+b1", "tool (1-1)", "libfoo2, app")
                                                  for arch in ("amd64", "arm64"))],
                                      UNSTABLE.replace("tool 1-1 tool", "tool 1-1+b1 tool"))
        self.make()
        self.assertEqual(self.words("transition/libfoo.html", "users")[1], [
            "tool", "2", "rebuilt", "rebuilt", "needs the old one",
            "a rebuild alone doesn&#39;t move: it needs a new source version"])
        self.assertEqual(self.words("transitions.html", "transitions")[0][2], "0 of 2")

    def test_no_transition_where_the_new_package_provides_the_old_one(self):
        self.office.answers = answers([
            (*build[:4], "libc\nProvides: libfoo1") if build[1] == "libfoo2" else build for build in BUILDS])
        self.make()
        self.assertEqual(self.words("transitions.html", "transitions"), [])
        self.assertFalse(os.path.exists(os.path.join(self.folder, "transition")))

    def test_what_waits_for_what(self):
        self.make()
        self.assertEqual(self.words("waits.html", "waited"), [
            ["app", "1", "1", "app needs libfoo1",
             "2-1 doesn&#39;t move: too young until 2025-03-22, missing on arm64"]])
        self.assertEqual(self.words("waits.html", "waiting")[0][:2], ["libfoo", "2-1"])
        self.assertIn("1 source waits for it", self.read("source/app.html"))
        self.assertIn('<a href="app.html">app</a>: app needs libfoo1', self.read("source/libfoo.html"))

    def test_the_calendar(self):
        self.make()
        # From 2025-03-20 on: plug needs one day, app two, and app needs a build, too.
        self.assertEqual(self.words("days.html", "days"), [
            ["Friday, 2025-03-21", "1", "1", "0", "plug"], ["Saturday, 2025-03-22", "2", "0", "1", "-"]])
        self.assertIn("tomorrow 1, the day after 0", self.read("index.html"))

    def test_missing_builds(self):
        self.make()
        self.assertEqual(self.words("missing.html", "by"), [["arm64", "1", "0", "3 days"]])
        self.assertEqual(self.words("missing.html", "missing"), [
            ["app", "arm64", "1-1", "2-1", "3", "too young"]])

    def test_people(self):
        self.make()
        self.assertEqual(self.words("people.html", "people"), [
            ["Ann &lt;ann@example.org&gt;", "0", "0", "0", "1", "0"],
            ["Foo Team &lt;foo@lists.example.org&gt;", "1", "0", "0", "0", "0"]])
        rows = self.words("people/foo_at_lists.example.org.html", "excuses")
        self.assertEqual([row[0] for row in rows], ["libfoo"])
        page = re.sub("<[^>]*>", "", self.read("people/foo_at_lists.example.org.html"))
        self.assertIn("libfoo is newly stuck", page)
        self.assertIn("../people/ann_at_example.org.html", self.read("source/app.html"))

    def test_a_file_of_people(self):
        path = os.path.join(self.enterContext(tempfile.TemporaryDirectory()), "people")
        with open(path, "w", encoding="utf-8") as file:
            file.write("plug\tPia <pia@example.org>\n")
        self.make("--maintainers", path)
        self.assertIn("plug", self.read("people/pia_at_example.org.html"))
        stamp = os.stat(os.path.join(self.folder, "source/tool.html")).st_mtime_ns
        with open(path, "w", encoding="utf-8") as file:
            file.write("Package: plug\nMaintainer: Ben <ben@example.org>\n"
                       "Uploaders: Pia <pia@example.org>,\n C <c@d>\n")
        self.make("--maintainers", path)
        for name in "ben_at_example.org", "pia_at_example.org", "c_at_d":
            self.assertIn("plug", self.read(f"people/{name}.html"))
        self.assertEqual(os.stat(os.path.join(self.folder, "source/tool.html")).st_mtime_ns, stamp)

    def test_newly_stuck(self):
        self.make()
        self.assertEqual([row[0] for row in self.words("changes.html", "changed")], ["app", "libfoo"])
        self.assertEqual(self.words("changes-free.html", "changed"), [])

    def test_feeds(self):
        """Each feed has what RFC 4287 asks for, and each link leads to a file."""
        self.make()
        names = ["feed.xml", *(f"{folder}/{name}" for folder in ("source", "people")
                               for name in os.listdir(os.path.join(self.folder, folder)) if name.endswith(".xml"))]
        self.assertEqual(len(names), 1 + 3 + 2)
        seen = set()
        for name in names:
            feed = xml.etree.ElementTree.fromstring(self.read(name))
            self.assertEqual(feed.tag, ATOM + "feed")
            self.assertEqual(len(feed.findall(ATOM + "author")), 1)
            for one in [feed, *feed.findall(ATOM + "entry")]:
                for tag in "id", "title", "updated":
                    self.assertEqual(len(one.findall(ATOM + tag)), 1, (name, tag))
                self.assertRegex(one.find(ATOM + "updated").text, r"^\d{4}-\d\d-\d\dT00:00:00Z$")
                self.assertRegex(one.find(ATOM + "id").text, "^urn:uuid:[0-9a-f-]{36}$")
                self.assertNotIn(one.find(ATOM + "id").text, seen)
                seen.add(one.find(ATOM + "id").text)
                links = [link.get("href") for link in one.findall(ATOM + "link") if link.get("rel") == "alternate"]
                self.assertEqual(len(links), 1)
                self.assertTrue(os.path.exists(os.path.join(self.folder, os.path.dirname(name), links[0])), links)
        self.assertIn("2 newly stuck: app, libfoo.", self.read("feed.xml"))
        self.assertIn("libfoo 2-1: newly stuck in run 2", self.read("people/foo_at_lists.example.org.xml"))

    def test_the_address_of_feeds(self):
        self.make("--address", "https://office.example.org/pages")
        self.assertIn('rel="self" type="application/atom+xml" href="https://office.example.org/pages/source/app.xml"',
                      self.read("source/app.xml"))

    def test_yaml(self):
        self.make()
        try:
            import yaml
        except ImportError:
            self.skipTest("python3-yaml isn't installed")
        whole = yaml.safe_load(self.read("excuses.yaml"))
        self.assertEqual(whole["generated-date"], datetime.datetime(2025, 3, 20))
        app, libfoo, plug = whole["sources"]
        self.assertEqual((app["item-name"], app["old-version"], app["new-version"], app["maintainer"]),
                         ("app", "1-1", "2-1", "Ann <ann@example.org>"))
        self.assertEqual(app["missing-builds"], {"on-architectures": ["arm64"], "on-unimportant-architectures": []})
        self.assertEqual(app["reason"], ["age", "missingbuild"])
        self.assertEqual((libfoo["is-candidate"], libfoo["dependencies"]), (True, {"blocked-by": ["app"]}))
        self.assertEqual(plug["policy_info"]["age"], {"age-requirement": 5, "current-age": 4,
                                                      "verdict": "REJECTED_TEMPORARILY"})

    @unittest.skipUnless(shutil.which("grep-excuses"), "devscripts isn't installed")
    def test_grep_excuses_reads_the_yaml(self):
        self.make()
        tools = self.enterContext(tempfile.TemporaryDirectory())
        with open(os.path.join(tools, "wget"), "w", encoding="utf-8") as file:
            file.write(f'#!/bin/sh\nexec cat "{self.folder}/excuses.yaml"\n')
        os.chmod(file.name, 0o755)
        found = subprocess.run(
            ["grep-excuses", "--no-conf", "--no-autoremovals", "foo@lists.example.org"], capture_output=True, text=True,
            check=False, env={**os.environ, "PATH": tools + ":" + os.environ["PATH"]})
        if "libyaml-syck-perl" in found.stderr:
            self.skipTest("libyaml-syck-perl isn't installed")
        self.assertEqual(found.stdout.splitlines(), [
            "libfoo (1-1 to 2-1)", "    Maintainer: Foo Team <foo@lists.example.org>",
            "    Depends: libfoo app (not considered)", "    12 days old (needed 10 days)", "    A candidate",
            "    Waits: its move would leave app uninstallable on amd64"])


class Parts(unittest.TestCase):
    """What the pages are made of."""

    def test_where_chains_end(self):
        end, = ends_of(MANUAL)
        self.assertEqual((end.package, end.source, end.comes_in, end.clause), (
            "node-object-visit", "node-object-visit", False, "node-isobject"))
        waits = waits_of({"node-isobject": (MANUAL, "node-collection-visit", "node-collection-visit")})
        self.assertEqual([(wait.other, wait.why) for wait in waits.by_source["node-isobject"]], [
            ("node-object-visit", "node-object-visit needs node-isobject")])

    def test_what_comes_in_waits_for_those_that_have_what_it_needs(self):
        waits = waits_of({"app": (COMES_IN, "app", "app")})
        self.assertEqual([(wait.other, wait.why) for wait in waits.by_source["app"]], [
            ("x", "libx2 2-1 isn't a candidate: too young, new bug 7"), ("z", "libz 1-1 waits")])

    def test_the_most_waited_for(self):
        """a waits for b, b and c for d: three wait for d in the end."""
        waits = waits_of({"a": (None, "b-bin", "b"), "b": (None, "d-bin", "d"), "c": (None, "d-bin", "d")})
        self.assertEqual(waits.ranked(), [("d", 2, 3), ("b", 1, 1)])
        self.assertEqual(waits.touched, {"a", "b", "c", "d"})

    def test_a_circle(self):
        waits = waits_of({"a": (None, "b", "b"), "b": (None, "a", "a")})
        self.assertEqual(waits.in_the_end("a"), {"b"})

    def test_changes(self):
        wait = '{"what": "wait", "arch": "amd64", "package": "x"}'
        none, moved = '{"what": "none"}', '{"what": "accept"}'
        events = {"a": [Event(1, "-", "1", "", moved), Event(2, "1", "2", "too young", none),
                        Event(3, "1", "2", "", wait), Event(4, "1", "2", "", moved)],
                  "b": [Event(3, "-", "1", "too young, new bug 7", none), Event(4, "-", "1", "too young", none)]}
        found = {run: [(change.source, change.kind) for change in some] for run, some in changes_of(events, 2).items()}
        self.assertEqual(found, {2: [("a", Kind.OTHER)], 3: [("a", Kind.STUCK), ("b", Kind.STUCK)],
                                 4: [("a", Kind.FREE), ("b", Kind.FREE)]})

    def test_names_of_pages(self):
        self.assertEqual(people.page_of("Ann <Ann@Example.org>"), "ann_at_example.org")
        names = ["a_b <a_b@c>", "a@b", "a b", "ä <ä@c>", "../../x", ".", ".a@b", "a/b", "a_at_b", "x" * 200,
                 "x" * 201]
        pages = [people.page_of(name) for name in names]
        self.assertEqual(len(set(pages)), len(names))
        for page in pages:
            self.assertRegex(page, "^[a-z0-9_+-][a-z0-9.+_-]*$")

    def test_files_of_people(self):
        folder = self.enterContext(tempfile.TemporaryDirectory())
        path = os.path.join(folder, "people")
        for text, due in {
                "a\tAnn <a@b>\n\nb\tBen\n": {"a": Person("Ann <a@b>"), "b": Person("Ben")},
                'Package: a\nMaintainer: A <a@b>\nUploaders: "B, C" <b@c>, D <d@e>\n\nPackage: b\n': {
                    "a": Person("A <a@b>", ('"B, C" <b@c>', "D <d@e>"))}, "": {}}.items():
            with open(path, "w", encoding="utf-8") as file:
                file.write(text)
            self.assertEqual(people.read_people(path), due)
        for text in (b"a\tAnn\nb Ben\n", b"nothing", b"\xff", b"a\t\n"):
            with open(path, "wb") as file:
                file.write(text)
            with self.assertRaises(Fault):
                people.read_people(path)

    def test_a_bar(self):
        self.assertEqual(plots.bar("3 of 4", (("a", 1), ("b", 2), ("c", 1))),
                         '<svg class="bar" viewBox="0 0 160 12" role="img" aria-label="3 of 4"'
                         ' preserveAspectRatio="none">'
                         '<rect class="a" x="0" width="40" height="12"/><rect class="b" x="40" width="80" height="12"/>'
                         '<rect class="c" x="120" width="40" height="12"/></svg>')

    def test_lines_across(self):
        self.assertEqual([plots.step_of(greatest) for greatest in (1, 5, 6, 10, 11, 41, 251, 34000)],
                         [1, 1, 2, 2, 5, 10, 100, 10000])

    def test_a_plot_is_small(self):
        curves = [plots.Curve(name, name, [place * 37 % 900 for place in range(60)]) for name in ("a", "b", "c")]
        labels = [f"03-{place}" for place in range(60)]
        self.assertLess(len(plots.lines("name", labels, curves)), 5000)

    def test_yaml_escapes(self):
        self.assertEqual(britney_yaml.scalar('a "b"\x7f\u0085: #é'), '"a \\"b\\"\\u007f\\u0085: #é"')

    def test_the_last_day(self):
        self.assertEqual(day_pages.later(datetime.date(2025, 3, 20), 1), datetime.date(2025, 3, 21))
        self.assertEqual(day_pages.later(datetime.date(9999, 12, 30), 21), datetime.date(9999, 12, 31))

    def test_a_feed_escapes(self):
        feed = atom.Feed("feed.xml", "<&>\x01", "index.html", datetime.date(2025, 3, 20), (), "", "office")
        read = xml.etree.ElementTree.fromstring(atom.atom(feed).decode())
        self.assertEqual(read.find(ATOM + "title").text, "<&>")


if __name__ == "__main__":
    unittest.main()
