"""office-pages: the folder of pages, by reports that are drawn by hand; its JSON, by the keys of office-pages(1)."""
import contextlib
import html.parser
import io
import json
import os
import re
import shutil
import signal
import subprocess
import tempfile
import time
import unittest
import unittest.mock
import urllib.parse

from helpers import EXAMPLES, example, needs_office, office, Serving, SETUP, tool, TOOLS
from pages_office import EXCUSES, FakeOffice, routes, RUNS, TESTING, UPDATES
from office_tools import bags, faults, reports
from office_tools.pages import command, hints, parts, site, verdicts
from office_tools.pages.look import Patterns

MANY = 1500  # sources of the test that kills the command


class Reader(html.parser.HTMLParser):
    """The links, anchors and cells of a page, its text, and its list items."""

    def __init__(self, text):
        super().__init__()
        self.links, self.anchors, self.cells, self.texts, self.items = [], [], [], [], []
        self.open = []
        self.feed(text)
        self.close()

    def handle_starttag(self, tag, attrs):
        found = dict(attrs)
        self.links += [found[name] for name in ("href", "src") if name in found]
        self.anchors += [found["id"]] if "id" in found else []
        if tag in ("td", "li"):
            (self.cells if tag == "td" else self.items).append("")
            self.open.append((tag, len(self.items if tag == "li" else self.cells) - 1))

    def handle_endtag(self, tag):
        if self.open and self.open[-1][0] == tag:
            self.open.pop()

    def handle_data(self, data):
        self.texts.append(data)
        for tag, place in self.open:
            (self.items if tag == "li" else self.cells)[place] += data


class Pages(unittest.TestCase):
    """A folder for pages, and the command over it."""

    def setUp(self):
        self.folder = tempfile.mkdtemp()
        self.addCleanup(shutil.rmtree, self.folder)

    def make(self, *words, folder=None):
        """Calls the command, which has to end with status 0, and returns what it prints."""
        told = io.StringIO()
        with contextlib.redirect_stderr(told):
            self.assertEqual(command.main([*words, folder or self.folder]), 0)
        return told.getvalue()

    def read(self, name):
        with open(os.path.join(self.folder, name), encoding="utf-8") as file:
            return file.read()

    def page(self, name):
        return Reader(self.read(name))

    def row(self, name, source):
        """The cells of a source's row in a list."""
        cells = self.page(name).cells
        width = {"testing.html": 3}.get(name, 4 if name.startswith("run/") else 6)
        rows = [cells[place:place + width] for place in range(0, len(cells), width)]
        return next(row for row in rows if row[0] == source)

    def json(self):
        return json.loads(self.read("excuses.json"))

    def files(self, folder=None):
        """All public files, with their bytes."""
        found = {}
        for place, folders, names in os.walk(folder or self.folder):
            folders[:] = [name for name in folders if name[0] != "."]
            for name in names:
                path = os.path.join(place, name)
                with open(path, "rb") as file:
                    found[os.path.relpath(path, folder or self.folder)] = file.read()
        return found

    def stamps(self):
        """When each file was written."""
        return {name: os.stat(os.path.join(self.folder, name)).st_mtime_ns for name in self.files()}

    def assert_links(self):
        """Each link of a page leads to a file, and to an anchor of it where it names one."""
        pages = {name: Reader(data.decode()) for name, data in self.files().items() if name.endswith(".html")}
        self.assertGreater(len(pages), 10)
        for name, page in pages.items():
            self.assertEqual(len(page.anchors), len(set(page.anchors)), f"{name}: an anchor stands twice")
            for link in page.links:
                parts = urllib.parse.urlsplit(link)
                if parts.scheme:
                    continue
                path = urllib.parse.unquote(parts.path)
                target = os.path.normpath(os.path.join(os.path.dirname(name), path)) if path else name
                self.assertTrue(os.path.exists(os.path.join(self.folder, target)), f"{name}: {link}")
                if parts.fragment and "=" not in parts.fragment:
                    self.assertIn(parts.fragment, pages[target].anchors, f"{name}: {link}")


class AllRuns(Pages):
    """All three runs of the stand-in."""

    def setUp(self):
        super().setUp()
        self.office = self.enterContext(FakeOffice(2))

    def finish_third(self):
        self.office.answers = dict(routes(3))

    def test_first_page_counts_what_does_not_move(self):
        self.make("--url", self.office.url)
        cells = self.page("index.html").cells
        counts = dict(zip(cells, cells[1:]))
        self.assertEqual([counts[name] for name in (
            "too young", "new release-critical bug", "missing on an architecture", "blocked by a hint")], ["1"] * 4)
        self.assertEqual(counts["no binary package of this version"], "0")
        self.assertEqual([counts[title] for title in verdicts.TITLES.values()], ["1", "0", "1", "1"])
        self.assertIn("Run 2", cells)
        self.assertIn("Run 1", cells)

    def test_a_source_has_its_age_its_day_and_its_reasons(self):
        self.make("--url", self.office.url, "--bugs", "https://bugs.example.org/?id=%s")
        # The run's day is 2025-03-20: 2 of 5 days leave 3, and 15 of 10 are 5 too many.
        self.assertEqual(self.row("excuses.html", "app")[3], "2 of 5 daysenough on 2025-03-23")
        self.assertEqual(self.row("excuses.html", "libgreet")[3], "15 of 10 daysenough since 2025-03-15")
        self.assertIn("https://bugs.example.org/?id=1042", self.page("excuses.html").links)
        self.assertIn("https://bugs.example.org/?id=1042", self.page("source/app.html").links)
        self.assertIn("hint 2: block libgreet", self.row("excuses.html", "libgreet")[5])

    def test_lists_by_reason_and_outcome(self):
        self.make("--url", self.office.url)
        for word, names in {"age": ["app"], "buggy": ["app"], "missingbuild": ["libgreet"], "block": ["libgreet"],
                            "wait": ["stuck"], "no-binaries": [], "remove": [], "refused": []}.items():
            self.assertEqual(self.page(f"excuses-{word}.html").cells[::6], names, word)
        self.assertEqual(self.page("excuses.html").cells[::6], ["app", "libgreet", "stuck"])

    def test_why_has_numbered_lines_and_links(self):
        self.make("--url", self.office.url)
        page = self.page("source/stuck.html")
        for line in ("1 greeter 0.9-2 of greeter in testing, needs libgreet1 (>= 1.0) | libold: 2",
                     "2 libgreet1 1.2-1 of libgreet in testing, needs libgreet-doc: nothing",
                     "leaves libgreet-doc 1.2-1", "unstable libgreet-doc 1.2-1 of libgreet isn't current"):
            self.assertIn(line, page.items)
        for link in ("#line-2", "greeter.html", "libgreet.html"):
            self.assertIn(link, page.links)
        self.assertIn("line-2", page.anchors)
        # A sentence says what became of the source itself.
        self.assertFalse([item for item in page.items if item.startswith("wait ")])
        self.assertIn("Waits: its move would leave greeter uninstallable on amd64", page.items)
        self.assertIn("blocked by rt 2: block libgreet", self.page("source/libgreet.html").items)
        self.assertIn("upload ftp 3 2025-03-05", self.page("source/libgreet.html").items)

    def test_a_refused_group_is_told_with_its_hint(self):
        self.make("--url", self.office.url)
        self.assertIn("easy 9 refuse uninstallable amd64 app (the hint: easy libgreet/2.0-1 stuck/2-1)",
                      self.page("source/app.html").items)
        cells = self.page("run/2.html").cells
        place = cells.index("Easy hint 9")
        self.assertEqual(cells[place + 1:place + 3], [
            "easy libgreet/2.0-1 stuck/2-1", "refused: it would leave app uninstallable on amd64"])

    def test_history_tells_the_runs_in_which_something_changed(self):
        self.make("--url", self.office.url)
        self.finish_third()
        self.make("--url", self.office.url)
        cells = self.page("source/libgreet.html").cells
        # Run 3 says the same of it as run 2 except its age.
        self.assertEqual([cell.split(" of ")[0] for cell in cells[::4]], ["Run 2", "Run 1"])
        self.assertEqual(cells[3], "missing on all, blocked")
        self.assertIn("in run 1 on 2025-03-04", "".join(self.page("source/libgreet.html").texts))
        self.assertIn("in run 3 on 2025-03-21", "".join(self.page("source/stuck.html").texts))

    def test_page_of_a_run(self):
        self.finish_third()
        self.make("--url", self.office.url)
        page = self.page("run/3.html")
        self.assertIn("Easy hint 8", page.cells)
        self.assertIn("easy stuck/2-1", page.cells)
        self.assertEqual(self.row("run/1.html", "greeter"), ["greeter", "-", "0.9-2", "moved alone"])
        self.assertIn("2.html", page.links)
        self.assertNotIn("4.html", page.links)
        self.assertIn("3.html", self.page("run/2.html").links)

    def test_testing(self):
        self.make("--url", self.office.url)
        self.assertEqual(self.row("testing.html", "libgreet"), [
            "libgreet", "1.2-1", "libgreet-doc 1.2-1 (all), libgreet1 1.2-1 (amd64, arm64)"])

    def test_each_link_leads_somewhere(self):
        self.make("--url", self.office.url)
        self.assert_links()
        self.finish_third()
        self.make("--url", self.office.url)
        self.assert_links()

    def test_nothing_is_asked_or_written_again(self):
        self.make("--url", self.office.url)
        stamps, asked = self.stamps(), len(self.office.asked)
        self.make("--url", self.office.url)
        self.assertEqual(self.office.asked[asked:], ["/runs", "/hints", "/kept"])
        self.assertEqual(self.stamps(), stamps)

    def test_a_new_run_changes_the_pages_that_it_changes(self):
        self.make("--url", self.office.url)
        stamps, asked = self.stamps(), len(self.office.asked)
        self.finish_third()
        self.make("--url", self.office.url)
        later = self.stamps()
        same = {name for name, stamp in stamps.items() if later.get(name) == stamp}
        # Run 3 says the same of app but for its age. Nothing waits for libgreet and greeter any more.
        for name in ("source/app.html", "run/1.html", "style.css"):
            self.assertIn(name, same)
        for name in ("source/stuck.html", "run/2.html", "index.html", "excuses.html", "excuses.json", "testing.html"):
            self.assertNotIn(name, same)
        new = self.office.asked[asked:]
        self.assertEqual([path for path in new if path.startswith(("/excuses", "/update"))],
                         ["/excuses/3", "/update/3"])
        self.assertNotIn("/kept/rt/2", new)

    def test_all_at_once_and_run_by_run_come_to_the_same(self):
        self.make("--url", self.office.url)
        self.finish_third()
        self.make("--url", self.office.url)
        other = self.enterContext(tempfile.TemporaryDirectory())
        self.make("--url", self.office.url, folder=other)
        # Each knows when it fetched the run, and after which run it first got an answer.
        found = [{name: re.sub(b"First answered after .*", b"", data) for name, data in self.files(folder).items()
                  if name not in ("index.html", "excuses.json")} for folder in (self.folder, other)]
        self.assertEqual(*found)

    def test_an_answer_that_stays(self):
        self.make("--url", self.office.url)
        self.finish_third()
        self.make("--url", self.office.url)
        self.assertIn("/why/libgreet", self.office.asked[self.office.asked.index("/excuses/3"):])
        self.assertIn("First answered after <a href=\"../run/2.html\">run 2</a>", self.read("source/libgreet.html"))
        self.office.answers["/why/libgreet"] = self.office.answers["/why/libgreet"].replace("by rt 2", "by rt 9")
        shutil.rmtree(os.path.join(self.folder, ".state"))
        self.make("--url", self.office.url)
        self.assertIn("First answered after <a href=\"../run/3.html\">run 3</a>", self.read("source/libgreet.html"))

    def test_a_run_that_is_finished_between_two_questions(self):
        self.office.first["/testing"] = TESTING[3]
        self.make("--url", self.office.url)
        self.assertEqual(self.office.asked.count("/testing"), 2)
        self.assertEqual(self.json()["run"], 2)

    def test_an_answer_of_a_later_run_is_left(self):
        self.office.answers["/why/stuck"] = "why 3 stuck\n"
        self.make("--url", self.office.url)
        self.assertNotIn("First answered", self.read("source/stuck.html"))

    def test_an_answer_about_another_excuse_is_left(self):
        self.make("--url", self.office.url)
        self.finish_third()
        self.office.answers["/excuses/3"] = EXCUSES[3].replace(" missing on all\n", "")
        self.make("--url", self.office.url, "--why-seconds", "0")
        self.assertNotIn("First answered", self.read("source/libgreet.html"))
        self.assertIn("First answered", self.read("source/app.html"))

    def test_what_is_asked_first(self):
        self.make("--url", self.office.url)
        self.assertEqual([path for path in self.office.asked if path.startswith("/why/")],
                         ["/why/stuck", "/why/app", "/why/libgreet"])
        self.finish_third()
        self.office.answers["/excuses/3"] = EXCUSES[3].replace(" missing on all\n", "")
        asked = len(self.office.asked)
        self.make("--url", self.office.url)
        self.assertEqual([path for path in self.office.asked[asked:] if path.startswith("/why/")],
                         ["/why/libgreet", "/why/app"])

    def test_hints_and_how_they_stand(self):
        self.make("--url", self.office.url)
        cells = self.page("hints.html").cells
        self.assertEqual([cells[place:place + 5] for place in range(0, len(cells), 5)], [
            ["2", "block", "libgreet: in force", "stands", "-"],
            ["9, new", "easy", "libgreet/2.0-1: in forcestuck/2-0: unstable has 2-1",
             "refused by run 2: it would leave app uninstallable on amd64",
             "Ada Low <ada@example.org>: goes with app"]])
        self.assertIn("source/stuck.html", self.page("hints.html").links)
        # What is answered on hints changes between two runs, too.
        self.office.answers["/hints"] = "hints 2\nrt 2 covered block libgreet: in force\n"
        self.make("--url", self.office.url)
        self.assertEqual(len(self.page("hints.html").cells), 5)

    def test_stale_hints_are_ready_to_be_taken_back(self):
        self.office.answers["/hints"] = (
            "hints 2\nrt 8 covered easy stuck/2-1: moved\nrt 8 covered easy app/1-1: moved\n"
            "rt 9 covered unblock grater/1-1: no source\nrt 2 covered block libgreet: in force\n")
        self.make("--url", self.office.url)
        copied = re.findall('<pre class="copy">(.*?)</pre>', self.read("hints.html"), re.S)
        # The sender's greatest number is 9.
        self.assertEqual(copied, ["From: rt\nNumber: 10\nKind: unhint\nCancels: 8\n",
                                  "From: rt\nNumber: 11\nKind: unhint\nCancels: 9\n"])
        self.assertIn("Hint 8: all that it names has moved", self.read("hints.html"))

    def test_many_hints_have_parts(self):
        with unittest.mock.patch.object(hints, "A_PAGE", 1):
            self.make("--url", self.office.url)
        self.assertEqual([self.page(name).cells[0] for name in ("hints.html", "hints-2.html")], ["2", "9, new"])
        self.assertNotIn("Proposed", self.read("hints-2.html"))
        self.assertIn("../hints.html#hint-2", self.page("source/libgreet.html").links)
        self.assert_links()

    def test_messages_that_a_page_has_no_place_for_are_in_a_bag(self):
        self.office.answers["/propose"] = "easy app/1-1 stuck/2-1\neasy libgreet/2.0-1 b/1\n"
        message = "From: rt\nNumber: {}\nKind: hint\nHint: {}\n"
        due = [message.format(10, "easy app/1-1 stuck/2-1").encode(),
               message.format(11, "easy libgreet/2.0-1 b/1").encode()]
        with unittest.mock.patch.object(hints, "MOST_COPIED", len(due[0])):
            self.make("--url", self.office.url)
        self.assertIn("1 more aren't shown.", "".join(self.page("hints.html").texts))
        self.assertNotIn(due[1].decode(), self.read("hints.html"))
        with open(os.path.join(self.folder, "hints-proposed.txt"), "rb") as file:
            self.assertEqual(list(bags.messages_in(file.read())), due)

    def test_a_hint_that_run_after_run_refuses_is_stale(self):
        change = reports.read_update(UPDATES[2]).changes[0]
        item = reports.HintItem(9, True, "easy", "app/1-1", reports.ItemStanding.IN_FORCE)
        long = "3 runs in a row refused it: it would leave app uninstallable on amd64"
        for since, due in (2, ""), (1, long):
            refusal = hints.Refusal(hints.refused_because(change), 3, since)
            self.assertEqual(hints.stale_because([item], refusal), due)

    def test_proposed_hints_are_ready_to_be_copied(self):
        self.office.answers["/propose"] = "easy app/1-1 stuck/2-1\n"
        self.make("--url", self.office.url)
        copied = re.findall('<pre class="copy">(.*?)</pre>', self.read("hints.html"), re.S)
        self.assertEqual(copied[:2], ["easy app/1-1 stuck/2-1\n",
                                      "From: rt\nNumber: 10\nKind: hint\nHint: easy app/1-1 stuck/2-1\n"])

    def test_a_block_is_named_before_the_office_is_asked_about_the_source(self):
        self.make("--url", self.office.url, "--why-seconds", "0")
        page = self.page("source/libgreet.html")
        self.assertIn("Blocked by a hint (hint 2: block libgreet)", page.items)
        self.assertIn("../hints.html#hint-2", page.links)
        self.assertIn("Not asked yet", self.read("source/libgreet.html"))
        self.make("--url", self.office.url)
        self.assertNotIn("Not asked yet", self.read("source/libgreet.html"))

    def mending(self):
        """The cells of the first row of what has to be mended."""
        return Reader(self.read("index.html").partition('<h2 id="mending">')[2]).cells[:5]

    def test_what_has_to_be_mended(self):
        """The last numbered line of what the office proposes for stuck says what nothing meets."""
        self.make("--url", self.office.url)
        self.assertEqual(self.mending(), ["greeter", "greeter", "libgreet1", "1", "stuck"])
        # Without that it is the last line of why the source can't move alone.
        self.office.answers["/propose/stuck"] = ""
        shutil.rmtree(os.path.join(self.folder, ".state"))
        self.make("--url", self.office.url)
        self.assertEqual(self.mending(), ["libgreet1", "libgreet", "libgreet-doc", "1", "stuck"])

    def test_a_source_that_left_the_archive(self):
        self.office.answers["/excuses/2"] = EXCUSES[2].replace(
            " missing on all\n blocked\n", " no binaries\n removal asked\n").replace("libgreet 1.2-1 ", "libgreet - ")
        self.make("--url", self.office.url)
        self.assertEqual(self.page("excuses.html").cells[::6], ["app", "stuck"])
        self.assertEqual(self.page("excuses-remove.html").cells, [])
        self.assertEqual(self.page("excuses-gone.html").cells[::6], ["libgreet"])

    def test_where_links_lead_out(self):
        self.make("--url", self.office.url, "--tracker", "https://t.example.org/%s", "--builds",
                  "https://b.example.org/%s/%a", "--changelog", "https://c.example.org/%p/%s/%v")
        links = self.page("source/libgreet.html").links
        for link in ("https://t.example.org/libgreet", "https://b.example.org/libgreet/",
                     "https://b.example.org/libgreet/all", "https://c.example.org/libg/libgreet/2.0-1"):
            self.assertIn(link, links)
        self.assertEqual(Patterns(changelog="%p %s %v").changes("g++-12", "2:1.0+b1"), "g g%2B%2B-12 1.0%2Bb1")
        self.make("--url", self.office.url, "--tracker", "", "--builds", "", "--changelog", "")
        self.assertFalse([link for link in self.page("source/libgreet.html").links if "debian.org" in link])

    def test_all_names_have_a_list_and_are_in_the_index(self):
        self.make("--url", self.office.url)
        page = self.page("names-libg.html")
        self.assertEqual(page.items[-3:], ["libgreet", "libgreet-doc of libgreet", "libgreet1 of libgreet"])
        # app, greeter, libgreet, stuck; each but the packages shares nothing with the name before it.
        self.assertEqual(self.read("names.js"), "window.officeNames = `0app\n0greeter\n0libgreet\n0stuck`;\n")
        self.assertEqual(self.read("packages.js"), "window.officePackages = `\n\n8-doc 81\n`;\n")

    def test_what_is_proposed_for_one_source(self):
        self.make("--url", self.office.url)
        self.assertIn("stuck stuck 2-1 uninstallable amd64 greeter", self.page("source/stuck.html").items)
        self.assertIn("unstable nothing", self.page("source/stuck.html").items)
        self.assertNotIn("What the office proposes", self.read("source/app.html"))
        self.assertEqual([path for path in self.office.asked if path.startswith("/propose")],
                         ["/propose", "/propose/stuck"])
        # If nothing is found, that is shown.
        self.finish_third()
        self.make("--url", self.office.url)
        self.assertNotIn("What the office proposes", self.read("source/stuck.html"))

    def test_no_group_is_found(self):
        self.office.answers["/propose/stuck"] = ""
        self.make("--url", self.office.url)
        self.assertIn("No hint: the office found no group that frees it.", self.page("source/stuck.html").items)

    def test_what_is_proposed_for_a_group(self):
        self.office.answers["/propose"] = "easy app/1-1 stuck/2-1\n"
        self.make("--url", self.office.url)
        self.assertIn("easy app/1-1 stuck/2-1", self.page("source/stuck.html").items)
        self.assertNotIn("/propose/stuck", self.office.asked)

    def test_an_office_of_an_earlier_version(self):
        """It has no such pages, which a sentence says; all else exists."""
        self.office.answers = {path: told for path, told in routes(2).items()
                               if not path.startswith(("/propose", "/hints"))}
        self.office.is_older = True
        told = self.make("--url", self.office.url)
        self.assertEqual(told, f"office-pages: {self.office.url}/hints: 404: refused NoRoute: it is an office of an "
                         "earlier version, and these tools need one that has this page: so no page shows the state of "
                         "hints, nor proposals\n")
        self.assertIn("No hint is known to be in force.", self.read("hints.html"))
        self.assertNotIn("What the office proposes", self.read("source/stuck.html"))

    def test_no_time_to_ask_why(self):
        self.make("--url", self.office.url, "--why-seconds", "0")
        self.assertFalse([path for path in self.office.asked if path.startswith("/why/")])
        self.make("--url", self.office.url)
        self.assertIn("line-1", self.page("source/stuck.html").anchors)

    def test_an_office_that_was_made_anew(self):
        self.make("--url", self.office.url)
        self.office.answers |= {
            "/runs": RUNS[1] + RUNS[2].replace("2025-03-20", "2025-03-19"),
            "/excuses/2": EXCUSES[2].replace("2025-03-20", "2025-03-19").replace("app ", "cup "),
            "/update/2": UPDATES[2].replace("2025-03-20", "2025-03-19"), "/why/cup": "why 2 cup\n",
            "/kept/rt/2": "From: rt\nNumber: 2\nKind: hint\nHint: block-all source\n"}
        told = self.make("--url", self.office.url)
        self.assertIn("run 2 isn't the one that was kept", told)
        self.assertEqual(self.json()["generated-date"], "2025-03-19")
        self.assertFalse(os.path.exists(os.path.join(self.folder, "source/app.html")))
        self.assertIn("blocked by rt 2: block-all source", self.page("source/libgreet.html").items)
        self.assert_links()

    def test_no_run_is_finished(self):
        self.office.answers = dict(routes(0))
        self.make("--url", self.office.url)
        self.assertEqual(self.files(), {})

    def test_long_lists_have_parts(self):
        with unittest.mock.patch.object(parts, "MOST_ROWS", 2):
            self.make("--url", self.office.url)
        self.assertEqual(self.page("excuses.html").cells[::6], ["app", "libgreet"])
        self.assertEqual(self.page("excuses-2.html").cells[::6], ["stuck"])
        self.assert_links()
        self.finish_third()
        self.make("--url", self.office.url)
        self.assertFalse(os.path.exists(os.path.join(self.folder, "excuses-2.html")))

    def test_pages_are_readable_without_script(self):
        self.make("--url", self.office.url)
        for name, data in self.files().items():
            if name.endswith(".html"):
                hidden = [part for part in data.decode().split("<") if " hidden" in part]
                self.assertTrue(all(part.startswith("form ") for part in hidden), name)

    @unittest.skipUnless(shutil.which("tidy"), "tidy isn't installed")
    def test_tidy_has_nothing_to_say(self):
        self.finish_third()
        self.make("--url", self.office.url)
        for name in self.files():
            if name.endswith(".html"):
                told = subprocess.run(["tidy", "-q", "-e", os.path.join(self.folder, name)], capture_output=True,
                                      text=True, check=False)
                self.assertEqual((told.returncode, told.stderr), (0, ""), name)

    @needs_office
    def test_the_office_itself(self):
        """docs/MANUAL.md has what its archive's second run says of libgreet."""
        with Serving() as served:
            for name in sorted(os.listdir(EXAMPLES + "/archive")):
                self.mail(served.url, example("archive/" + name))
            self.make("--url", served.url)
        page = self.page("source/libgreet.html")
        for line in ("upload ftp 3 2025-03-05", "missing on all libgreet-doc 1.2-1 of 1.2-1 by bd 1",
                     "blocked by rt 2: block libgreet"):
            self.assertIn(line, page.items)
        self.assertIn("in run 1 on 2025-03-04", "".join(page.texts))
        self.assert_links()

    def mail(self, url, text):
        from office_tools.service import Service
        self.assertTrue(Service(url).post("/mail", text).is_good)

    @needs_office
    def test_a_store_and_its_service_have_the_same_pages(self):
        store = os.path.join(self.enterContext(tempfile.TemporaryDirectory()), "store.db")
        office("replay", "--conf", SETUP, "--db", store, given=example("archive.bag"))
        self.make("--conf", SETUP, "--db", store)
        other = self.enterContext(tempfile.TemporaryDirectory())
        with Serving(store=store) as served:
            self.make("--url", served.url, folder=other)
        self.assertEqual(*(
            {name: data for name, data in self.files(folder).items() if name not in ("index.html", "excuses.json")}
            for folder in (self.folder, other)))


class Kills(Pages):
    """The command is ended in the middle."""

    def setUp(self):
        super().setUp()
        self.office = self.enterContext(FakeOffice(2))

    def whole(self):
        """The pages that a call makes that isn't ended."""
        other = self.enterContext(tempfile.TemporaryDirectory())
        self.make("--url", self.office.url, folder=other)
        return self.files(other)

    def assert_whole(self):
        for name, data in self.files().items():
            if name.endswith(".html"):
                self.assertTrue(data.startswith(b"<!DOCTYPE html>") and data.endswith(b"</html>\n"), name)

    def test_an_end_between_any_two_files(self):
        due = self.whole()
        move = site.Site.move
        for count in range(len(due)):
            left = iter(range(count))

            def stop(this, path, left=left):
                if next(left, None) is None:
                    raise KeyboardInterrupt
                move(this, path)

            with unittest.mock.patch.object(site.Site, "move", stop), self.assertRaises(KeyboardInterrupt):
                self.make("--url", self.office.url)
            self.assertEqual(len(self.files()), count)
            self.assert_whole()
            self.make("--url", self.office.url)
            self.assertEqual(set(self.files()), set(due))
            self.assert_links()
            shutil.rmtree(self.folder)
            os.mkdir(self.folder)

    def test_an_end_by_force(self):
        names = [f"s{number:04}" for number in range(MANY)]
        excuses = "".join(f"{name} - 1-1\n age 1 of 5\n too young\n not a candidate\n" for name in names)
        self.office.answers |= {
            "/runs": f"run 1 2025-03-04 excuses {MANY} candidates 0 accept 0 easy 0 remove 0 wait 0\n",
            "/excuses/1": "excuses 1 2025-03-04\n" + excuses, "/update/1": "update 1 2025-03-04\n",
            "/testing": "testing 1\n"}
        words = [TOOLS + "/bin/office-pages", "--why-seconds", "0", "--url", self.office.url, self.folder]
        beside = os.path.join(self.folder, ".new", "source")
        with subprocess.Popen(words) as process:
            until = time.monotonic() + 60
            while not (os.path.isdir(beside) and len(os.listdir(beside)) > 100) and time.monotonic() < until:
                time.sleep(0.005)
            process.send_signal(signal.SIGKILL)
        self.assertGreater(len(os.listdir(beside)), 100)
        self.assertNotIn("index.html", self.files())
        self.assert_whole()
        self.make("--url", self.office.url, "--why-seconds", "0")
        pages = [name for name in os.listdir(os.path.join(self.folder, "source")) if name.endswith(".html")]
        self.assertEqual(len(pages), MANY)
        self.assertFalse(os.path.exists(os.path.join(self.folder, ".new")))
        self.assertEqual(self.office.asked.count("/excuses/1"), 1)
        self.assert_links()

    def test_two_calls_at_once(self):
        with command.alone(self.folder), self.assertRaisesRegex(faults.Fault, "another call of office-pages"):
            self.make("--url", self.office.url, "--state", self.folder)


class Faults(Pages):
    """What is refused, and with which status."""

    def status(self, *words):
        ended = tool("office-pages", *words)
        self.assertRegex(ended.stderr, "^(office-pages: |usage: )")
        return ended.returncode

    def test_statuses(self):
        self.assertEqual(self.status(), 2)
        self.assertEqual(self.status("--url", "http://127.0.0.1:1", "--db", "store.db", self.folder), 2)
        self.assertEqual(self.status("--db", "store.db", self.folder), 2)
        self.assertEqual(self.status("--excuses", "excuses", self.folder), 2)
        for word in "bugs", "tracker", "builds", "changelog":
            self.assertEqual(self.status("--" + word, "https://example.org", self.folder), 2)
        for seconds in "nan", "-1", "inf", "soon":
            self.assertEqual(self.status("--why-seconds=" + seconds, self.folder), 2)
        self.assertEqual(self.status(self.folder + "/none"), 1)
        self.assertEqual(self.status("--url", "http://127.0.0.1:1", self.folder), 4)

    def test_reports_of_two_runs(self):
        paths = []
        for name, text in ("excuses", EXCUSES[1]), ("update", UPDATES[2]):
            paths += ["--" + name, os.path.join(self.folder, name)]
            with open(paths[-1], "w", encoding="utf-8") as file:
                file.write(text)
        self.assertEqual(self.status(*paths, self.folder), 1)

    def test_a_report_that_no_office_writes(self):
        with FakeOffice(2) as served:
            served.answers["/excuses/2"] = EXCUSES[2].replace("too young", "too old")
            self.assertEqual(self.status("--url", served.url, self.folder), 1)
        self.assertEqual(self.files(), {})


if __name__ == "__main__":
    unittest.main()
