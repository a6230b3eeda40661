"""What the pages of office-pages do by script, in a real browser: search, filters, sorting, the way to a source."""
import os
import re
import shutil
import subprocess
import tempfile
import unittest

import helpers  # noqa: F401 (it puts the package into the path)
from pages_office import FakeOffice
from office_tools.pages import command

BROWSER = shutil.which("chromium")


@unittest.skipUnless(BROWSER, "chromium isn't installed")
class Script(unittest.TestCase):
    """Pages of two runs, looked at in a browser after some script of the test's own."""

    @classmethod
    def setUpClass(cls):
        cls.folder = cls.enterClassContext(tempfile.TemporaryDirectory())
        with FakeOffice(2) as office:
            command.main(["--url", office.url, cls.folder])

    def seen(self, page, fragment="", does=""):
        """The page as the browser has it: its names of sources that are shown, in order, and its whole text."""
        with open(os.path.join(self.folder, page), encoding="utf-8") as file:
            text = file.read()
        with open(os.path.join(self.folder, "tried.html"), "w", encoding="utf-8") as file:
            file.write(text.replace("</body>", f"<script>addEventListener('load', () => {{ {does} }})</script></body>"))
        told = subprocess.run([BROWSER, "--headless", "--no-sandbox", "--disable-gpu", "--virtual-time-budget=2000",
                               "--dump-dom", f"file://{self.folder}/tried.html{fragment}"],
                              capture_output=True, text=True, timeout=600, check=True).stdout
        rows = re.findall(r"<tr([^>]*)><td[^>]*><a [^>]*>([^<]*)</a>", told)
        return [name for attributes, name in rows if "hidden" not in attributes], told

    def test_a_view_is_kept_in_the_address(self):
        self.assertEqual(self.seen("excuses.html")[0], ["app", "libgreet", "stuck"])
        self.assertEqual(self.seen("excuses.html", "#reason=block")[0], ["libgreet"])
        self.assertEqual(self.seen("excuses.html", "#verdict=waits")[0], ["stuck"])
        names, told = self.seen("excuses.html", "#words=1042%20app")
        self.assertEqual(names, ["app"])
        self.assertIn("1 of 3 sources", told)

    def test_typing_searches(self):
        does = ("const field = document.getElementById('words'); field.value = 'GREETER'; "
                "field.dispatchEvent(new Event('input', {bubbles: true})); document.title = location.hash;")
        names, told = self.seen("excuses.html", "", does)
        self.assertEqual(names, ["stuck"])
        self.assertIn("<title>#words=GREETER</title>", told)

    def test_heads_sort(self):
        press = "[...document.querySelectorAll('th button')].find(b => b.textContent == '%s').click();"
        # The ages are 2, 15 and 12 days.
        self.assertEqual(self.seen("excuses.html", "", press % "Age")[0], ["app", "stuck", "libgreet"])
        names, told = self.seen("excuses.html", "", press % "Age" * 2)
        self.assertEqual(names, ["libgreet", "stuck", "app"])
        self.assertIn('aria-sort="descending"', told)
        self.assertEqual(self.seen("excuses.html", "", press % "Source" * 2)[0], ["stuck", "libgreet", "app"])

    def test_names_are_found(self):
        """By a part of a source's name, and by that of a package, which leads to its source."""
        does = ("const field = document.getElementById('go'); field.value = '%s'; "
                "field.dispatchEvent(new Event('input', {bubbles: true}));")
        for text, count, found in (
                ("greet", "4 names have it.", ["greeter", "libgreet", "libgreet1 of libgreet",
                                               "libgreet-doc of libgreet"]),
                ("libgreet-", "1 name has it.", ["libgreet-doc of libgreet"]), ("grater", "No names have it.", [])):
            _, told = self.seen("excuses.html", "", does % text)
            self.assertIn(f">{count}</output>", told)
            shown = re.search('<ul class="found".*?</ul>', told, re.S)[0]
            self.assertEqual([re.sub("<[^>]*>", "", item) for item in re.findall("<li>.*?</li>", shown)], found)
        self.assertIn('href="source/libgreet.html"', self.seen("excuses.html", "", does % "libgreet1")[1])

    def test_forms_are_shown_by_the_script(self):
        _, told = self.seen("excuses.html")
        self.assertNotRegex(told, r"<form[^>]* hidden")


if __name__ == "__main__":
    unittest.main()
