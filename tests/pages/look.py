#!/usr/bin/python3
"""Makes pages over a drawn office with ten days of changes, and looks at each kind of page in headless chromium.

usage: look.py OFFICE FOLDER [LEAVES]

OFFICE is the built program. The mail is that of draw.py. The pages are made after the fifth and after the tenth run.
Each kind of page is opened at 1280 and 390 pixels, light and dark, with and without JavaScript. What it shows is
compared with the office's own texts; its markup is read by html5lib; contrast, targets, labels, dates and the order of
the tab key are looked at in the browser. FOLDER gets the drawn office, the pages, and a picture of each page in each
way. The last line is `N checks, M faults`; the exit status is 1 with a fault. PORT names the port of the service
(9500), KEEP=1 takes an office and pages that an earlier call left in FOLDER, and ONLY has the pages that are opened.

It needs chromium, chromium-driver, python3-selenium and python3-html5lib, and the lists of apt of a Debian release.
"""
import os
import re
import subprocess
import sys

HERE = os.path.dirname(os.path.realpath(__file__))
TOP = os.path.join(HERE, "..", "..")
sys.path[:0] = [HERE, os.path.join(TOP, "tools"), os.path.join(TOP, "tests")]
sys.dont_write_bytecode = True

import browser  # noqa: E402
import draw  # noqa: E402
import markup  # noqa: E402
import more_texts  # noqa: E402
import serving  # noqa: E402
import texts  # noqa: E402
from office_tools.service import Service  # noqa: E402

PORT = int(os.environ.get("PORT", "9500"))
WHY_SECONDS = "60"


class Tally:
    """How much was checked, and what was wrong."""

    def __init__(self):
        self.checks, self.faults = 0, 0

    def add(self, what, faults):
        self.checks += 1
        for fault in faults:
            self.faults += 1
            print(f"{what}: {fault}", flush=True)


def served(office, folder):
    """The program over a store, for a `with`."""
    return serving.Service(office, "--db", os.path.join(folder, "store.db"), conf=os.path.join(folder, "setup.conf"),
                           port=PORT)


def deliver(office, folder, bag):
    subprocess.run([office, "replay", "--conf", os.path.join(folder, "setup.conf"), "--db",
                    os.path.join(folder, "store.db")], input=bag, check=True, stdout=subprocess.DEVNULL)


def make_pages(url, pages):
    os.makedirs(pages, exist_ok=True)
    subprocess.run([os.path.join(TOP, "tools/bin/office-pages"), "--url", url, "--why-seconds", WHY_SECONDS, pages],
                   check=True)


def halves(bag):
    """A bag up to its fifth order, and what comes after it."""
    place = [found.start() for found in re.finditer(rb"(?m)^mail \d+\nFrom: clock$", bag)][5]
    return bag[:place], bag[place:]


def fill(office, folder):
    """Draws the office, and makes its pages after the fifth and after the tenth run."""
    draw.main(office, folder, *sys.argv[3:])
    with open(os.path.join(folder, "bag"), "rb") as file:
        bags = halves(file.read())
    for bag in bags:
        deliver(office, folder, bag)
        with served(office, folder) as service:
            make_pages(service.url, os.path.join(folder, "html"))


def look_at_all(pages, shots, told, tally):
    """Opens each kind of page in each way."""
    os.makedirs(shots, exist_ok=True)
    only = os.environ.get("ONLY", "").split()
    kinds = {**texts.kinds_of(told, pages), **more_texts.kinds_of(told, pages)}
    kinds = {name: compare for name, compare in kinds.items() if not only or name in only}
    with browser.Browser() as seen:
        for width, scheme, has_script in browser.ways():
            seen.set(width, scheme, has_script)
            for name, compare in kinds.items():
                way = f"{name}, {width} pixels, {scheme}, {'with' if has_script else 'without'} JavaScript"
                seen.open("file://" + os.path.join(os.path.realpath(pages), name))
                tally.add(way, seen.faults())
                if scheme == "light":
                    tally.add(way + ": texts", compare(seen))
                if has_script and scheme == "light":
                    tally.add(way + ": tab key", seen.tab_faults())
                seen.picture(os.path.join(shots, "_".join([
                    name.replace("/", "-").removesuffix(".html"), str(width), scheme, "js" if has_script else "plain"])
                    + ".png"))
        seen.set(1280, "light", True)
        tally.add("search", texts.search_faults(seen, told, os.path.realpath(pages)))


def look_at_markup(pages, tally):
    """Reads the markup of all pages; of those that are many of a kind, each thirtieth. No title comes twice."""
    titles = {}
    for place, _, files in os.walk(pages):
        html = sorted(name for name in files if name.endswith(".html"))
        few = [name for name in html if not name.startswith("names-")]
        for name in html[::30] if place != pages else sorted({*few, *html[::30]}):
            path = os.path.join(place, name)
            tally.add(path, markup.faults_of(path))
            titles.setdefault(markup.Page(path).title, []).append(path)
    tally.add("titles", (f"{title!r} is the title of {paths}" for title, paths in titles.items() if len(paths) > 1))


def main(office, folder):
    pages = os.path.join(folder, "html")
    if not os.environ.get("KEEP"):
        fill(office, folder)
    tally = Tally()
    with served(office, folder) as service:
        told = texts.Told(Service(service.url))
        look_at_markup(pages, tally)
        look_at_all(pages, os.path.join(folder, "shots"), told, tally)
    print(f"{tally.checks} checks, {tally.faults} faults")
    return 1 if tally.faults else 0


if __name__ == "__main__":
    if len(sys.argv) not in (3, 4):
        sys.exit(__doc__)
    sys.exit(main(os.path.realpath(sys.argv[1]), sys.argv[2]))
