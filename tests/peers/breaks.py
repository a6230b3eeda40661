#!/usr/bin/python3
"""Compares what `office breaks` prints of a Debian release with two whole solutions by dose-debcheck.

usage: breaks.py OFFICE PACKAGES SOURCE..

OFFICE is the built program, PACKAGES an index of one architecture (`apt-helper cat-file` prints one of apt's lists).
office-from-packages makes an office of it whose first run takes all sources in. For each SOURCE the script asks what
its removal breaks. dose-debcheck says which packages can't be installed, with and without the packages of the source.
The difference has to be as large as the office's count, and to have each package that the office prints. Where
office-from-packages sends a package otherwise than the index has it, both judge what was sent.

It needs dose-distcheck. The last line is `N changes, M faults`; the exit status is 1 with a fault.
"""
import os
import re
import subprocess
import sys
import tempfile
from typing import Iterator, Sequence

TOP = os.path.join(os.path.dirname(os.path.realpath(__file__)), "..", "..")
os.environ.setdefault("OFFICE_SYNC", os.path.join(TOP, "crates/office_sync/out/office_sync"))
sys.path[:0] = [os.path.join(TOP, "tools")]
sys.dont_write_bytecode = True

from office_tools import bags  # noqa: E402


def run(*words: str, given: str = os.devnull) -> str:
    """What a command prints."""
    with open(given, "rb") as opened:
        return subprocess.run(words, stdin=opened, capture_output=True, text=True).stdout


def built(bag: str) -> Iterator[str]:
    """The paragraphs of the packages in a bag."""
    with open(bag, "rb") as opened:
        for text in bags.messages_in(opened.read()):
            first, *packages = text.decode().rstrip("\n").split("\n\n")
            if "\nKind: build" in first:
                yield from packages


def word(text: str, field: str) -> str:
    """The first word of a field, or nothing."""
    found = re.search(rf"^{field}: (\S+)", text, re.MULTILINE)
    return found[1] if found else ""


def broken(index: str, texts: Sequence[str], without: str = "") -> set[str]:
    """Which of these packages can't be installed, if those of a source are left out."""
    with open(index, "w", encoding="utf-8") as written:
        for text in texts:
            if (word(text, "Source") or word(text, "Package")) != without:
                written.write(text + "\n\n")
    told = run("dose-debcheck", "--failures", "--explain", index)
    return set(re.findall(r"^  package: (\S+)$", told, re.MULTILINE))


def main() -> int:
    office, packages, *sources = sys.argv[1:]
    faults = 0
    with tempfile.TemporaryDirectory() as folder:
        made, store, index = (os.path.join(folder, name) for name in ("made", "store", "Packages"))
        words = ["--uploaded", "2025-03-01", "--run", "2025-03-20", made, packages]
        subprocess.run([os.path.join(TOP, "tools", "bin", "office-from-packages"), *words], check=True,
                       stderr=subprocess.DEVNULL, env={**os.environ, "OFFICE": os.path.realpath(office)})
        over = ["--conf", os.path.join(made, "setup.conf"), "--db", store]
        run(office, "replay", *over, given=os.path.join(made, "bag"))
        testing = run(office, "report", "testing", *over)
        versions = dict(re.findall(r"^source (\S+) (\S+)$", testing, re.MULTILINE))
        rows = set(re.findall(r"^binary \S+ (\S+) ", testing, re.MULTILINE))
        texts = [text for text in built(os.path.join(made, "bag")) if word(text, "Package") in rows]
        before = broken(index, texts)
        print(f"{len(versions)} sources, {len(texts)} packages, {len(before)} of them not installable")
        for source in sources:
            told = run(office, "breaks", f"remove {source}/{versions[source]}", *over)
            due = broken(index, texts, source) - before
            count = sum(map(int, re.findall(r"^broken \S+ (\d+)$", told, re.MULTILINE)))
            is_fault = count != len(due) or not due.issuperset(re.findall(r"^uninstallable \S+ (\S+) ", told, re.M))
            faults += is_fault
            print(f"{'FAIL ' if is_fault else ''}{source}: {count} break, by dose {len(due)}")
    print(f"{len(sources)} changes, {faults} faults")
    return int(faults > 0)


sys.exit(main())
