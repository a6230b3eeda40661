"""Tests the tests: commands with a planted fault, each to be seen by a part of them.

Usage: planted.py OFFICE FOLDER
"""
import concurrent.futures
import os
import subprocess
import sys
from dataclasses import dataclass
from typing import Sequence

from days import DAYS
from kills import LATER
from packages import build_all
from stage import COMMANDS, HERE, TOP
from ways import ALL

COMMAND = """#!/usr/bin/python3
import sys
sys.path.insert(0, {tools!r})
from office_tools import faults
from office_tools.{name} import command
{fault}
faults.run("office-{name}", command.main)
"""


@dataclass(frozen=True)
class Fault:
    """A fault: the command that has it, and the part of the tests that has to see it, with the line that it prints."""

    title: str
    name: str
    text: str
    part: Sequence[str]
    told: str


LOOP = ("loop.py", "reprepro")
FAULTS: Sequence[Fault] = (
    Fault("an apply that takes a row too many", "apply", """
import dataclasses
from office_tools.apply import turn
from office_tools.apply.contents import Row, Source
due = turn.wanted
def wanted(*words):
    found, more = due(*words), Row("amd64", "amd64", "tool", "1-1")
    return dataclasses.replace(found, rows=found.rows | {more},
                               built_of={**found.built_of, more: Source("tool", "1-1")})
turn.wanted = wanted""", LOOP, "the archive's testing behind run 1"),
    Fault("an apply that doesn't publish", "apply", """
from office_tools.apply.reprepro import Reprepro
Reprepro.publish = lambda self: None
Reprepro.is_published = lambda self, have: True""", LOOP, "the archive's testing behind run 1"),
    Fault("an apply that publishes what is the same already", "apply", """
from office_tools.apply.reprepro import Reprepro
def is_published(self, have):
    self.reprepro("export", self.testing_name)
    return True
Reprepro.is_published = is_published""", LOOP, "a second apply changes nothing"),
    Fault("an apply that removes less than is planned", "apply", """
from office_tools.apply.contents import Contents
from office_tools.apply.reprepro import Reprepro
due = Reprepro.remove
Reprepro.remove = lambda self, go: due(self, Contents(go.sources, frozenset(sorted(go.rows)[1:])))""",
          LOOP, "testing isn't published: it isn't what the office wants"),
    Fault("an apply that copies less than is planned", "apply", """
from office_tools.apply.contents import Contents
from office_tools.apply.reprepro import Reprepro
due = Reprepro.copy
Reprepro.copy = lambda self, come: due(self, Contents(come.sources, frozenset(sorted(come.rows)[1:])))""",
          LOOP, "nothing is taken out of testing, and nothing is published"),
    Fault("an apply that takes older packages of all out of what was adopted", "apply", """
from office_tools.apply import contents
contents.older_of_all = lambda *words: []""", ("ways.py",), "lag-doc 1-2 in the index of arm64"),
    Fault("a feed that reuses a number", "feed", """
from office_tools.feed import news
due = news.numbered
news.numbered = lambda sender, last, made: due(sender, max(0, last - (sender == "ftp")), made)""", LOOP, "somebody else sends as ftp"),
    Fault("a feed that tells no drops", "feed", """
due = command.news
def news(*words):
    found, gone = due(*words)
    found.drops = []
    return found, gone
command.news = news""", LOOP, "no run is ordered before it is dropped"),
    Fault("a feed that forgets what it was about to send", "feed", """
from office_tools.feed.mailbox import Outgoing
Outgoing.write = lambda self, texts: None""", ("kills.py", "feeds"), "numbers with two texts"))


def is_seen(program: str, folder: str, number: int) -> bool:
    """Whether the tests see a fault."""
    fault = FAULTS[number]
    place = os.path.join(folder, f"fault{number}")
    commands = os.path.join(place, "commands")
    os.makedirs(commands)
    for name in ("feed", "apply"):
        planted = fault.text if name == fault.name else ""
        text = COMMAND.format(tools=os.path.join(TOP, "tools"), name=name, fault=planted)
        path = os.path.join(commands, f"office-{name}")
        with open(path, "w", encoding="utf-8") as file:
            file.write(text)
        os.chmod(path, 0o755)
    os.symlink(os.path.join(folder, "built"), os.path.join(place, "built"))
    script, *parts = fault.part
    ran = subprocess.run([sys.executable, os.path.join(HERE, script), program, place, *parts], capture_output=True,
                         text=True, check=False, env={**os.environ, "COMMANDS": commands}, timeout=600)
    seen = ran.returncode != 0 and fault.told in ran.stderr
    print(f"{'seen' if seen else 'NOT SEEN'}: {fault.title}")
    if not seen:
        print(ran.stdout[-2000:] + ran.stderr[-2000:])
    return seen


def main(words: Sequence[str]) -> int:
    """Plants each fault."""
    program, folder = words
    build_all([*LATER, *(upload for day in DAYS for upload in day.uploads), *ALL], os.path.join(folder, "built"))
    with concurrent.futures.ThreadPoolExecutor(3) as pool:
        seen = list(pool.map(lambda number: is_seen(program, folder, number), range(len(FAULTS))))
    print(f"{sum(seen)} of {len(seen)} planted faults seen")
    return int(not all(seen))


if __name__ == "__main__":
    assert os.path.isdir(COMMANDS)
    sys.exit(main(sys.argv[1:]))
