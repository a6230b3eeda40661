"""The settings of a day: a file of fields, as the office's setup, and what stands for a field that is missing."""
import argparse
import os
import shlex
from dataclasses import dataclass, field
from typing import Optional, Sequence

from office_tools.apply.command import manager_of, parser
from office_tools.autopkgtests import command as autopkgtests
from office_tools.bugs import command as bugs
from office_tools.counts import count
from office_tools.faults import Exit, Fault, ending
from office_tools.files import cache_of, read_bytes
from office_tools.messages import paragraphs
from office_tools.service import DEFAULT_URL

FIELDS = ("Url", "Setup", "State", "Pull", "Feed", "Bugs", "Tests", "Apply", "Look", "Propose", "Patience")
STEPS = ("Pull", "Feed", "Bugs", "Tests", "Apply", "Look")
SETUP = "/etc/office/setup.conf"
PATIENCE = 30  # days


@dataclass(frozen=True)
class Settings:
    """The words of each step, the folder of what is remembered, and the days of waiting that make a line printed."""

    url: str
    setup: str
    state: str
    pull: Sequence[str]
    feed: Sequence[str]
    apply: Sequence[str]
    look: Sequence[str]
    bugs: Sequence[str] = ()
    tests: Sequence[str] = ()
    propose: bool = True
    patience: int = PATIENCE
    more: dict[str, Sequence[str]] = field(default_factory=dict)
    left_out: Sequence[str] = ()


def read_settings(path: str, more: dict[str, Sequence[str]], left_out: Sequence[str] = ()) -> Settings:
    """The settings that a file states; `more` has further words of steps, and `left_out` steps of this day."""
    with ending(Exit.USAGE):
        text = read_bytes(path)
    with ending(Exit.USAGE, f"{path}: "):
        found = list(paragraphs(text))
    if len(found) != 1:
        raise Fault(f"{path}: it has {len(found)} paragraphs, and has to have one", Exit.USAGE)
    for entry in found[0].fields:
        if entry.name.lower() not in map(str.lower, FIELDS):
            raise Fault(f"{path}:{entry.line}: there is no field {entry.name}", Exit.USAGE)
    values = {name: found[0].value(name) for name in FIELDS}
    words = {name: split(path, name, values[name]) for name in STEPS}
    if not words["Feed"] or not words["Apply"]:
        raise Fault(f"{path}: the fields Feed and Apply are needed", Exit.USAGE)
    for word in words["Feed"]:
        if word in ("--propose", "--proposals", "--order", "--no-order", "--dry-run"):
            raise Fault(f"{path}: Feed: {word}: office-day orders, and the field Propose says whether it proposes",
                        Exit.USAGE)
    taken(path, "Bugs", bugs.parser(), words["Bugs"])
    taken(path, "Tests", autopkgtests.parser(), words["Tests"])
    url = values["Url"] or DEFAULT_URL
    # Without the field it is the unit's folder, or one in the user's cache.
    state = values["State"] or os.environ.get("STATE_DIRECTORY") or cache_of("office-day", url)
    return Settings(url, values["Setup"] or SETUP, state, words["Pull"], words["Feed"],
                    words["Apply"], words["Look"] or folders(path, words["Apply"]), words["Bugs"], words["Tests"],
                    is_yes(path, values["Propose"]), number(path, values["Patience"]), more, left_out)


def split(path: str, name: str, value: Optional[str]) -> Sequence[str]:
    """The words of a field, with the quotes of a shell."""
    try:
        return shlex.split(value or "")
    except ValueError as fault:
        raise Fault(f"{path}: {name}: {fault}", Exit.USAGE) from fault


def folders(path: str, words: Sequence[str]) -> Sequence[str]:
    """The published folders of the archive that the words of office-apply name."""
    asked = parsed(path, "Apply", parser(), words)
    if asked.manager not in ("reprepro", "aptly"):
        raise Fault(f"{path}: the field Look is needed: the folders dists/SUITE of testing and of unstable", Exit.USAGE)
    return manager_of(asked)[0].published_folders()


def parsed(path: str, name: str, known: argparse.ArgumentParser, words: Sequence[str]) -> argparse.Namespace:
    """The words of a field, as its command takes them."""
    try:
        return known.parse_args(words)
    except SystemExit as fault:
        raise Fault(f"{path}: {name}: {known.prog} doesn't take these words", Exit.USAGE) from fault


def taken(path: str, name: str, known: argparse.ArgumentParser, words: Sequence[str]) -> None:
    """Looks whether a command that mails bugs takes the words of a field, if there are any."""
    if words and parsed(path, name, known, words).dry_run:
        raise Fault(f"{path}: {name}: --dry-run: office-day sends what is new", Exit.USAGE)


def is_yes(path: str, value: Optional[str]) -> bool:
    """Whether a field says yes, as it does if it is missing."""
    if value not in (None, "yes", "no"):
        raise Fault(f"{path}: Propose: it is yes or no", Exit.USAGE)
    return value != "no"


def number(path: str, value: Optional[str]) -> int:
    """A number of days."""
    try:
        return PATIENCE if value is None else count(value)
    except ValueError as fault:
        raise Fault(f"{path}: Patience: it is a number of days, of at most nine digits", Exit.USAGE) from fault
