"""office-mend --undo: the words of this form, and what it does."""
import argparse
import contextlib
import functools
import os
import sys
from typing import Iterator, Sequence

from office_tools import bags, faults, program
from office_tools.faults import Exit, Fault
from office_tools.feed.mailbox import BAG
from office_tools.files import cache_of, read_bytes
from office_tools.service import DEFAULT_URL, Service
from office_tools.undo.exchange import Locked, discarded, exchange, state_of
from office_tools.undo.outcome import check, differences, replayed, summary
from office_tools.undo.selection import Letter, chosen, read, without

NAME = "office-mend"
STAYS = 1
DAY = "/var/lib/office-day"
"""What the unit of office-day remembers: all mail, and a copy of the store."""
PAGES = "/var/lib/office-pages/.state"
"""What the unit of office-pages remembers."""

tell = functools.partial(faults.tell, NAME)


def caches_of(asked: argparse.Namespace, letters: Sequence[Letter]) -> Sequence[str]:
    """The folders and files that are moved away: those that are named, and what the tools keep for this office, as
    they are installed and as they are called by this user.
    """
    found = [path for path in usual(asked.url, letters) if os.path.exists(path)]
    named = [path for path in asked.cache if os.path.exists(path)]
    return [*found, *(path for path in named if not any(map(functools.partial(os.path.samefile, path), found)))]


def usual(url: str, letters: Sequence[Letter]) -> Iterator[str]:
    """Where office-feed, office-day and office-pages keep what they remember of this office."""
    place = Service(url).url
    yield cache_of("office-feed", place)
    for day in (DAY, cache_of("office-day", place)):
        feed = os.path.join(day, "feed")
        if day != DAY or not is_of_another(os.path.join(feed, BAG), letters):
            yield from (feed, os.path.join(day, "look"))
    yield PAGES


def is_of_another(bag: str, letters: Sequence[Letter]) -> bool:
    """Whether a bag of all mail is another office's, so that its first message isn't this one's."""
    with contextlib.suppress(Fault):
        first = next(bags.messages_in(read_bytes(bag)), None)
        return first is not None and all(letter.text != first for letter in letters)
    return False


def is_wanted(is_asked: bool) -> bool:
    """Whether the stores are exchanged: by --yes, or by an answer at a terminal."""
    if is_asked:
        return True
    if not sys.stdin.isatty():
        tell("nothing is changed: --yes exchanges the stores")
        return False
    print("Exchange the stores? [y/N] ", end="", flush=True)
    return sys.stdin.readline().strip().lower() in ("y", "yes")


def main(asked: argparse.Namespace) -> int:
    """Makes the office without these messages, shows how it differs, and exchanges the stores on a word."""
    store = os.path.realpath(asked.db)
    if not os.path.exists(store):
        raise Fault(f"{asked.db}: there is no such store", Exit.USAGE)
    new = store + ".undone"
    letters = read(program.Store(asked.conf, store).exported())
    state = state_of(store)
    gone = list(chosen(letters, asked.undo))
    for letter in gone:
        print(f"undo {letter.label.sender} {letter.label.number} {letter.what}")
    try:
        discarded(new)
        before = replayed(["--conf", asked.conf], [letter.text for letter in letters])
        after = replayed(program.Store(asked.conf, new).words, list(without(letters, gone)))
        check(before, after)
        for line in differences(before, after):
            print(line)
        print(f"undone {len(gone)}, {summary(before, after)}")
        if not is_wanted(asked.yes):
            return STAYS
        caches = caches_of(asked, letters)
        with Locked(store, state) as locked:
            kept = exchange(locked, new, caches)
        for path in (store, *caches):
            print(f"{path}: the old one is {path}{kept.removeprefix(store)}")
    finally:
        discarded(new)
    return 0


def add_words(words: argparse.ArgumentParser) -> None:
    """The words of this form."""
    words.add_argument("--conf", metavar="SETUP", help="with --undo: the office's setup")
    words.add_argument("--db", metavar="STORE", help="with --undo: its store, which no program has open")
    words.add_argument("--url", metavar="URL", default=DEFAULT_URL,
                       help=f"with --undo: the service, whose caches are moved away ({DEFAULT_URL})")
    words.add_argument("--cache", metavar="PATH", action="append", default=[],
                       help="with --undo: another cache that is moved away than those of the installed units and of "
                            "this user, such as the folder of office-mirror --state; may be repeated")
    words.add_argument("--yes", action="store_true", help="with --undo: exchange the stores, and don't ask")
