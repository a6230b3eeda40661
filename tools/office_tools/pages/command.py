"""The words of the command, and how it continues."""
import argparse
import contextlib
import fcntl
import gc
import hashlib
import math
import os
import time
from typing import Iterator, Sequence

from office_tools.faults import Exit, Fault, cause_of
from office_tools.pages.fetching import fetch, fetch_answers
from office_tools.pages.kept_mail import read_mail
from office_tools.pages.look import BUGS, BUILDS, CHANGELOG, Extras, Look, Patterns, TRACKER
from office_tools.pages.offices import FileOffice, NAME, Office, ServiceOffice, StoreOffice
from office_tools.pages.people import read_people
from office_tools.pages.state import State
from office_tools.service import DEFAULT_URL

SECONDS = 3.0
COLLECTED = 200_000  # new objects after which unused ones are looked for: hardly any are in circles


def seconds_of(text: str) -> float:
    """How many seconds a word states."""
    try:
        seconds = float(text)
    except ValueError:
        seconds = math.nan
    if 0 <= seconds < math.inf:
        return seconds
    raise argparse.ArgumentTypeError(f"{text!r} is no number of seconds")


def words_of(words: Sequence[str]) -> argparse.Namespace:
    """The words of the command."""
    parser = argparse.ArgumentParser(
        prog=NAME, allow_abbrev=False,
        description="Makes static pages and JSON of the reports of all runs of an office, and keeps them fresh. Each "
                    "call fetches what is new, and writes what changed.")
    parser.add_argument("folder", metavar="FOLDER", help="the folder of the pages, which has to be there")
    parser.add_argument("--url", metavar="URL",
                        help=f"the service that is asked ({DEFAULT_URL} if nothing else is named)")
    parser.add_argument("--conf", metavar="SETUP", help="with --db: the setup of a store")
    parser.add_argument("--db", metavar="FILE", help="a store that no office has open, in place of a service")
    parser.add_argument("--excuses", metavar="FILE", help="the excuses of one run, in place of a service")
    parser.add_argument("--update", metavar="FILE", help="with --excuses: the update of the same run")
    parser.add_argument("--testing", metavar="FILE", help="with --excuses: what is in testing after that run")
    parser.add_argument("--bugs", metavar="URL", default=BUGS,
                        help="where bugs are found; %%s stands for a bug's number (%(default)s)")
    parser.add_argument("--tracker", metavar="URL", default=TRACKER,
                        help="where a source is tracked; %%s stands for its name (%(default)s)")
    parser.add_argument("--builds", metavar="URL", default=BUILDS,
                        help="where a source's builds are; %%s stands for its name, %%a for an architecture "
                             "(%(default)s)")
    parser.add_argument("--changelog", metavar="URL", default=CHANGELOG,
                        help="where changelogs are; %%s stands for a source's name, %%v for its version without the "
                             "epoch, %%p for its folder in a pool (%(default)s)")
    parser.add_argument("--maintainers", metavar="FILE",
                        help="who maintains each source: paragraphs of Sources, or lines SOURCE<TAB>NAME <MAIL>")
    parser.add_argument("--address", metavar="URL", default="",
                        help="where the pages are read, for the links and identifiers of feeds")
    parser.add_argument("--state", metavar="FOLDER", help="where fetched reports are kept (FOLDER/.state)")
    parser.add_argument("--why-seconds", metavar="N", type=seconds_of, default=SECONDS,
                        help="how long the office is asked at most why sources don't move (%(default)s)")
    return parser.parse_args(words)


def office_of(asked: argparse.Namespace) -> Office:
    """The office that the words name."""
    named = [asked.url, asked.db or asked.conf, asked.excuses or asked.update or asked.testing]
    if sum(name is not None for name in named) > 1:
        raise Fault("name one of: a service (--url), a store (--conf, --db), files (--excuses, --update)", Exit.USAGE)
    if asked.db or asked.conf:
        if not (asked.db and asked.conf):
            raise Fault("a store has --conf and --db", Exit.USAGE)
        return StoreOffice(asked.conf, asked.db)
    if asked.excuses or asked.update or asked.testing:
        if not (asked.excuses and asked.update):
            raise Fault("the files of a run are named by --excuses and --update", Exit.USAGE)
        return FileOffice(asked.excuses, asked.update, asked.testing)
    return ServiceOffice(asked.url or DEFAULT_URL)


@contextlib.contextmanager
def alone(folder: str) -> Iterator[None]:
    """Within it no other call works with this folder."""
    number = os.open(os.path.join(folder, "lock"), os.O_RDWR | os.O_CREAT, 0o666)
    try:
        fcntl.flock(number, fcntl.LOCK_EX | fcntl.LOCK_NB)
        yield
    except BlockingIOError as fault:
        raise Fault(f"{folder}: another call of {NAME} works with it") from fault
    finally:
        os.close(number)


def main(words: Sequence[str]) -> int:
    """Fetches what is new, and writes the pages that changed."""
    asked = words_of(words)
    office = office_of(asked)
    look = Look(patterns_of(asked), extras_of(asked))
    if not os.path.isdir(asked.folder):
        raise Fault(f"{asked.folder}: there is no such folder")
    try:
        make(office, asked.folder, asked.state or os.path.join(asked.folder, ".state"), look, asked.why_seconds)
    except OSError as fault:
        raise Fault(f"{fault.filename or asked.folder}: {cause_of(fault)}") from fault
    return 0


def patterns_of(asked: argparse.Namespace) -> Patterns:
    """The patterns of links that the words state."""
    patterns = Patterns(asked.bugs, asked.tracker, asked.builds, asked.changelog)
    for word, pattern in vars(patterns).items():
        if pattern and "%s" not in pattern:
            stands = "a bug's number" if word == "bugs" else "a source's name"
            raise Fault(f"--{word} {pattern}: %s is missing, which stands for {stands}", Exit.USAGE)
    return patterns


def extras_of(asked: argparse.Namespace) -> Extras:
    """The address of the pages, and who maintains what by a file."""
    address = asked.address if not asked.address or asked.address.endswith("/") else asked.address + "/"
    people = read_people(asked.maintainers) if asked.maintainers else {}
    return Extras(address, people, hashlib.blake2b(repr(people).encode(), digest_size=16).hexdigest())


def make(office: Office, folder: str, kept: str, look: Look, why_seconds: float) -> None:
    """Fetches what is new into the folder of what is kept, and writes the pages that changed."""
    gc.set_threshold(COLLECTED)
    os.makedirs(kept, exist_ok=True)
    with alone(kept), contextlib.closing(State(os.path.join(kept, "state.db"))) as state:
        newest = fetch(office, state)
        if newest is None:
            return
        read_mail(office, state, newest.number, time.monotonic() + why_seconds)
        if look.is_fresh(folder, state) and state.asked() == newest.number:
            return
        # Its import takes as long as all else if nothing is new.
        from office_tools.pages.site import Site
        # The pages of a new run exist before sources are asked about, which takes longer.
        site = Site(folder, state, look)
        site.build(newest)
        names = fetch_answers(office, state, newest, why_seconds)
        if names:
            site.build_answers(newest, names)
