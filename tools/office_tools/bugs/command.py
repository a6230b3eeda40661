"""office-bugs: mails a running office the release-critical bugs that a bug tracker lists."""
import argparse
from typing import Sequence

from office_tools.bugs.changes import LISTED, Change, Lists, changes, read_pairs
from office_tools.bugs.kept import Book, mail_changes, own_of, read_book
from office_tools.bugs.lists import names_of, read_list
from office_tools.counts import count
from office_tools.faults import Exit, Fault, some, tell
from office_tools.service import DEFAULT_URL, service_at

NAME = "office-bugs"
MOST_CLOSED, SHARE = 20, 10
"""Most bugs that are closed unasked, and one in how many of the open ones; not if both are exceeded."""
SHOWN = 10  # names that are printed


def parser() -> argparse.ArgumentParser:
    """The command's words."""
    words = argparse.ArgumentParser(
        prog=NAME, description="Mails a running office the release-critical bugs that are listed for unstable and for "
                               "testing. A bug that is no longer listed is closed.",
        epilog="Status 0: the office has all of it. 1: with --dry-run something would be sent. 2: the words are wrong. "
               "3: refused: a list can't be read, or closes more bugs than allowed, or the office refused a message. "
               "4: no office answers.")
    words.add_argument("--url", default=DEFAULT_URL, help=f"the service ({DEFAULT_URL})")
    words.add_argument("--dry-run", action="store_true", help="print what would be sent, as a bag, and send nothing")
    words.add_argument("--close", type=count, default=0, metavar="N", help="close up to N bugs, whatever share this is")
    words.add_argument("--take-over", action="store_true",
                       help="also change bugs whose last message another sender's tool or a person wrote")
    words.add_argument("unstable", metavar="UNSTABLE",
                       help="the list of unstable, a file or a URL: lines NAME BUG[,BUG..]")
    words.add_argument("testing", metavar="TESTING", help="the list of testing")
    return words


def check(found: Sequence[Change], book: Book, lists: Lists, allowed: int) -> None:
    """Refuses to close more bugs than a tracker closes in a day: such a list is most likely not whole."""
    is_open = sum(bug.is_critical and book.is_own(number) for number, bug in book.bugs.items())
    closing = sum(change.is_closing for change in found)
    is_much = closing > MOST_CLOSED and closing * SHARE > is_open or not lists.pairs
    if closing > allowed and is_much:
        raise Fault(f"{closing} of {is_open} open bugs are in no list any more: --close {closing} closes them",
                    Exit.REFUSED)


def main(words: Sequence[str]) -> int:
    """Sends what changed."""
    asked = parser().parse_args(words)
    unstable, testing = read_list(asked.unstable), read_list(asked.testing)
    service = service_at(asked.url)
    book = read_book(service, LISTED)
    names = names_of(service.unstable()), names_of(service.testing())
    lists = read_pairs(unstable, testing, names)
    found = own_of(list(changes(lists, book, names)), book, NAME, asked.take_over)
    if lists.unknown:
        tell(NAME, f"no source or package of the office: {some(lists.unknown, SHOWN)}")
    check(found, book, lists, asked.close)
    summary = f"bugs {len(lists.pairs)}, new {sum(change.before is None for change in found)}, " \
              f"changed {sum(change.before is not None and not change.is_closing for change in found)}, " \
              f"closed {sum(change.is_closing for change in found)}"
    return mail_changes(service, book, found, NAME, summary, asked.dry_run)
