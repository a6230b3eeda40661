"""The mail by which an office knows what is in a folder of britney."""
from dataclasses import dataclass
from typing import Mapping, Sequence

from office_tools import bags, program
from office_tools.bugs.changes import LISTED, changes, read_pairs
from office_tools.bugs.kept import Book, bug_of
from office_tools.bugs.lists import Names
from office_tools.faults import Exit, ending
from office_tools.feed.known import first_of, sent_in
from office_tools.files import read_bytes
from office_tools.from_britney import hints
from office_tools.from_britney.folder import Folder, Suite, tell
from office_tools.from_packages import mail
from office_tools.from_packages.sources import Arrival, Index, read_index
from office_tools.messages import Kind, Paragraph, Urgency, kind_of, label_of_first
from office_tools.senders import BUGS, HINTS


def names_of(index: Index) -> Names:
    """The sources of a suite, and those of its packages."""
    of_package: dict[str, set[str]] = {}
    for binary in index.binaries:
        of_package.setdefault(binary.name, set()).add(binary.source)
    return Names(index.sources, of_package)


def read_suite(suite: Suite) -> Index:
    """What a suite of the folder has."""
    found = read_index(suite.packages, suite.sources)
    found.check(f"{suite.path}: it has", Exit.REFUSED)
    return found


def book_of(firsts: Sequence[Paragraph]) -> Book:
    """The bugs in mail with these first paragraphs."""
    book = Book(BUGS, LISTED)
    for first in firsts:
        label = label_of_first(first)
        if label is not None and label.sender == BUGS:
            book.last = max(book.last, label.number)
            if kind_of(first) is Kind.BUG:
                book.take(bug_of(first))
    return book


@dataclass(frozen=True)
class Office:
    """All mail that an office was sent, in a bag, its first paragraphs, and the sources of its testing by that mail."""

    path: str
    bag: bytes
    firsts: Sequence[Paragraph]
    testing: Mapping[str, str]


def office_of(setup: str, path: str) -> Office:
    """The office that a bag makes."""
    bag = read_bytes(path)
    with ending(Exit.REFUSED, f"{path}: "):
        texts = list(bags.messages_in(bag))
    firsts = list(map(first_of, texts))
    told = program.output(["replay", "--conf", setup], bag).decode()
    return Office(path, bag, firsts, program.testing_in(told).sources)


def news(folder: Folder, unstable: Index, testing: Index, office: Office, day: str) -> Sequence[bytes]:
    """The messages about what is new in the folder, and an order after them that covers all mail."""
    sent = sent_in(office.path, office.bag)
    default = Arrival(Urgency.MEDIUM, day)
    new = mail.news(unstable, sent, mail.Uploading(
        folder.arrivals(unstable.sources, testing.sources, default), default, unstable.maintainers))
    gone = {name: version for name, version in office.testing.items() if name not in unstable.sources}
    wished = list(hints.wishes(folder.hint_files()))
    wishes = hints.changes(wished, gone, hints.standing(sent), sent.taken.get(HINTS, 0))
    names = names_of(unstable), Names(office.testing, names_of(testing).of_package)
    bugs = bug_letters(folder, names, book_of(office.firsts))
    print(f"uploads {len(new.uploads)}, drops {len(new.drops)}, builds {len(new.builds)}, hints {len(wishes)}, "
          f"bugs {len(bugs)}, orders 1")
    counts = {**new.counts, HINTS: len(wishes), BUGS: len(bugs)}
    return [*new.texts, *wishes, *bugs, mail.order(day, sent, counts)]


def bug_letters(folder: Folder, names: tuple[Names, Names], book: Book) -> Sequence[bytes]:
    """What has to be sent about bugs."""
    lists = read_pairs(folder.unstable.bugs, folder.testing.bugs, names)
    if lists.unknown:
        tell(f"{len(lists.unknown)} names in the lists of bugs are of no source or package there")
    return [change.text(book.label(place)) for place, change in enumerate(changes(lists, book, names))]
