"""office-adopt: an archive's testing as it is becomes the first run of an office."""
import argparse
import datetime
import functools
import os
from typing import Sequence

from office_tools import bags, days, faults, messages, program
from office_tools.adopt.rows import adoptable
from office_tools.apply.contents import Contents, Indexes, target, wanted
from office_tools.apply.holding import without_source
from office_tools.apply.plans import named, plan_to
from office_tools.apply.published import read_indexes
from office_tools.apply.turn import tell_alone
from office_tools.faults import Fault
from office_tools.feed.known import LOW_DAYS, Known
from office_tools.files import write_whole
from office_tools.from_packages import mail, told
from office_tools.from_packages.sources import Arrival, Index, read_index
from office_tools.messages import Urgency, numbered
from office_tools.senders import HINTS

NAME = "office-adopt"

tell = functools.partial(faults.tell, NAME)


def parser() -> argparse.ArgumentParser:
    """The command's words."""
    words = argparse.ArgumentParser(
        prog=NAME, description="Makes FOLDER/setup.conf and FOLDER/bag, with which an office begins with the testing "
                               "that an archive has. Prints what has to be sent differently.",
        epilog="Status 0: the office's testing is the archive's. 1: it isn't: each difference is printed. 2: the words "
               "are wrong. 4: the program office didn't answer.")
    words.add_argument("--day", type=days.day, default=days.today(),
                       help="the day of the first run, as 2025-03-20 (today by the system's clock, in UTC)")
    words.add_argument("--spare", type=mail.spares, default=mail.MOST_SPARES, metavar="N",
                       help=f"how many spare senders of builds precede bd in the setup: 0 to {mail.MOST_SPARES} "
                            f"({mail.MOST_SPARES})")
    words.add_argument("--dry-run", action="store_true", help="print what would be sent differently, and write nothing")
    words.add_argument("--no-check", action="store_true", help="don't ask the program office for the bag's result")
    words.add_argument("--sources", action="append", default=[], metavar="SOURCES", help="a file Sources of testing")
    words.add_argument("folder", metavar="FOLDER", help="where both files are written")
    words.add_argument("packages", metavar="PACKAGES", nargs="+", help="a file Packages of testing")
    return words


def letters(setup: str, index: Index, day: datetime.date) -> Sequence[bytes]:
    """All mail of the first run; behind its order the hints are taken back, since all that they ask is done by it."""
    sent = Known()
    arrival = Arrival(Urgency.MEDIUM, max(day - datetime.timedelta(LOW_DAYS), datetime.date(1970, 1, 1)).isoformat())
    news = mail.news(index, sent, mail.Uploading({}, arrival, index.maintainers))
    hints = mail.hints(setup, b"", sent, news.texts, day.isoformat())
    order = mail.order(day.isoformat(), sent, {**news.counts, HINTS: len(hints)})
    unhints = numbered(HINTS, len(hints), (functools.partial(messages.unhint, cancels=number)
                                           for number in range(1, len(hints) + 1)))
    print(f"uploads {len(news.uploads)}, builds {len(news.builds)}, hints {len(hints)}, orders 1, "
          f"unhints {len(unhints)}")
    return [*news.texts, *hints, order, *unhints]


def checked(setup: str, bag: bytes, have: Contents) -> int:
    """Asks the office for the bag's result, and prints how its testing differs from the archive's."""
    told = program.output(["replay", "--conf", setup], bag).decode()
    refused = [line for line in told.splitlines() if line.startswith("refused ")]
    for line in refused:
        print(line)
    testing = program.testing_in(told)
    want = wanted(testing, sorted({row.architecture for row in have.rows}), Indexes.ONCE)
    want = as_archived(want, have) if have.sources else Contents(have.sources, want.rows, want.built_of)
    goal = target(want, have)
    found = plan_to(goal, have)
    beside = [line for line in found.go.lines() if is_beside(line, want)]
    for line in beside:
        print(f"goes with the first apply, for testing has another version: {line}")
    left = [line for line in found.lines() if line.removeprefix("too much: ") not in beside]
    for line in left:
        print(line)
    waiting = sum(line.startswith("wait ") for line in told.splitlines())
    tell_alone(goal, tell)
    print(f"adopted: {len(testing.sources)} sources, {len(testing.rows)} packages; {waiting} wait, "
          f"{len(refused)} refused")
    return int(bool(refused or waiting or left))


def as_archived(want: Contents, have: Contents) -> Contents:
    """The office's testing without the sources that the archive's doesn't have, though it has all their packages."""
    bare = without_source(want.without(have), want, have, Contents())
    if bare:
        tell("testing has no version of these sources, and has their packages: "
             f"{named([' '.join(source) for source in sorted(bare)])}")
    return want.made_of(want.items - bare)


def is_beside(line: str, want: Contents) -> bool:
    """Whether a line names an older version of what the office has: it has one version of each."""
    kind, *words = line.split(" ")
    if kind == "source":
        return any(source.name == words[0] for source in want.sources)
    return any(row.architecture == words[0] and row.name == words[1] for row in want.rows)


def main(words: Sequence[str]) -> int:
    """Writes the setup and the bag, and prints what they have."""
    asked = parser().parse_args(words)
    told.NAME = NAME
    testing = read_index(asked.packages, asked.sources)
    if not testing.architectures:
        raise Fault("testing has no package: begin with the indexes of unstable by office-from-packages")
    testing.check("the files name")
    index, moved, gone = adoptable(testing)
    print(f"sources {len(index.sources)}, packages {len(index.binaries)}: under another version {moved}, "
          f"clauses taken out {gone}")
    if asked.dry_run:
        return 0
    setup = mail.write_setup(asked.folder, index.architectures, asked.spare)
    bag = bags.bag_of(letters(setup, index, asked.day))
    write_whole(os.path.join(asked.folder, "bag"), bag)
    return 0 if asked.no_check else checked(setup, bag, read_indexes([("", path) for path in asked.packages],
                                                                     asked.sources))
