"""office-from-britney: an office for an archive that britney runs, and what the two decide otherwise."""
import argparse
import os
from typing import Sequence

from office_tools import days
from office_tools.adopt.command import letters
from office_tools.adopt.rows import adoptable
from office_tools.bags import bag_of
from office_tools.faults import Exit, Fault, some
from office_tools.files import write_whole
from office_tools.from_britney.compare import compared, read_heidi, reason, shown
from office_tools.from_britney.folder import NAME, Folder, tell
from office_tools.from_britney.mailbag import news, office_of, read_suite
from office_tools.from_packages import told
from office_tools.from_packages.mail import MOST_SPARES, spares, write_setup
from office_tools.service import DEFAULT_URL, service_at

SHOWN = 10


def parser() -> argparse.ArgumentParser:
    """The command's words."""
    words = argparse.ArgumentParser(
        prog=NAME, description="Runs an office next to britney, and prints where the two differ.",
        epilog="Status 0: the mail was written, or both are the same. 1: they differ. 2: the words are wrong. 3: a "
               "file was refused. 4: the program office or the service didn't answer.")
    forms = words.add_subparsers(dest="form", required=True, metavar="FORM")
    bag = forms.add_parser("bag", help="makes FOLDER/setup.conf and FOLDER/bag from a data folder of britney")
    bag.add_argument("--day", type=days.day, default=days.today(),
                     help="the day of the run, as 2025-03-20 (today by the system's clock, in UTC)")
    bag.add_argument("--after", metavar="BAG", help="all mail that the office keeps: only what is new is written")
    bag.add_argument("--spare", type=spares, default=MOST_SPARES, metavar="N",
                     help=f"how many spare senders of builds come before bd in the setup: 0 to {MOST_SPARES} "
                          f"({MOST_SPARES})")
    bag.add_argument("data", metavar="DATA", help="the data folder, which has testing and unstable")
    bag.add_argument("folder", metavar="FOLDER", help="where both files are written")
    compare = forms.add_parser("compare", help="prints each source on which the office and britney differ, with the "
                                               "office's reason")
    compare.add_argument("--url", default=DEFAULT_URL, help=f"the service ({DEFAULT_URL})")
    compare.add_argument("file", metavar="HEIDI", help="the file HeidiResult of britney's run")
    return words


def make(asked: argparse.Namespace) -> int:
    """Writes the setup and the bag."""
    folder = Folder(asked.data)
    testing, unstable = read_suite(folder.testing), read_suite(folder.unstable)
    strange = sorted(set(unstable.architectures) - set(testing.architectures))
    if strange:
        raise Fault(f"{asked.data}: unstable has {', '.join(strange)}, and testing hasn't", Exit.REFUSED)
    setup, bag = write_setup(asked.folder, testing.architectures, asked.spare), os.path.join(asked.folder, "bag")
    first: bytes = b""
    if asked.after is None:
        first = bag_of(letters(setup, adoptable(testing)[0], asked.day))
        write_whole(bag, first)
    office = office_of(setup, asked.after or bag)
    texts = news(folder, unstable, testing, office, asked.day.isoformat())
    write_whole(bag, first + bag_of(texts))
    return 0


def compare(asked: argparse.Namespace) -> int:
    """Prints where both differ."""
    britney = read_heidi(asked.file)
    service = service_at(asked.url)
    found = compared(britney, service.testing(), service.unstable())
    for differing in found.differing:
        for line in (*differing.lines(), *reason(service, differing.source)):
            print(line)
    strange = list(map(shown, found.strange))
    for what, names in (("sources that build nothing on the office's architectures", found.idle),
                        ("packages of britney's that the office doesn't know", strange)):
        if names:
            tell(f"left alone: {what}: {some(names, SHOWN)}")
    rows = sum(differing.is_rows_alone for differing in found.differing)
    ahead = sum(differing.is_ahead and not differing.is_rows_alone for differing in found.differing)
    print(f"sources {found.total}, differ {len(found.differing)}: britney is ahead {ahead}, "
          f"the office is ahead {len(found.differing) - ahead - rows}, packages alone {rows}")
    return int(bool(found.differing))


def main(words: Sequence[str]) -> int:
    """Makes the mail, or compares."""
    told.NAME = NAME
    asked = parser().parse_args(words)
    return make(asked) if asked.form == "bag" else compare(asked)
