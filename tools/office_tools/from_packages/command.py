"""The command office-from-packages: its words, and what it writes."""
import argparse
import os
from dataclasses import replace
from typing import Sequence

from office_tools import bags, versions
from office_tools.days import day
from office_tools.feed.known import sent_in
from office_tools.files import read_bytes, write_whole
from office_tools.from_packages import mail
from office_tools.from_packages.sources import Arrival, read_arrivals, read_index
from office_tools.from_packages.suites import Suites
from office_tools.from_packages.told import NAME
from office_tools.messages import Urgency
from office_tools.senders import HINTS

DESCRIPTION = """Makes FOLDER/setup.conf and FOLDER/bag from the indexes of an archive: an upload for each source, its
builds, hints for the groups that the program office proposes, and the first order, which covers all of these. With
--after it makes the bag of what is new since. What isn't taken over is listed on standard error, a line for each."""


def words() -> argparse.ArgumentParser:
    """What the command's words may be."""
    parser = argparse.ArgumentParser(prog=NAME, description=DESCRIPTION, allow_abbrev=False)
    parser.add_argument("--uploaded", required=True, type=day, metavar="DAY", help="the day of all uploads")
    parser.add_argument("--run", required=True, type=day, metavar="DAY", help="the day of the order")
    parser.add_argument("--urgency", default="medium", choices=[urgency.value for urgency in Urgency],
                        help="the urgency of all uploads")
    parser.add_argument("--changes", metavar="DIR", help="a folder of files .changes, which state the urgency of "
                        "the uploads that they are of, and without --after their day")
    parser.add_argument("--sources", action="append", default=[], metavar="SOURCES", help="a file Sources")
    parser.add_argument("--after", metavar="BAG", help="all mail that was sent before: only what is new is sent")
    parser.add_argument("--with-uninstallable", action="store_true", help="send what can't be installed, too")
    parser.add_argument("--no-hints", action="store_true",
                        help="don't ask the program office for groups that move as one")
    parser.add_argument("--spare", type=mail.spares, default=mail.MOST_SPARES, metavar="N",
                        help=f"how many spare senders of builds precede bd in the setup: 0 to {mail.MOST_SPARES} "
                             f"({mail.MOST_SPARES})")
    parser.add_argument("folder", metavar="FOLDER", help="where both files are written")
    parser.add_argument("packages", metavar="PACKAGES", nargs="+", help="a file Packages of one architecture")
    return parser


def main(given: Sequence[str]) -> int:
    """Writes the setup and the bag, and prints what they have."""
    asked = words().parse_args(given)
    index = read_index(asked.packages, asked.sources)
    index.check("the files name")
    bag = read_bytes(asked.after) if asked.after else b""
    sent = sent_in(asked.after, bag)
    arrived = Arrival(Urgency(asked.urgency), str(asked.uploaded))
    known = read_arrivals(asked.changes, arrived)
    if asked.after:  # what is new came since the mail before, whatever its uploader wrote
        known = {upload: replace(arrival, day=arrived.day) for upload, arrival in known.items()}
    if not asked.with_uninstallable:
        current = [binary for binary in index.binaries
                   if versions.same(binary.source_version, index.sources[binary.source])]
        gone = Suites(current, index.architectures).left_out(sent)
        index = replace(index, binaries=[binary for binary in index.binaries if binary.key not in gone])
    news = mail.news(index, sent, mail.Uploading(known, arrived, index.maintainers))
    setup = mail.write_setup(asked.folder, index.architectures, asked.spare)
    hints = [] if asked.no_hints else mail.hints(setup, bag, sent, news.texts, str(asked.run))
    order = mail.order(str(asked.run), sent, {**news.counts, HINTS: len(hints)})
    write_whole(os.path.join(asked.folder, "bag"), bags.bag_of([*news.texts, *hints, order]))
    print(f"uploads {len(news.uploads)}, drops {len(news.drops)}, builds {len(news.builds)}, hints {len(hints)}, "
          "orders 1")
    return 0
