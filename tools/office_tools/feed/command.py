"""office-feed: sends a running office what is new in an archive's unstable, and orders a run."""
import argparse
import datetime
import os
import sys
from dataclasses import dataclass, replace
from typing import Mapping, Optional, Sequence

from office_tools import days
from office_tools.bags import bag_of
from office_tools.counts import count
from office_tools.faults import Exit, Fault
from office_tools.feed import archive, brakes, mailbox
from office_tools.feed.back import Archive
from office_tools.feed.known import Known
from office_tools.feed.mailbox import Mailbox, Outgoing
from office_tools.feed.memory import ChangesRead, Memory, indexes_in, remembered
from office_tools.feed.news import News, Ways, news
from office_tools.feed.sending import Sending, check_architectures, restore
from office_tools.feed.told import NAME, Lines
from office_tools.files import write_whole
from office_tools.from_packages.due import Lists, lists_of
from office_tools.from_packages.mail import proposal
from office_tools.from_packages.sources import Arrival, Arrivals, Index, read_arrivals, read_index
from office_tools.from_packages.told import Weight, tell
from office_tools.messages import Urgency, numbered
from office_tools.senders import BUILDS, HINTS, UPLOADS, runs_sender
from office_tools.service import DEFAULT_URL, Kept, Service, service_at

OWN = (UPLOADS, BUILDS, HINTS)


def parser() -> argparse.ArgumentParser:
    """The command's words."""
    words = argparse.ArgumentParser(
        prog=NAME, description="Sends a running office what is new in an archive's unstable, and orders a run if "
                               "something is new or the day is a later one.",
        epilog="Status 0: all is held, and the run that was ordered is finished. 1: all was sent, but something stands "
               "still that a person should see; or with --dry-run something would be sent. 2: the words are wrong. "
               "3: refused: nothing was sent, or the office refused a message. 4: the office or the archive doesn't "
               "answer.")
    words.add_argument("--url", default=DEFAULT_URL, help=f"the service ({DEFAULT_URL})")
    words.add_argument("--day", type=days.day, default=None,
                       help="the day of the run, as 2025-03-20 (today by the system's clock, in UTC)")
    words.add_argument("--changes", metavar="DIR", help="a folder of files .changes, which state the urgency of "
                       "uploads; others have the urgency medium")
    words.add_argument("--order", action=argparse.BooleanOptionalAction, default=None,
                       help="order a run in any case, or never")
    words.add_argument("--rebuilds", action="store_true",
                       help="send rebuilds of sources in testing so that they move, by the spare senders again1 ..")
    words.add_argument("--smooth", action="store_true",
                       help="keep old packages that testing needs and a newer version of their source dropped")
    words.add_argument("--propose", action="store_true",
                       help="after the run mail hints for the groups that the office proposes, and order a run again")
    words.add_argument("--proposals", metavar="FILE",
                       help="write these hints into a bag that a person may look at and mail, and mail none of them")
    words.add_argument("--dry-run", action="store_true", help="print what would be sent, as a bag, and send nothing")
    words.add_argument("--all-lines", action="store_true", help="print all lines, those of earlier days, too")
    words.add_argument("--cache", metavar="DIR", help="where fetched mail and indexes are remembered")
    words.add_argument("--restore", action="store_true",
                       help="send again this folder's mail that the office doesn't have, and nothing else")
    add_brakes(words)
    words.add_argument("--sources", action="append", default=[], metavar="SOURCES", help="a file Sources")
    words.add_argument("--apt", action="append", default=[], metavar="LINE",
                       help="a line of a sources.list, or a file of such lines, for which apt fetches the indexes")
    words.add_argument("packages", metavar="PACKAGES", nargs="*", help="a file Packages")
    return words


def add_brakes(words: argparse.ArgumentParser) -> None:
    """The options that release a brake."""
    group = words.add_argument_group("what is refused otherwise (status 3)")
    group.add_argument("--gone", type=count, default=0, metavar="N",
                       help="drop up to N packages that are gone, also if they are many or others need them")
    group.add_argument("--back", action="append", default=[], metavar="SOURCE",
                       help="let testing go back to unstable's version of this source")
    group.add_argument("--gap", action="append", default=[], metavar="SENDER",
                       help="order runs that don't see the mail after a gap in this sender's numbers")
    group.add_argument("--other-release", action="store_true",
                       help="take indexes whose Release is older than the last one, or has less")


@dataclass(frozen=True)
class Feed:
    """A running office, all mail that it keeps, and how mail is sent."""

    service: Service
    box: Mailbox
    sending: Sending

    def is_due(self, kept: Mapping[str, Kept], day: datetime.date) -> bool:
        """Whether there is mail that no order covers, or the day is after that of all orders."""
        known = self.box.known
        return day > known.last_order or any(count.unbroken > known.covers.get(sender, 0)
                                             for sender, count in kept.items() if sender != self.sending.runs)

    def waits(self) -> Sequence[str]:
        """The lines of what an ordered run waits for."""
        lines = self.service.good_text("/waiting").splitlines()
        return [line for line in lines if " waits for " in line and f" waits for {self.sending.runs} " not in line]

    def order(self, day: datetime.date, is_due: bool) -> int:
        """Orders a run if one is due and no ordered one waits; gives how many orders this is."""
        orders = [self.service.order(day)] if is_due and not self.waits() else []
        return self.sending.send(orders)

    def ordered(self, day: datetime.date, is_asked: Optional[bool], found: News, sent: int) -> bool:
        """Orders a run if one is due or asked for, and reports the state: whether no run waits."""
        is_due = is_asked is not False and (is_asked or sent > 0 or self.is_due(dict(self.service.kept()), day))
        print(f"{found.summary()}, orders {self.order(day, is_due)}")
        return self.stands()

    def settle(self) -> None:
        """Has a run finished that was cut off when the office was ended; before it, testing would be an older one."""
        status = self.service.status()
        if status.ready == status.finished:
            return
        self.service.post("/settle")
        after = self.service.status()
        if after.finished > status.finished:
            tell(f"run {after.finished} was cut off, and is finished now", Weight.ONCE)

    def stands(self) -> bool:
        """Reports the state, and what an ordered run waits for: whether none waits."""
        status = self.service.status()
        if status.finished < status.ready:
            self.service.post("/settle")
            status = self.service.status()
        print(f"ready {status.ready} finished {status.finished}")
        lines = [*self.waits()]
        if status.finished < status.ready:
            lines.append(f"run {status.finished + 1} is ready, and the office doesn't finish it")
        for line in lines:
            tell(line)
        return not lines

    def proposals(self, day: datetime.date) -> Sequence[bytes]:
        """Hints for the groups that the office proposes, without those in force."""
        wishes = [proposal(wish, day.isoformat()) for wish in self.service.new_proposals(day)]
        return numbered(HINTS, self.service.kept()[HINTS].unbroken, wishes)

    def propose(self, day: datetime.date, is_asked: Optional[bool]) -> None:
        """Mails hints for the groups that the office proposes, and orders a run over them if runs are ordered."""
        hints = self.proposals(day)
        count = self.sending.send(hints)
        print(f"proposed {count}, orders {self.order(day, count > 0 and is_asked is not False)}")
        self.stands()

    def write_proposals(self, day: datetime.date, path: str) -> None:
        """Writes hints for the groups that the office proposes into a bag."""
        hints = self.proposals(day)
        write_whole(path, bag_of(hints))
        print(f"proposed {len(hints)}, in {path}")


def unstable_of(files: archive.Files, folder: str) -> Index:
    """What the indexes have."""
    indexes = indexes_in(folder)
    found = read_index(files.packages, files.sources, indexes.sections)
    if not found.architectures:
        raise Fault("the indexes have no package", Exit.REFUSED)
    indexes.write()
    return found


@dataclass(frozen=True)
class Turn:
    """One feed: the words, its day, the office, the folder, and what is remembered."""

    asked: argparse.Namespace
    day: datetime.date
    service: Service
    folder: str
    memory: Memory
    changes: ChangesRead
    lines: Lines

    def run(self) -> int:
        """Sends what is new, and orders a run: the status."""
        asked = self.asked
        files = archive.fetched(asked.apt, os.path.join(self.folder, "apt")) if asked.apt else \
            archive.Files(asked.packages, asked.sources)
        if not asked.other_release:
            brakes.check_releases(files.releases, self.memory.releases)
        unstable = unstable_of(files, self.folder)
        feed = self.feed(unstable)
        if not asked.dry_run:
            feed.settle()
        known = feed.box.known
        there = Archive(unstable, known, self.service.testing(), self.lists(unstable, known).due())
        ways = Ways(self.day.isoformat(), self.arrivals(feed), asked.rebuilds, asked.smooth, asked.back)
        found, gone = news(there, feed.box, self.service.hints(), ways)
        brakes.Gone(gone, there).check(feed.box, asked.gone)
        if asked.dry_run:
            sys.stdout.buffer.write(bag_of(found.texts))
            tell(found.summary(), Weight.NOTE)
            return int(bool(found.texts))
        self.send(feed, found, unstable)
        mailbox.fetch(self.service, self.folder)  # so that the folder is a backup of all mail
        self.lines.finish()
        Memory(self.lines.left(), {**self.memory.releases, **brakes.remembered_releases(files.releases)},
               self.changes.now).write(self.folder)
        return int(self.lines.is_standing)

    def lists(self, unstable: Index, known: Known) -> Lists:
        """The lists of the office's unstable, over all mail, and of the archive."""
        return lists_of(self.service.unstable(), unstable.sources, unstable.binaries, known.dropped)

    def feed(self, unstable: Index) -> Feed:
        """The office, with all mail that it keeps, once nothing keeps this feed from being sent."""
        asked = self.asked
        box = mailbox.fetch(self.service, self.folder)
        brakes.check_senders(box.kept, OWN)
        brakes.check_gaps(box.kept, OWN, asked.gap)
        brakes.check_day(asked.day, self.day, box.known.last_order)
        check_architectures(self.service, UPLOADS, box.kept, unstable.architectures)
        feed = Feed(self.service, box, Sending(self.service, runs_sender(self.service), Outgoing(self.folder)))
        if not asked.dry_run and feed.sending.resume(box.kept):
            feed = replace(feed, box=mailbox.fetch(self.service, self.folder))
        return feed

    def arrivals(self, feed: Feed) -> Arrivals:
        """How uploads came by the files .changes. After the first order all came on the day of this feed."""
        arrived = Arrival(Urgency.MEDIUM, self.day.isoformat())
        found = read_arrivals(self.asked.changes, arrived, self.changes.read)
        if not feed.box.known.last_day:
            return found
        return {upload: replace(arrival, day=self.day.isoformat()) for upload, arrival in found.items()}

    def send(self, feed: Feed, found: News, unstable: Index) -> None:
        """Sends what is new, and orders the runs, unless unstable then has what the archive lost."""
        asked = self.asked
        sent = feed.sending.send(found.texts)
        self.lists(unstable, mailbox.fetch(self.service, self.folder).known).check()
        is_settled = feed.ordered(self.day, asked.order, found, sent)
        if is_settled and asked.propose:
            feed.propose(self.day, asked.order)
        if is_settled and asked.proposals:
            feed.write_proposals(self.day, asked.proposals)


def main(words: Sequence[str]) -> int:
    """Sends what is new, and orders a run."""
    known = parser()
    asked = known.parse_args(words)
    if asked.restore and (asked.packages or asked.apt):
        known.error("--restore sends no other mail: name neither files nor lines for apt")
    if not asked.restore and bool(asked.packages) == bool(asked.apt):
        known.error("name files Packages, or lines for apt by --apt")
    if asked.propose and asked.proposals:
        known.error("name one of --propose and --proposals")
    day = asked.day or days.today()
    service = service_at(asked.url)
    folder = mailbox.folder_for(asked.cache, service)
    memory = remembered(folder)
    lines = Lines(day, memory.lines, asked.all_lines)
    lines.take_over()
    try:
        return restore(service, folder) if asked.restore else \
            Turn(asked, day, service, folder, memory, ChangesRead(memory.changes), lines).run()
    except Fault as fault:
        raise Fault(fault.cause, Exit.REFUSED if fault.status == 1 else fault.status) from fault
