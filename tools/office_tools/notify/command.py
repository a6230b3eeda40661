"""office-notify: writes to the maintainers of the sources that a run moved."""
import argparse
import json
from dataclasses import dataclass, field
from email.headerregistry import Address
from typing import Collection, Iterator, Optional, Sequence

from office_tools.counts import number
from office_tools.faults import Exit, Fault, cause_of, tell
from office_tools.files import write_whole
from office_tools.notify import mails
from office_tools.notify.mails import Move, Moves, moves_of
from office_tools.notify.maintainers import Maintainers, address_of, read_sources
from office_tools.service import DEFAULT_URL, Service, service_at

NAME = "office-notify"
SENDMAIL = "/usr/sbin/sendmail -oi -t"
FROM = "Debian migration office <office@localhost>"


def parser() -> argparse.ArgumentParser:
    """The command's words."""
    words = argparse.ArgumentParser(
        prog=NAME, description="Writes one mail to each maintainer whose sources a run moved into testing or took out.",
        epilog="Status 0: all was sent. 2: the words are wrong. 3: a mail can't be sent. 4: no office answers.")
    words.add_argument("--url", metavar="URL", default=DEFAULT_URL, help=f"the service ({DEFAULT_URL})")
    which = words.add_mutually_exclusive_group(required=True)
    which.add_argument("--state", metavar="FILE", help="each finished run after the last one that FILE remembers")
    which.add_argument("--run", metavar="RUN", type=number, help="this run alone")
    words.add_argument("--sources", metavar="FILE", action="append", default=[],
                       help="a file Sources, for the maintainers of sources whose upload names none")
    words.add_argument("--from", metavar="ADDRESS", dest="sender", default=FROM, help=f"who writes ({FROM})")
    words.add_argument("--to", metavar="ADDRESS", help="who gets the mail on sources without a maintainer")
    words.add_argument("--pages", metavar="URL", help="where the pages of office-pages are: the mails link to them")
    way = words.add_mutually_exclusive_group()
    way.add_argument("--mbox", metavar="FILE", help="adds the mails to FILE (without a way they are printed)")
    way.add_argument("--sendmail", metavar="COMMAND", nargs="?", const=SENDMAIL,
                     help=f"hands each mail to COMMAND ({SENDMAIL})")
    return words


@dataclass
class Told:
    """The last run that all got mail about, and the addresses that got mail about the run after it."""

    run: int
    done: set[str] = field(default_factory=set)

    def write(self, path: Optional[str]) -> None:
        """Remembers it, if there is a file."""
        if path:
            write_whole(path, json.dumps({"run": self.run, "done": sorted(self.done)}).encode() + b"\n")


def read_told(path: str) -> Optional[Told]:
    """What a file remembers, or None if there is no file."""
    try:
        with open(path, encoding="utf-8") as file:
            kept = json.load(file)
        return Told(int(kept["run"]), set(map(str, kept["done"])))
    except FileNotFoundError:
        return None
    except (OSError, ValueError, TypeError, KeyError, OverflowError, RecursionError) as fault:
        raise Fault(f"{path}: {cause_of(fault)}: remove it to begin with the next run", Exit.USAGE) from fault


def by_maintainer(maintainers: Maintainers, moves: Moves,
                  other: Optional[Address]) -> Collection[tuple[Address, list[Move]]]:
    """The moves of a run by the addresses of their sources' maintainers."""
    found: dict[str, tuple[Address, list[Move]]] = {}
    for move in moves.moves:
        address = maintainers.of(move.source) or other
        if address is None:
            tell(NAME, f"run {moves.run}: {move.source}: no maintainer is known")
        else:
            found.setdefault(address.addr_spec.lower(), (address, []))[1].append(move)
    return found.values()


class Notifier:
    """Sends the mails of runs, and remembers who got one."""

    def __init__(self, service: Service, asked: argparse.Namespace) -> None:
        self.service = service
        self.state: Optional[str] = asked.state
        self.maintainers = Maintainers(service, read_sources(asked.sources))
        self.sender = mails.Sender(asked.sender, asked.pages)
        self.other = needed_address(asked.to) if asked.to else None
        self.way = (mails.to_mbox(asked.mbox) if asked.mbox
                    else mails.to_command(asked.sendmail) if asked.sendmail else mails.to_output)

    def notify(self, known: Told) -> None:
        """Sends the mails of the run after the known one to all who got none, and remembers each of them."""
        moves = moves_of(self.service, known.run + 1)
        for address, own in by_maintainer(self.maintainers, moves, self.other):
            if address.addr_spec not in known.done:
                self.way(mails.mail(self.sender, address, moves, own))
                known.done.add(address.addr_spec)
                known.write(self.state)
        known.run, known.done = known.run + 1, set()
        known.write(self.state)


def needed_address(text: str) -> Address:
    """An address of the words."""
    address = address_of(text)
    if address is None:
        raise Fault(f"{text!r} is no address", Exit.USAGE)
    return address


def runs(service: Service, asked: argparse.Namespace) -> Iterator[Told]:
    """What is known before each run that is due."""
    finished = service.status().finished
    if asked.run:
        if asked.run > finished:
            raise Fault(f"run {asked.run} isn't finished: {finished} are", Exit.USAGE)
        yield Told(asked.run - 1)
        return
    known = read_told(asked.state)
    if known is None:
        tell(NAME, f"{asked.state} is new: it begins after run {finished}")
        Told(finished).write(asked.state)
        return
    while known.run < finished:
        yield known


def main(words: Sequence[str]) -> int:
    """Writes to the maintainers."""
    asked = parser().parse_args(words)
    needed_address(asked.sender)
    service = service_at(asked.url)
    notifier = Notifier(service, asked)
    for known in runs(service, asked):
        notifier.notify(known)
    return 0
