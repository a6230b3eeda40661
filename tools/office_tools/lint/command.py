"""office-lint: looks at messages before they are mailed."""
import argparse
from dataclasses import dataclass
from typing import Iterator, Optional, Sequence

from office_tools import bags
from office_tools.counts import count
from office_tools.days import day, today
from office_tools.faults import Exit, Fault, ending
from office_tools.files import read_bytes
from office_tools.lint.office import Office, ServiceOffice, StoreOffice
from office_tools.lint.places import place_of
from office_tools.lint.slips import slips
from office_tools.lint.state import Days, Look, Place, State
from office_tools.messages import Kind, kind_of, label_of, paragraphs
from office_tools.service import DEFAULT_URL, Service, is_held, service_at
from office_tools.trials import trial

NAME = "office-lint"


@dataclass(frozen=True)
class Text:
    """A message, and what it is called: its file, and in a bag its place. It `is_alone` if it isn't in a bag."""

    name: str
    text: bytes
    is_alone: bool


@dataclass(frozen=True)
class Sender:
    """The service to which messages are sent, if that is asked for, and whether those with warnings are sent, too."""

    service: Optional[Service]
    is_forced: bool


class Lint:
    """Looks at messages one after the other."""

    def __init__(self, office: Office, days: Days, sender: Sender, trials: Optional[Service] = None) -> None:
        self.office = office
        self.days = days
        self.sender = sender
        self.trials = trials
        self.state: State = office.state()

    def warned(self, look: Look) -> Sequence[Place]:
        """What is odd in a message; of a hint that is tried, also what the next run makes of it."""
        found = list(slips(look))
        if self.trials and look.kind is Kind.HINT:
            told = trial(self.trials, [look.value("Hint")], self.days.today)
            found += [look.warned("Hint", words) for words in told.doubts]
        return found

    def look_at(self, text: Text, verdict: str) -> int:
        """Prints what is wrong with a message, sends it if that is due, and takes it on: the status."""
        label = label_of(text.text)
        if label is not None and is_held(verdict) and self.state.taken.get(label, text.text) != text.text:
            verdict = "refused OtherText"  # of a message before this one
        if label is None or not is_held(verdict):
            place = place_of(self.office, text.text, verdict)
            print(f"{text.name}:{place.line}: {verdict}: {place.words}", flush=True)
            return Exit.REFUSED
        first, *binaries = list(paragraphs(text.text))
        kind = kind_of(first)
        if kind is None:
            raise Fault(f"{text.name}: the office takes a kind that isn't known here")
        warned = self.warned(Look(label, kind, first, binaries, self.state, self.days, text.is_alone))
        for slip in warned:
            print(f"{text.name}:{slip.line}: warning: {slip.words}", flush=True)
        status = Exit.NEGATIVE if warned else Exit.DONE
        if self.sender.service is not None:
            if warned and not self.sender.is_forced:
                return status
            reply = self.sender.service.mailed(text.text)
            print(f"{text.name}: {reply}", flush=True)
            if not is_held(reply):
                return Exit.REFUSED
        self.state.take(label, text.text)
        return status


def texts_of(path: str) -> Iterator[Text]:
    """The messages of a file: it is one message, or a bag."""
    data = read_bytes(path)
    if not bags.is_bag(data):
        yield Text(path, data, True)
        return
    with ending(Exit.REFUSED, f"{path}: "):
        for place, text in enumerate(bags.messages_in(data), 1):
            yield Text(f"{path}#{place}", text, False)


def parser() -> argparse.ArgumentParser:
    """The command's words."""
    words = argparse.ArgumentParser(
        prog=NAME, description="Prints what an office would answer to messages, and what in them is probably a slip.",
        epilog="Status 0: all would be held, and nothing is odd. 1: there are warnings. 2: the words are wrong. "
               "3: a message or a bag is refused. 4: no office answers.")
    words.add_argument("--url", metavar="URL", help=f"the service ({DEFAULT_URL}, if neither it nor --conf is stated)")
    words.add_argument("--conf", metavar="SETUP",
                       help="the setup's file; without --url the office is one in memory that keeps nothing, or that "
                            "of --db (a service is asked for its senders)")
    words.add_argument("--db", metavar="STORE", help="the store's file, while no office has it open")
    words.add_argument("--today", metavar="DAY", type=day, default=today(),
                       help="the day that is today (by the system's clock, in UTC)")
    words.add_argument("--days", metavar="N", type=count, default=30,
                       help="how many days back an upload's day may lie (30)")
    words.add_argument("--try", action="store_true", dest="is_tried",
                       help="warns of a hint that the next run would refuse, or that changes nothing in it")
    words.add_argument("--send", action="store_true", help="mails, in order, what has no warning")
    words.add_argument("--force", action="store_true", help="mails what has warnings, too")
    words.add_argument("--user", metavar="USER", help="the user at a proxy; its password is in ~/.netrc")
    words.add_argument("file", metavar="FILE", nargs="+", help="a message, or a bag; - is standard input")
    return words


def main(words: Sequence[str]) -> int:
    """Looks at the messages of the files, and mails them if asked for."""
    known = parser()
    asked = known.parse_args(words)
    if asked.db and (asked.url or not asked.conf):
        known.error("--db needs --conf, and no --url")
    if asked.force and not asked.send:
        known.error("--force needs --send")
    url = asked.url or (None if asked.conf else DEFAULT_URL)
    if (asked.send or asked.user or asked.is_tried) and not url:
        known.error("--send, --try and --user need --url")
    service = service_at(url, asked.user) if url else None
    office = ServiceOffice(asked.conf, service) if service else StoreOffice(asked.conf, asked.db)
    texts = [text for path in asked.file for text in texts_of(path)]
    lint = Lint(office, Days(asked.today, asked.days), Sender(service if asked.send else None, asked.force),
                service if asked.is_tried else None)
    lint.state.looking_at(text.text for text in texts)
    verdicts = office.verdicts([text.text for text in texts])
    return max((lint.look_at(text, verdict) for text, verdict in zip(texts, verdicts)), default=0)
