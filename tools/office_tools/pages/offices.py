"""Where reports come from: a service, a store that no office has open, or the files of one run."""
import abc
import http.client
import re
import time
from typing import Iterable, Iterator, Mapping, Optional, Sequence

from office_tools import bags, program, reports
from office_tools.faults import Fault, tell
from office_tools.files import read_bytes
from office_tools.messages import Kind, kind_of, Label, label_of, paragraphs
from office_tools.pages.outcomes import run_of
from office_tools.pages.state import SentHint
from office_tools.service import Kept, NO_ROUTE, Service

NAME = "office-pages"
AT_ONCE = 100  # sources about which the program is asked by one command, which opens the store once


class Office(abc.ABC):
    """What the pages are made of. Each text is as the office prints it; what isn't available is None or nothing."""

    @abc.abstractmethod
    def runs(self) -> Sequence[reports.Run]:
        """The finished runs, in order."""

    @abc.abstractmethod
    def report(self, run: int, kind: str) -> str:
        """The `excuses` or the `update` of a run."""

    @abc.abstractmethod
    def testing(self) -> Optional[str]:
        """What is in testing."""

    def unstable(self) -> Optional[str]:
        """What the next run sees of unstable over all mail that is kept without a gap."""
        return None

    def kept_mail(self) -> Optional[Mapping[str, int]]:
        """Up to which number the mail of each sender is kept without a gap, in the setup's order."""
        return {sender: kept.unbroken for sender, kept in self.kept().items()} or None

    def kept(self) -> Mapping[str, Kept]:
        """What is kept of each sender."""
        return {}

    def letters(self, _sender: str, _first: int, _last: int) -> Iterator[tuple[int, bytes]]:
        """The messages of a sender from one number to another, between which none is missing."""
        return iter(())

    def why(self, _sources: Sequence[str], _until: float) -> Iterator[tuple[str, str]]:
        """Of each source in turn what the last run says of it. None is asked about after that time (`monotonic`)."""
        return iter(())

    def hint(self, _number: int) -> Optional[SentHint]:
        """A hint of the release team."""
        return None

    def next_hint(self, sender: str) -> Optional[Label]:
        """The first number after all that the release team sent."""
        kept = self.kept().get(sender)
        return Label(sender, kept.greatest + 1) if kept else None

    def hints(self) -> Optional[str]:
        """The hints in force."""
        return None

    def proposed(self, _source: str = "") -> Optional[str]:
        """What it proposes for all groups that can move, or for one source."""
        return None


class ServiceOffice(Office):
    """The office that answers at a URL."""

    def __init__(self, url: str) -> None:
        self.service = Service(url)
        self.release: Optional[str] = None
        self.is_older = False

    def runs(self) -> Sequence[reports.Run]:
        return self.service.runs()

    def report(self, run: int, kind: str) -> str:
        return self.service.good_text(f"/{kind}/{run}")

    def testing(self) -> Optional[str]:
        return self.service.good_text("/testing")

    def unstable(self) -> Optional[str]:
        return self.newer("/unstable")

    def kept(self) -> Mapping[str, Kept]:
        return self.service.kept()

    def letters(self, sender: str, first: int, last: int) -> Iterator[tuple[int, bytes]]:
        while first <= last:
            path = f"/bag/{sender}/{first}"
            reply = self.service.get(path)
            if reply.status == http.client.NOT_FOUND and reply.text == NO_ROUTE:
                return
            texts = list(bags.messages_in(self.service.body(path, reply)))
            if not texts:
                return
            yield from ((first + place, text) for place, text in enumerate(texts) if first + place <= last)
            first += len(texts)

    def why(self, sources: Sequence[str], until: float) -> Iterator[tuple[str, str]]:
        for source in sources:
            if time.monotonic() >= until:
                return
            yield source, self.service.good_text(f"/why/{source}")

    def hint(self, number: int) -> Optional[SentHint]:
        # No route names the sender of hints, so each sender is asked until one has a hint under the number.
        for sender in [self.release] if self.release else self.service.kept():
            text = self.service.kept_text(sender, number)
            hint = hint_in(text) if text is not None else None
            if hint is not None:
                self.release = sender
                return hint
        return None

    def hints(self) -> Optional[str]:
        return self.newer("/hints")

    def proposed(self, source: str = "") -> Optional[str]:
        return self.newer(f"/propose/{source}" if source else "/propose")

    def newer(self, path: str) -> Optional[str]:
        """A page that an office of an earlier version hasn't, which is printed once; None if it is missing."""
        if self.is_older:
            return None
        reply = self.service.get(path)
        if reply.is_good:
            return reply.body.decode(errors="backslashreplace")
        if reply.status != http.client.NOT_FOUND:
            raise self.service.bad(path, reply)
        if reply.text == NO_ROUTE:
            self.is_older = True
            tell(NAME, f"{self.service.bad(path, reply).cause}: so no page shows the state of hints, nor proposals")
        return None


def hint_in(text: bytes) -> Optional[SentHint]:
    """A message as a hint, if it is one. Its fields `By` and `Comment` are for people: the office reads neither."""
    for paragraph in paragraphs(text):
        if kind_of(paragraph) is Kind.HINT:
            return SentHint(*(" ".join((paragraph.value(name) or "").split()) for name in ("Hint", "By", "Comment")))
        break
    return None


class StoreOffice(Office):
    """The office whose store is in a file that no office has open, asked by the program."""

    def __init__(self, setup: str, store: str) -> None:
        self.store = program.Store(setup, store)
        self.sent: Optional[Mapping[int, SentHint]] = None
        self.mail: Optional[dict[str, dict[int, bytes]]] = None

    def runs(self) -> Sequence[reports.Run]:
        return reports.read_runs(self.store.told("runs"))

    def report(self, run: int, kind: str) -> str:
        return self.store.told("report", str(run), kind)

    def testing(self) -> Optional[str]:
        return self.store.told("report", "testing")

    def unstable(self) -> Optional[str]:
        return self.store.told("report", "unstable")

    def kept(self) -> Mapping[str, Kept]:
        return self.store.kept()

    def letters(self, sender: str, first: int, last: int) -> Iterator[tuple[int, bytes]]:
        found = self.all_mail().get(sender, {})
        return ((number, found[number]) for number in range(first, last + 1) if number in found)

    def all_mail(self) -> Mapping[str, Mapping[int, bytes]]:
        """All kept mail, which is printed once, by sender and number."""
        if self.mail is None:
            self.mail = {}
            for text in self.store.exported():
                label = label_of(text)
                if label is not None:
                    self.mail.setdefault(label.sender, {})[label.number] = text
        return self.mail

    def why(self, sources: Sequence[str], until: float) -> Iterator[tuple[str, str]]:
        for place in range(0, len(sources), AT_ONCE):
            if time.monotonic() >= until:
                return
            # If the run says nothing of one of them, the status is 1: so what is printed counts, and not the status.
            told = program.run(["why", *sources[place:place + AT_ONCE], *self.store.words]).stdout.decode()
            for part in re.split(r"(?m)^(?=why \d+ \S+$)", told):
                head = part.split("\n", 1)[0].split(" ")
                if len(head) == 3:
                    yield head[2], part

    def hint(self, number: int) -> Optional[SentHint]:
        if self.sent is None:
            self.sent = dict(hints_in(text for of in self.all_mail().values() for text in of.values()))
        return self.sent.get(number)

    def hints(self) -> Optional[str]:
        return self.store.told("hints")

    def proposed(self, source: str = "") -> Optional[str]:
        # If nothing is proposed, or the source isn't freed, the status is 1.
        ran = program.run(["propose", *([source] if source else []), *self.store.words])
        return ran.stdout.decode() if ran.returncode in (0, 1) else None


def hints_in(texts: Iterable[bytes]) -> Iterator[tuple[int, SentHint]]:
    """The hints among messages, by their numbers."""
    for text in texts:
        # Most messages are builds, which take far longer to read.
        if b"hint" in text.lower():
            label, hint = label_of(text), hint_in(text)
            if label and hint:
                yield label.number, hint


class FileOffice(Office):
    """The reports of one run, in files."""

    def __init__(self, excuses: str, update: str, testing: Optional[str]) -> None:
        self.texts = {"excuses": text_of(excuses), "update": text_of(update)}
        self.in_testing = text_of(testing) if testing else None
        told = reports.read_excuses(self.texts["excuses"], excuses)
        done = reports.read_update(self.texts["update"], update)
        if (told.run, told.date) != (done.run, done.date):
            raise Fault(f"the excuses are of run {told.run} of {told.date}, "
                        f"and the update is of run {done.run} of {done.date}")
        if self.in_testing is not None:
            finished = finished_in(self.in_testing)
            if finished != told.run:
                raise Fault(f"the excuses are of run {told.run}, and testing is that of run {finished}")
        self.run = run_of(told, done)

    def runs(self) -> Sequence[reports.Run]:
        return [self.run]

    def report(self, run: int, kind: str) -> str:
        return self.texts[kind]

    def testing(self) -> Optional[str]:
        return self.in_testing


def text_of(path: str) -> str:
    """The characters of a file."""
    try:
        return read_bytes(path).decode()
    except UnicodeDecodeError as fault:
        raise Fault(f"{path}: it isn't UTF-8") from fault


def finished_in(testing: str) -> int:
    """After how many runs testing is as in a text; the rest of it is read with the pages."""
    return reports.read_testing(testing[:testing.find("\n") + 1]).finished
