"""What the looks of this package ask of an office.

`Office` is all that they need. `ServiceOffice` asks a running office; `StoreOffice` asks the program about a store that
no office has open, or about an office in memory to which nothing was mailed.
"""
import abc
from typing import Iterator, Optional, Sequence

from office_tools import program, setups
from office_tools.faults import Exit, Fault
from office_tools.letters import letters
from office_tools.lint.state import Kept, State
from office_tools.messages import Label, label_of
from office_tools.reports import Testing
from office_tools.senders import setup_of
from office_tools.service import Kept as Count
from office_tools.service import Service


class Office(abc.ABC):
    """An office: its verdict of texts, and its state."""

    setup: setups.Setup

    @abc.abstractmethod
    def verdicts(self, texts: Sequence[bytes]) -> Iterator[str]:
        """What it answers to each of these messages when it is asked for: `held ..` or `refused ..`."""

    @abc.abstractmethod
    def state(self) -> State:
        """What it keeps, has in testing, and will see in the next run."""

    def judged(self, texts: Sequence[bytes]) -> Sequence[str]:
        """Whether texts are messages at all, whatever is kept: by these verdicts the place of a fault is found."""
        return list(self.verdicts(texts))


class ServiceMail(Kept):
    """The mail of a running office."""

    def __init__(self, service: Service) -> None:
        super().__init__()
        self.service = service

    def text(self, label: Label) -> Optional[bytes]:
        """A message, or None."""
        return self.service.kept_text(label.sender, label.number)

    def mail(self, sender: str) -> Iterator[bytes]:
        """All messages of a sender, by number."""
        return (text for _, text in letters(self.service, sender))


class ServiceOffice(Office):
    """A running office, which looks at a message without keeping it."""

    def __init__(self, conf: Optional[str], service: Service) -> None:
        self.service = service
        self.counts = service.kept()
        self.setup = setups.read_setup(conf) if conf else setup_of(service)
        if list(self.counts) != list(self.setup.senders):
            raise Fault(f"{conf}: the office has other senders: {' '.join(self.counts)}", Exit.FAILED)

    def verdicts(self, texts: Sequence[bytes]) -> Iterator[str]:
        """Each is looked at in its turn, so after what was mailed before."""
        return (self.service.verdict(text) for text in texts)

    def state(self) -> State:
        """The state, by what the office says of unstable, hints, testing and orders."""
        return State(self.setup, self.counts, self.service.testing(), ServiceMail(self.service)).told(
            self.service.unstable(), self.service.hints())


class StoreOffice(Office):
    """An office whose verdicts are those of a replay in memory, after the mail that a store keeps."""

    def __init__(self, conf: str, store: Optional[str]) -> None:
        self.conf = conf
        self.store = program.Store(conf, store) if store else None
        self.setup = setups.read_setup(conf)
        self.mail = Kept(self.store.exported() if self.store else ())

    def verdicts(self, texts: Sequence[bytes]) -> Iterator[str]:
        """The replies of a replay of these texts, each after what is kept under its number."""
        bag: list[bytes] = []
        places: list[int] = []
        for text in texts:
            label = label_of(text)
            kept = self.mail.text(label) if label else None
            bag += [kept, text] if kept is not None else [text]
            places.append(len(bag) - 1)
        replies = self.judged(bag)
        return (replies[place] for place in places)

    def judged(self, texts: Sequence[bytes]) -> Sequence[str]:
        """The replies of a replay of these texts."""
        return program.replies(self.conf, texts)

    def state(self) -> State:
        """The state, by what the program says of the store."""
        if self.store is None:
            return State(self.setup, dict.fromkeys(self.setup.senders, Count(0, 0, 0)), Testing(0, {}, ()), self.mail)
        return State(self.setup, self.store.kept(), self.store.testing(), self.mail).told(
            self.store.unstable(), self.store.hints())
