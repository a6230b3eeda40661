"""A copy of a running office: the questions that no route answers are put to the program over all mail it keeps."""
import os
import tempfile
from dataclasses import dataclass
from typing import Optional, Sequence

from office_tools import bags, program, setups
from office_tools.faults import Exit, Fault, ending
from office_tools.letters import letters
from office_tools.senders import in_turn
from office_tools.service import Service


@dataclass(frozen=True)
class Answer:
    """What a command prints, and its status: the bytes for standard output, and lines for standard error."""

    text: bytes
    status: int = 0
    told: str = ""


class Copy:
    """All mail of a running office, fetched once, and the setup that its file states."""

    def __init__(self, service: Service, conf: str) -> None:
        self.service = service
        self.conf = conf
        self.mail: Optional[bytes] = None

    def bag(self) -> bytes:
        """The mail as a bag. The orders come first, so that it has all mail of a run that was ready."""
        if self.mail is None:
            self.check_setup()
            senders = in_turn(self.service, list(self.service.kept()))
            self.mail = b"".join(bags.framed(text) for sender in senders for _, text in letters(self.service, sender))
        return self.mail

    def check_setup(self) -> None:
        """A setup that can't be read, or that has other senders than the office, is a `Fault` of status 4."""
        with ending(Exit.FAILED, "no route answers this: it needs the program and the office's setup (--conf): "):
            setup = setups.read_setup(self.conf)
        if list(setup.senders) != list(self.service.kept()):
            raise Fault(f"{self.conf}: the office has other senders: {' '.join(self.service.kept())}", Exit.FAILED)

    def ask(self, words: Sequence[str]) -> Answer:
        """What a command prints that reads a bag on standard input."""
        return answer_of([*words, "--conf", self.conf], self.bag())

    def ask_store(self, words: Sequence[str]) -> Answer:
        """What a command prints that needs a store: a temporary one, of all mail."""
        with tempfile.TemporaryDirectory() as folder:
            store = program.Store(self.conf, os.path.join(folder, "store.db"))
            program.output(["replay", *store.words], self.bag())
            return answer_of([*words, *store.words])


def answer_of(words: Sequence[str], given: bytes = b"") -> Answer:
    """What a command of the program prints, and its status."""
    ran = program.run(words, given)
    return Answer(ran.stdout, ran.returncode, ran.stderr.decode(errors="backslashreplace"))
