"""What a run moved into testing and took out of it, the mail to a maintainer on it, and the ways that it can go."""
import datetime
import hashlib
import mailbox
import shlex
import subprocess
import sys
from dataclasses import dataclass
from email.headerregistry import Address
from email.message import EmailMessage
from typing import Callable, Optional, Sequence

from office_tools.faults import Exit, Fault, naming
from office_tools.reports import Outcome, Word
from office_tools.service import Service

SECONDS = 300  # how long a mailer may take for one mail

Way = Callable[[EmailMessage], None]


@dataclass(frozen=True)
class Move:
    """A source that a run moved, and testing's version before; one that is taken out has no new version."""

    source: str
    before: Optional[str]
    after: Optional[str]

    @property
    def told(self) -> str:
        """The line of a mail."""
        if self.after is None:
            return f"{self.source} {self.before} was taken out of testing"
        had = f"testing had {self.before}" if self.before else "it is new in testing"
        return f"{self.source} {self.after} migrated to testing ({had})"


@dataclass(frozen=True)
class Moves:
    """All moves of a run, in the order of its decisions."""

    run: int
    date: datetime.date
    moves: Sequence[Move]


def moves_of(service: Service, run: int) -> Moves:
    """The moves of a finished run."""
    update = service.update(run)
    before = {excuse.source: excuse.testing for excuse in service.excuses(run).excuses}
    found = []
    for change in update.changes:
        if change.outcome is Outcome.ACCEPTED:
            is_removal = change.word is Word.REMOVE
            found += [Move(item.source, item.version if is_removal else before.get(item.source),
                           None if is_removal else item.version) for item in change.items]
    return Moves(run, update.date, found)


@dataclass(frozen=True)
class Sender:
    """Who the mails are from, and where the office's pages are, if they are published."""

    address: str
    pages: Optional[str]


def mail(sender: Sender, to: Address, moves: Moves, own: Sequence[Move]) -> EmailMessage:
    """The mail to a maintainer on the moves of its own sources in a run.

    Its id follows from the run and the address, so that a mail that is sent twice is known as one.
    """
    found = EmailMessage()
    place = hashlib.sha256(f"{sender.address} {moves.run} {to.addr_spec}".encode()).hexdigest()[:24]
    found["From"] = sender.address
    found["To"] = to
    found["Subject"] = subject(own)
    found["Date"] = datetime.datetime.now(datetime.timezone.utc)
    found["Message-ID"] = f"<office.{moves.run}.{place}@{sender.address.rpartition('@')[2].rstrip('>') or 'localhost'}>"
    found["Auto-Submitted"] = "auto-generated"
    lines = [f"Run {moves.run} of {moves.date.isoformat()}:", ""]
    for move in own:
        lines += ["  " + move.told]
        lines += [f"    {sender.pages.rstrip('/')}/source/{move.source}.html"] if sender.pages else []
    found.set_content("\n".join(lines) + "\n")
    return found


def subject(own: Sequence[Move]) -> str:
    """The subject: the move, or how many there are."""
    if len(own) == 1:
        return own[0].told.partition(" (")[0]
    return f"{len(own)} of your sources migrated to testing or left it"


def to_output(message: EmailMessage) -> None:
    """Prints a mail."""
    sys.stdout.write(message.as_string() + "\n")
    sys.stdout.flush()


def to_mbox(path: str) -> Way:
    """Adds mails to a file of the form mbox, which is locked meanwhile."""
    def add(message: EmailMessage) -> None:
        with naming(path, Exit.REFUSED, mailbox.Error):
            box = mailbox.mbox(path)
            box.lock()
            try:
                box.add(message)
                box.flush()
            finally:
                box.unlock()
                box.close()
    return add


def to_command(command: str) -> Way:
    """Hands mails to a command such as sendmail, on its standard input."""
    def send(message: EmailMessage) -> None:
        words = shlex.split(command)
        with naming(command, Exit.REFUSED, subprocess.TimeoutExpired):
            ran = subprocess.run(words, input=message.as_bytes(), timeout=SECONDS, check=False)
        if ran.returncode:
            raise Fault(f"{command}: status {ran.returncode}: the mail to {message['To']} isn't sent", Exit.REFUSED)
    return send
