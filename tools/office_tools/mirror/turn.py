"""One turn: the mail of an office is brought to another one, or into a bag."""
from dataclasses import dataclass
from typing import BinaryIO, Callable

from office_tools import bags
from office_tools.faults import Exit, Fault
from office_tools.letters import Numbers, letters
from office_tools.messages import Label
from office_tools.mirror.held import Held
from office_tools.senders import in_turn
from office_tools.service import Kept, Service, is_held

SAVED_EACH = 100  # messages after which it is remembered what is held


@dataclass
class Turn:
    """The result of a turn: how many messages, and the worst status."""

    tell: Callable[[str], None]
    save: Callable[[], None] = lambda: None
    sent: int = 0
    status: Exit = Exit.DONE

    def to_office(self, source: Service, target: Service, held: Held) -> None:
        """Posts all that the other office didn't hold yet. What it held is added to `held`, also if it fails."""
        senders, theirs = list(source.kept()), target.kept()
        if list(theirs) != senders:
            raise Fault(f"{target.url}: it has other senders than {source.url}", Exit.REFUSED)
        for sender in in_turn(source, senders):
            before = still_held(held.get(sender, Numbers()), theirs[sender])
            self.sender_to_office(source, target, held, sender, before)

    def sender_to_office(self, source: Service, target: Service, held: Held, sender: str, before: Numbers) -> None:
        """Posts what the other office doesn't hold of a sender. What it holds is saved each few messages."""
        now = Numbers()
        try:
            for label, text in letters(source, sender, done=before):
                if self.post(source, target, label, text):
                    now.add(label.number)
                if self.sent % SAVED_EACH == 0:
                    held[sender] = joined(before, now)
                    self.save()
        finally:
            held[sender] = joined(before, now)

    def post(self, source: Service, target: Service, label: Label, text: bytes) -> bool:
        """Posts one message: whether the other office holds it. If it doesn't, that is printed."""
        reply = target.mailed(text)
        self.sent += 1
        if is_held(reply):
            return True
        is_conflict = reply == "refused OtherText"
        what = f"keeps another text than {source.url}" if is_conflict else reply
        self.tell(f"{target.url}: {label.sender} {label.number}: {what}")
        self.status = max(self.status, Exit.NEGATIVE if is_conflict else Exit.REFUSED)
        return False

    def to_bag(self, source: Service, output: BinaryIO) -> None:
        """Writes all mail as a bag."""
        for sender in in_turn(source, list(source.kept())):
            for _, text in letters(source, sender):
                output.write(bags.framed(text))
                self.sent += 1
        output.flush()


def still_held(remembered: Numbers, kept: Kept) -> Numbers:
    """What is remembered of an office that holds this much of a sender: less, if it was set back.

    After a gap nothing shows which messages it holds, only how many.
    """
    is_set_back = remembered.behind(kept.unbroken) > kept.kept - kept.unbroken
    return remembered.upto(kept.unbroken) if is_set_back else remembered


def joined(before: Numbers, now: Numbers) -> Numbers:
    """The numbers of both."""
    both = Numbers()
    for first, last in sorted(before.ranges + now.ranges):
        both.add(first)
        if last > both.ranges[-1][1]:
            both.ranges[-1] = (both.ranges[-1][0], last)
    return both
