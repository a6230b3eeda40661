"""Posting what is new: in order, written down before, and without what the office refuses.

A restored older backup of a store gets the mail again that the folder remembers.
"""
import re
from collections import Counter, defaultdict
from dataclasses import dataclass
from typing import Mapping, Optional, Sequence

from office_tools import bags, messages
from office_tools.faults import Exit, Fault
from office_tools.feed.mailbox import Folder, Outgoing
from office_tools.files import read_bytes
from office_tools.from_packages.told import Weight, tell
from office_tools.messages import Kind, Label, kind_of, label_of, paragraphs
from office_tools.service import Kept, Service, is_held

NUMBER = re.compile(rb"^Number: [0-9]+$", re.MULTILINE)
OTHER_TEXT = "refused OtherText"

CAUSES = {OTHER_TEXT: "somebody else sends as {sender} too: run it again",
          "refused UnknownSender": "the office has another setup: it has no sender {sender}",
          "refused WrongRole": "the office has another setup: {sender} has another role"}
"""Why no message of a sender can be sent. Every other refusal is of one message alone."""


@dataclass(frozen=True)
class Sending:
    """A running office, the sender of its orders, and the place where posts are written down."""

    service: Service
    runs: str
    outgoing: Outgoing

    def send(self, texts: Sequence[bytes]) -> int:
        """Posts messages one after the other; returns how many the office keeps.

        Before the first is posted all are written down: if this process is ended, the next one sends the same texts
        under the same numbers. What the office refuses is left out, and those after it take its number.
        """
        self.outgoing.write(texts)
        count = self.post(texts)
        self.outgoing.clear()
        return count

    def resume(self, kept: Mapping[str, Kept]) -> int:
        """Posts what a feed that was ended had written down and the office doesn't keep; returns how much this is."""
        left = self.outgoing.left(kept)
        self.post(left)
        self.outgoing.clear()
        return len(left)

    def post(self, texts: Sequence[bytes]) -> int:
        """Posts messages one after the other; returns how many are held."""
        waiting = list(reversed(texts))
        less: Counter[str] = Counter()
        held = 0
        while waiting:
            text = renumbered(waiting.pop(), less)
            reply = self.service.mailed(text)
            if not is_held(reply):
                self.check(text, reply)
                mended = self.without_refused(text)
                if mended is None:
                    less[sender_of(text)] += 1
                else:
                    waiting.append(renumbered(mended, less, -1))
                self.outgoing.write([renumbered(other, less) for other in reversed(waiting)])
                continue
            held += 1
        return held

    def check(self, text: bytes, reply: str) -> None:
        """Ends the command if a message is refused for a reason that isn't its own."""
        label = label_of(text)
        sender, number = (label.sender, label.number) if label else ("?", 0)
        cause = CAUSES.get(reply)
        if cause is not None or label is None or sender == self.runs:
            self.outgoing.clear()  # a text that is refused takes no number
            told = f": {cause.format(sender=sender)}" if cause else ""
            raise Fault(f"{self.service.url}: {sender} {number}: {reply}{told}", Exit.REFUSED)

    def without_refused(self, text: bytes) -> Optional[bytes]:
        """A message without the packages that the office refuses; None if nothing is left of it. Each is reported."""
        first, *others = paragraphs(text)
        label = label_of(text)
        if kind_of(first) is not Kind.BUILD or label is None or len(others) == 1:
            tell(f"{subject(text)}: left out: the office answers: {self.service.verdict(text)}", Weight.STANDS)
            return None
        good: list[bytes] = []
        for part in text.split(b"\n\n")[1:]:
            alone = messages.build(label, [part.rstrip(b"\n") + b"\n"])
            reply = self.service.verdict(alone)
            if is_held(reply):
                good.append(part.rstrip(b"\n") + b"\n")
            else:
                tell(f"{subject(alone)}: left out: the office answers: {reply}", Weight.STANDS)
        if len(good) == len(others):
            raise Fault(f"{self.service.url}: {label.sender} {label.number}: refused, and no package of it is",
                        Exit.REFUSED)
        return messages.build(label, good) if good else None


def sender_of(text: bytes) -> str:
    """The sender of a message."""
    label = label_of(text)
    return label.sender if label else ""


def renumbered(text: bytes, less: Mapping[str, int], sign: int = 1) -> bytes:
    """A message under a number that is less by what was left out of its sender."""
    label = label_of(text)
    count = less.get(label.sender, 0) if label else 0
    if label is None or not count:
        return text
    return NUMBER.sub(b"Number: %d" % (label.number - sign * count), text, count=1)


def subject(text: bytes) -> str:
    """What a message is about."""
    first, *others = paragraphs(text)
    for paragraph, names in [*((other, ("Package", "Version", "Architecture")) for other in others),
                             (first, ("Source", "Version")), (first, ("Package", "Version", "Architecture")),
                             (first, ("Hint",))]:
        values = [paragraph.value(name) for name in names]
        if None not in values:
            kind = "source " if names[0] == "Source" else ""
            return kind + " ".join(value or "" for value in values)
    return f"{sender_of(text)} {first.value('Number')}"


def check_architectures(service: Service, sender: str, kept: Mapping[str, Kept], names: Sequence[str]) -> None:
    """Refuses indexes of an architecture that isn't in the office's setup: the office is asked about a drop there."""
    for name in names:
        reply = service.verdict(messages.drop(Label(sender, kept[sender].unbroken + 1), "aa", name, "0"))
        if reply == "refused UnknownArchitecture":
            raise Fault(f"the indexes have packages of {name}: the office has another setup than the archive",
                        Exit.REFUSED)


def restore(service: Service, folder: str) -> int:
    """Posts the mail of the folder's bag that the office doesn't have, each sender's in order: the status."""
    place = Folder(folder)
    found = place.read()
    kept = service.kept()
    strange = sorted(set(found.taken) - set(kept))
    if strange:
        raise Fault(f"{service.url}: it is another office: it has no sender {', '.join(strange)}", Exit.REFUSED)
    texts: dict[str, dict[int, bytes]] = defaultdict(dict)
    for text in bags.messages_in(read_bytes(place.bag)) if found.taken else ():
        label = label_of(text)
        if label is not None:
            texts[label.sender][label.number] = text
    for sender, own in texts.items():
        last = min(kept[sender].unbroken, found.taken[sender])
        for number in {1, last} if last else ():
            if service.kept_text(sender, number) != own[number]:
                raise Fault(f"{service.url}: it keeps another text as {sender} {number} than {place.bag}: that office "
                            "continued on its own, or is another one; nothing was sent", Exit.REFUSED)
    return post(service, texts, {sender: count.unbroken for sender, count in kept.items()})


def post(service: Service, texts: dict[str, dict[int, bytes]], last: dict[str, int]) -> int:
    """Posts each sender's mail after its last number: status 0 if all is held."""
    count, refused = 0, 0
    for sender, own in texts.items():
        for number in sorted(number for number in own if number > last[sender]):
            reply = service.mailed(own[number])
            if is_held(reply):
                count += 1
            else:
                refused += 1
                tell(f"{sender} {number}: {reply}")
    print(f"sent again {count}")
    print(service.good_text("/status"), end="")
    return int(refused > 0)
