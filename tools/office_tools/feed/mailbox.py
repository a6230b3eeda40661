"""All mail that the office keeps, fetched, and remembered in a folder.

The folder's bag is a backup of the office's mail, too. It only grows: a message is appended once.
"""
import contextlib
import os
from dataclasses import dataclass, field
from typing import Iterator, Mapping, Optional, Sequence

from office_tools import bags
from office_tools.faults import Exit, Fault, naming, some
from office_tools.feed import known
from office_tools.feed.known import Known
from office_tools.feed.told import NAME
from office_tools.files import cache_of, digest_of, locked, made, read_bytes, write_whole
from office_tools.from_packages.told import Weight, tell
from office_tools.letters import letters
from office_tools.messages import label_of
from office_tools.service import Kept, Service

BAG, OUTGOING, KNOWN = "bag", "outgoing", "known.json"
SHOWN = 5  # senders that a fault names


def folder_for(asked: Optional[str], service: Service) -> str:
    """The folder of what is remembered of an office, locked against another office-feed."""
    place = made(asked or cache_of(NAME, service.url))
    locked(place, NAME, " for this office")
    return place


@dataclass
class Mailbox:
    """The kept mail. `path` is the bag that has all of it; `known` is what its part without a gap says."""

    path: str
    kept: Mapping[str, Kept]
    known: Known = field(default_factory=Known)

    def texts(self, part: bytes) -> Iterator[bytes]:
        """The messages that have these bytes."""
        for text in bags.messages_in(read_bytes(self.path)):
            if part in text:
                yield text


@dataclass(frozen=True)
class Outgoing:
    """What a feed is about to send, written down in its folder."""

    folder: str

    @property
    def path(self) -> str:
        """The bag."""
        return os.path.join(self.folder, OUTGOING)

    def write(self, texts: Sequence[bytes]) -> None:
        """Writes it down."""
        if texts:
            write_whole(self.path, bags.bag_of(texts))

    def clear(self) -> None:
        """All of it was sent."""
        with contextlib.suppress(FileNotFoundError):
            os.unlink(self.path)

    def left(self, kept: Mapping[str, Kept]) -> Sequence[bytes]:
        """What a feed wrote down that was ended before it had sent it. What doesn't follow the kept mail is left out:
        its number is taken, or another office's. A file that is no bag counts as none.
        """
        if not os.path.exists(self.path):
            return []
        found: list[bytes] = []
        last = {sender: count.unbroken for sender, count in kept.items()}
        with contextlib.suppress(bags.BagFault):
            for text in bags.messages_in(read_bytes(self.path)):
                label = label_of(text)
                if label is not None and last.get(label.sender) == label.number - 1:
                    last[label.sender] = label.number
                    found.append(text)
        return found


@dataclass(frozen=True)
class Folder:
    """The bag of a folder, and what is known of it."""

    path: str

    @property
    def bag(self) -> str:
        """The file of the bag."""
        return os.path.join(self.path, BAG)

    def read(self) -> Known:
        """What the mail in the folder says. Only what was added to the bag since the last time is read.

        If a full disk cut off the end of a bag, that end is lost. A file that is no bag is kept under another name, and
        counts as none.
        """
        data = read_bytes(self.bag) if os.path.exists(self.bag) else b""
        found, start = self.known_of(data)
        good = start
        try:
            for text in bags.messages_in(data[start:]):
                take(found, text)
                good += len(bags.framed(text))
        except bags.BagFault as fault:
            if fault.refusal is not bags.BagRefusal.TRUNCATED or not good:
                return self.put_away()
            os.truncate(self.bag, good)
        except (Fault, ValueError):
            return self.put_away()
        return found

    def known_of(self, data: bytes) -> tuple[Known, int]:
        """What the last turn knew, and of how many of the bag's bytes, if these are as they were."""
        path = os.path.join(self.path, KNOWN)
        with contextlib.suppress(Fault):
            kept = known.read(read_bytes(path)) if os.path.exists(path) else None
            if kept and kept.size <= len(data) and kept.digest == digest_of(data[:kept.size]):
                return kept.known, kept.size
        return Known(), 0

    def put_away(self) -> Known:
        """Keeps a bag that can't be read under another name."""
        number = 1
        while os.path.exists(f"{self.bag}.bad{number}"):
            number += 1
        os.rename(self.bag, f"{self.bag}.bad{number}")
        tell(f"{self.bag}: it is no whole bag; it is kept as {BAG}.bad{number}, and the mail is fetched again",
             Weight.ONCE)
        return Known()

    def add(self, texts: Sequence[bytes]) -> None:
        """Appends messages to those of the bag."""
        with naming(self.bag, Exit.FAILED), open(self.bag, "ab") as file:
            for text in texts:
                file.write(bags.framed(text))
            file.flush()
            os.fsync(file.fileno())

    def write(self, found: Known) -> None:
        """Writes down what is known of the bag."""
        data = read_bytes(self.bag)
        write_whole(os.path.join(self.path, KNOWN), found.written(len(data), digest_of(data)))


def take(found: Known, text: bytes) -> None:
    """Takes a message of the bag, if it is its sender's next one; one after a gap only stays in the bag."""
    label = label_of(text)
    if label is None:
        raise Fault("it has a text that is no message")
    if label.number == found.taken.get(label.sender, 0) + 1:
        found.take(label, text)


def fetch(service: Service, folder: str) -> Mailbox:
    """All mail that the service keeps. What the folder has isn't asked for again.

    A folder that belongs to another office, or has mail that this one doesn't have, is refused and stays as it is.
    """
    place = Folder(folder)
    kept = service.kept()
    found = place.read()
    check_office(service, kept, found, folder)
    before = dict(found.taken)
    new: list[bytes] = []
    for sender, count in kept.items():
        is_more = count.unbroken > found.taken.get(sender, 0)
        for label, text in letters(service, sender, found.taken.get(sender, 0) + 1) if is_more else ():
            if label.number <= count.unbroken:
                new.append(text)
                take(found, text)
        if found.taken.get(sender, 0) < count.unbroken:
            raise Fault(f"{service.url}: {sender} {found.taken.get(sender, 0) + 1} isn't kept any more", Exit.FAILED)
    if new:
        place.add(new)
    if new or not before and not os.path.exists(place.bag):
        place.add([])
        place.write(found)
    return Mailbox(place.bag, kept, found)


def check_office(service: Service, kept: Mapping[str, Kept], found: Known, folder: str) -> None:
    """Refuses a folder of another office, and one with mail that the office doesn't have or has otherwise."""
    other = f"{folder} belongs to another office than {service.url}"
    ways = "name another folder by --cache, or remove this one if it isn't needed"
    strange = sorted(set(found.taken) - set(kept))
    if strange:
        raise Fault(f"{other}, which has no sender {', '.join(strange)}: {ways}", Exit.REFUSED)
    lacking: list[str] = []
    for sender, (first, *last) in found.ends.items():
        number = found.taken[sender]
        if service.kept_text(sender, 1) not in (None, first.encode()):
            raise Fault(f"{other}, which keeps another text as {sender} 1: {ways}", Exit.REFUSED)
        if kept[sender].unbroken < number:
            lacking.append(f"{sender} {kept[sender].unbroken + 1} to {number}")
        elif service.kept_text(sender, number) != (last or [first])[-1].encode():
            raise Fault(f"the office keeps another text as {sender} {number} than {folder}/{BAG}: its store was "
                        "restored, and continued; that bag has the mail of before: compare both, and make the office "
                        "again from the right mail", Exit.REFUSED)
    if lacking:
        shown = some(lacking, SHOWN, " senders")
        raise Fault(f"the office lacks mail that it kept before: {shown}: its store was restored, or is new; "
                    f"'office-feed --restore --url {service.url} --cache {folder}' sends it again; if this is meant "
                    f"to be another office, {ways}", Exit.REFUSED)
