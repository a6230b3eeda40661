"""Bags: lists of messages, each after a line `mail N`, where N is its length in bytes."""
import enum
import re
from typing import Iterable, Iterator

from office_tools.faults import Fault

LONGEST = 65536  # bytes of a message that the office takes

HEADER = re.compile(rb"mail (0|[1-9][0-9]{0,8})\n")
HEADER_BEGINS = re.compile(rb"m(?:a(?:i(?:l(?: (?:0|[1-9][0-9]{0,8})?)?)?)?)?")


class BagRefusal(enum.Enum):
    """Why a bag is refused, by the office's names."""

    BAD_HEADER = "BadHeader"
    TRUNCATED = "Truncated"


class BagFault(Fault):
    """A bag that the office would refuse, and the byte, counted from 0."""

    def __init__(self, refusal: BagRefusal, place: int) -> None:
        super().__init__(f"it is no whole bag: {refusal.value} at byte {place}")
        self.refusal = refusal
        self.place = place


def is_bag(data: bytes) -> bool:
    """Whether a text begins as a bag does, with a line `mail N`. No message begins so: its first line has a colon."""
    return HEADER.match(data) is not None


def messages_in(data: bytes) -> Iterator[bytes]:
    """The messages of a bag in order, in time that is linear in its length.

    Messages that come whole before a fault are handed out first; then `BagFault` is raised. A message that is longer
    than `LONGEST` is handed out whole.
    """
    place = 0
    while place < len(data):
        header = HEADER.match(data, place)
        if header is None:
            raise header_fault(data, place)
        end = header.end() + int(header[1])
        if end > len(data):
            raise BagFault(BagRefusal.TRUNCATED, len(data))
        yield data[header.end():end]
        place = end


def header_fault(data: bytes, place: int) -> BagFault:
    """What is wrong with the header line that begins at this place."""
    begun = HEADER_BEGINS.match(data, place)
    end = begun.end() if begun else place
    if end == len(data):
        return BagFault(BagRefusal.TRUNCATED, end)
    return BagFault(BagRefusal.BAD_HEADER, end)


def framed(text: bytes) -> bytes:
    """A message as it is in a bag."""
    return b"mail %d\n%s" % (len(text), text)


def bag_of(texts: Iterable[bytes]) -> bytes:
    """The bag of these messages."""
    return b"".join(map(framed, texts))
