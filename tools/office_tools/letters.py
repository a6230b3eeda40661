"""The kept messages of a sender of a service, asked for in parts and handed out in order."""
import re
from dataclasses import dataclass, field
from typing import Iterator, Optional

from office_tools import bags
from office_tools.faults import Exit, Fault
from office_tools.messages import Label, label_of
from office_tools.service import Service

GREATEST = 999_999_999  # the greatest number of a message
USUAL = re.compile(rb"From: ([!-~]+)\nNumber: ([1-9][0-9]{0,8})\n")
"""How nearly all messages begin."""


@dataclass
class Numbers:
    """A set of numbers, kept as the ranges that they make, each with its first and its last number."""

    ranges: list[tuple[int, int]] = field(default_factory=list)

    def add(self, number: int) -> None:
        """Takes a number that is greater than all present ones, or is present already."""
        if self.ranges and number <= self.ranges[-1][1]:
            return
        if self.ranges and number == self.ranges[-1][1] + 1:
            self.ranges[-1] = (self.ranges[-1][0], number)
        else:
            self.ranges.append((number, number))

    def has(self, number: int) -> bool:
        """Whether a number is present."""
        return any(first <= number <= last for first, last in self.ranges)

    def upto(self, last: int) -> "Numbers":
        """Those up to a number."""
        return Numbers([(first, min(end, last)) for first, end in self.ranges if first <= last])

    def behind(self, number: int) -> int:
        """How many there are that are greater than a number."""
        return sum(last - max(first, number + 1) + 1 for first, last in self.ranges if last > number)

    def next_missing(self, first: int) -> int:
        """The least missing number from this one on."""
        return next((end + 1 for start, end in self.ranges if start <= first <= end), first)


def letters(service: Service, sender: str, first: int = 1,
            done: Numbers = Numbers()) -> Iterator[tuple[Label, bytes]]:
    """Each kept message of a sender from a number on that isn't done, by number, whatever gaps there are."""
    while True:
        first = done.next_missing(first)
        if first > GREATEST:
            return
        last = first
        for text in bags.messages_in(service.bag(sender, first)):
            label = kept_label(text)
            if label is None or label.sender != sender or label.number < last:
                raise Fault(f"{service.url}/bag/{sender}/{first}: no office answers there", Exit.FAILED)
            last = label.number + 1
            if not done.has(label.number):
                yield label, text
        if last == first:
            return
        first = last


def kept_label(text: bytes) -> Optional[Label]:
    """The label of a message that an office keeps: none has a field twice, so the two may be read without the rest."""
    found = USUAL.match(text)
    return Label(found[1].decode(), int(found[2])) if found else label_of(text)
