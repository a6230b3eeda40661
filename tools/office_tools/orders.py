"""What the orders for runs state together."""
from dataclasses import dataclass, field
from typing import Mapping

from office_tools.messages import Paragraph


def stated_covers(first: Paragraph) -> Mapping[str, int]:
    """What an order that the office takes states for each sender that it names."""
    items = (item.split() for item in (first.value("Covers") or "").split(",") if item.strip())
    return {sender: int(number) for sender, number in items}


@dataclass
class Orders:
    """What orders state: the greatest number for each sender, and the latest day."""

    covers: dict[str, int] = field(default_factory=dict)
    day: str = ""

    def take(self, first: Paragraph) -> None:
        """Takes an order, by its paragraph."""
        self.day = max(self.day, first.value("Day") or "")
        for sender, number in stated_covers(first).items():
            self.covers[sender] = max(self.covers.get(sender, 0), number)

    def is_due(self, first: Paragraph, day: str) -> bool:
        """Whether an order covers mail that none of these covers, or its day is after that of all of them."""
        return day > self.day or any(number > self.covers.get(sender, 0)
                                     for sender, number in stated_covers(first).items())
