"""What the commands print about things that they leave out, and how much each line weighs."""
import enum
from typing import Callable

from office_tools import faults

NAME = "office-from-packages"


class Weight(enum.Enum):
    """Whether a person should see a line."""

    NOTE = "note"
    """No: nothing is lost."""
    ONCE = "once"
    """On the day on which it is new."""
    STANDS = "stands"
    """As long as it is so: something doesn't move."""


def printed(what: str, _weight: Weight) -> None:
    """Prints a line on standard error."""
    faults.tell(NAME, escaped(what))


def escaped(what: str) -> str:
    """A line, its control characters by their numbers."""
    return "".join(character if character.isprintable() else ascii(character)[1:-1] for character in what)


listener: Callable[[str, Weight], None] = printed
"""Who takes the lines: standard error, unless a command that shares these modules has another way."""


def tell(what: str, weight: Weight = Weight.STANDS) -> None:
    """Prints a line."""
    listener(what, weight)
