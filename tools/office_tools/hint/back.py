"""Which messages take hints back: whole ones, single items, and all that are over."""
from dataclasses import dataclass
from typing import Iterator, Sequence

from office_tools import versions
from office_tools.counts import FORM
from office_tools.hint.team import Letter, Signature, Team, hint, unhint
from office_tools.lint.state import wish_of
from office_tools.reports import HintItem, Hints, ItemStanding, Wish


@dataclass(frozen=True)
class TakenBack:
    """A hint that is taken back, the items of it that are asked for again, and why."""

    number: int
    wish: Wish
    rest: Sequence[str]
    reason: str = ""

    @property
    def told(self) -> str:
        """The same as it is printed."""
        words, items = self.wish
        again = f", and again {words} {' '.join(self.rest)}" if self.rest else ""
        return f"{' '.join([words, *items])}{again}{self.reason}"


def asked_for(standing: Hints, wish: str) -> Iterator[TakenBack]:
    """Each hint in force that is the one of a number, or that has an item of a wish of the same words."""
    if FORM.fullmatch(wish):
        number = int(wish)
        if number in standing.wishes:
            yield TakenBack(number, standing.wishes[number], ())
        return
    words, items = wish_of(wish)
    for number, (others, has) in standing.wishes.items():
        if words == others and set(items) & set(has):
            yield TakenBack(number, (others, has), rest_of(standing, number, items))


def rest_of(standing: Hints, number: int, items: Sequence[str]) -> Sequence[str]:
    """The other items of a hint that have to be asked for again.

    None of them has to be if another hint in force asks the same. Of `age-days` the hint of the greatest number counts
    for an item, so what a later one names stays as it is.
    """
    words, has = standing.wishes[number]
    rest = [item for item in has if item not in items]
    if any((words, rest) == (other, list(of)) for at, (other, of) in standing.wishes.items() if at != number):
        return ()
    if not words.startswith("age-days"):
        return rest
    later = {item for at, (other, of) in standing.wishes.items() if at > number and other.startswith("age-days")
             for item in of}
    return [item for item in rest if item not in later]


def over(standing: Hints) -> Iterator[TakenBack]:
    """Each hint in force all of whose items are over."""
    for number, items in standing.by_number.items():
        if all(map(is_over, items)):
            is_moved = all(item.standing is ItemStanding.MOVED for item in items)
            yield TakenBack(number, standing.wishes[number], (), ": moved" if is_moved else ": over")


def is_over(item: HintItem) -> bool:
    """Whether an item has moved, or unstable has a greater version: then the item asks nothing any more."""
    if item.standing is ItemStanding.OTHER_VERSION and item.other is not None:
        return versions.compare(item.item.partition("/")[2], item.other) < 0
    return item.standing is ItemStanding.MOVED


def letters_for(team: Team, taken: TakenBack, signature: Signature) -> Sequence[Letter]:
    """The messages that take a hint back. The rest comes first, signed as it was: so nothing is lost in between."""
    wish = " ".join([taken.wish[0], *taken.rest])
    again = [hint(wish, team.signature(taken.number))] if taken.rest else []
    return [*again, unhint(taken.number, signature)]
