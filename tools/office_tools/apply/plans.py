"""Plans of the program `office-plan`, from which all that is done to a suite comes.

It is proved that after the plan of three lists the suite has what the target has, or that there is no plan
(office-plan(1)). A list has one version of a name on an architecture. A suite may have more: then the others have lines
of their own, whose architecture says which version they are. Where the manager has packages of `all` in each index,
their architecture says in which.

The program also refuses to take much out of a suite, or to take something back. It is told here how much is allowed.
"""
from dataclasses import dataclass
from typing import Iterable, Iterator, Mapping, Optional, Sequence

from office_tools import versions
from office_tools.apply.contents import Contents, Item, Source, Target, contents_of
from office_tools.deciding import MOST, SOURCE, Program
from office_tools.faults import Exit, Fault, some

PLAN = Program("office-plan")
MOST_GONE = 40  # packages and sources
SHARE_GONE = 50  # one of this many is 2 %
SHOWN = 10  # names in a sentence

Key = tuple[str, str]
"""An architecture, or `source`, and a name."""


@dataclass(frozen=True)
class Plan:
    """What is copied into a suite, and what is removed from it after that."""

    come: Contents
    go: Contents

    @property
    def is_empty(self) -> bool:
        """Whether the suite is what it is to be."""
        return self.come.is_empty and self.go.is_empty

    def lines(self, come: str = "missing", go: str = "too much") -> Iterator[str]:
        """A line for each source and each row that differs."""
        yield from (f"{come}: {line}" for line in self.come.lines())
        yield from (f"{go}: {line}" for line in self.go.lines())


@dataclass(frozen=True)
class Answer:
    """What the program prints of three lists: a plan, or what can't be copied, goes lower, or how many leave."""

    plan: Optional[Plan] = None
    lacks: Contents = Contents()
    lower: Sequence[Item] = ()
    leaving: int = 0


def key_of(item: Item) -> Key:
    """The architecture and the name in the line of an item."""
    if isinstance(item, Source):
        return SOURCE, item.name
    if item.place == item.architecture:
        return item.place, item.name
    return f"{item.architecture}/{item.place}", item.name


def line_of(item: Item, is_first: bool) -> str:
    """The line of an item, or that of another version of what has a line already."""
    architecture, name = key_of(item)
    line = f"{name} {item.version} {architecture}"
    return line if is_first else f"{line}={item.version}"


def greatest(items: Iterable[Item]) -> Mapping[Key, Item]:
    """The item with the greatest version of each key."""
    found: dict[Key, Item] = {}
    for item in items:
        key = key_of(item)
        other = found.setdefault(key, item)
        if other is not item and versions.compare(item.version, other.version) > 0:
            found[key] = item
    return found


@dataclass(frozen=True)
class Lists:
    """The lists of what a suite is to have, of what it has, and of what can be copied: the item of each line.

    `first` has the item of the suite that stands for a key, `gone` the keys that leave for good. `others` counts the
    lines of further versions that go. What is there already is never copied.
    """

    target: Mapping[str, Item]
    suite: Mapping[str, Item]
    origin: Mapping[str, Item]
    first: Mapping[Key, Item]
    gone: frozenset[Key]
    others: int
    there: Contents


def listed(goal: Target, have: Contents, origin: Contents) -> Lists:
    """The lists for a suite. What can be copied is listed as far as the suite is to have it.

    If the suite has a version above the wanted one, that version stands for it, also if it has the wanted one, too. So
    the program sees that the suite would go to a lower version.
    """
    due = goal.contents.items - frozenset(goal.odd)
    there = have.items - frozenset(goal.odd)
    copied = origin.items | there
    wanted = greatest(goal.want.items)
    surplus = there - due
    first = {key: item for key, item in wanted.items() if item in there}
    for key, item in greatest(surplus).items():
        if key not in first or versions.compare(item.version, first[key].version) > 0:
            first[key] = item
    hidden = {item for key, item in wanted.items() if first.get(key) != item}
    chosen, best = set(first.values()), set(wanted.values())
    suite = {line_of(item, item in chosen): item for item in there - hidden}
    target = {line_of(item, item in best): item for item in due}
    source = {line: item for line, item in target.items() if item in copied}
    gone = first.keys() - {key for key, item in wanted.items() if item in due}
    return Lists(target, suite, source, first, frozenset(gone), len(surplus - chosen), have)


def ask(lists: Lists, gone: int, is_back: bool) -> Answer:
    """What the program says of lists. At most so many may leave, and none goes to a lower version unless allowed."""
    words = ["--gone", str(min(gone + lists.others, MOST)), *(["--back"] if is_back else [])]
    told = PLAN.lines([list(lists.target), list(lists.suite), list(lists.origin)], words)
    try:
        return answer_of(told, lists)
    except (KeyError, ValueError) as fault:
        raise PLAN.fault(f"it prints {fault.args[0]!r}") from fault


def answer_of(told: Sequence[str], lists: Lists) -> Answer:
    """What the lines say that the program prints of lists."""
    found: dict[str, list[str]] = {"copy": [], "remove": [], "lacks": [], "lower": [], "leaving": []}
    for line in told:
        kind, _, rest = line.partition(" ")
        found[kind].append(rest)
    plan = Plan(contents_of(lists.target[line] for line in found["copy"]).without(lists.there),
                contents_of(lists.suite[line] for line in found["remove"]))
    is_refused = found["lacks"] or found["lower"] or found["leaving"]
    return Answer(None if is_refused else plan, contents_of(lists.target[line] for line in found["lacks"]),
                  [lists.target[line] for line in found["lower"]],
                  sum(int(count) - lists.others for count in found["leaving"]))


def lacking(goal: Target, have: Contents, origin: Contents) -> Contents:
    """What is missing in a suite and can't be copied."""
    return ask(listed(goal, have, origin), MOST, True).lacks


def plan_to(goal: Target, have: Contents) -> Plan:
    """How a suite becomes what it is to be, if all can be copied and all is allowed."""
    found = ask(listed(goal, have, goal.contents), MOST, True).plan
    if found is None:
        raise PLAN.fault("it has no plan where all can be copied")
    return found


@dataclass(frozen=True)
class Terms:
    """What is allowed: how much may leave for good, if that is stated, and whether versions may go lower."""

    gone: Optional[int] = None
    back: bool = False

    def plan(self, goal: Target, have: Contents, origin: Contents) -> Plan:
        """The plan for a suite; what isn't allowed is refused.

        What was sent under a mark, as another version of the archive, counts as that mark says: it was allowed before.
        """
        lists = listed(goal, have, origin)
        gone = max(MOST_GONE, len(lists.first) // SHARE_GONE) if self.gone is None else self.gone
        found = ask(lists, gone, self.back)
        if found.lower:
            check_back(lists, found.lower, goal.want)
            found = ask(lists, gone, True)
        if found.leaving:
            names = named(sorted(f"{name} {architecture}" for architecture, name in lists.gone))
            raise Fault(f"{found.leaving} of {len(lists.first)} packages and sources would leave testing: {names}: "
                        f"nothing is changed unless --gone {found.leaving} allows it", Exit.REFUSED)
        if found.plan is None:
            raise Fault(f"there is nothing to copy from: {named(list(found.lacks.lines()))}", Exit.REFUSED)
        return found.plan


def check_back(lists: Lists, lower: Sequence[Item], want: Contents) -> None:
    """Refuses lower versions, except those that were sent as a greater one."""
    back = {f"{item.name} {lists.first[key_of(item)].version} to {item.version}" for item in lower
            if versions.compare(lists.first[key_of(item)].version, want.sent.get(item, item.version)) > 0}
    if back:
        raise Fault(f"testing would go back to lower versions: {named(sorted(back))}: if the office's store was "
                    "restored, send its mail again (office-feed --restore); nothing is changed unless --back allows it",
                    Exit.REFUSED)


def named(names: Sequence[str]) -> str:
    """The first of many names, and how many more there are."""
    return some(names, SHOWN)
