"""What in a message that the office would take is most likely a slip, and on which line.

Most likely that is also what has a greater effect than is meant, or none at all.
Each function here is one warning: it says what is wrong exactly if its condition holds over the state.
"""
import re
from typing import Iterator, Mapping, Optional, Sequence

import Levenshtein

from office_tools import versions
from office_tools.lint.state import Check, Look, Place, Seen, State, wish_of
from office_tools.messages import BINARY_FIELDS, FIELDS_OF, HEAD_FIELDS, Field, Kind, Paragraph, Role
from office_tools.orders import stated_covers
from office_tools.relations import ALTERNATIVE, source_of

FARTHEST = 2  # changed letters between a name that isn't read and the one that is most likely meant
LEAST_LEAP = 20  # a first number below it is no date, and has no digits too many
NEAR_DAYS = 5  # days by which a delay may change without a word
DELAYS = ("Low", "Medium", "High", "Critical")
FIRST_NUMBER = re.compile(r"(?:(\d+):)?\D*(\d*)")


def number_behind_a_gap(look: Look) -> Iterator[Place]:
    """The number isn't the sender's next one."""
    sender, number = look.label.sender, look.label.number
    due = look.state.unbroken[sender] + 1
    if due < number and not look.state.is_kept(look.label):
        yield look.warned("Number", f"number {number} of {sender}: {due} is the next")


def misspelt_fields(look: Look) -> Iterator[Place]:
    """A field that isn't read has nearly the name of one that is."""
    head = [rule.name for rule in (*HEAD_FIELDS, *FIELDS_OF[look.kind])]
    yield from misspelt(look.first, head)
    for binary in look.binaries:
        yield from misspelt(binary, [rule.name for rule in BINARY_FIELDS])


def misspelt(paragraph: Paragraph, read: Sequence[str]) -> Iterator[Place]:
    """The same in one paragraph, given the names that are read of it."""
    missing = [name for name in read if paragraph.field(name) is None]
    known = {name.lower() for name in read}
    for field in paragraph.fields:
        near = {name: int(Levenshtein.distance(field.name.lower(), name.lower())) for name in missing}
        meant = min(near, key=lambda name: near[name], default="")
        if field.name.lower() not in known and near.get(meant, FARTHEST + 1) <= FARTHEST:
            yield Place(field.line, f"the office reads no field {field.name} here: is {meant} meant?")


def day_after_today(look: Look) -> Iterator[Place]:
    """The day is still to come."""
    if look.kind in (Kind.UPLOAD, Kind.RUN) and look.days.today < look.day():
        yield look.warned("Day", f"day {look.day()} is after today, {look.days.today}")


def day_long_ago(look: Look) -> Iterator[Place]:
    """The day of an upload lies far back, so the source seems old at once."""
    if look.kind is Kind.UPLOAD and (look.days.today - look.day()).days > look.days.most:
        yield look.warned("Day", f"day {look.day()} is more than {look.days.most} days before today")


def upload_of_nothing_new(look: Look) -> Iterator[Place]:
    """Unstable has that version of the source, or a greater one."""
    if look.kind is Kind.UPLOAD:
        has = look.state.seen.source(look.value("Source"))
        if has is not None and versions.compare(look.value("Version"), has) <= 0:
            yield look.warned("Version", f"unstable has {look.value('Source')} {has}: this upload changes nothing")


def build_of_another_source(look: Look) -> Iterator[Place]:
    """The source of a binary isn't in unstable, or has another version there and in testing."""
    for binary in look.binaries if look.kind is Kind.BUILD else ():
        name, version = source_of(binary.value("Source"), binary.value("Package") or "", binary.value("Version") or "")
        stated = binary.field("Source") or binary.field("Package")
        line = stated.line if stated else binary.line
        has = look.state.seen.source(name)
        if has is None:
            yield Place(line, f"no source {name}")
        elif not any(versions.same(version, other) for other in (has, look.state.testing.get(name))):
            yield Place(line, f"unstable has {name} {has}")


def bug_of_no_source(look: Look) -> Iterator[Place]:
    """The bug is of a source that isn't in unstable."""
    if look.kind is Kind.BUG and look.state.seen.source(look.value("Source")) is None:
        yield look.warned("Source", f"no source {look.value('Source')}")


def drop_of_nothing(look: Look) -> Iterator[Place]:
    """Unstable has no such row, or one of a greater version."""
    if look.kind is Kind.DROP:
        architecture, package = look.value("Architecture"), look.value("Package")
        has = look.state.seen.row(architecture, package)
        if has is None or versions.compare(has, look.value("Version")) > 0:
            row = f"{has or 'no row'} of {package} on {architecture}"
            yield look.warned("Package", f"unstable has {row}: this drops nothing")


def hint_of_another_source(look: Look) -> Iterator[Place]:
    """An item of a hint isn't in force: unstable has no such source, another version, or it moved already."""
    if look.kind is Kind.HINT:
        word, *rest = look.value("Hint").split()
        items = [] if word == "block-all" else rest[1:] if word == "age-days" else rest
        for item in items:
            name, _, version = item.partition("/")
            told = standing(look.state, word, name, version)
            if told:
                yield look.warned("Hint", told)


def standing(state: State, word: str, name: str, version: str) -> Optional[str]:
    """Why an item of a hint isn't in force; None if it is. An item of `block` has no version."""
    has, moved = state.seen.source(name), state.testing.get(name)
    if has is None:
        return f"no source {name}"
    if not version or (word == "remove" and versions.same(version, moved)):
        return None
    if word == "remove":
        kept_out = f", and keeps {version} out" if versions.same(version, has) else ""
        return f"testing has {f'{name} {moved}' if moved else f'no {name}'}: this removes nothing{kept_out}"
    if versions.same(version, moved):
        return f"{name} {version} is in testing already"
    return None if versions.same(version, has) else f"unstable has {name} {has}"


def unhint_of_nothing(look: Look) -> Iterator[Place]:
    """No hint of that number is in force."""
    if look.kind is Kind.UNHINT and not look.state.seen.in_force(int(look.value("Cancels"))):
        yield look.warned("Cancels", f"no hint in force has the number {look.value('Cancels')}")


def order_over_a_gap(look: Look) -> Iterator[Place]:
    """The order covers missing mail."""
    if look.kind is Kind.RUN:
        stated = stated_covers(look.first)
        for sender in look.senders():
            reached = look.state.unbroken[sender]
            if reached < stated.get(sender, 0):
                yield look.warned("Covers", f"{sender} {reached + 1} isn't kept: this run and all later ones wait")


def order_leaves_mail_out(look: Look) -> Iterator[Place]:
    """Neither this order nor an earlier one covers some mail."""
    if look.kind is Kind.RUN:
        stated = stated_covers(look.first)
        for sender in look.senders():
            covered = max(stated.get(sender, 0), look.state.orders.covers.get(sender, 0))
            reached = look.state.unbroken[sender]
            if covered < reached:
                yield look.warned("Covers", f"{sender} {covered + 1} to {reached} isn't covered")


def order_covers_less(look: Look) -> Iterator[Place]:
    """An earlier order covers more of a sender."""
    if look.kind is Kind.RUN:
        stated = stated_covers(look.first)
        for sender in look.senders():
            covered = look.state.orders.covers.get(sender, 0)
            if 0 < stated.get(sender, 0) < covered:
                yield look.warned("Covers", f"{sender}: an earlier order covers {covered}: this changes nothing")


def order_of_an_earlier_day(look: Look) -> Iterator[Place]:
    """An earlier order has a later day."""
    if look.kind is Kind.RUN and look.value("Day") < look.state.orders.day:
        yield look.warned("Day", f"an earlier order has day {look.state.orders.day}: this one has no effect")


def version_leaps(look: Look) -> Iterator[Place]:
    """An upload has a greater epoch than unstable's version, or a first number that is ten times as great."""
    has = look.state.seen.source(look.value("Source")) if look.kind is Kind.UPLOAD else None
    if has is None or versions.compare(look.value("Version"), has) <= 0:
        return
    old_epoch, old = leading(has)
    epoch, new = leading(look.value("Version"))
    below = f"no version below {look.value('Version')} will count"
    if epoch > old_epoch:
        yield look.warned("Version", f"unstable has {look.value('Source')} {has}, of a lower epoch: {below}")
    elif new >= LEAST_LEAP and new >= 10 * old:
        yield look.warned("Version", f"unstable has {look.value('Source')} {has}: {below}")


def leading(version: str) -> tuple[int, int]:
    """The epoch of a version and the first number of its upstream part."""
    found = FIRST_NUMBER.match(version)
    return (int(found[1] or 0), int(found[2] or 0)) if found else (0, 0)


def drop_beyond(look: Look) -> Iterator[Place]:
    """A drop reaches further than unstable's row."""
    if look.kind is Kind.DROP:
        architecture, package = look.value("Architecture"), look.value("Package")
        has = look.state.seen.row(architecture, package)
        if has is not None and versions.compare(has, look.value("Version")) < 0:
            yield look.warned("Version", f"unstable has {has} of {package} on {architecture}: no build up to "
                                         f"{look.value('Version')} will count")


def block_of_all(look: Look) -> Iterator[Place]:
    """A hint keeps all sources out of testing."""
    if look.kind is Kind.HINT and look.value("Hint").split()[0] == "block-all":
        yield look.warned("Hint", f"this keeps all sources out: {newer(look.state)} are newer in unstable")


def newer(state: State) -> int:
    """How many sources have a greater version in unstable than in testing, or aren't in testing."""
    moved = state.testing
    return sum(name not in moved or versions.compare(given.version, moved[name]) > 0
               for name, given in state.seen.sources.items())


def delays_leap(look: Look) -> Iterator[Place]:
    """A delay falls below half or rises above double by days; or a lesser urgency waits less than a greater one."""
    if look.kind is not Kind.DELAYS:
        return
    days = {name: int(look.value(name)) for name in DELAYS}
    now = look.state.seen.delays()
    for name, old in now.items():
        new = days[name]
        if abs(new - old) > NEAR_DAYS and not old <= 2 * new <= 4 * old:
            yield look.warned(name, f"{name} is {old} now")
    for lesser, greater in zip(DELAYS, DELAYS[1:]):
        if days[lesser] < days[greater]:
            yield look.warned(lesser, f"{lesser} is below {greater}")


def build_of_nothing_new(look: Look) -> Iterator[Place]:
    """Unstable has the row of a binary in a greater version, or in this one from a sender that comes first."""
    if look.kind is not Kind.BUILD or look.state.is_kept(look.label):
        return
    is_last = look.label.sender == look.state.setup.senders_of(Role.BUILD)[-1]
    for binary in look.binaries:
        architecture, package = binary.value("Architecture") or "", binary.value("Package") or ""
        has = look.state.seen.row(architecture, package)
        order = -1 if has is None else versions.compare(has, binary.value("Version") or "")
        if order > 0 or (order == 0 and is_last):
            yield Place(binary.line, f"unstable has {package} {has} on {architecture}: this build changes nothing")


def clause_of_nothing(look: Look) -> Iterator[Place]:
    """No package and no provision is known that has a name of a clause. An archive has such rows, so a bag may, too."""
    for binary in look.binaries if look.kind is Kind.BUILD and look.is_alone else ():
        for name in ("Pre-Depends", "Depends"):
            field = binary.field(name)
            if field is not None:
                yield from unmet(look.state, field, binary.value("Package") or "")


def unmet(state: State, field: Field, package: str) -> Iterator[Place]:
    """The same in one field."""
    for place in re.finditer(r"[^,]+", field.value):
        names = [found[1] for found in map(ALTERNATIVE.fullmatch, map(str.strip, place[0].split("|"))) if found]
        if names and not any(map(state.is_named, names)):
            line = field.line_at(place.start() + len(place[0]) - len(place[0].lstrip()))
            yield Place(line, f"{package}: nothing in unstable is {' or '.join(names)}")


def bug_of_no_version(look: Look) -> Iterator[Place]:
    """A bug affects no version, or none up to unstable's."""
    if look.kind is not Kind.BUG:
        return
    found, fixed = look.first.value("Found"), look.first.value("Fixed")
    has = look.state.seen.source(look.value("Source"))
    if found is not None and fixed is not None and versions.compare(fixed, found) <= 0:
        yield look.warned("Fixed", f"{fixed} isn't above {found}, where it was found: no version has this bug")
    elif found is not None and has is not None and versions.compare(found, has) > 0:
        yield look.warned("Found", f"unstable has {look.value('Source')} {has}: no version up to it has this bug")


def bug_of_another_source(look: Look) -> Iterator[Place]:
    """The last message on this bug is of another source, which so is free of it."""
    if look.kind is Kind.BUG:
        bug = int(look.value("Bug"))
        source = look.state.seen.bug_source(bug)
        if source not in (None, look.value("Source")):
            yield look.warned("Source", f"bug {bug} was of {source}, which no longer has it then")


def hint_again(look: Look) -> Iterator[Place]:
    """A hint in force asks the same."""
    if look.kind is Kind.HINT and not look.state.is_kept(look.label):
        words, items = wish_of(look.value("Hint"))
        for number, asked in standing_items(look.state.seen, words, items).items():
            told = "this" if words in ("block-all", "easy") else ", ".join(asked)
            yield look.warned("Hint", f"{look.label.sender} {number} in force asks {told} already")


def standing_items(seen: Seen, words: str, items: Sequence[str]) -> Mapping[int, Sequence[str]]:
    """The items of a hint that a hint in force asks, by its number; those of a group all together."""
    found: dict[int, Sequence[str]] = {}
    for number, (other, others) in sorted(seen.wishes.items()):
        both = [item for item in items if item in others]
        is_whole = len(both) == len(items) == len(others)
        if other == words and both and (is_whole or words != "easy") and seen.in_force(number):
            found[number] = both
    return found


CHECKS: Sequence[Check] = (
    number_behind_a_gap, misspelt_fields, day_after_today, day_long_ago, upload_of_nothing_new, build_of_another_source,
    bug_of_no_source, drop_of_nothing, hint_of_another_source, unhint_of_nothing, order_over_a_gap,
    order_leaves_mail_out, order_covers_less, order_of_an_earlier_day,
    version_leaps, drop_beyond, block_of_all, delays_leap, build_of_nothing_new, clause_of_nothing, bug_of_no_version,
    bug_of_another_source, hint_again)


def slips(look: Look) -> Iterator[Place]:
    """All warnings of a message."""
    for check in CHECKS:
        yield from check(look)
