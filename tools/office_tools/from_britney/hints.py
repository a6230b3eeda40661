"""The hints of britney's files, as the office has them."""
import functools
import os
import re
from dataclasses import dataclass
from typing import Iterator, Mapping, Sequence

from office_tools import messages, relations, versions
from office_tools.feed.known import Known
from office_tools.feed.news import GONE, removal_of
from office_tools.from_britney.folder import tell, text_of
from office_tools.messages import Label, Made, numbered
from office_tools.senders import HINTS

BRITNEY = "Britney"
"""A field that the office doesn't read: the file that a hint is in. It marks the hints of this command."""
AGE = re.compile("0*[0-9]{1,4}")

ITEMS: Mapping[str, str] = {
    "unblock": "unblock", "approve": "unblock", "easy": "easy", "hint": "easy", "remove": "remove",
    "urgent": "age-days 0"}
"""Hints of items, and what the office has in their place."""


class LeftOut(Exception):
    """A hint that the office has nothing for, and why."""


@dataclass(frozen=True)
class Wish:
    """A hint in the office's words, and the file that it is in."""

    hint: str
    file: str

    def text(self, label: Label) -> bytes:
        """The message."""
        return messages.hint(label, self.hint, [(BRITNEY, self.file)])


def wishes(paths: Sequence[str]) -> Iterator[Wish]:
    """The hints of these files, each once. What the office hasn't is reported and skipped."""
    seen: set[str] = set()
    for path in paths:
        name = os.path.basename(path).encode("ascii", "backslashreplace").decode()
        for number, line in enumerate(text_of(path).split("\n"), 1):
            words = line.split("#", 1)[0].split()
            if words[:1] == ["finished"]:
                break
            try:
                hint = converted(words) if words else None
            except LeftOut as cause:
                tell(f"{path}:{number}: left out: {cause}: {' '.join(words)[:60]!r}")
                continue
            if hint is not None and hint not in seen:
                seen.add(hint)
                yield Wish(hint, name)


def converted(words: Sequence[str]) -> str:
    """A hint in the office's words."""
    kind, *others = words
    if kind == "block-all" and others == ["source"]:
        return "block-all source"
    if not others:
        raise LeftOut("it names nothing")
    if kind == "block":
        if not all(relations.NAME.fullmatch(name) for name in others):
            raise LeftOut("it isn't block NAME ..")
        return " ".join(words)
    if kind == "age-days":
        if not AGE.fullmatch(others[0]) or not others[1:]:
            raise LeftOut("it isn't age-days N NAME/VERSION ..")
        return " ".join([kind, others[0].lstrip("0") or "0", *checked(others[1:])])
    if kind not in ITEMS:
        raise LeftOut("the office has no such hint")
    items = checked(others)
    if ITEMS[kind] == "easy" and len({item.split("/")[0] for item in items}) < len(items):
        raise LeftOut("a source occurs twice")
    return " ".join([ITEMS[kind], *items])


def checked(items: Sequence[str]) -> Sequence[str]:
    """The items, each a source and a version."""
    for item in items:
        name, _, version = item.partition("/")
        if not relations.NAME.fullmatch(name) or not versions.is_version(version):
            raise LeftOut(f"{item[:40]!r} isn't NAME/VERSION of a source")
    return items


def standing(sent: Known) -> Mapping[int, str]:
    """The hints of this command that no message takes back, by number."""
    return {number: first.value("Hint") or "" for number, first in sent.standing_hints()
            if first.value(BRITNEY) is not None or first.value(GONE) is not None}


def changes(found: Sequence[Wish], gone: Mapping[str, str], stand: Mapping[int, str], last: int) -> Sequence[bytes]:
    """Messages that put just these hints in force, with those for sources that britney takes out without a hint as they
    are gone from unstable; `last` is the last number.
    """
    have = set(stand.values())
    want = {wish.hint for wish in found}
    new: list[Made] = [wish.text for wish in found if wish.hint not in have]
    for name, version in sorted(gone.items()):
        hint = f"remove {name}/{version}"
        if hint not in have | want:
            new.append(removal_of(name, version))
        want.add(hint)
    new += [functools.partial(messages.unhint, cancels=number) for number, hint in stand.items() if hint not in want]
    return numbered(HINTS, last, new)
