"""What the office's mail says, as far as the feed needs it: read once, and kept in the folder for the next turn."""
import contextlib
import datetime
import json
import re
from dataclasses import dataclass, field
from typing import Any, Mapping, Sequence

from office_tools import bags, days, versions
from office_tools.apply import marks
from office_tools.deciding import SOURCE
from office_tools.faults import Exit, Fault, ending
from office_tools.files import sealed, unsealed
from office_tools.from_packages.binaries import Key
from office_tools.from_packages.sources import put_newer
from office_tools.from_packages.told import tell
from office_tools.messages import Kind, Label, Paragraph, kind_of, label_of_first, paragraphs
from office_tools.orders import stated_covers
from office_tools.senders import HINTS

SPARE = re.compile(r"again[1-9][0-9]*")

FORM = 2
"""The number of the form in which it is kept. A file of another form is read no more."""
LOW_DAYS = 10  # days that an upload of the urgency low waits, where nothing else is said


@dataclass
class Known:
    """What the mail says up to a number of each sender, all of which was taken in order.

    `versions` has each source's greatest version, `packages` each package's greatest one, dropped or not, and `dropped`
    up to which version it was dropped. `staying` are the packages told under a made-up source, `retold` which senders
    told a version of a package under a spare name. `hints` are the texts of the release team's messages. `covers` and
    `last_day` are those of the orders together. `ends` has the first and the last text of each sender. `low_days` is
    how many days an upload of the least urgency waits.
    """

    taken: dict[str, int] = field(default_factory=dict)
    versions: dict[str, str] = field(default_factory=dict)
    packages: dict[Key, str] = field(default_factory=dict)
    dropped: dict[Key, str] = field(default_factory=dict)
    staying: dict[Key, str] = field(default_factory=dict)
    retold: dict[tuple[Key, str], set[str]] = field(default_factory=dict)
    hints: dict[int, str] = field(default_factory=dict)
    covers: dict[str, int] = field(default_factory=dict)
    last_day: str = ""
    ends: dict[str, list[str]] = field(default_factory=dict)
    low_days: int = LOW_DAYS

    @property
    def live(self) -> Mapping[Key, str]:
        """The greatest version of each package that isn't dropped."""
        return {key: version for key, version in self.packages.items()
                if key not in self.dropped or versions.compare(version, self.dropped[key]) > 0}

    @property
    def last_order(self) -> datetime.date:
        """The latest day of all orders; the first day there is if there are none."""
        return datetime.date.fromisoformat(self.last_day) if self.last_day else datetime.date.min

    def bound(self, key: Key) -> str:
        """The version above which a package or a source has to be sent so that it counts; an empty text if there is
        none.
        """
        if key[1] == SOURCE:
            return self.versions.get(key[0], "")
        told, dropped = self.packages.get(key, ""), self.dropped.get(key, "")
        return told if told and (not dropped or versions.compare(told, dropped) > 0) else dropped

    def is_above(self, key: Key, version: str) -> bool:
        """Whether a package or a source counts if it is sent under this version."""
        bound = self.bound(key)
        return not bound or versions.compare(version, bound) > 0

    def letters(self) -> Sequence[tuple[int, Paragraph]]:
        """The first paragraphs of the release team's messages, by number."""
        return [(number, next(paragraphs(text.encode()))) for number, text in sorted(self.hints.items())]

    def standing_hints(self) -> Sequence[tuple[int, Paragraph]]:
        """The first paragraphs of the hints that no message takes back, by number."""
        letters = self.letters()
        cancelled = {int(first.value("Cancels") or 0) for _, first in letters if kind_of(first) is Kind.UNHINT}
        return [(number, first) for number, first in letters
                if kind_of(first) is Kind.HINT and number not in cancelled]

    def take(self, label: Label, text: bytes) -> None:
        """Takes the next message of a sender on. A text that no office keeps is a `Fault` or a `ValueError`."""
        first, *others = paragraphs(text)
        kind = kind_of(first)
        if kind is Kind.UPLOAD:
            put_newer(self.versions, needed(first, "Source"), needed(first, "Version"))
        elif kind is Kind.BUILD:
            for paragraph in others:
                self.take_package(label, paragraph)
        elif kind is Kind.DROP:
            put_newer(self.dropped, key_of(first), needed(first, "Version"))
        elif kind is Kind.RUN:
            self.last_day = max(self.last_day, days.day(needed(first, "Day")).isoformat())
            for sender, number in stated_covers(first).items():
                self.covers[sender] = max(self.covers.get(sender, 0), number)
        elif kind is Kind.UNHINT:
            int(needed(first, "Cancels"))
        elif kind is Kind.DELAYS:
            self.low_days = int(needed(first, "Low"))
        if label.sender == HINTS:
            self.hints[label.number] = text.decode()
        self.taken[label.sender] = max(self.taken.get(label.sender, 0), label.number)
        self.ends.setdefault(label.sender, [text.decode()])[1:] = [text.decode()]

    def take_package(self, label: Label, paragraph: Paragraph) -> None:
        """Takes a package of a build on."""
        key, version = key_of(paragraph), needed(paragraph, "Version")
        put_newer(self.packages, key, version)
        if SPARE.fullmatch(label.sender):
            self.retold.setdefault((key, version), set()).add(label.sender)
        if marks.is_made_up((paragraph.value("Source") or "").split(" ", 1)[0]):
            put_newer(self.staying, key, version)

    def written(self, size: int, digest: str) -> bytes:
        """It as a text, with the size and the digest of the part of the bag that it is of."""
        keyed = {name: {" ".join(key): version for key, version in getattr(self, name).items()}
                 for name in ("packages", "dropped", "staying")}
        retold = {" ".join((*key, version)): sorted(senders) for (key, version), senders in self.retold.items()}
        return sealed(json.dumps({
            "form": FORM, "size": size, "digest": digest, "taken": self.taken, "ends": self.ends,
            "versions": self.versions, **keyed, "retold": retold, "hints": self.hints, "covers": self.covers,
            "last_day": self.last_day, "low_days": self.low_days}).encode())


@dataclass(frozen=True)
class Kept:
    """What a file keeps: what is known, and the size and the digest of the part of the bag that it is of."""

    known: Known
    size: int
    digest: str


def read(data: bytes) -> Kept:
    """What such a text says. One of another form, or one that isn't as it was written, is a `Fault`."""
    data = unsealed(data)
    with contextlib.suppress(ValueError, KeyError, TypeError, AttributeError, RecursionError):
        found: Any = json.loads(data.decode())
        if found["form"] == FORM:
            known = Known(found["taken"], found["versions"], last_day=found["last_day"], covers=found["covers"],
                          ends=found["ends"], low_days=int(found["low_days"]),
                          hints={int(number): text for number, text in found["hints"].items()})
            for name in ("packages", "dropped", "staying"):
                getattr(known, name).update({pair_of(key): version for key, version in found[name].items()})
            for words, senders in found["retold"].items():
                name, architecture, version = words.split(" ")
                known.retold[(name, architecture), version] = set(senders)
            return Kept(known, int(found["size"]), str(found["digest"]))
    raise Fault("it isn't of the form that this version writes")


def pair_of(words: str) -> Key:
    """The name and the architecture of a key."""
    name, architecture = words.split(" ")
    return name, architecture


def first_of(text: bytes) -> Paragraph:
    """The first paragraph of a message; an empty one if there is none."""
    return next(paragraphs(text), Paragraph(1, ()))


def key_of(paragraph: Paragraph) -> Key:
    """The package that a paragraph names, and its architecture."""
    return needed(paragraph, "Package"), needed(paragraph, "Architecture")


def needed(paragraph: Paragraph, name: str) -> str:
    """The value of a field that each message of its kind has."""
    value = paragraph.value(name)
    if value is None:
        raise Fault(f"it has no field {name}")
    return value


def sent_in(path: str, bag: bytes) -> Known:
    """What was sent by a bag. A text that is no message took no number, and is reported."""
    found = Known()
    with ending(Exit.NEGATIVE, f"{path}: "):
        for place, text in enumerate(bags.messages_in(bag), 1):
            try:
                first = first_of(text)
                label = label_of_first(first)
                if label is None or kind_of(first) is None:
                    raise Fault("it is no message")
                found.take(label, text)
            except (Fault, ValueError) as fault:
                tell(f"{path}: message {place}: left out: {fault}")
    return found
