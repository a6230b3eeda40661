"""Messages as the office has them: their paragraphs, kinds and fields, and texts of each kind.

The reader of paragraphs here is our own, although Debian has such readers. A tool that reports where a message is wrong
needs the line of each field and value, and the office's own grammar of lines (docs/RULES.md). Neither python3-apt nor
python3-debian gives lines. Only the office says whether a message is good: ask it.
"""
import enum
import re
from dataclasses import dataclass
from typing import Callable, Iterable, Iterator, Mapping, NamedTuple, Optional, Sequence

from office_tools.faults import Fault

BLANKS = " \t\r"
WHITE = " \t\r\n"
FIELD_NAME = re.compile(r"(?![#-])[!-9;-~]+")
NUMBER = re.compile(r"[1-9][0-9]{0,8}")
MAINTAINER = "Maintainer"
MOST_BINARIES = 63  # paragraphs of binaries in a build


class Role(enum.Enum):
    """What a sender of a setup is for, by the setup's words."""

    UPLOAD = "upload"
    BUILD = "build"
    BUGS = "bugs"
    RELEASE = "release"
    RUNS = "runs"


class Kind(enum.Enum):
    """What a message is, by the words of its field `Kind`."""

    UPLOAD = "upload"
    DROP = "drop"
    BUILD = "build"
    BUG = "bug"
    HINT = "hint"
    UNHINT = "unhint"
    DELAYS = "delays"
    RUN = "run"
    NONE = "none"


class Urgency(enum.Enum):
    """How urgent an upload is (Debian Policy 5.6.17)."""

    LOW = "low"
    MEDIUM = "medium"
    HIGH = "high"
    EMERGENCY = "emergency"
    CRITICAL = "critical"


def rank(urgency: Urgency) -> int:
    """The place of an urgency among all of them, from the least one on."""
    return list(Urgency).index(urgency)


class Severity(enum.Enum):
    """How severe a bug is. The first three are release-critical."""

    CRITICAL = "critical"
    GRAVE = "grave"
    SERIOUS = "serious"
    IMPORTANT = "important"
    NORMAL = "normal"
    MINOR = "minor"
    WISHLIST = "wishlist"


@dataclass(frozen=True)
class FieldRule:
    """A field that the office reads, as it is spelt in the tables, and whether it has to be there."""

    name: str
    needed: bool = True


KINDS_OF: Mapping[Role, Sequence[Kind]] = {
    Role.UPLOAD: (Kind.UPLOAD, Kind.DROP, Kind.NONE),
    Role.BUILD: (Kind.BUILD, Kind.NONE),
    Role.BUGS: (Kind.BUG, Kind.NONE),
    Role.RELEASE: (Kind.HINT, Kind.UNHINT, Kind.DELAYS, Kind.NONE),
    Role.RUNS: (Kind.RUN,),
}
"""The kinds that a sender of each role may send."""

HEAD_FIELDS: Sequence[FieldRule] = tuple(map(FieldRule, ("From", "Number", "Kind")))
"""The fields of each message's first paragraph, before those of its kind."""

BINARY_FIELDS: Sequence[FieldRule] = (
    FieldRule("Package"), FieldRule("Version"), FieldRule("Architecture"), FieldRule("Source", False),
    FieldRule("Pre-Depends", False), FieldRule("Depends", False), FieldRule("Provides", False))
"""The fields of each later paragraph of a build."""

FIELDS_OF: Mapping[Kind, Sequence[FieldRule]] = {
    Kind.UPLOAD: (FieldRule("Source"), FieldRule("Version"), FieldRule("Urgency"), FieldRule("Day")),
    Kind.DROP: (FieldRule("Package"), FieldRule("Architecture"), FieldRule("Version")),
    Kind.BUILD: (),
    Kind.BUG: (FieldRule("Bug"), FieldRule("Source"), FieldRule("Severity"), FieldRule("Found", False),
               FieldRule("Fixed", False)),
    Kind.HINT: (FieldRule("Hint"),),
    Kind.UNHINT: (FieldRule("Cancels"),),
    Kind.DELAYS: (FieldRule("Low"), FieldRule("Medium"), FieldRule("High"), FieldRule("Critical")),
    Kind.RUN: (FieldRule("Day"), FieldRule("Covers")),
    Kind.NONE: (),
}
"""The further fields of each kind's first paragraph, in the order in which the office looks at them."""


# Reading.


@dataclass(frozen=True)
class Field:
    """A field of a paragraph: its name as it is written, its line, its value, and the line on which the value begins.

    Lines count from 1. The value is without white at its ends; a line end within it stays.
    """

    name: str
    line: int
    value: str
    value_line: int

    def line_at(self, place: int) -> int:
        """The line of the value's character at this place, counted from 0."""
        return self.value_line + self.value.count("\n", 0, place)


@dataclass(frozen=True)
class Paragraph:
    """A paragraph of a text: its first line, and its fields in order."""

    line: int
    fields: Sequence[Field]

    def field(self, name: str) -> Optional[Field]:
        """The field of a name, without regard to the case of letters."""
        asked = name.lower()
        return next((field for field in self.fields if field.name.lower() == asked), None)

    def value(self, name: str) -> Optional[str]:
        """The value of a field, or None if the paragraph hasn't the field."""
        found = self.field(name)
        return None if found is None else found.value


class ParagraphCause(enum.Enum):
    """Why a text isn't control data, by the names that docs/RULES.md has."""

    NOT_UTF8 = "NotUtf8"
    FIRST_LINE_CONTINUES = "FirstLineContinues"
    NO_COLON = "NoColon"
    BAD_NAME = "BadName"
    REPEATED_FIELD = "RepeatedField"


class ParagraphFault(Fault):
    """A text that isn't control data: the cause, the line, counted from 1, and its text."""

    def __init__(self, reason: ParagraphCause, line: int, text: str) -> None:
        super().__init__(f"line {line}: {reason.value}: {text[:60]!r}")
        self.reason = reason
        self.line = line
        self.text = text


def text_of(data: bytes) -> str:
    """A text's characters; a text that isn't UTF-8 is a `ParagraphFault` at the line of its first bad byte."""
    try:
        return data.decode()
    except UnicodeDecodeError as fault:
        line = data.count(b"\n", 0, fault.start)
        bad = data.split(b"\n")[line].decode(errors="backslashreplace")
        raise ParagraphFault(ParagraphCause.NOT_UTF8, line + 1, bad) from fault


def paragraphs(data: bytes) -> Iterator[Paragraph]:
    """The paragraphs of a text, one after the other; those before a `ParagraphFault` are handed out first."""
    lines: list[tuple[int, str]] = []
    whole = text_of(data).split("\n")
    for number, line in enumerate(whole, 1):
        if line.strip(BLANKS):
            lines.append((number, line))
        elif lines:
            yield paragraph_of(lines)
            lines = []
    if lines:
        yield paragraph_of(lines)


def paragraph_of(lines: Sequence[tuple[int, str]]) -> Paragraph:
    """The paragraph that these lines are, each with its number."""
    fields: list[Field] = []
    begun: list[str] = []
    seen: set[str] = set()
    first = 0
    name = ""
    for number, line in lines:
        if line[0] in " \t":
            if not begun:
                raise ParagraphFault(ParagraphCause.FIRST_LINE_CONTINUES, number, line)
            begun.append(line)
            continue
        if begun:
            fields.append(field_of(name, first, begun))
        name, value = name_and_value(number, line, seen)
        first, begun = number, [value]
    fields.append(field_of(name, first, begun))
    return Paragraph(lines[0][0], tuple(fields))


def name_and_value(number: int, line: str, seen: set[str]) -> tuple[str, str]:
    """The name and the value of a field's first line. The names that the paragraph has are in `seen`."""
    name, colon, value = line.partition(":")
    if not colon:
        raise ParagraphFault(ParagraphCause.NO_COLON, number, line)
    if not FIELD_NAME.fullmatch(name):
        raise ParagraphFault(ParagraphCause.BAD_NAME, number, line)
    if name.lower() in seen:
        raise ParagraphFault(ParagraphCause.REPEATED_FIELD, number, line)
    seen.add(name.lower())
    return name, value


def field_of(name: str, line: int, parts: Sequence[str]) -> Field:
    """A field of this name whose value has these lines, the first after the name."""
    if len(parts) == 1:
        return Field(name, line, parts[0].strip(WHITE), line)
    raw = "\n".join(parts)
    value = raw.strip(WHITE)
    return Field(name, line, value, line + raw.count("\n", 0, raw.find(value)) if value else line)


class Label(NamedTuple):
    """Who sends a message, and under which number of its own."""

    sender: str
    number: int


def label_of(text: bytes) -> Optional[Label]:
    """The sender and the number that a message's first paragraph states, or None if it doesn't state both."""
    try:
        first = next(paragraphs(text), None)
    except ParagraphFault:
        return None
    return label_of_first(first) if first else None


def label_of_first(first: Paragraph) -> Optional[Label]:
    """The same of a first paragraph that is read."""
    sender, number = first.value("From"), first.value("Number")
    if not sender or not number or not NUMBER.fullmatch(number):
        return None
    return Label(sender, int(number))


def kind_of(first: Paragraph) -> Optional[Kind]:
    """The kind that a message's first paragraph states, or None if it states none of the kinds."""
    word = first.value("Kind")
    return next((kind for kind in Kind if kind.value == word), None)


# Writing. Each of these makes the text of a message. A value isn't looked at, but that it can't end its line.

Made = Callable[[Label], bytes]
"""A message that has no number yet."""


def numbered(sender: str, last: int, made: Iterable[Made]) -> list[bytes]:
    """Messages of a sender, after its last number."""
    return [make(Label(sender, number)) for number, make in enumerate(made, last + 1)]


def composed(fields: Sequence[tuple[str, str]]) -> bytes:
    """A paragraph of these fields."""
    for name, value in fields:
        if "\n" in value:
            raise Fault(f"the value of {name} has a line end: {value[:60]!r}")
    return "".join(f"{name}: {value}\n" for name, value in fields).encode()


def message(label: Label, kind: Kind, values: Sequence[Optional[str]] = ()) -> bytes:
    """A message of a kind with the values of its further fields in order; None leaves a field out."""
    head = [("From", label.sender), ("Number", str(label.number)), ("Kind", kind.value)]
    rules = FIELDS_OF[kind]
    return composed(head + [(rule.name, value) for rule, value in zip(rules, values) if value is not None])


def upload(label: Label, source: str, version: str, urgency: Urgency, day: str,
           maintainer: Optional[str] = None) -> bytes:
    """A version of a source came to unstable on a day. The office doesn't read who maintains it; pages and mails do."""
    text = message(label, Kind.UPLOAD, (source, version, urgency.value, day))
    return text if maintainer is None else text + composed([(MAINTAINER, maintainer)])


def drop(label: Label, package: str, architecture: str, version: str) -> bytes:
    """A binary package of an architecture went out of unstable, up to a version."""
    return message(label, Kind.DROP, (package, architecture, version))


def binary(fields: Mapping[str, str]) -> bytes:
    """The paragraph of a binary package; fields that the office doesn't read are left out."""
    return composed([(rule.name, fields[rule.name]) for rule in BINARY_FIELDS if rule.name in fields])


def build(label: Label, binaries: Sequence[bytes]) -> bytes:
    """What was built: the paragraphs that `binary` makes, at least one and at most `MOST_BINARIES`."""
    return b"\n".join([message(label, Kind.BUILD), *binaries])


@dataclass(frozen=True)
class Range:
    """The versions of a source that a bug affects: from `found` on, and below `fixed`, if these are known."""

    found: Optional[str] = None
    fixed: Optional[str] = None


def bug(label: Label, number: int, source: str, severity: Severity, affected: Range = Range()) -> bytes:
    """The state of a bug."""
    return message(label, Kind.BUG, (str(number), source, severity.value, affected.found, affected.fixed))


def hint(label: Label, wish: str, more: Sequence[tuple[str, str]] = ()) -> bytes:
    """A wish of the release team, with further fields, which the office doesn't read."""
    return message(label, Kind.HINT, (wish,)) + composed(more)


def unhint(label: Label, cancels: int, more: Sequence[tuple[str, str]] = ()) -> bytes:
    """The hint of this number isn't in force any more."""
    return message(label, Kind.UNHINT, (str(cancels),)) + composed(more)


def run(label: Label, day: str, covers: Mapping[str, int]) -> bytes:
    """An order to run over the mail of each sender up to a number; a sender with 0 isn't named."""
    told = ", ".join(f"{sender} {number}" for sender, number in covers.items() if number)
    return message(label, Kind.RUN, (day, told))


def none(label: Label) -> bytes:
    """A message that says nothing and takes its number."""
    return message(label, Kind.NONE)
