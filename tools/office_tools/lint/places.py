"""Where in a refused message its fault is, and why, in words.

The verdict is the office's, and so is the place. Of a build with many binaries, a list of clauses or a hint of many
items each part is put into a message of its own, and the first one that the office refuses in the same way is the bad
one. The sentence on it is a rule of docs/RULES.md.
"""
import re
import unicodedata
from dataclasses import dataclass
from typing import Mapping, Optional, Sequence

from office_tools.bags import LONGEST
from office_tools.lint.office import Office
from office_tools.lint.state import Place
from office_tools.messages import (BINARY_FIELDS, KINDS_OF, MOST_BINARIES, WHITE, Field, Kind, Paragraph,
                                   ParagraphCause, ParagraphFault, Role, kind_of, paragraphs)
from office_tools.setups import Setup

SHOWN = 60  # characters of a value that are told
RELATIONS = ("Pre-Depends", "Depends", "Provides")
HINTS = ("block", "unblock", "easy", "age-days", "remove", "block-all source")
RULES = "RULES.md, part 6, says what the office takes"

NUMBER_WANTED = "a number from 1 to 999999999, without a sign or a leading zero, is due"
DAYS_WANTED = "a number of days from 0 to 9999 is due"
VERSION_WANTED = "a version ([EPOCH:]UPSTREAM[-REVISION]) is due"
NAME_WANTED = "the name of a package is due: two or more of a-z0-9+-., a letter or digit first"

WANTED: Mapping[str, str] = {
    "Source": NAME_WANTED, "Package": NAME_WANTED, "Version": VERSION_WANTED, "Found": VERSION_WANTED,
    "Fixed": VERSION_WANTED, "Bug": NUMBER_WANTED, "Cancels": NUMBER_WANTED, "Low": DAYS_WANTED,
    "Medium": DAYS_WANTED, "High": DAYS_WANTED, "Critical": DAYS_WANTED,
    "Urgency": "low, medium, high, emergency or critical is due",
    "Severity": "critical, grave, serious, important, normal, minor or wishlist is due",
    "Day": "a day of the calendar, written as 2025-03-20, is due",
    "Architecture": "an architecture of the setup, or all, is due"}


@dataclass(frozen=True)
class Part:
    """A part of a value: its text, and the line on which it begins."""

    text: str
    line: int


def place_of(office: Office, text: bytes, refusal: str) -> Place:
    """Where the fault of a refused message is. The refusal is the office's, as `refused BadValue Day`."""
    word, _, name = refusal.removeprefix("refused ").partition(" ")
    if word == "OtherText":
        return Place(1, "another text is kept under this number")
    if word == "TooLong":
        over = text.count(b"\n", 0, LONGEST)
        return Place(over + 1, f"it has {len(text)} bytes, and a message at most {LONGEST}")
    try:
        found = list(paragraphs(text))
    except ParagraphFault as fault:
        return Place(fault.line, bad_line(fault))
    return Faulty(office, text, found or [Paragraph(1, ())]).place(word, name) or Place(1, RULES)


def bad_line(fault: ParagraphFault) -> str:
    """Why a line isn't control data."""
    name = fault.text.partition(":")[0]
    if fault.reason is ParagraphCause.NOT_UTF8:
        return f"{shown(fault.text)} isn't UTF-8"
    if fault.reason is ParagraphCause.FIRST_LINE_CONTINUES:
        return f"{shown(fault.text)} continues no field"
    if fault.reason is ParagraphCause.NO_COLON:
        return f"{shown(fault.text)} has no colon"
    if fault.reason is ParagraphCause.REPEATED_FIELD:
        return f"the field {name} occurs twice"
    return f"{shown(name)} is no name of a field" + (": comments aren't taken" if name.startswith("#") else "")


class Faulty:
    """A message of good control data that the office refuses."""

    def __init__(self, office: Office, text: bytes, found: Sequence[Paragraph]) -> None:
        self.office = office
        self.lines = text.split(b"\n")
        self.first, *self.binaries = found
        self.kind = kind_of(self.first)

    def place(self, word: str, name: str) -> Optional[Place]:
        """The place of the fault that the office names so, if it is found."""
        if word == "MissingField":
            return self.missing(name)
        if word == "TooManyParagraphs":
            return self.too_many()
        if word in ("UnknownSender", "BadNumber", "UnknownKind", "WrongRole"):
            return self.of_head(word)
        name = name if word == "BadValue" else "Architecture"
        at = self.bad_paragraph(f"refused {word} {name}" if word == "BadValue" else f"refused {word}")
        field = at.field(name) if at else None
        if at is None or field is None:
            return None
        who = f"{at.value('Package')}: " if self.kind is Kind.BUILD else ""
        return self.in_parts(at, field, who) or Place(field.line, f"{who}{shown(field.value)}: {WANTED[name]}")

    def missing(self, name: str) -> Optional[Place]:
        """The paragraph that needs a field."""
        if self.kind is not Kind.BUILD or self.first.value("From") is None or self.first.value("Number") is None:
            return Place(self.first.line, f"there is no field {name}")
        if not self.binaries:
            return Place(self.first.line, "a build has a paragraph for each binary, after an empty line")
        for binary in self.binaries:
            lacks = [rule.name for rule in BINARY_FIELDS if rule.needed and binary.field(rule.name) is None]
            if lacks:
                return Place(binary.line, f"{binary.value('Package') or 'this paragraph'} has no field {lacks[0]}")
        return None

    def too_many(self) -> Optional[Place]:
        """The first paragraph that is too many."""
        most = MOST_BINARIES if self.kind is Kind.BUILD else 0
        if len(self.binaries) <= most:
            return None
        told = f"a build has at most {most} binaries" if most else f"the kind {self.first.value('Kind')} has one alone"
        return Place(self.binaries[most].line, f"a paragraph too many: {told}")

    def of_head(self, word: str) -> Optional[Place]:
        """The field of the first paragraph that is wrong."""
        name = {"UnknownSender": "From", "BadNumber": "Number"}.get(word, "Kind")
        field = self.first.field(name)
        return Place(field.line, f"{shown(field.value)}: {self.wanted(word)}") if field else None

    def wanted(self, word: str) -> str:
        """What is due in that field."""
        setup: Setup = self.office.setup
        if word == "UnknownSender":
            return f"a sender of the setup is due: {', '.join(setup.senders)}"
        if word == "BadNumber":
            return NUMBER_WANTED
        if word == "UnknownKind":
            return f"a kind is due: {', '.join(kind.value for kind in Kind)}"
        role = setup.senders.get(self.first.value("From") or "")
        kinds = ", ".join(kind.value for kind in KINDS_OF[role]) if role else "other kinds"
        return f"{self.first.value('From')} sends {kinds}"

    def bad_paragraph(self, refusal: str) -> Optional[Paragraph]:
        """The first paragraph that alone makes the office refuse the message so."""
        if self.kind is not Kind.BUILD:
            return self.first
        alone = [self.text_of(self.first) + b"\n" + self.text_of(binary) for binary in self.binaries]
        replies = self.office.judged(alone)
        return next((binary for binary, reply in zip(self.binaries, replies) if reply == refusal), None)

    def text_of(self, paragraph: Paragraph) -> bytes:
        """The lines of a paragraph."""
        end = paragraph.line
        while end < len(self.lines) and self.lines[end].strip(b" \t\r"):
            end += 1
        return b"".join(line + b"\n" for line in self.lines[paragraph.line - 1:end])

    def in_parts(self, at: Paragraph, field: Field, who: str) -> Optional[Place]:
        """The part of the value that is wrong, if the value is a list."""
        name = next((name for name in (*RELATIONS, "Hint", "Covers") if name.lower() == field.name.lower()), "")
        if name in RELATIONS:
            return self.bad_clause(at, field, name, who)
        if name == "Hint":
            return self.bad_hint(field)
        return self.bad_cover(field) if name == "Covers" else None

    def bad_clause(self, at: Paragraph, field: Field, name: str, who: str) -> Optional[Place]:
        """The first clause that the office refuses."""
        needed = [(rule.name, at.value(rule.name) or "") for rule in BINARY_FIELDS if rule.needed]
        clauses = [part for part in parts_of(field, ",") if part.text]
        texts = [self.text_of(self.first) + b"\n" + fields([*needed, (name, part.text)]) for part in clauses]
        place = self.first_refused(texts)
        if place is None:
            return None
        clause = clauses[place]
        return Place(clause.line, f"{who}clause {place + 1}, {shown(clause.text)}: {of_clause(clause.text, name)}")

    def bad_cover(self, field: Field) -> Optional[Place]:
        """The first item of an order that the office refuses."""
        items = [part for part in parts_of(field, ",") if part.text]
        place = self.first_refused([self.with_value("Covers", part.text) for part in items])
        if place is None:
            return Place(field.line, f"{shown(field.value)}: a sender occurs twice")
        runs = self.office.setup.sender_of(Role.RUNS)
        senders = ", ".join(sender for sender in self.office.setup.senders if sender != runs)
        told = f"a sender of {senders}, a space and a number are due"
        return Place(items[place].line, f"{shown(items[place].text)}: {told}")

    def bad_hint(self, field: Field) -> Optional[Place]:
        """The first word of a hint that the office refuses."""
        words = parts_of(field, " ")
        word = words[0].text if words else ""
        behind = {"age-days": 2, "block-all": 0}.get(word, 1)
        if word not in HINTS and word != "block-all":
            return Place(field.value_line, f"{shown(word)} is no hint: {', '.join(HINTS)}")
        if word == "block-all":
            return Place(field.value_line, f"{shown(field.value)}: `block-all source` has these two words alone")
        if word == "block" and "/" in field.value:
            return Place(field.value_line, f"{shown(field.value)}: `block` takes names without versions")
        if len(words) <= behind:
            return Place(field.value_line, f"{shown(field.value)}: it names no source")
        if word == "age-days" and self.first_refused([self.with_value("Hint", f"age-days {words[1].text} aa/1")]) == 0:
            return Place(words[1].line, f"{shown(words[1].text)}: {DAYS_WANTED}")
        front = " ".join(part.text for part in words[:behind])
        place = self.first_refused([self.with_value("Hint", f"{front} {part.text}") for part in words[behind:]])
        if place is None:
            return Place(field.value_line, f"{shown(field.value)}: a source occurs twice")
        bad = words[behind + place]
        return Place(bad.line, f"{shown(bad.text)}: {'NAME' if word == 'block' else 'NAME/VERSION'} is due")

    def with_value(self, name: str, value: str) -> bytes:
        """The first paragraph with another value of a field."""
        return fields([(field.name, value if field.name.lower() == name.lower() else field.value)
                       for field in self.first.fields])

    def first_refused(self, texts: Sequence[bytes]) -> Optional[int]:
        """The place of the first of these texts that the office refuses for a value."""
        replies = self.office.judged(texts)
        return next((place for place, reply in enumerate(replies) if reply.startswith("refused BadValue ")), None)


def parts_of(field: Field, between: str) -> Sequence[Part]:
    """The parts of a value between these characters, without white at their ends; a space means all white."""
    found: list[Part] = []
    for part in re.finditer(f"[^{WHITE if between == ' ' else between}]+", field.value):
        text = part[0].strip(WHITE)
        found.append(Part(in_one_line(text), field.line_at(part.start() + part[0].find(text))))
    return found


def in_one_line(text: str) -> str:
    """A text with a space for each run of white. White is what the office takes for it: of ASCII, and no other."""
    return re.sub(f"[{WHITE}]+", " ", text.strip(WHITE))


def fields(values: Sequence[tuple[str, str]]) -> bytes:
    """A paragraph of these fields, each in one line."""
    return "".join(f"{name}: {in_one_line(value)}\n" for name, value in values).encode()


def of_clause(clause: str, name: str) -> str:
    """Why a clause isn't taken."""
    if "[" in clause:
        return "architecture lists aren't taken"
    if re.search(r"<\s*!?[a-z]", clause):
        return "build profiles aren't taken"
    if "${" in clause:
        return "a variable of dpkg isn't replaced"
    if name == "Provides":
        return "NAME or NAME (= VERSION) is due, without alternatives"
    return "NAME or NAME (RELATION VERSION) is due, or several with | between them"


def shown(text: str) -> str:
    """A text as it is printed: in quotes, not too long, and with the name of its first character beyond ASCII."""
    odd = next((character for character in text if not character.isascii()), "")
    told = f" with {unicodedata.name(odd, 'a character')} (U+{ord(odd):04X})" if odd else ""
    return repr(text if len(text) <= SHOWN else text[:SHOWN] + "..") + told
