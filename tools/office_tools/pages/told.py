"""What the office answers about a source (`GET /why/SOURCE`), cut into pieces, some of them links."""
import re
from dataclasses import dataclass
from typing import Callable, Collection, Mapping, NamedTuple, Optional, Sequence

from office_tools import reports
from office_tools.reports import Change


class Piece(NamedTuple):
    """A part of a line: its text, where it leads, if it does, a small picture before it as SVG, if it has one, and
    whether it is the word of a verdict."""

    text: str
    link: str = ""
    drawn: str = ""
    is_verdict: bool = False


class Line(NamedTuple):
    """A line: its anchor, its pieces, and whether it belongs to the line before."""

    pieces: Sequence[Piece]
    anchor: str = ""
    is_inner: bool = False


@dataclass(frozen=True)
class Links:
    """Where names lead: a source to its page, a package of testing to that of its source, a bug to its tracker.

    Each gives an empty text for a name that leads nowhere. `hints` are the texts of hints by number, and `hint` gives
    where a hint in force is shown.
    """

    source: Callable[[str], str]
    package: Callable[[str], str]
    bug: Callable[[str], str]
    hints: Mapping[int, str]
    hint: Callable[[int], str]


STEP = re.compile(r"(\d+) (\S+ \S+ of )(\S+)( (?:comes in|in testing), needs .*: )(nothing|[^:]*)")
NUMBERS = re.compile(r"(\d+)")
LEAVES = re.compile(r"(leaves )(\S+)( \S+)")
UNSTABLE = re.compile(r"(unstable \S+ \S+ of )(\S+)( .*)")
BUG = re.compile(r"(new bug )(\d+)( by \S+ \d+)")
HINT = re.compile(r"(?:old enough .*|blocked|removal asked) by \S+ (\d+)")


def lines_of(source: str, told: str, links: Links) -> Sequence[Line]:
    """The lines after a source's excuse: where it comes from, what names it, and what shows that it can't move.

    The line of the update on the source itself is left out: the page says that in a sentence.
    """
    found = []
    for text in behind_excuse(source, told):
        change = change_in(text)
        if change is None:
            found.append(line_of(text, links))
        elif all(item.source != source for item in change.items):
            found.append(line_of_change(change, links))
    return found


def behind_excuse(source: str, told: str) -> Sequence[str]:
    """The lines of an answer after its head and its excuse, if it has one."""
    lines = told.splitlines()[1:]
    if len(lines) < 2 or not lines[0].startswith(source + " ") or not lines[1].startswith(" age "):
        return lines
    return lines[next((place for place, line in enumerate(lines) if place and line[:1] != " "), len(lines)):]


def change_in(text: str) -> Optional[Change]:
    """The line as one of an update, if it is one."""
    for form, _, _ in reports.CHANGE_FORMS:
        if form.fullmatch(text):
            return reports.read_change(reports.Lines(text + "\n", "why"))
    return None


def line_of(text: str, links: Links) -> Line:
    """A line as it is printed, with links. A line of another form has none."""
    step = STEP.fullmatch(text)
    if step:
        pieces = [Piece(f"{step[1]} {step[2]}"), Piece(step[3], links.source(step[3])), Piece(step[4])]
        pieces += [Piece(part, f"#line-{part}" if part.isdigit() else "") for part in NUMBERS.split(step[5]) if part]
        return Line(tuple(pieces), f"line-{step[1]}")
    for form, link in (LEAVES, links.package), (UNSTABLE, links.source), (BUG, links.bug):
        found = form.fullmatch(text)
        if found:
            return Line((Piece(found[1]), Piece(found[2], link(found[2])), Piece(found[3])), is_inner=form is not BUG)
    hint = HINT.fullmatch(text)
    wish = links.hints.get(int(hint[1]), "") if hint else ""
    return Line((Piece(text + (f": {shortened(wish)}" if wish else "")),), is_inner=text == "unstable nothing")


def line_of_change(change: Change, links: Links) -> Line:
    """A line of the update that names other sources and has this one's name as a package."""
    pieces = linked(shortened(change.line), {item.source for item in change.items}, links.source)
    wish = links.hints.get(change.hint, "") if change.hint is not None else ""
    return Line((*pieces, Piece(f" (the hint: {shortened(wish)})")) if wish else tuple(pieces))


def linked(text: str, names: Collection[str], link: Callable[[str], str]) -> list[Piece]:
    """A text in which each word that is one of the names is a link, if it leads somewhere."""
    pieces: list[Piece] = []
    for word in re.split("( )", text):
        target = link(word) if word in names else ""
        if target or not pieces or pieces[-1].link:
            pieces.append(Piece(word, target))
        else:
            pieces[-1] = Piece(pieces[-1].text + word)
    return pieces


def shortened(text: str, longest: int = 300) -> str:
    """A text, cut at a word if it is long."""
    if len(text) <= longest:
        return text
    return text[:longest].rsplit(" ", 1)[0] + f" .. ({len(text.split(' '))} words)"
