"""The rows of long tables as HTML.

A Debian release has some 34,000 of them, and as many again for each list that they are in. So functions write them: a
template takes ten times as long. Each text is escaped as the templates do it.
"""
import functools
import re
from dataclasses import dataclass
from typing import Callable, Iterable, Mapping, Sequence

from markupsafe import escape, Markup

from office_tools.pages.names import Name
from office_tools.pages.told import Line, Piece
from office_tools.pages.views import Row
from office_tools.reports import Run

MOST_KEPT = 1 << 16  # texts that are kept escaped

DAY = re.compile(r"(?<= )\d{4}-\d{2}-\d{2}(?=$|[ ,.;:)])")

Cell = Sequence[Line]


@dataclass(frozen=True)
class Column:
    """A column of a table: its title, and whether it has numbers."""

    title: str
    is_number: bool = False


@dataclass(frozen=True)
class Moved:
    """A source that moved or waits in a run: its version before and behind."""

    name: str
    before: str
    version: str
    word: str
    told: str


def shown(made: Callable[..., str]) -> Callable[..., Markup]:
    """A function of this module as the templates call it: what it makes is HTML, and isn't escaped again."""
    return lambda *values: Markup(made(*values))


@functools.lru_cache(MOST_KEPT)
def escaped(text: str) -> str:
    """A text as HTML. The same names and reasons are in many rows."""
    return str(escape(text))


@functools.lru_cache(MOST_KEPT)
def told_text(text: str) -> str:
    """A sentence as HTML, with its days marked, which the style keeps on one line."""
    return DAY.sub(r"<time>\g<0></time>", escaped(text))


def link(address: str, text: str) -> str:
    """A link."""
    return f'<a href="{escaped(address)}">{escaped(text)}</a>'


def piece_text(piece: Piece) -> str:
    """A piece: its picture, if it has one, and its text, which may be a link or the word of a verdict."""
    if piece.is_verdict:
        return verdict(piece.text)
    told = link(piece.link, piece.text) if piece.link else told_text(piece.text)
    return f"{piece.drawn} {told}" if piece.drawn else told


def line_text(line: Line) -> str:
    """A line."""
    return "".join(map(piece_text, line.pieces))


def cell(inner: str, label: str = "", more: str = "") -> str:
    """A cell. `label` is the title of its column, which a narrow screen shows before it."""
    labelled = f' data-label="{label}"' if label else ""
    return f'<td role="cell"{more}{labelled}>{inner}</td>'


def row(cells: Iterable[str], more: str = "") -> str:
    """A row of these cells."""
    return f'<tr role="row"{more}>{"".join(cells)}</tr>\n'


def lines_text(lines: Sequence[Line]) -> str:
    """Lines as a list, or one line alone."""
    if len(lines) == 1:
        return line_text(lines[0])
    return listed(map(line_text, lines)) if lines else ""


def listed(items: Iterable[str]) -> str:
    """A list of items."""
    return f"<ul>{''.join(f'<li>{item}</li>' for item in items)}</ul>"


def table_row(columns: Sequence[Column], cells: Sequence[Cell]) -> str:
    """A row of a table of sections; its first cell needs no label."""
    return row(cell(lines_text(lines), escaped(column.title) if place else "", ' class="n"' if column.is_number else "")
               for place, (column, lines) in enumerate(zip(columns, cells)))


def verdict(word: str) -> str:
    """A verdict: a word, which has the same colour on each page."""
    return f'<strong class="is is-{word}">{word}</strong>'


def excuse_row(one: Row) -> str:
    """A source in a list of those that don't move."""
    age = (f'{one.age} of {one.needed} days<br>enough {"since" if one.age >= one.needed else "on"} '
           f"<time>{one.day}</time>")
    return row((cell(source_link("", one.name)), cell(escaped(one.testing or "-"), "Testing"),
                cell(escaped(one.unstable), "Unstable"), cell(age, "Age", f' data-by="{one.age}"'),
                cell(verdict(one.verdict), "Verdict"), cell(listed(map(line_text, one.told)), "Why")),
               f' data-is="{" ".join(one.words)}"')


def moved_row(one: Moved) -> str:
    """A source that a run moved, or that waits."""
    outcome = f'{verdict("moved" if one.word == "accept" else "waits")} {escaped(one.told)}'
    return row((cell(source_link("../", one.name)), cell(escaped(one.before or "-"), "Before"),
                cell(escaped(one.version), "Version"), cell(outcome, "Outcome")), f' data-is="{one.word}"')


def run_row(run: Run, up: str = "") -> str:
    """A run in the list of all."""
    counts = {"Excuses": run.excuses, "Candidates": run.candidates, "Moved alone": run.accepted, "Groups": run.groups,
              "Removed": run.removed, "Wait": run.waiting}
    return row((cell(f'<a href="{up}run/{run.number}.html">Run {run.number}</a>'),
                cell(f"<time>{run.date}</time>", "Day"),
                *(cell(str(count), title, ' class="n"') for title, count in counts.items())))


def testing_rows(sources: Mapping[str, str], binaries: Mapping[str, Sequence[str]]) -> Sequence[str]:
    """The sources in testing, each with its version and its packages. No text has a line end or a tab, and all are
    escaped at once."""
    told = "\n".join([f"{name}\t{version}\t{', '.join(binaries.get(name, ())) or '-'}"
                      for name, version in sources.items()])
    begin, packages_cell = '<tr role="row"><td role="cell">', '<td role="cell" data-label="Packages">'
    return [f'{begin}<a href="source/{name}.html">{name}</a></td><td role="cell" data-label="Version">{version}</td>'
            f"{packages_cell}{packages}</td></tr>\n"
            for name, version, packages in (line.split("\t") for line in str(escape(told)).split("\n") if line)]


def joined(texts: Iterable[str]) -> str:
    """Rows, one after the other."""
    return "".join(texts)


def name_items(names: Sequence[Name]) -> Sequence[str]:
    """Names in the list of all names. None has a blank, and all are escaped at once."""
    pairs = (line.split(" ") for line in str(escape("\n".join(map(" ".join, names)))).split("\n") if line)
    return [f'<li><a href="source/{source}.html">{name}</a>{"" if name == source else f" of {source}"}</li>\n'
            for name, source in pairs]


def source_link(up: str, name: str) -> str:
    """A link to the page of a source."""
    return f'<a href="{up}source/{escaped(name)}.html">{escaped(name)}</a>'
