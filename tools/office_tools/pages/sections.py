"""Pages of sections: each has sentences, a picture or a table. One template prints all of them."""
from dataclasses import dataclass, field, replace
from typing import Any, Callable, Iterable, Iterator, Mapping, Sequence

import jinja2

from office_tools.pages.parts import parts_of, RowText
from office_tools.pages.rows import Cell, Column, table_row
from office_tools.pages.told import Line, Piece


@dataclass(frozen=True)
class Table:
    """A table: its caption, the class by which the style knows it, its columns, and the cells of its rows."""

    caption: str
    look: str
    columns: Sequence[Column]
    rows: Sequence[Sequence[Cell]]


@dataclass(frozen=True)
class Section:
    """A section: its anchor and title, sentences, a picture as SVG, items of a list, and a table."""

    anchor: str
    title: str
    told: Sequence[Line] = ()
    picture: str = ""
    items: Sequence[Line] = ()
    table: Sequence[Table] = ()


@dataclass(frozen=True)
class SectionPage:
    """A page of sections. `name` is its path without `.html`; the rows of its last table may take several pages."""

    name: str
    title: str
    told: Sequence[Line]
    sections: Sequence[Section]
    feed: str = ""
    extra: Mapping[str, Any] = field(default_factory=dict)


@dataclass(frozen=True)
class Kept:
    """Files that are made only if what they show changed: the path of the first one, texts by which that is known, and
    what makes them."""

    path: str
    shown: Sequence[str]
    made: Callable[[], Iterable[tuple[str, bytes]]]


def line(*parts: object) -> Line:
    """A line of these parts: a piece as it is, and the text of anything else."""
    return Line(tuple(part if isinstance(part, Piece) else Piece(str(part)) for part in parts))


def cell(*parts: object) -> Cell:
    """A cell of one line."""
    return (line(*parts),)


def written(templates: jinja2.Environment, page: SectionPage) -> Iterator[tuple[str, bytes]]:
    """The files of a page. All rows but those of its last table are on its first one."""
    template = templates.get_template("sections.html")
    tables = [table for section in page.sections for table in section.table]
    last = tables[-1] if tables else None
    texts = [RowText("".join(piece.text for piece in cells[0][0].pieces), table_row(last.columns, cells))
             for cells in last.rows] if last else []
    folder, _, name = page.name.rpartition("/")
    for link, parts, shown in parts_of(name, texts):
        is_first = parts[0].is_here
        sections = page.sections if is_first else [
            replace(section, told=(), picture="", items=()) for section in page.sections[-1:]]
        yield f"{folder}/{link}" if folder else link, template.render(
            page=page, sections=sections, last=last, rows=shown, list=parts, up="../" if folder else "",
            is_first=is_first).encode()
