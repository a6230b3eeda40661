"""Lists that are too long for one page, cut into parts."""
import bisect
import itertools
from dataclasses import dataclass
from typing import Iterator, NamedTuple, Sequence

MOST_ROWS = 5000  # rows of one page
LARGEST = 330_000  # characters of the rows of one page: with what stands before them it has half a megabyte at most


@dataclass(frozen=True)
class Part:
    """A part of a list in the view of one of them: its page, what it is called, and whether it is that one."""

    link: str
    title: str
    is_here: bool


class RowText(NamedTuple):
    """A row of a list: the name by which the list is ordered, and its HTML."""

    name: str
    text: str


def cut(rows: Sequence[RowText]) -> Iterator[Sequence[RowText]]:
    """The rows by pages, with one page at least."""
    # How large the rows up to each one are. So each page is found at once and not row by row.
    sizes = list(itertools.accumulate([len(text) for _, text in rows], initial=0))
    first = 0
    while len(rows) - first > 1:
        end = bisect.bisect_right(sizes, sizes[first] + LARGEST, first + 1) - 1
        end = min(max(end, first + 1), first + MOST_ROWS)
        yield rows[first:end]
        first = end
    if first < len(rows) or not rows:
        yield rows[first:]


def parts_of(name: str, rows: Sequence[RowText]) -> Iterator[tuple[str, Sequence[Part], Sequence[str]]]:
    """The parts of a list: the page of each, all parts as that page shows them, and the HTML of its rows."""
    pages = list(cut(rows))
    titles = [f"{some[0].name} to {some[-1].name}" if some else "" for some in pages]
    links = [f"{name}.html", *(f"{name}-{number}.html" for number in range(2, len(pages) + 1))]
    for place, some in enumerate(pages):
        shown = [Part(link, title, other == place) for other, (link, title) in enumerate(zip(links, titles))]
        yield links[place], shown, [row.text for row in some]
