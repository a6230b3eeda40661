"""Pictures as SVG within a page: bars, lines by day, and columns. They need no script and no other file.

Colours and sizes of texts are the stylesheet's, by classes, so that they follow its schemes. Each picture has a name
for those who don't see it; the numbers are in a table or in text next to it.
"""
import math
from dataclasses import dataclass
from html import escape
from typing import Sequence

WIDTH, HEIGHT = 480, 200  # units of a plot; the page scales it
LEFT, TOP, BOTTOM = 44, 16, 26  # what stands around its area
MOST_POINTS = 120  # days of a plot by day
MOST_LABELS = 8  # labels below a plot


@dataclass(frozen=True)
class Curve:
    """A line of a plot: its name, the class by which the style knows it, and a value for each day."""

    name: str
    look: str
    values: Sequence[int]


def picture(name: str, size: tuple[int, int], parts: Sequence[str], look: str, more: str = "") -> str:
    """A picture of this name, of a width and a height, with further attributes."""
    return (f'<svg class="{look}" viewBox="0 0 {size[0]} {size[1]}" role="img" aria-label="{escape(name)}"{more}>'
            f'{"".join(parts)}</svg>')


def number(value: float) -> str:
    """A coordinate, as short as it can be."""
    return f"{value:.1f}".rstrip("0").rstrip(".")


def bar(name: str, parts: Sequence[tuple[str, int]]) -> str:
    """A bar of parts, each with the class by which the style knows it and its share."""
    whole = sum(share for _, share in parts) or 1
    place, found = 0.0, []
    for look, share in parts:
        width = 160 * share / whole
        if share:
            found.append(f'<rect class="{look}" x="{number(place)}" width="{number(width)}" height="12"/>')
        place += width
    return picture(name, (160, 12), found, "bar", ' preserveAspectRatio="none"')


def step_of(greatest: int) -> int:
    """The distance of lines across a plot: 1, 2 or 5 times a power of ten, so that there are at most five of them."""
    power = 1
    while True:
        for factor in 1, 2, 5:
            if greatest <= 5 * factor * power:
                return factor * power
        power *= 10


def across(greatest: int) -> tuple[int, list[str]]:
    """The value at the top of a plot, and the lines across it with their numbers."""
    step = step_of(max(greatest, 1))
    top = step * math.ceil(max(greatest, 1) / step)
    found = []
    for value in range(0, top + 1, step):
        place = number(height_of(value, top))
        found.append(f'<path class="grid" d="M{LEFT} {place}H{WIDTH}"/>'
                     f'<text x="{LEFT - 6}" y="{place}" dy=".35em" text-anchor="end">{value}</text>')
    return top, found


def height_of(value: float, top: int) -> float:
    """Where a value is, from above."""
    return TOP + (HEIGHT - TOP - BOTTOM) * (1 - value / top)


def labels_below(labels: Sequence[str], places: Sequence[float]) -> list[str]:
    """Some of the labels below a plot, so that none covers another."""
    every = math.ceil(len(labels) / MOST_LABELS)
    return [f'<text x="{number(place)}" y="{HEIGHT - 8}" text-anchor="middle">{escape(label)}</text>'
            for label, place in list(zip(labels, places))[::every]]


def lines(name: str, labels: Sequence[str], curves: Sequence[Curve]) -> str:
    """A plot of curves over the same days. It shows the last ones."""
    labels = labels[-MOST_POINTS:]
    shown = [Curve(curve.name, curve.look, curve.values[-MOST_POINTS:]) for curve in curves]
    top, parts = across(max((value for curve in shown for value in curve.values), default=0))
    wide = (WIDTH - LEFT - 24) / max(len(labels) - 1, 1)
    places = [LEFT + wide * place for place in range(len(labels))]
    for curve in shown:
        points = [f"{number(place)} {number(height_of(value, top))}" for place, value in zip(places, curve.values)]
        parts.append(f'<path class="curve {curve.look}" d="M{"L".join(points)}"/>')
        parts += [f'<circle class="{curve.look}" cx="{point.split(" ")[0]}" cy="{point.split(" ")[1]}" r="3"/>'
                  for point in points if len(points) <= MOST_POINTS // 3]
    return picture(name, (WIDTH, HEIGHT), parts + labels_below(labels, places), "plot")


def columns(name: str, labels: Sequence[str], values: Sequence[int]) -> str:
    """A plot of columns, each with its number above."""
    top, parts = across(max(values, default=0))
    wide = (WIDTH - LEFT) / max(len(values), 1)
    places = [LEFT + wide * (place + .5) for place in range(len(values))]
    for place, value in zip(places, values):
        height = height_of(value, top)
        parts.append(f'<rect class="column" x="{number(place - wide * .35)}" y="{number(height)}" '
                     f'width="{number(wide * .7)}" height="{number(HEIGHT - BOTTOM - height)}"/>')
        if value and len(values) <= 31:
            parts.append(f'<text x="{number(place)}" y="{number(height - 3)}" text-anchor="middle">{value}</text>')
    return picture(name, (WIDTH, HEIGHT), parts + labels_below(labels, places), "plot")
