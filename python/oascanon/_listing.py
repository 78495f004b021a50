"""A layout, from its listing (docs/LISTING.md)."""

from __future__ import annotations

from fractions import Fraction
from typing import Callable, Dict, Iterable, Iterator, List, Optional, Tuple

from ._files import File, contents_of
from ._layout import Cell, Circle, Element, Layout, Path, Placement, Point, Polygon, Rectangle, Text
from ._library import BYTES, LIMITS, ROOM, function, written
from ._limits import Limits

# How many bytes of a listing a byte of a file has, about.
TIMES, MORE = 4, 512

_list = function("list", *BYTES, *LIMITS, *ROOM)


def read(file: File, *, limits: Limits = Limits.STANDARD) -> Layout:
    """The layout that a file means: its unit, its cells by ascending names, and their elements in ascending order, as often as
    each is there. Repetitions are expanded, and all fields are given."""
    contents = contents_of(file, limits)
    return layout_of(written(_list, [contents], limits, TIMES * len(contents.data) + MORE)[1])


def layout_of(listing: bytes) -> Layout:
    """The layout of a whole listing."""
    unit, *lines = listing.decode("ascii").split("\n")
    # Behind the end of the last line stands nothing.
    lines.pop()
    return Layout(Fraction(unit.split(" ")[1]), tuple(cells_of(lines)))


def cells_of(lines: Iterable[str]) -> Iterator[Cell]:
    name: Optional[str] = None
    elements: List[Element] = []
    last, element = "", None
    for line in lines:
        kind, _, fields = line.partition(" ")
        if kind == "cell":
            if name is not None:
                yield Cell(name, tuple(elements))
            name, elements = fields, []
            continue
        # Equal elements follow each other, and are one object.
        if line != last or element is None:
            last, element = line, ELEMENTS[kind](fields)
        elements.append(element)
    if name is not None:
        yield Cell(name, tuple(elements))


def placement(fields: str) -> Placement:
    cell, x, y, turns, flip = fields.split(" ")
    return Placement(cell, int(x), int(y), int(turns), flip == "1")


def text(fields: str) -> Text:
    # The string is the rest of the line, blanks and all.
    textlayer, texttype, x, y, string = fields.split(" ", 4)
    return Text(int(textlayer), int(texttype), int(x), int(y), string)


def rectangle(fields: str) -> Rectangle:
    return Rectangle(*map(int, fields.split(" ")))


def polygon(fields: str) -> Polygon:
    layer, datatype, *points = fields.split(" ")
    return Polygon(int(layer), int(datatype), points_of(points))


def path(fields: str) -> Path:
    layer, datatype, halfwidth, start, end, *points = fields.split(" ")
    return Path(int(layer), int(datatype), int(halfwidth), int(start), int(end), points_of(points))


def circle(fields: str) -> Circle:
    return Circle(*map(int, fields.split(" ")))


def points_of(words: Iterable[str]) -> Tuple[Point, ...]:
    return tuple(Point(*map(int, word.split(","))) for word in words)


ELEMENTS: Dict[str, Callable[[str], Element]] = {
    "placement": placement,
    "text": text,
    "rectangle": rectangle,
    "polygon": polygon,
    "path": path,
    "circle": circle,
}
