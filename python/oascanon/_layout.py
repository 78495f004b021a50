"""A layout: its unit, its cells, and their elements. All lengths and coordinates are whole numbers of grid steps.

Two elements are equal where all their fields are. The weight of each is that of docs/CANONICAL.md: how much there is to hold.
"""

from __future__ import annotations

from dataclasses import dataclass
from fractions import Fraction
from typing import NamedTuple, Tuple, Union


class Point(NamedTuple):
    """A point, in grid steps. East is towards larger x, north towards larger y."""

    x: int
    y: int


@dataclass(frozen=True)
class Placement:
    """A cell, placed by its name at x, y. It is flipped about the x axis where `flip` is true, and then turned counterclockwise
    by `turns` quarter turns, 0 to 3. The layout needn't define that cell."""

    cell: str
    x: int
    y: int
    turns: int
    flip: bool

    @property
    def weight(self) -> int:
        """1, and 1 for each byte of the cell's name."""
        return 1 + len(self.cell)


@dataclass(frozen=True)
class Text:
    """A text at x, y, of printable ASCII. It may be empty."""

    textlayer: int
    texttype: int
    x: int
    y: int
    string: str

    @property
    def weight(self) -> int:
        """1, and 1 for each byte of the string."""
        return 1 + len(self.string)


@dataclass(frozen=True)
class Rectangle:
    """A rectangle, whose lower left corner is at x, y. A side may be 0. A polygon that is a rectangle is one of these."""

    layer: int
    datatype: int
    width: int
    height: int
    x: int
    y: int

    @property
    def weight(self) -> int:
        """1."""
        return 1


@dataclass(frozen=True)
class Polygon:
    """A polygon of three points or more; its last edge leads back to the first. The points are in the order of the least
    reading: of all ways to go round, the one that comes first when points are compared by x and then y."""

    layer: int
    datatype: int
    points: Tuple[Point, ...]

    @property
    def weight(self) -> int:
        """1, and 1 for each point."""
        return 1 + len(self.points)


@dataclass(frozen=True)
class Path:
    """A path along one point or more, `halfwidth` to each side. It begins `start` before its first point and ends `end` behind
    its last; both may be negative."""

    layer: int
    datatype: int
    halfwidth: int
    start: int
    end: int
    points: Tuple[Point, ...]

    @property
    def weight(self) -> int:
        """1, and 1 for each point."""
        return 1 + len(self.points)


@dataclass(frozen=True)
class Circle:
    """A circle, whose centre is at x, y."""

    layer: int
    datatype: int
    radius: int
    x: int
    y: int

    @property
    def weight(self) -> int:
        """1."""
        return 1


Element = Union[Placement, Text, Rectangle, Polygon, Path, Circle]
"""What a cell holds."""


@dataclass(frozen=True)
class Cell:
    """A cell: its name, of ASCII without blanks, and its elements in ascending order (docs/CANONICAL.md), each as often as it
    is there."""

    name: str
    elements: Tuple[Element, ...]

    @property
    def weight(self) -> int:
        """1, 1 for each byte of the name, and the weights of the elements."""
        return 1 + len(self.name) + sum(element.weight for element in self.elements)


@dataclass(frozen=True)
class Layout:
    """A layout: how many grid steps a micron has, and the cells by ascending names. Files that mean the same layout give equal
    layouts."""

    unit: Fraction
    cells: Tuple[Cell, ...]

    @property
    def weight(self) -> int:
        """The weights of the cells."""
        return sum(cell.weight for cell in self.cells)

    def cell(self, name: str) -> Cell:
        """The cell of this name. Raises KeyError where none has it."""
        low, high = 0, len(self.cells)
        while low < high:
            middle = (low + high) // 2
            low, high = (middle + 1, high) if self.cells[middle].name < name else (low, middle)
        if low < len(self.cells) and self.cells[low].name == name:
            return self.cells[low]
        raise KeyError(name)
