"""Layouts: the dataclasses, their weights, and the parser of the listing."""

import dataclasses
import pickle
from fractions import Fraction

import oascanon
import pytest
from oascanon import Cell, Circle, Layout, Path, Placement, Point, Polygon, Rectangle, Text
from oascanon._listing import layout_of

# A line of each kind, as docs/LISTING.md has them, its element, and its weight by docs/CANONICAL.md.
LINES = [
    ("placement SUB -3 4 3 1", Placement("SUB", -3, 4, 3, True), 4),
    ("placement SUB -3 4 0 0", Placement("SUB", -3, 4, 0, False), 4),
    ("text 2 0 5 -3 pin one", Text(2, 0, 5, -3, "pin one"), 8),
    ("text 2 0 5 -3 ", Text(2, 0, 5, -3, ""), 1),
    ("text 2 0 5 -3   two  blanks ", Text(2, 0, 5, -3, "  two  blanks "), 15),
    ("rectangle 1 0 10 20 -5 0", Rectangle(1, 0, 10, 20, -5, 0), 1),
    ("polygon 1 0 0,0 0,-20 10,7", Polygon(1, 0, (Point(0, 0), Point(0, -20), Point(10, 7))), 4),
    ("path 1 0 5 -5 7 0,0", Path(1, 0, 5, -5, 7, (Point(0, 0),)), 2),
    ("path 1 0 5 0 0 0,0 9,9", Path(1, 0, 5, 0, 0, (Point(0, 0), Point(9, 9))), 3),
    ("circle 18446744073709551615 0 1152921504606846976 1 2", Circle(2**64 - 1, 0, 2**60, 1, 2), 1),
]


@pytest.mark.parametrize("line, element, weight", LINES)
def test_each_kind(line, element, weight):
    layout = layout_of(f"unit 2000/3\ncell A\n{line}\n".encode())
    assert layout == Layout(Fraction(2000, 3), (Cell("A", (element,)),))
    assert (element.weight, layout.weight, layout.cells[0].weight) == (weight, weight + 2, weight + 2)


def test_cells():
    layout = layout_of(b"unit 1000/1\ncell A\ncell B\ncircle 1 0 5 0 0\ncircle 1 0 5 0 0\ncell C\n")
    circle = Circle(1, 0, 5, 0, 0)
    assert layout.cells == (Cell("A", ()), Cell("B", (circle, circle)), Cell("C", ()))
    assert [layout.cell(name) for name in "ABC"] == [*layout.cells]
    for name in ("", "0", "AB", "D"):
        with pytest.raises(KeyError):
            layout.cell(name)
    assert layout.weight == 8


def test_no_cells():
    layout = layout_of(b"unit 1/5\n")
    assert (layout, layout.weight) == (Layout(Fraction(1, 5), ()), 0)
    with pytest.raises(KeyError):
        layout.cell("A")


def test_values(top):
    layout, respelled, taller = (oascanon.read(top / f"examples/rectangle{it}.oas") for it in ("", "-respelled", "-taller"))
    assert layout == respelled != taller
    assert pickle.loads(pickle.dumps(layout)) == layout and hash(layout) is not None
    with pytest.raises(dataclasses.FrozenInstanceError):
        layout.cells[0].elements[0].width = 11
