"""Changed rules that follow from the form of the reference: each line of its tables taken from the next or left out, and each
comparison with or without its border.
"""

import pathlib
import re
from collections import namedtuple

HERE = pathlib.Path(__file__).resolve().parent
# A piece of a module's text, its replacement, and what that says.
Piece = namedtuple("Piece", "module start end new says")

COMPARED = {" < ": " <= ", " <= ": " < ", " > ": " >= ", " >= ": " > "}
# A line of a table: its key and its value.
LINE = re.compile(r"^    (\d+): (.*),\n", re.MULTILINE)
# By module, its tables, and whether a line of them may be left out.
TABLES = {"trapezoids": {"KINDS": False, "IMPLIED": True}, "foreign": {"LEFT_OUT": True}}
# The modules whose comparisons are changed.
MODULES = ("reading", "meaning", "layout", "canonical", "wide", "trapezoids", "foreign", "preparing")
# Comparisons whose border never occurs, or makes no difference, by the text that they are in.
ALIKE = (
    "gdelta() if kind > 9", "sign < 0", "number < 0", '["magnification"][0] < 0', 'i >= 0 and records[i]["kind"] not in',
    "if made[0] < 2:\n        return 1 + ", "if kind > 7:\n            getattr", "kind < 13", "w > h and", "h > w and",
)


def text_of(module):
    return (HERE / f"{module}.py").read_text()


def entries(module, table):
    """The lines of a table with one entry a line."""
    text = text_of(module)
    start = text.index(f"\n{table} = {{\n")
    return list(LINE.finditer(text, start, text.index("\n}\n", start) + 1))


def of_table(module, table, may_be_left_out):
    found = entries(module, table)
    for line, other in zip(found, found[1:] + found[:1]):
        if line[2] != other[2]:
            yield Piece(module, line.start(2), line.end(2), other[2], f"{table}: {line[1]} is as {other[1]}")
        if may_be_left_out:
            yield Piece(module, line.start(), line.end(), "", f"{table}: {line[1]} isn't there")


def is_alike(text, at):
    """Whether a comparison at that place is one whose change gives the same rule."""
    return any(text[at - len(alike):at + len(alike)].count(alike) for alike in ALIKE)


def of_comparisons(module):
    text = text_of(module)
    for count, each in enumerate(re.finditer(r" [<>]=? ", text), 1):
        number = text.count("\n", 0, each.start())
        shown = text.splitlines()[number].strip()
        if not is_alike(text, each.start()):
            yield Piece(module, each.start(), each.end(), COMPARED[each[0]], f"{module}, comparison {count}: border of {shown}")


def whole_lines(text, start, end):
    """The shortest run of whole lines around a piece of a text that occurs in it once."""
    start, end = text.rfind("\n", 0, start) + 1, text.index("\n", max(start, end - 1))
    while text.count(text[start:end]) > 1:
        start = text.rfind("\n", 0, start - 1) + 1
    return start, end


def edit_of(piece):
    """The old and the new text of the lines that contain a piece."""
    text = text_of(piece.module)
    start, end = whole_lines(text, piece.start, piece.end)
    return text[start:end], text[start:piece.start] + piece.new + text[piece.end:max(end, piece.end)]


def all_pieces():
    for module, tables in TABLES.items():
        for table, may_be_left_out in tables.items():
            yield from of_table(module, table, may_be_left_out)
    for module in MODULES:
        yield from of_comparisons(module)
