"""What a layout holds, the keys of its cells, and what differs between two layouts."""

from __future__ import annotations

import json
from typing import Dict, List, TypedDict

from ._files import File, contents_of
from ._library import BYTES, LIMITS, NO, ROOM, function, written
from ._limits import Limits

# Room for most answers, in bytes.
SIZE = 1 << 16

_diff = function("diff", *BYTES, *BYTES, *LIMITS, *ROOM)
_info = function("info", *BYTES, *LIMITS, *ROOM)
_keys = function("keys", *BYTES, *LIMITS, *ROOM)


class Kinds(TypedDict):
    """How many elements there are of each kind."""

    circles: int
    paths: int
    placements: int
    polygons: int
    rectangles: int
    texts: int


class Layer(TypedDict):
    """How many rectangles, polygons, paths and circles a layer and datatype has."""

    layer: int
    datatype: int
    elements: int


class Textlayer(TypedDict):
    """How many texts a textlayer and texttype has."""

    textlayer: int
    texttype: int
    elements: int


class Unit(TypedDict):
    """num/den grid steps in a micron, in lowest terms."""

    num: int
    den: int


class Info(TypedDict):
    """The facts of a layout: the members of the JSON object of docs/INFO.md."""

    cells: int
    elements: int
    kinds: Kinds
    layers: List[Layer]
    size: int
    textlayers: List[Textlayer]
    undefined: List[str]
    unit: Unit
    unplaced: List[str]
    weight: int


def diff(first: File, second: File, *, limits: Limits = Limits.STANDARD) -> List[str]:
    """What differs between two layouts: the lines that `oascanon diff` prints (docs/LISTING.md), without the ends of the lines;
    none where both are the same. `-` is for what the first has more often, `+` for what the second has, and `@ cell NAME`
    stands above the elements of a cell that both have."""
    outcome, text = written(_diff, [contents_of(first, limits), contents_of(second, limits)], limits, SIZE)
    return lines_of(text) if outcome.status == NO else []


def info(file: File, *, limits: Limits = Limits.STANDARD) -> Info:
    """The facts of a layout: its unit, how many cells and elements there are, of which kinds and on which layers, which cells
    are placed and not defined, which nothing places, the weight, and the size of the canonical file in bytes."""
    facts: Info = json.loads(written(_info, [contents_of(file, limits)], limits, SIZE)[1])
    return facts


def keys(file: File, *, limits: Limits = Limits.STANDARD) -> Dict[str, str]:
    """The key of each cell, by ascending names: the SHA-256, in 64 hex digits, of the canonical file that has the layout's unit
    and that cell alone. It doesn't depend on what other cells hold."""
    lines = lines_of(written(_keys, [contents_of(file, limits)], limits, SIZE)[1])
    return {name: key for key, _, name in (line.partition("  ") for line in lines)}


def lines_of(text: bytes) -> List[str]:
    """The lines of a text in which each has its end."""
    return text.decode("ascii").split("\n")[:-1]
