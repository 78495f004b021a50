"""What records that the profile doesn't have mean among its records: docs/PREPARING.md as code."""

from meaning import FURTHEST, cell_of, copies, draw, position, take, value
from reading import XY_ABSOLUTE
from trapezoids import IMPLIED, KINDS, enclosing, is_box, sloped
from wide import GEOMETRY, NAMED_TRAPEZOID, TRAPEZOIDS

# What a record is counted as where it is left out, and by which word.
LEFT_OUT = {
    7: ("property name", "properties"),
    8: ("property name", "properties"),
    9: ("property name", "properties"),
    10: ("property name", "properties"),
    11: ("layer name", "layer-names"),
    12: ("layer name", "layer-names"),
    28: ("property", "properties"),
    29: ("property", "properties"),
    30: ("extension name", "extensions"),
    31: ("extension name", "extensions"),
    32: ("extension", "extensions"),
    33: ("extension", "extensions"),
}
UNNAMED = {"properties": 101, "layer-names": 102, "extensions": 103}


def is_far(x, y):
    return max(abs(x), abs(y)) > FURTHEST


def geometry(records, i):
    """The number of the reason for which an XGEOMETRY is refused, or None: it draws nothing."""
    if copies(records, i) is None or None in (value(records, i, "layer"), value(records, i, "datatype")):
        return 18
    return 23 if is_far(position(records, i, "x"), position(records, i, "y")) else None


def implied(records, i, kind):
    """Gives a CTRAPEZOID the side that its type implies. The number of the reason for which it is refused, or None."""
    record = records[i]
    if kind not in IMPLIED:
        return None
    side, other, times = IMPLIED[kind]
    if value(records, i, other) is None:
        return 18
    length = times * value(records, i, other)
    if length >= 2**64:
        return 23
    if record.get(side, length) != length:
        return 14
    record[side] = length
    return None


def corners_of(records, i):
    """The corners of a trapezoid, or the number of the reason for which it is refused."""
    record, kind = records[i], value(records, i, "type")
    if record["kind"] == NAMED_TRAPEZOID:
        why = 18 if kind is None else implied(records, i, kind)
        if why is not None:
            return why
    w, h = value(records, i, "width"), value(records, i, "height")
    if None in (w, h):
        return 18
    if record["kind"] == NAMED_TRAPEZOID:
        record["width"], record["height"] = w, h
        return enclosing(KINDS[kind](w, h)) or 109
    return enclosing(sloped(record["upright"], w, h, record["a"], record["b"])) or 109


def drawn_as(records, i, corners):
    """The record of the profile, with an absolute position, that draws these corners."""
    x, y = position(records, i, "x"), position(records, i, "y")
    shared = {name: records[i][name] for name in ("layer", "datatype", "repetition") if name in records[i]}
    w, h = value(records, i, "width"), value(records, i, "height")
    if is_box(corners, w, h):
        return shared | {"kind": 20, "width": w, "height": h, "x": x, "y": y}
    steps = [(next_x - at, next_y - up) for (at, up), (next_x, next_y) in zip(corners, corners[1:])]
    points = {"kind": 4, "steps": steps, "polygon": True}
    return shared | {"kind": 21, "polygon": points, "x": x + corners[0][0], "y": y + corners[0][1]}


def trapezoid(records, i, drawn):
    """What a trapezoid adds, or the number of the reason for which it is refused."""
    corners = corners_of(records, i)
    if isinstance(corners, int):
        return corners
    x, y = position(records, i, "x"), position(records, i, "y")
    if any(is_far(x + corner[0], y + corner[1]) for corner in corners):
        return 23
    stand_in = [*records[:i], {"kind": XY_ABSOLUTE}, drawn_as(records, i, corners)]
    return draw(stand_in, i + 1, drawn)


def take_wide(records, drawn, dropped, counts):
    """What the last record adds, or the number of the reason for which it is refused; what is left out is counted."""
    i, kind = len(records) - 1, records[-1]["kind"]
    if kind in LEFT_OUT:
        counted, word = LEFT_OUT[kind]
        if word not in dropped:
            return UNNAMED[word]
        if counted == "extension" and cell_of(records, i) is None:
            return 13
        counts[counted] += 1
        return geometry(records, i) if kind == GEOMETRY else None
    if kind in (*TRAPEZOIDS, NAMED_TRAPEZOID):
        return 13 if cell_of(records, i) is None else trapezoid(records, i, drawn)
    return take(records, drawn)
