"""From records to elements: docs/PROFILE.md as code. Nothing is kept from one record to the next: each value is found by going
back over the records.
"""

from collections import Counter

from reading import ELEMENTS, XY_ABSOLUTE, XY_RELATIVE

FURTHEST = 2**60

CELLS = (13, 14)
# The profile's name records, and all after which no cell is open.
NUMBERED = (3, 4, 5, 6)
NAMES = (*NUMBERED, 7, 8, 9, 10, 11, 12, 30, 31)
CLASSES = {17: "placement", 18: "placement", 19: "text"}
NEEDS = {
    17: ("cell",), 18: ("cell",), 19: ("string", "textlayer", "texttype"), 20: ("layer", "datatype", "width", "height"),
    21: ("layer", "datatype", "polygon"), 22: ("layer", "datatype", "half_width", "path", "start", "end"),
    27: ("layer", "datatype", "radius"),
}


def cell_of(records, i):
    """The number of the CELL record in whose cell record i stands, or None."""
    while i >= 0 and records[i]["kind"] not in CELLS + NAMES:
        i -= 1
    return i if i >= 0 and records[i]["kind"] in CELLS else None


def gives(records, i, variable):
    """What record i gives to a modal variable, or None."""
    record = records[i]
    if variable == "height" and "square" in record:
        return value(records, i, "width")
    if variable in ("start", "end") and "extensions" in record:
        given = record["extensions"][variable == "end"]
        return value(records, i, "half_width") if given == "half" else given
    return record.get(variable)


def value(records, i, variable):
    """What the latest record up to i gave, in its cell, or None."""
    for j in range(i, cell_of(records, i), -1):
        if (given := gives(records, j, variable)) is not None:
            return given
    return None


def is_relative(records, i):
    for j in range(i, cell_of(records, i), -1):
        if records[j]["kind"] in (XY_ABSOLUTE, XY_RELATIVE):
            return records[j]["kind"] == XY_RELATIVE
    return False


def position(records, i, axis):
    """The latest absolute coordinate of the class in the cell, or 0, and what relative ones add after it."""
    wanted, total = CLASSES.get(records[i]["kind"], "geometry"), 0
    for j in range(i, cell_of(records, i), -1):
        record = records[j]
        if CLASSES.get(record["kind"], "geometry") == wanted and axis in record:
            total += record[axis]
            if not is_relative(records, j):
                break
    return total


def copies(records, i):
    """How many, and the offset of copy n; None where the modal repetition is used and there is none."""
    if "repetition" not in records[i]:
        return 1, lambda n: (0, 0)
    return value(records, i, "repetition")


def vertices(points, at):
    """All points of a point list whose first is given."""
    by, out = (0, 0), [at]
    for dx, dy in points["steps"]:
        by = (by[0] + dx, by[1] + dy) if points["kind"] == 5 else (dx, dy)
        out.append((out[-1][0] + by[0], out[-1][1] + by[1]))
    if points["polygon"] and points["kind"] < 2:
        out.append((at[0], out[-1][1]) if points["kind"] == 0 else (out[-1][0], at[1]))
    return out


def least_reading(ring):
    """Of all lists that the ring can be read as, the first."""
    turned = [each[n:] + each[:n] for each in (ring, ring[::-1]) for n in range(len(ring))]
    return tuple(min(turned))


def turns(records, i):
    record = records[i]
    if record["kind"] == 17:
        return record["turns"]
    sign, num, den = record.get("angle", (1, 0, 1))
    return sign * num // (90 * den) % 4


def at_place(records, i, by):
    """The element that record i gives at an offset, or None where it is too far out."""
    record, kind = records[i], records[i]["kind"]
    x, y = position(records, i, "x") + by[0], position(records, i, "y") + by[1]
    v = {name: value(records, i, name) for name in NEEDS[kind]}
    seen = [x, y]
    if kind in (17, 18):
        made = (0, v["cell"], x, y, turns(records, i), record["flip"])
    elif kind == 19:
        made = (1, v["string"], v["textlayer"], v["texttype"], x, y)
    elif kind == 20:
        made = (2, v["layer"], v["datatype"], v["width"], v["height"], x, y)
        seen += [x + v["width"], y + v["height"]]
    elif kind == 21:
        ring = vertices(v["polygon"], (x, y))
        made = (3, v["layer"], v["datatype"], least_reading(ring))
        seen += [c for point in ring for c in point]
    elif kind == 22:
        points = vertices(v["path"], (x, y))
        made = (4, v["layer"], v["datatype"], v["half_width"], v["start"], v["end"], tuple(points))
        seen += [c for point in points for c in point] + [v["half_width"], v["start"], v["end"]]
    else:
        made = (5, v["layer"], v["datatype"], v["radius"], x, y)
        seen += [v["radius"]]
    return made if max(map(abs, seen)) <= FURTHEST else None


def weight(made):
    """For an element; the string of a number has no bytes yet."""
    if made[0] < 2:
        return 1 + (len(made[1]) if isinstance(made[1], bytes) else 0)
    return 1 + (len(made[-1]) if made[0] in (3, 4) else 0)


class Drawn:
    """Elements and weight so far, and the elements of each CELL record."""

    def __init__(self, limits):
        self.count, self.weight, self.cells, self.limits = 0, 0, {}, limits


def draw(records, i, drawn):
    """What record i adds, or the number of the reason for which it is refused."""
    record, cell = records[i], cell_of(records, i)
    if cell is None:
        return 13
    if copies(records, i) is None or any(value(records, i, name) is None for name in NEEDS[record["kind"]]):
        return 18
    if "magnification" in record and (record["magnification"][0] < 0 or record["magnification"][1] != record["magnification"][2]
                                      or record["magnification"][2] == 0):
        return 19
    if "angle" in record and (record["angle"][2] == 0 or record["angle"][1] % (90 * record["angle"][2])):
        return 20
    count, place = copies(records, i)
    drawn.count += count
    if drawn.count > drawn.limits.elements:
        return 24
    drawn.weight += count * weight_of(records, i)
    if drawn.weight > drawn.limits.weight:
        return 25
    for n in range(count):
        made = at_place(records, i, place(n))
        if made is None:
            return 23
        drawn.cells[cell][made] += 1
    return None


def weight_of(records, i):
    """For one copy, wherever it is."""
    kind = records[i]["kind"]
    if kind in (17, 18, 19):
        string = value(records, i, "cell" if kind < 19 else "string")
        return 1 + (len(string) if isinstance(string, bytes) else 0)
    if kind in (21, 22):
        return 1 + len(vertices(value(records, i, "polygon" if kind == 21 else "path"), (0, 0)))
    return 1


def numbers(records, kinds):
    """The strings of numbers: pairs of a number and a string, of a class."""
    found = []
    for record in records:
        if record["kind"] in kinds:
            found.append((record.get("number", len(found)), record["string"]))
    return found


def name(records, i):
    """The number of the reason for which a name record is refused, or None."""
    kinds = (3, 4) if records[i]["kind"] < 5 else (5, 6)
    if any(r["kind"] in kinds and r["kind"] != records[i]["kind"] for r in records[:i]):
        return 21
    before, (number, string) = numbers(records[:i], kinds), numbers(records[: i + 1], kinds)[-1]
    return 22 if any(n == number and s != string for n, s in before) else None


def take(records, drawn):
    """What the last record adds, or the number of the reason for which it is refused."""
    i, kind = len(records) - 1, records[-1]["kind"]
    if kind in ELEMENTS:
        return draw(records, i, drawn)
    if kind in NUMBERED:
        return name(records, i)
    if kind in CELLS:
        drawn.cells[i] = Counter()
        if kind == 14:
            drawn.weight += 1 + len(records[i]["cell"])
            return 25 if drawn.weight > drawn.limits.weight else None
    return None
