"""From a file to its layout, by either profile: docs/CANONICAL.md as code."""

from collections import Counter, namedtuple
from math import gcd

from meaning import Drawn, least_reading, numbers, take, weight
from reading import END, MAGIC, START_AT, Bytes, Refused, Stop, head, one_record

Limits = namedtuple("Limits", "elements weight input")
STANDARD = Limits(2**24, 2**28, 2**36)
LARGE = Limits(2**26, 2**30, 2**38)


def finish(records, drawn):
    """The cells by name, or the number of the reason for which there are none."""
    cells, strings = dict(numbers(records, (3, 4))), dict(numbers(records, (5, 6)))
    resolved, used = {}, []

    def behind(reference, table):
        used.append(reference if isinstance(reference, bytes) else table.get(reference))
        return used[-1]

    defined = [(behind(records[i]["cell"], cells), counted) for i, counted in drawn.cells.items()]
    for cell, counted in defined:
        for made, times in counted.items():
            if made[0] < 2:
                made = (made[0], behind(made[1], strings if made[0] else cells), *made[2:])
            resolved.setdefault(cell, Counter())[made] += times
        resolved.setdefault(cell, Counter())
    if None in used:
        return 26
    if len(resolved) < len(defined):
        return 27
    total = sum(1 + len(cell) + sum(times * weight(made) for made, times in counted.items())
                for cell, counted in resolved.items())
    return 25 if total > drawn.limits.weight else resolved


def rectangle_of(points):
    """Width, height and lower left corner of the rectangle that a ring goes round, or None."""
    (left, low), (right, high) = map(min, zip(*points)), map(max, zip(*points))
    corners = [(left, low), (left, high), (right, high), (right, low)]
    is_box = left < right and low < high and least_reading(points) == least_reading(corners)
    return (right - left, high - low, left, low) if is_box else None


def in_profile_two(made):
    """An element of profile one as profile two has it: a polygon that goes round a rectangle is that rectangle."""
    rectangle = rectangle_of(made[3]) if made[0] == 3 else None
    return (2, *made[1:3], *rectangle) if rectangle else made


def boxed(cells):
    """The cells of profile one as profile two has them."""
    out = {name: Counter() for name in cells}
    for name, counted in cells.items():
        for made, times in counted.items():
            out[name][in_profile_two(made)] += times
    return out


def read_head(source):
    try:
        return head(source)
    except Stop as stop:
        raise Refused(0 if source.at < len(MAGIC) or stop.args[0] == 1 else START_AT, stop.args[0]) from None


def read_end(source):
    """Nothing may follow END."""
    try:
        source.byte()
    except Stop as stop:
        if stop.args[0] == 2:
            return
        raise Refused(source.at, stop.args[0]) from None
    raise Refused(source.at - 1, 30)


def read_body(source, offsets_in_end, limits):
    """Where END begins, the records before it, and what they draw."""
    records, drawn = [], Drawn(limits)
    while True:
        start = source.at
        try:
            record = one_record(source, offsets_in_end)
        except Stop as stop:
            raise Refused(start, stop.args[0]) from None
        if record["kind"] == END:
            return start, records, drawn
        records.append(record)
        if (why := take(records, drawn)) is not None:
            raise Refused(start, why)


def read(data, profile=2, limits=STANDARD):
    """The unit in lowest terms, and by name the elements with how often each is there; or Refused."""
    source = Bytes(data, limits.input)
    (num, den), offsets_in_end = read_head(source)
    start, records, drawn = read_body(source, offsets_in_end, limits)
    read_end(source)
    cells = finish(records, drawn)
    if isinstance(cells, int):
        raise Refused(start, cells)
    return (num // gcd(num, den), den // gcd(num, den)), boxed(cells) if profile == 2 else cells
