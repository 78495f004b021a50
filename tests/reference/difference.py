"""What one layout has more often than another: docs/LISTING.md, "The difference", read aloud."""

from canonical import line
from formats import entries


def of_units(one, other):
    if one == other:
        return []
    return [f"- 1 unit {one[0]}/{one[1]}", f"+ 1 unit {other[0]}/{other[1]}"]


def more(counted, than):
    """How many more of each element there are, and of those that aren't more nothing."""
    return {made: times - than[made] for made, times in counted.items() if times > than[made]}


def of_elements(one, other):
    """The lines of what one cell has more of, and of what the other has more of."""
    minus, plus = more(one, other), more(other, one)
    lines = []
    for made in sorted({*minus, *plus}):
        sign, count = ("-", minus[made]) if made in minus else ("+", plus[made])
        lines.append(f"{sign} {count} {line(made)[:-1]}")
    return lines


def of_cell(name, one, other, is_brief):
    """The lines of a cell, of which a layout that lacks it has none."""
    empty = type(other if one is None else one)()
    lines = of_elements(one or empty, other or empty)
    sign = "-" if other is None else "+" if one is None else "@"
    if sign == "@" and not lines:
        return []
    if is_brief:
        minus, plus = more(one or empty, other or empty), more(other or empty, one or empty)
        return [f"{sign} cell {name.decode()} - {sum(minus.values())} + {sum(plus.values())}"]
    front = "@ cell" if sign == "@" else f"{sign} 1 cell"
    return [f"{front} {name.decode()}", *lines]


def difference(one, other, is_brief=False):
    lines = of_units(one[0], other[0])
    for name in sorted({*one[1], *other[1]}):
        lines += of_cell(name, one[1].get(name), other[1].get(name), is_brief)
    return lines


def layer_of(made):
    """The layer and the datatype of an element; a placement has none."""
    if made[0] == 0:
        return ()
    return made[2:4] if made[0] == 1 else made[1:3]


def is_on(made, layers):
    """Whether an element is on one of the layers, each `L` or `L/D`."""
    return any(layer_of(made)[: len(layer)] == layer for layer in layers)


def chosen(layout, cells, layers):
    """The layout without cells that aren't named, and without elements that are on none of the layers, where there are any."""
    left = {}
    for name, counted in layout[1].items():
        if not cells or name in cells:
            left[name] = type(counted)({made: times for made, times in counted.items() if not layers or is_on(made, layers)})
    return layout[0], left


def with_empty(layout, other):
    """The layout with a cell without elements for each that only the other has."""
    return layout[0], {name: layout[1].get(name, type(counted)()) for name, counted in {**other[1], **layout[1]}.items()}


def given(options, name):
    """The values of an option, in order."""
    return [options[place + 1] for place, word in enumerate(options) if word == name]


def diff(layouts, options):
    """Status and output of `diff` with these options."""
    cells = [name.encode() for name in given(options, "--cell")]
    layers = [tuple(map(int, layer.split("/"))) for layer in given(options, "--layer")]
    one, other = (chosen(layout, cells, layers) for layout in layouts)
    if layers:
        one, other = with_empty(one, other), with_empty(other, one)
    lines = difference(one, other, "--brief" in options)
    status = 3 if lines else 0
    is_json, units = "--json" in options, [layout[0] for layout in layouts] if "um" in given(options, "--unit") else None
    if is_json or units:
        lines = entries(lines, units, is_json)
    if "--limit" in options:
        most = int(options[options.index("--limit") + 1])
        more = '{"kind":"more"}' if is_json else "..."
        lines = lines[:most] + [more] * (len(lines) > most)
    return status, "".join(each + "\n" for each in lines).encode()
