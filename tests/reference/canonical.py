"""From a layout to its canonical bytes and its listing: docs/CANONICAL.md as code."""

from reading import MAGIC


def unsigned(value):
    out = bytearray()
    while value > 127:
        out.append(value % 128 + 128)
        value //= 128
    return bytes(out) + bytes([value])


def signed(value):
    return unsigned(2 * abs(value) + (value < 0))


def string(text):
    return unsigned(len(text)) + text


def point_list(points):
    """The steps from point to point, and the first point."""
    out = b"\x04" + unsigned(len(points) - 1)
    for (x, y), (next_x, next_y) in zip(points, points[1:]):
        dx, dy = next_x - x, next_y - y
        out += unsigned(4 * abs(dx) + 2 * (dx < 0) + 1) + signed(dy)
    return out + signed(points[0][0]) + signed(points[0][1])


def element(made):
    kind, *fields = made
    if kind == 0:
        name, x, y, turns, flip = fields
        return bytes([0x11, 0xB0 + 2 * turns + flip]) + string(name) + signed(x) + signed(y)
    if kind == 1:
        text, textlayer, texttype, x, y = fields
        return b"\x13\x5B" + string(text) + unsigned(textlayer) + unsigned(texttype) + signed(x) + signed(y)
    if kind == 3:
        layer, datatype, points = fields
        return b"\x15\x3B" + unsigned(layer) + unsigned(datatype) + point_list(points)
    if kind == 4:
        layer, datatype, half_width, start, end, points = fields
        return (b"\x16\xFB" + unsigned(layer) + unsigned(datatype) + unsigned(half_width) + b"\x0F" + signed(start)
                + signed(end) + point_list(points))
    *plain, x, y = fields
    return (b"\x14\x7B" if kind == 2 else b"\x1B\x3B") + b"".join(map(unsigned, plain)) + signed(x) + signed(y)


def real(num, den):
    if den == 1:
        return b"\x00" + unsigned(num)
    return b"\x02" + unsigned(den) if num == 1 else b"\x04" + unsigned(num) + unsigned(den)


def canonical(layout):
    unit, cells = layout
    out = [MAGIC, b"\x01\x031.0", real(*unit), bytes(13)]
    for name in sorted(cells):
        out += [b"\x0E", string(name)]
        out += [element(made) * cells[name][made] for made in sorted(cells[name])]
    return b"".join(out) + b"\x02\xFC\x01" + bytes(253)


def line(made):
    kind, *fields = made
    word = ("placement", "text", "rectangle", "polygon", "path", "circle")[kind]
    if kind in (3, 4):
        fields = [*fields[:-1], *(f"{x},{y}" for x, y in fields[-1])]
    if kind == 0:
        fields[0] = fields[0].decode()
    if kind == 1:
        fields = [*fields[1:], fields[0].decode()]
    return " ".join(map(str, [word, *fields])) + "\n"


def listing(layout):
    unit, cells = layout
    out = [f"unit {unit[0]}/{unit[1]}\n"]
    for name in sorted(cells):
        out.append(f"cell {name.decode()}\n")
        out += [line(made) * cells[name][made] for made in sorted(cells[name])]
    return "".join(out).encode()
