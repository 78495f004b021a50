"""The files of bench/canon, bench/questions, bench/growth, bench/orders and bench/klayout: each from a seed, a record at a time, so that the script stays small itself."""

import itertools
import random

HEAD = bytes.fromhex("2553454D492D4F415349530D0A 0103312E30 00E807") + bytes(13)
TAIL = bytes.fromhex("02FC01") + bytes(253)
CELL = b"\x0e\x03TOP"
MILLION = 1_000_000
XYRELATIVE = b"\x10"
# The corners of an L and of a box, and the bits of a 2-delta for east, north, west and south.
ANGLE = ((0, 0), (2, 0), (2, 1), (1, 1), (1, 2), (0, 2))
BOX = ((0, 0), (1, 0), (1, 1), (0, 1))
EAST, NORTH, WEST, SOUTH = range(4)


def spelled(value):
    """The shortest spelling of a number."""
    out = bytearray()
    while value > 127:
        out.append(value & 127 | 128)
        value >>= 7
    out.append(value)
    return bytes(out)


SMALL = [spelled(value) for value in range(1 << 14)]


def unsigned(value):
    return SMALL[value] if value < 1 << 14 else spelled(value)


def signed(value):
    return unsigned(2 * value) if value >= 0 else unsigned(1 - 2 * value)


def gdelta(x, y):
    return unsigned(4 * abs(x) + 2 * (x < 0) + 1) + signed(y)


def string(text):
    return unsigned(len(text)) + text


def place(chance, bits=30):
    far = 1 << bits
    return signed(chance.randrange(-far, far)) + signed(chance.randrange(-far, far))


def rectangles(chance, count=MILLION):
    """This many, anywhere, with all fields."""
    yield CELL
    for _ in range(count):
        fields = (chance.randrange(64), chance.randrange(4), chance.randrange(1, 10_000), chance.randrange(1, 10_000))
        yield b"\x14\x7b" + b"".join(map(unsigned, fields)) + place(chance)


def repetition(chance):
    """How many copies, and the repetition."""
    kind = chance.choice((1, 2, 3, 8, 10))
    columns, rows, space, up = (chance.randrange(low, 8) for low in (2, 2, 1, 1))
    space, up = 100 * space, 100 * up
    front = unsigned(kind) + unsigned(columns - 2)
    if kind == 1:
        return columns * rows, front + unsigned(rows - 2) + unsigned(space) + unsigned(up)
    if kind == 8:
        return columns * rows, front + unsigned(rows - 2) + gdelta(space, 50) + gdelta(-30, up)
    if kind == 10:
        return columns, front + b"".join(gdelta(chance.randrange(900), chance.randrange(900)) for _ in range(columns - 1))
    return columns, front + unsigned(space)


def compact(chance):
    """A million, as writers spell them: unchanged fields are left out, places are relative, and a third of the million is in
    repetitions."""
    yield CELL + XYRELATIVE
    left, in_repetitions = MILLION, MILLION // 3
    for count in itertools.count():
        info, fields = 0x18, b""
        if count % 5000 == 0:
            info |= 0x63
            fields = unsigned(count // 5000 % 20) + b"\x00" + unsigned(40) + unsigned(60)
        elif chance.random() < 0.2:
            info |= 0x60
            fields = unsigned(chance.randrange(20, 2000, 20)) + unsigned(chance.randrange(20, 2000, 20))
        fields += signed(chance.randrange(-3000, 3000)) + signed(chance.randrange(-3000, 3000))
        copies, repeated = 1, b""
        if in_repetitions > 0 and chance.random() < 0.045:
            copies, repeated = repetition(chance)
            in_repetitions -= copies
            info |= 0x04
        left -= copies
        if left < 0:
            return
        yield bytes((0x14, info)) + fields + repeated


def ring(chance, corners):
    """The steps of a ring from any corner, either way round."""
    wide, high = chance.randrange(10, 1000), chance.randrange(10, 1000)
    corners = corners if chance.random() < 0.5 else corners[::-1]
    begin = chance.randrange(len(corners))
    corners = [(x * wide, y * high) for x, y in corners[begin:] + corners[:begin]]
    return [(x - w, y - h) for (w, h), (x, y) in zip(corners, corners[1:])]


def two_delta(x, y):
    direction = (EAST if x > 0 else WEST) if y == 0 else (NORTH if y > 0 else SOUTH)
    return unsigned(4 * (abs(x) + abs(y)) + direction)


def polygons(chance):
    """A million, a third each by 1-deltas, 2-deltas and g-deltas. A fifth are boxes, the others have six points."""
    yield CELL
    for _ in range(MILLION):
        corners = BOX if chance.random() < 0.2 else ANGLE
        steps, kind = ring(chance, corners), chance.choice((1, 2, 4))
        if kind == 1:
            first = steps[0][0] == 0
            points = unsigned(first) + unsigned(len(steps) - 1) + b"".join(signed(x + y) for x, y in steps[:-1])
        else:
            spell = two_delta if kind == 2 else gdelta
            points = unsigned(kind) + unsigned(len(steps)) + b"".join(itertools.starmap(spell, steps))
        yield b"\x15\x3b" + unsigned(chance.randrange(64)) + b"\x00" + points + place(chance)


def path(chance):
    """Four points, with extensions of the half-width, flush or given."""
    ends = chance.choice((b"\x05", b"\x0a", b"\x0f" + signed(chance.randrange(-50, 50)) + signed(chance.randrange(-50, 50))))
    steps = b"".join(gdelta(chance.randrange(-900, 900), chance.randrange(-900, 900)) for _ in range(3))
    fields = unsigned(chance.randrange(64)) + b"\x00" + unsigned(chance.randrange(5, 100)) + ends + b"\x04\x03" + steps
    return b"\x16\xfb" + fields + place(chance)


def hierarchy(chance):
    """A thousand cells of a hundred placements, texts and paths each, by numbers that are named at the end.

    A cell places only those with higher numbers, and the last one none: KLayout accepts no cell that contains itself.

    """
    cells = list(range(1000))
    chance.shuffle(cells)
    for cell in cells:
        yield b"\x0d" + unsigned(cell)
        for _ in range(100):
            turned = 0xF0 + chance.randrange(8)
            if cell < 999:
                yield b"\x11" + bytes((turned,)) + unsigned(chance.randrange(cell + 1, 1000)) + place(chance)
            fields = unsigned(chance.randrange(5000)) + unsigned(chance.randrange(64)) + b"\x00"
            yield b"\x13\x7b" + fields + place(chance)
            yield path(chance)
    letters = b"abcdefghijklmnopqrstuvwxyz0123456789_"
    for number in range(1000):
        yield b"\x03" + string(b"cell_" + bytes(chance.choices(letters, k=10)) + b"%d" % number)
    for _ in range(5000):
        yield b"\x05" + string(bytes(chance.choices(letters, k=12)))


def array(_chance):
    """One rectangle in a grid of 4096 by 4096, 10 from column to column and 0 from row to row: 4096 places, each 4096 times."""
    yield CELL + b"\x14\x7f\x01\x00\x08\x14\x00\x00" + b"\x01" + unsigned(4094) * 2 + unsigned(10) + unsigned(0)


def make(records, target, seed=1):
    with open(target, "wb") as file:
        file.writelines(itertools.chain([HEAD], records(random.Random(seed)), [TAIL]))


FILES = {
    "rectangles": rectangles,
    "compact": compact,
    "polygons": polygons,
    "hierarchy": hierarchy,
    "array": array,
}
