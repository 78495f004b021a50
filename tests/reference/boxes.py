"""Random polygons that are boxes, in each of their readings, and some that only look like boxes."""

from canonical import signed, string, unsigned
from reading import DIRECTIONS

FAR = 2**60
SIDES = (1, 2, 10, 63, 64, 127, 128, 2**30, 2**60, 2**61)


def corners(chance):
    """A rectangle's corners, in order round it: at times as large as the grid, or in a corner of the grid."""
    wide, high = chance.choice(SIDES), chance.choice(SIDES)
    left, low = (-FAR if chance.randrange(3) else FAR - side for side in (wide, high))
    if max(wide, high) < FAR and chance.randrange(4):
        left, low = chance.randrange(-20, 20), chance.randrange(-20, 20)
    return [(left, low), (left, low + high), (left + wide, low + high), (left + wide, low)]


def started(chance, ring):
    """One of the readings of a ring."""
    start = chance.randrange(len(ring))
    ring = ring[start:] + ring[:start]
    return ring if chance.randrange(2) else ring[::-1]


def flat(ring):
    return [(ring[0][0], y) for _, y in ring]


def crossing(ring):
    return [ring[0], ring[2], ring[1], ring[3]]


def with_corner_repeated(ring):
    return [ring[0], ring[0], *ring[2:]]


def with_corner_twice(ring):
    return [*ring, ring[3]]


def with_point_on_a_side(ring):
    (x, y), (next_x, next_y) = ring[:2]
    return [ring[0], ((x + next_x) // 2, (y + next_y) // 2), *ring[1:]]


def askew(ring):
    return [*ring[:3], (ring[3][0], ring[3][1] + 1)]


def past_the_grid(ring):
    return [(x + 1, y) for x, y in ring]


LOOK_ALIKES = (flat, crossing, with_corner_repeated, with_corner_twice, with_point_on_a_side, askew, past_the_grid)


def steps(points):
    return [(x - a, y - b) for (a, b), (x, y) in zip(points, points[1:])]


def gdelta(x, y):
    return unsigned(4 * abs(x) + 2 * (x < 0) + 1) + signed(y)


def towards(by, count):
    """A step in one of this many directions, or None."""
    far = max(map(abs, by))
    for place, (x, y) in enumerate(DIRECTIONS[:count]):
        if (x * far, y * far) == by:
            return unsigned(far * count + place)
    return None


def alternating(points, kind):
    """The 1-deltas of a ring whose last point is implied, or None."""
    by = steps(points[:-1])
    last = (points[0][0], points[-2][1]) if kind == 0 else (points[-2][0], points[0][1])
    if len(by) % 2 or last != points[-1] or any(step[(i + kind + 1) % 2] for i, step in enumerate(by)):
        return None
    return [signed(step[(i + kind) % 2]) for i, step in enumerate(by)]


def changes(by):
    """Each step as the difference from the one before."""
    return [gdelta(x - a, y - b) for (a, b), (x, y) in zip([(0, 0), *by], by)]


def point_list(chance, points):
    """The points in one of the types of lists that can spell them."""
    by = steps(points)
    lists = {0: alternating(points, 0), 1: alternating(points, 1), 2: [towards(step, 4) for step in by],
             3: [towards(step, 8) for step in by], 4: [gdelta(*step) for step in by], 5: changes(by)}
    kind, deltas = chance.choice([(kind, deltas) for kind, deltas in lists.items() if deltas and None not in deltas])
    return unsigned(kind) + unsigned(len(deltas)) + b"".join(deltas)


def rectangle(ring):
    """The record of the rectangle that a ring of four corners goes round."""
    (left, low), (right, high) = min(ring), max(ring)
    return b"\x14\x7b\x01\x00" + unsigned(right - left) + unsigned(high - low) + signed(left) + signed(low)


def records(chance):
    """A box or what looks like one, in a cell of its own or in the current cell, sometimes with its rectangle."""
    ring = corners(chance)
    beside = rectangle(ring) if chance.randrange(2) else b""
    if chance.randrange(3) == 0:
        ring = chance.choice(LOOK_ALIKES)(ring)
    points = started(chance, ring)
    front = b"" if chance.randrange(3) else b"\x0e" + string(b"BOX%d" % chance.randrange(1000))
    place = signed(points[0][0]) + signed(points[0][1])
    return front + beside + b"\x15\x3b\x01\x00" + point_list(chance, points) + place
