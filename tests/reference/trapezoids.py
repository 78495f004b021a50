"""What trapezoids draw (SEMI P39, TRAPEZOID and CTRAPEZOID records), by the lower left corner of their box."""

# By ctrapezoid-type, when there is such a shape, and its corners, clockwise.
KINDS = {
    0: lambda w, h: w >= h and [(0, 0), (0, h), (w - h, h), (w, 0)],
    1: lambda w, h: w >= h and [(0, 0), (0, h), (w, h), (w - h, 0)],
    2: lambda w, h: w >= h and [(0, 0), (h, h), (w, h), (w, 0)],
    3: lambda w, h: w >= h and [(h, 0), (0, h), (w, h), (w, 0)],
    4: lambda w, h: w >= 2 * h and [(0, 0), (h, h), (w - h, h), (w, 0)],
    5: lambda w, h: w >= 2 * h and [(h, 0), (0, h), (w, h), (w - h, 0)],
    6: lambda w, h: w > h and [(0, 0), (h, h), (w, h), (w - h, 0)],
    7: lambda w, h: w > h and [(h, 0), (0, h), (w - h, h), (w, 0)],
    8: lambda w, h: h >= w and [(0, 0), (0, h), (w, h - w), (w, 0)],
    9: lambda w, h: h >= w and [(0, 0), (0, h - w), (w, h), (w, 0)],
    10: lambda w, h: h >= w and [(0, 0), (0, h), (w, h), (w, w)],
    11: lambda w, h: h >= w and [(0, w), (0, h), (w, h), (w, 0)],
    12: lambda w, h: h >= 2 * w and [(0, 0), (0, h), (w, h - w), (w, w)],
    13: lambda w, h: h >= 2 * w and [(0, w), (0, h - w), (w, h), (w, 0)],
    14: lambda w, h: h > w and [(0, 0), (0, h - w), (w, h), (w, w)],
    15: lambda w, h: h > w and [(0, w), (0, h), (w, h - w), (w, 0)],
    16: lambda w, h: [(0, 0), (0, w), (w, 0)],
    17: lambda w, h: [(0, 0), (0, w), (w, w)],
    18: lambda w, h: [(0, 0), (w, w), (w, 0)],
    19: lambda w, h: [(0, w), (w, w), (w, 0)],
    20: lambda w, h: [(0, 0), (h, h), (2 * h, 0)],
    21: lambda w, h: [(h, 0), (0, h), (2 * h, h)],
    22: lambda w, h: [(0, 0), (0, 2 * w), (w, w)],
    23: lambda w, h: [(0, w), (w, 2 * w), (w, 0)],
    24: lambda w, h: [(0, 0), (0, h), (w, h), (w, 0)],
    25: lambda w, h: [(0, 0), (0, w), (w, w), (w, 0)],
}
# By ctrapezoid-type, the side that it implies, and which multiple of which side it is.
IMPLIED = {
    16: ("height", "width", 1),
    17: ("height", "width", 1),
    18: ("height", "width", 1),
    19: ("height", "width", 1),
    20: ("width", "height", 2),
    21: ("width", "height", 2),
    22: ("height", "width", 2),
    23: ("height", "width", 2),
    25: ("height", "width", 1),
}


def plus(delta):
    return max(delta, 0)


def minus(delta):
    return max(-delta, 0)


def sloped(upright, w, h, a, b):
    """The corners of a TRAPEZOID by its deltas, or false where its sides cross."""
    if upright:
        is_shape = plus(a) <= h - minus(b) and minus(a) <= h - plus(b)
        return is_shape and [(0, plus(a)), (0, h - minus(b)), (w, h - plus(b)), (w, minus(a))]
    is_shape = plus(a) <= w - minus(b) and minus(a) <= w - plus(b)
    return is_shape and [(minus(a), 0), (plus(a), h), (w - minus(b), h), (w - plus(b), 0)]


def area(corners):
    return sum(x * next_y - y * next_x for (x, y), (next_x, next_y) in zip(corners, corners[1:] + corners[:1]))


def enclosing(corners):
    """Corners, with coinciding ones once, or None where there are none or they enclose no area."""
    if not corners or area(corners) == 0:
        return None
    return [corner for corner, before in zip(corners, corners[-1:] + corners) if corner != before]


def is_box(corners, w, h):
    return corners == [(0, 0), (0, h), (w, h), (w, 0)]
