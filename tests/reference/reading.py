"""From bytes to records: docs/PROFILE.md as code, without regard to speed or memory.

A record is a dictionary of what it gives; an absent field has no entry.
"""

MAGIC = bytes.fromhex("2553454D492D4F415349530D0A")
START_AT = len(MAGIC)
FURTHEST_SUM = 2**62
# east, north, west, south, and between them
DIRECTIONS = ((1, 0), (0, 1), (-1, 0), (0, -1), (1, 1), (-1, 1), (-1, -1), (1, -1))

PAD, START, END = 0, 1, 2
XY_ABSOLUTE, XY_RELATIVE = 15, 16
ELEMENTS = (17, 18, 19, 20, 21, 22, 27)
TAKEN = (0, 2, 3, 4, 5, 6, 13, 14, 15, 16, *ELEMENTS)


class Stop(Exception):
    """What is here can't be read, for the reason with that number."""


class Refused(Exception):
    """The file is refused: a place, and the number of the reason."""

    def __init__(self, at, why):
        super().__init__(f"refused {why} at {at}")
        self.at, self.why = at, why


def step(direction, far):
    return direction[0] * far, direction[1] * far


class Bytes:
    """A place in a list of bytes; no more of them than a limit are read."""

    def __init__(self, data, limit):
        self.data, self.limit, self.at = data, limit, 0

    def byte(self):
        if self.at == len(self.data):
            raise Stop(2)
        if self.at == self.limit:
            raise Stop(31)
        self.at += 1
        return self.data[self.at - 1]

    def unsigned(self):
        value = 0
        for group in range(10):
            byte = self.byte()
            if group == 9 and byte > 1:
                raise Stop(3)
            value += byte % 128 << 7 * group
            if byte < 128:
                return value
        return value

    def signed(self):
        value = self.unsigned()
        return -(value // 2) if value % 2 else value // 2

    def real(self):
        """Its sign, numerator and denominator."""
        kind = self.unsigned()
        if kind > 7:
            raise Stop(7)
        if kind > 5:
            raise Stop(6)
        num = self.unsigned() if kind not in (2, 3) else 1
        den = self.unsigned() if kind > 1 else 1
        return -1 if kind % 2 else 1, num, den

    def string(self, lowest):
        length, text = self.unsigned(), bytearray()
        if lowest == 0x21 and length == 0:
            raise Stop(5)
        while len(text) < length:
            byte = self.byte()
            if not lowest <= byte <= 0x7E:
                raise Stop(4)
            text.append(byte)
        return bytes(text)

    def name(self):
        return self.string(0x21)

    def label(self):
        return self.string(0x20)

    def towards(self, directions):
        """A step in one of this many directions."""
        value = self.unsigned()
        return step(DIRECTIONS[value % directions], value // directions)

    def gdelta(self):
        value = self.unsigned()
        if value % 2 == 0:
            return step(DIRECTIONS[value // 2 % 8], value // 16)
        x = value // 4 * (-1 if value & 2 else 1)
        return x, self.signed()

    def offsets(self):
        for _ in range(12):
            self.unsigned()


def point_list(source, polygon):
    """The deltas as steps, and the type."""
    kind = source.unsigned()
    if kind > 5:
        raise Stop(15)
    count = source.unsigned()
    if polygon and (count < 2 or (kind < 2 and count % 2)):
        raise Stop(16)
    steps = []
    while len(steps) < count:
        if kind < 2:
            far = source.signed()
            steps.append((far, 0) if len(steps) % 2 == kind else (0, far))
        else:
            steps.append({2: lambda: source.towards(4), 3: lambda: source.towards(8)}.get(kind, source.gdelta)())
    return {"kind": kind, "steps": steps, "polygon": polygon}


def repetition(source):
    """None for the modal one, else how many copies there are, and the offset of copy i."""
    kind = source.unsigned()
    if kind > 11:
        raise Stop(17)
    if kind == 0:
        return None
    if kind in (1, 8):
        columns, rows = source.unsigned() + 2, source.unsigned() + 2
        if kind == 1:
            right, up = (source.unsigned(), 0), (0, source.unsigned())
        else:
            right, up = source.gdelta(), source.gdelta()
        return columns * rows, lambda i: tuple(i % columns * a + i // columns * b for a, b in zip(right, up))
    count = source.unsigned() + 2
    if kind in (2, 3, 9):
        step = source.gdelta() if kind == 9 else (source.unsigned(), 0) if kind == 2 else (0, source.unsigned())
        return count, lambda i: (i * step[0], i * step[1])
    grid = source.unsigned() if kind in (5, 7, 11) else 1
    places = [(0, 0)]
    while len(places) < count:
        x, y = source.gdelta() if kind > 9 else (source.unsigned(), 0) if kind < 6 else (0, source.unsigned())
        place = places[-1][0] + grid * x, places[-1][1] + grid * y
        if max(map(abs, place)) > FURTHEST_SUM:
            raise Stop(23)
        places.append(place)
    return count, lambda i: places[i]


def given(info, fields):
    """What an info byte says is there: pairs of a bit, a name and how it is read, in order."""
    return {name: read() for bit, name, read in fields if info & bit}


def spot(source, x, y, repeats):
    return (x, "x", source.signed), (y, "y", source.signed), (repeats, "repetition", lambda: repetition(source))


def extensions(source):
    """For the start and the end: None for the modal number, "half" for the half-width, else a number."""
    scheme = source.unsigned()
    if scheme > 15:
        raise Stop(14)
    return [{0: lambda: None, 1: lambda: 0, 2: lambda: "half", 3: source.signed}[code]() for code in divmod(scheme, 4)]


def element(source, kind):
    info = source.byte()
    number = info & (0x40 if kind < 19 else 0x20)
    if kind == 17:
        record = given(info, [(0x80, "cell", source.unsigned if number else source.name), *spot(source, 0x20, 0x10, 8)])
        return record | {"turns": info // 2 % 4, "flip": info % 2}
    if kind == 18:
        record = given(info, [(0x80, "cell", source.unsigned if number else source.name), (4, "magnification", source.real),
                              (2, "angle", source.real), *spot(source, 0x20, 0x10, 8)])
        return record | {"flip": info % 2}
    if (kind == 19 and info > 0x7F) or (kind in (21, 27) and info > 0x3F) or (kind == 20 and info & 0xA0 == 0xA0):
        raise Stop(14)
    if kind == 19:
        return given(info, [(0x40, "string", source.unsigned if number else source.label), (1, "textlayer", source.unsigned),
                            (2, "texttype", source.unsigned), *spot(source, 0x10, 8, 4)])
    fields = [(1, "layer", source.unsigned), (2, "datatype", source.unsigned)]
    if kind == 20:
        fields += [(0x40, "width", source.unsigned), (0x20, "height", source.unsigned)]
    if kind == 21:
        fields += [(0x20, "polygon", lambda: point_list(source, True))]
    if kind == 22:
        fields += [(0x40, "half_width", source.unsigned), (0x80, "extensions", lambda: extensions(source)),
                   (0x20, "path", lambda: point_list(source, False))]
    if kind == 27:
        fields += [(0x20, "radius", source.unsigned)]
    record = given(info, fields + [*spot(source, 0x10, 8, 4)])
    return record | {"square": True} if kind == 20 and info & 0x80 else record


def head(source):
    """The unit, and whether the table offsets are in END."""
    for wanted in MAGIC:
        if source.byte() != wanted:
            raise Stop(1)
    if source.unsigned() != START:
        raise Stop(13)
    if source.label() != b"1.0":
        raise Stop(9)
    sign, num, den = source.real()
    if sign < 0 or num == 0 or den == 0:
        raise Stop(8)
    flag = source.unsigned()
    if flag > 1:
        raise Stop(10)
    if flag == 0:
        source.offsets()
    return (num, den), flag == 1


def one_record(source, offsets_in_end):
    start = source.at
    kind = source.unsigned()
    if kind == START:
        raise Stop(13)
    if kind > 34:
        raise Stop(12)
    if kind not in TAKEN:
        raise Stop(11)
    if kind == END:
        if offsets_in_end:
            source.offsets()
        for _ in range(source.unsigned()):
            source.byte()
        if source.unsigned():
            raise Stop(29)
        if source.at - start != 256:
            raise Stop(28)
        return {"kind": END}
    if kind in ELEMENTS:
        return {"kind": kind} | element(source, kind)
    if kind in (3, 4):
        return {"kind": kind, "string": source.name()} | ({"number": source.unsigned()} if kind == 4 else {})
    if kind in (5, 6):
        return {"kind": kind, "string": source.label()} | ({"number": source.unsigned()} if kind == 6 else {})
    if kind in (13, 14):
        return {"kind": kind, "cell": source.unsigned() if kind == 13 else source.name()}
    return {"kind": kind}
