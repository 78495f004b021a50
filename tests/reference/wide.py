"""From bytes to records of the standard, also those that the profile leaves out: docs/PREPARING.md as code."""

import math
import struct

from reading import END, START, TAKEN, Bytes, Stop, element, given, one_record, spot

TURNED, TRAPEZOIDS, NAMED_TRAPEZOID, GEOMETRY, BLOCK = 18, (23, 24, 25), 26, 33, 34
PROPERTY, LAST_PROPERTY = 28, 29
# What a property's value of a type is read as, after the reals.
VALUES = {8: "unsigned", 9: "signed", 10: "any_string", 11: "any_string", 12: "any_string", 13: "unsigned", 14: "unsigned",
          15: "unsigned"}
# How many numbers an interval of a type has.
BOUNDS = {0: 0, 1: 1, 2: 1, 3: 1, 4: 2}


class Wide(Bytes):
    """A place in a list of bytes, whose integers have any number of bytes except where they are short."""

    def __init__(self, data):
        super().__init__(data, len(data))
        self.is_short = False

    def unsigned(self):
        return super().unsigned() if self.is_short else self.long()

    def long(self):
        value, place = 0, 0
        while True:
            byte = self.byte()
            value += byte % 128 << 7 * place
            if value >= 2**64:
                raise Stop(3)
            if byte < 128:
                return value
            place += 1

    def raw(self, count):
        return bytes([self.byte() for _ in range(count)])

    def any_string(self):
        for _ in range(self.unsigned()):
            self.byte()

    def fraction(self, kind):
        num = self.long() if kind not in (2, 3) else 1
        den = self.long() if kind > 1 else 1
        return -1 if kind % 2 else 1, num, den

    def real(self):
        """Its sign, numerator and denominator: for a float those of the fraction of its bits."""
        kind = self.long()
        if kind > 7:
            raise Stop(7)
        if kind < 6:
            return self.fraction(kind)
        (number,) = struct.unpack("<f", self.raw(4)) if kind == 6 else struct.unpack("<d", self.raw(8))
        if not math.isfinite(number):
            raise Stop(6)
        return -1 if number < 0 else 1, *abs(number).as_integer_ratio()

    def value(self):
        """A property's value, which is ignored."""
        kind = self.unsigned()
        if kind > 15:
            raise Stop(111)
        if kind > 7:
            getattr(self, VALUES[kind])()
        elif kind > 5:
            self.raw(4 if kind == 6 else 8)
        else:
            self.fraction(kind)

    def interval(self):
        kind = self.unsigned()
        if kind > 4:
            raise Stop(112)
        for _ in range(BOUNDS[kind]):
            self.unsigned()


def end(source, start, offsets_in_end):
    """With its scheme, its signature, and where that is."""
    if offsets_in_end:
        source.offsets()
    source.any_string()
    scheme = source.unsigned()
    if scheme > 2:
        raise Stop(29)
    signed = source.at
    signature = int.from_bytes(source.raw(4), "little") if scheme else 0
    if source.at - start != 256:
        raise Stop(28)
    return {"kind": END, "scheme": scheme, "signature": signature, "signed": signed}


def name(source, kind):
    """A PROPNAME, PROPSTRING or LAYERNAME, which is ignored."""
    source.any_string()
    if kind in (8, 10):
        source.unsigned()
    if kind in (11, 12):
        source.interval()
        source.interval()
    return {}


def prop(source):
    """A PROPERTY, which is ignored."""
    info = source.byte()
    if info & 8 and info > 15:
        raise Stop(14)
    if info & 4:
        source.unsigned() if info & 2 else source.any_string()
    if not info & 8:
        for _ in range(source.unsigned() if info // 16 == 15 else info // 16):
            source.value()
    return {}


def extension(source, kind):
    """An XNAME, XELEMENT or XGEOMETRY; the last one has a position."""
    info = source.byte() if kind == GEOMETRY else 0
    if info > 31:
        raise Stop(14)
    source.long()
    layers = given(info, [(1, "layer", source.unsigned), (2, "datatype", source.unsigned)])
    source.any_string()
    if kind == 31:
        source.unsigned()
    return layers | given(info, [*spot(source, 0x10, 8, 4)])


def trapezoid(source, kind):
    info = source.byte()
    fields = [(1, "layer", source.unsigned), (2, "datatype", source.unsigned)]
    if kind == NAMED_TRAPEZOID:
        fields += [(0x80, "type", lambda: trapezoid_type(source))]
    fields += [(0x40, "width", source.unsigned), (0x20, "height", source.unsigned)]
    record = given(info, fields)
    if kind != NAMED_TRAPEZOID:
        record["a"] = source.signed() if kind != 25 else 0
        record["b"] = source.signed() if kind != 24 else 0
        record["upright"] = info & 0x80 != 0
    return record | given(info, [*spot(source, 0x10, 8, 4)])


def trapezoid_type(source):
    kind = source.unsigned()
    if kind > 25:
        raise Stop(110)
    return kind


def block_head(source):
    """The kind of compression, the length of the data, and the bytes that encode them."""
    return {"compression": source.long(), "inflated": source.long(), "deflated": source.long()}


def outside_the_profile(source, kind):
    """What follows the id of a record that the profile doesn't have, or a placement by reals: its integers are short, except
    those of reals and blocks and attributes."""
    source.is_short = True
    try:
        if kind == TURNED:
            return element(source, kind)
        if kind < 13:
            return name(source, kind)
        if kind <= NAMED_TRAPEZOID:
            return trapezoid(source, kind)
        if kind == PROPERTY:
            return prop(source)
        if kind == LAST_PROPERTY:
            return {}
        return block_head(source) if kind == BLOCK else extension(source, kind)
    finally:
        source.is_short = False


def wide_record(source, offsets_in_end):
    start = source.at
    kind = source.unsigned()
    if kind == START:
        raise Stop(13)
    if kind > 34:
        raise Stop(12)
    if kind == END:
        return end(source, start, offsets_in_end)
    if kind in TAKEN and kind != TURNED:
        source.at = start
        return one_record(source, offsets_in_end)
    return {"kind": kind} | outside_the_profile(source, kind)
