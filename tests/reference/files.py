"""Random files: records of the whole profile, spelled in any way, some of them wrong."""

import random

import boxes
from canonical import real, signed, string, unsigned
from reading import MAGIC

NAMES = (b"A", b"B", b"TOP", b"a-long_name")
LABELS = (b"", b"A", b"two words", b"~")
EDGES = (0, 1, 127, 128, 2**31, 2**60 - 1, 2**60, 2**60 + 1, 2**62, 2**63 - 1, 2**64 - 1)


class Maker:
    """One file, from a seed."""

    def __init__(self, seed):
        self.random = random.Random(seed)

    def one_in(self, n):
        return self.random.randrange(n) == 0

    def number(self, most=40):
        return self.random.choice(EDGES) if self.one_in(60) else self.random.randrange(most)

    def spelled(self, value):
        """A number, sometimes with idle bytes after it."""
        out = bytearray(unsigned(value))
        while self.one_in(6) and len(out) < 11:
            out[-1] |= 0x80
            out.append(0)
        return bytes(out)

    def unsigned(self):
        return self.spelled(self.number())

    def signed(self):
        return b"\x01" if self.one_in(30) else self.spelled(self.number())

    def text(self, texts):
        text = self.random.choice(texts)
        if self.one_in(60):
            text += bytes([self.random.choice((0x1F, 0x20, 0x7F, 0xFF))])
        return self.spelled(len(text)) + text

    def real(self, values):
        if self.one_in(40):
            return self.spelled(self.random.randrange(10)) + self.unsigned() + self.unsigned()
        num, den = self.random.choice(values)
        times = self.random.randrange(1, 4)
        return self.random.choice((real(num, den), b"\x04" + self.spelled(num * times) + self.spelled(den * times)))

    def gdelta(self):
        return self.spelled(2 * self.number(200)) if self.one_in(2) else self.spelled(2 * self.number(80) + 1) + self.signed()

    def point_list(self, polygon):
        kind = self.random.randrange(6 if not self.one_in(50) else 8)
        count = self.random.randrange(2, 7) if polygon else self.random.randrange(5)
        if polygon and kind < 2 and not self.one_in(20):
            count += count % 2
        one = self.signed if kind < 2 else self.unsigned if kind < 4 else self.gdelta
        return self.spelled(kind) + self.spelled(count) + b"".join(one() for _ in range(count))

    def repetition(self):
        kind = self.random.randrange(12 if not self.one_in(50) else 14)
        dims = [self.random.randrange(3) for _ in range(2 if kind in (1, 8) else kind > 0)]
        out = self.spelled(kind) + b"".join(map(self.spelled, dims))
        spaces = {0: 0, 1: 2, 2: 1, 3: 1, 8: 2, 9: 1}.get(kind, 1 + sum(dims))
        one = self.unsigned if kind < 8 else self.gdelta
        grid = self.spelled(self.random.randrange(4)) if kind in (5, 7, 11) else b""
        return out + grid + b"".join(one() for _ in range(spaces))

    def info(self, kind):
        must = {19: 0x7F, 21: 0x3F, 27: 0x3F}.get(kind, 0xFF)
        # at the beginning of a cell most fields have to be there
        out = (self.random.randrange(256) | self.random.choice((0, 0x7B, 0xFB))) & must
        if kind == 20 and out & 0x80:
            out &= 0xDF
        return out if not self.one_in(60) else self.random.randrange(256)

    def element(self, kind):
        info = self.info(kind)
        number = info & (0x40 if kind < 19 else 0x20)
        reference = self.unsigned if number else lambda: self.text(LABELS if kind == 19 else NAMES)
        spot = [(0x10, self.signed), (8, self.signed), (4, self.repetition)]
        layers = [(1, self.unsigned), (2, self.unsigned)]
        quarters = [(0, 1), (90, 1), (180, 1), (270, 1), (450, 1), (45, 1), (90, 2)]
        fields = {
            17: lambda: [(0x80, reference), (0x20, self.signed), (0x10, self.signed), (8, self.repetition)],
            18: lambda: [(0x80, reference), (4, lambda: self.real([(1, 1)])), (2, lambda: self.real(quarters)),
                         (0x20, self.signed), (0x10, self.signed), (8, self.repetition)],
            19: lambda: [(0x40, reference), *layers, *spot],
            20: lambda: [*layers, (0x40, self.unsigned), (0x20, self.unsigned), *spot],
            21: lambda: [*layers, (0x20, lambda: self.point_list(True)), *spot],
            22: lambda: [*layers, (0x40, self.unsigned), (0x80, self.extensions), (0x20, lambda: self.point_list(False)), *spot],
            27: lambda: [*layers, (0x20, self.unsigned), *spot],
        }[kind]()
        return bytes([info]) + b"".join(field() for bit, field in fields if info & bit)

    def extensions(self):
        scheme = self.random.randrange(16 if not self.one_in(40) else 18)
        return self.spelled(scheme) + b"".join(self.signed() for code in divmod(scheme, 4) if code == 3)

    def record(self):
        if self.one_in(8):
            return boxes.records(self.random)
        kinds = (0, 3, 5, 13, 14, 14, 15, 16, 17, 17, 18, 19, 20, 20, 20, 21, 21, 22, 22, 27)
        kind = self.random.choice(kinds) if not self.one_in(80) else self.random.randrange(36)
        if kind in (17, 18, 19, 20, 21, 22, 27):
            rest = self.element(kind)
        elif kind in (3, 4, 14):
            rest = self.text(NAMES)
        elif kind in (5, 6):
            rest = self.text(LABELS)
        else:
            rest = b""
        return self.spelled(kind) + rest + (self.spelled(self.random.randrange(3)) if kind in (4, 6, 13) else b"")

    def start(self, flag):
        version = b"1.0" if not self.one_in(100) else self.random.choice((b"1.1", b"1.00", b"\x7f"))
        offsets = b"" if flag else b"".join(self.unsigned() for _ in range(12))
        return b"\x01" + self.spelled(len(version)) + version + self.real([(1000, 1), (1, 5), (3, 2), (0, 1)] if self.one_in(40) else [(1000, 1), (1, 5), (3, 2)]) + self.spelled(flag) + offsets

    def end(self, flag):
        offsets = b"".join(self.unsigned() for _ in range(12)) if flag == 1 else b""
        scheme = b"\x00" if not self.one_in(60) else b"\x01"
        room = 256 - 1 - len(offsets) - 2 - len(scheme) + (self.random.choice((-1, 1)) if self.one_in(60) else 0)
        filling = bytes([self.random.choice((0, 0x20, 0x78, 0xFF))])
        return b"\x02" + offsets + bytes([room % 128 + 128, room // 128]) + filling * room + scheme

    def file(self):
        flag = self.random.randrange(2 if not self.one_in(60) else 4)
        body = [self.record() for _ in range(self.random.randrange(12))]
        if not self.one_in(6):
            body.insert(0, b"\x0e" + string(b"CELL"))
        out = bytearray(MAGIC + self.start(flag) + b"".join(body) + self.end(flag))
        if self.one_in(12):
            at = self.random.randrange(len(out))
            out[at] = self.random.randrange(256)
        if self.one_in(12):
            del out[self.random.randrange(len(out)):]
        if self.one_in(60):
            out += b"\x00"
        return bytes(out)
