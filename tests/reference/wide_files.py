"""Random files of the standard: records outside the profile, compressed blocks, floats, long integers and signatures."""

import struct
import zlib

from files import Maker
from reading import MAGIC

STRINGS = (b"", b"P", b"S_CELL", b"two words", b"\x00\xff")
FLOATS = (0.0, 1.0, -1.0, 0.5, 90.0, -90.0, 450.0, 1000.0, 0.1, 2.0**63, 2.0**64, float("inf"), float("nan"))
CLOSING = [bytes([kind]) for kind in (3, 4, 5, 6, 7, 8, 9, 10, 11, 12, 30, 31)]
WORDS = ("properties", "layer-names", "extensions")


class WideMaker(Maker):
    """One file, from a seed, and what is named to be left out of it."""

    def dropped(self):
        return [word for word in WORDS if not self.one_in(4)]

    def spelled(self, value):
        """A number, sometimes with more idle bytes than the profile allows."""
        out = bytearray(super().spelled(value))
        if self.one_in(50):
            out[-1] |= 0x80
            out += b"\x80" * self.random.randrange(12) + b"\x00"
        return bytes(out)

    def real(self, values):
        if not self.one_in(8):
            return super().real(values)
        number = self.random.choice(FLOATS)
        return b"\x06" + struct.pack("<f", number) if self.one_in(2) else b"\x07" + struct.pack("<d", number)

    def string(self):
        text = self.random.choice(STRINGS)
        return self.spelled(len(text)) + text

    def interval(self):
        kind = self.random.randrange(5 if not self.one_in(30) else 7)
        return self.spelled(kind) + b"".join(self.unsigned() for _ in range({0: 0, 4: 2}.get(kind, 1)))

    def value(self):
        kind = self.random.randrange(16 if not self.one_in(30) else 18)
        if kind < 6:
            return self.spelled(kind) + b"".join(self.unsigned() for _ in range(2 if kind > 3 else 1))
        if kind < 8:
            return self.spelled(kind) + self.random.randbytes(4 if kind == 6 else 8)
        return self.spelled(kind) + (self.string() if 9 < kind < 13 else self.unsigned())

    def prop(self):
        info = self.random.randrange(256) & (0x0F if self.one_in(2) else 0xF7)
        out = bytes([info])
        if info & 4:
            out += self.unsigned() if info & 2 else self.string()
        if info & 8:
            return out
        count = self.random.randrange(4) if info > 0xEF else info // 16
        return out + (self.spelled(count) if info > 0xEF else b"") + b"".join(self.value() for _ in range(count))

    def spot(self):
        return [(0x10, self.signed), (8, self.signed), (4, self.repetition)]

    def trapezoid(self, kind):
        info = self.random.randrange(256) | self.random.choice((0, 0x7B, 0x7B, 0xFB))
        lean = [(256, self.signed)] * {23: 2, 24: 1, 25: 1, 26: 0}[kind]
        named = [(0x80, lambda: self.spelled(self.number(27)))] if kind == 26 else []
        sides = [(0x40, self.side), (0x20, self.side)]
        fields = [(1, self.unsigned), (2, self.unsigned), *named, *sides, *lean, *self.spot()]
        return bytes([info]) + b"".join(field() for bit, field in fields if (info | 256) & bit)

    def side(self):
        return self.spelled(self.random.choice((0, 10, 20, 20, 40, 40, 100)) if not self.one_in(40) else self.number())

    def extension(self, kind):
        if kind < 33:
            return self.unsigned() + self.string() + (self.unsigned() if kind == 31 else b"")
        info = self.random.randrange(32) if not self.one_in(30) else self.random.randrange(256)
        fields = [(1, self.unsigned), (2, self.unsigned), (256, self.string), *self.spot()]
        return bytes([info]) + self.unsigned() + b"".join(field() for bit, field in fields if (info | 256) & bit)

    def foreign(self):
        names = (*range(7, 13), 30, 31)
        kind = self.random.choice(names if self.one_in(12) else (23, 24, 25, 26, 26, 26, 28, 29, 32, 33))
        if kind < 13:
            rest = self.string() + (self.unsigned() if kind in (8, 10) else b"")
            rest += self.interval() + self.interval() if kind > 10 else b""
        elif kind < 27:
            rest = self.trapezoid(kind)
        else:
            rest = self.prop() if kind == 28 else self.extension(kind) if kind > 29 else b""
        return self.spelled(kind) + rest

    def record(self):
        record = super().record() if self.one_in(2) else self.foreign()
        # a name closes the cell
        return record + b"\x0e\x01%c" % self.random.randrange(0x41, 0x5B) if record[:1] in CLOSING and not self.one_in(3) else record

    def block(self, data):
        """A block of that data, whose stream or lengths are sometimes wrong."""
        stream = zlib.compressobj(self.random.randrange(10), zlib.DEFLATED, -15, strategy=self.random.randrange(5))
        bytes_of = bytearray(stream.compress(data) + stream.flush())
        if self.one_in(15):
            del bytes_of[self.random.randrange(len(bytes_of)):]
        if self.one_in(15) and bytes_of:
            bytes_of[self.random.randrange(len(bytes_of))] ^= 1 << self.random.randrange(8)
        if self.one_in(20):
            bytes_of += bytes(self.random.randrange(1, 4))
        length = len(data) + (self.random.choice((-1, 1, 5)) if self.one_in(15) else 0)
        kind = self.random.randrange(3) if self.one_in(40) else 0
        return b"\x22" + b"".join(map(self.spelled, (kind, max(length, 0), len(bytes_of)))) + bytes(bytes_of)

    def body(self):
        records = [self.record() for _ in range(self.random.randrange(14))]
        if not self.one_in(6):
            records.insert(0, b"\x0e\x04CELL" + (b"" if self.one_in(3) else b"\x14\x7b\x01\x00\x28\x28\x00\x00"))
        if self.one_in(2):
            first, last = sorted((self.random.randrange(len(records) + 1), self.random.randrange(len(records) + 1)))
            records[first:last] = [self.block(b"".join(records[first:last]))]
        return b"".join(records)

    def signed_end(self, flag, front):
        """END by one of the schemes, with the signature of what comes before that."""
        scheme = self.random.randrange(3) if not self.one_in(30) else 3
        offsets = b"".join(self.unsigned() for _ in range(12)) if flag == 1 else b""
        room = 256 - 1 - len(offsets) - 2 - 1 - 4 * (scheme > 0) + (self.random.choice((-1, 1)) if self.one_in(60) else 0)
        front += b"\x02" + offsets + bytes([room % 128 + 128, room // 128]) + bytes(room) + bytes([scheme])
        signature = zlib.crc32(front) if scheme == 1 else sum(front)
        if self.one_in(15):
            signature ^= 1 << self.random.randrange(32)
        return front + (signature.to_bytes(4, "little") if scheme else b"")

    def file(self):
        flag = self.random.randrange(2 if not self.one_in(60) else 4)
        out = bytearray(self.signed_end(flag, MAGIC + self.start(flag) + self.body()))
        if self.one_in(20):
            out[self.random.randrange(len(out))] = self.random.randrange(256)
        if self.one_in(20):
            del out[self.random.randrange(len(out)):]
        if self.one_in(60):
            out += b"\x00"
        return bytes(out)
