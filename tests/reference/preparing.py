"""From a file of the standard to the canonical file of its layout, and what was left out: docs/PREPARING.md as code."""

import zlib
from collections import Counter
from math import gcd

from canonical import canonical
from foreign import take_wide
from layout import STANDARD, boxed, finish, read_end, read_head
from meaning import Drawn
from reading import END, START_AT, Refused, Stop
from wide import BLOCK, Wide, wide_record

# At each multiple of this many bytes of a block's data a run of PADs begins anew.
RUN = 2**20
COUNTED = {"property": "properties", "property name": "property names", "layer name": "layer names",
           "extension": "extensions", "extension name": "extension names"}


class File:
    """What was read of a file so far."""

    def __init__(self, dropped):
        self.records, self.drawn, self.counts, self.dropped = [], Drawn(STANDARD), Counter(), dropped

    def take(self, record):
        """The number of the reason for which a record is refused, or None."""
        self.records.append(record)
        return take_wide(self.records, self.drawn, self.dropped, self.counts)


def inflated(source, head):
    """A block's data, and None where its stream is what its head says, or else the number of the reason."""
    stream, data, taken = zlib.decompressobj(-15), b"", 0
    while taken < head["deflated"] and not stream.eof:
        byte = source.raw(1)
        taken += 1
        try:
            data += stream.decompress(byte)
        except zlib.error:
            raise Stop(108) from None
        if len(data) > head["inflated"]:
            raise Stop(106)
    is_used_up = taken == head["deflated"]
    while taken < head["deflated"]:
        source.byte()
        taken += 1
    if not stream.eof:
        return data, 108
    return data, None if len(data) == head["inflated"] and is_used_up else 106


def inner_record(source, offsets_in_end, cut):
    """The next record of a block's data. One that continues past their end is refused depending on how the stream ends."""
    try:
        record = wide_record(source, offsets_in_end)
    except Stop as stop:
        raise Stop((cut or 107) if stop.args[0] == 2 else stop.args[0]) from None
    if record["kind"] in (END, BLOCK):
        raise Stop(13 if record["kind"] == END else 105)
    return record


def pads(data, at):
    """How many PADs of one byte follow."""
    most = data[at:at + RUN - at % RUN]
    return len(most) - len(most.lstrip(b"\0"))


def take_block(source, head, start, file, offsets_in_end):
    """The records of a block's data are the file's."""
    if head["compression"]:
        raise Refused(start, 104)
    try:
        data, cut = inflated(source, head)
    except Stop as stop:
        raise Refused(start, stop.args[0]) from None
    inner, place = Wide(data), start
    while inner.at < len(data):
        place = f"{start}+{inner.at}"
        if run := pads(data, inner.at):
            inner.at += run
            continue
        try:
            why = file.take(inner_record(inner, offsets_in_end, cut))
        except Stop as stop:
            why = stop.args[0]
        if why is not None:
            raise Refused(place, why)
    if cut is not None:
        raise Refused(place, cut)


def read_records(source, file, offsets_in_end):
    """END, and where it begins."""
    while True:
        start = source.at
        try:
            record = wide_record(source, offsets_in_end)
        except Stop as stop:
            raise Refused(start, stop.args[0]) from None
        if record["kind"] == END:
            return record, start
        if record["kind"] == BLOCK:
            take_block(source, record, start, file, offsets_in_end)
        elif (why := file.take(record)) is not None:
            raise Refused(start, why)


def unit_of(num, den):
    num, den = num // gcd(num, den), den // gcd(num, den)
    if max(num, den) >= 2**64:
        raise Refused(START_AT, 6)
    return num, den


def is_signed(data, end):
    """Whether the signature is that of the bytes before it."""
    before = data[:end["signed"]]
    sums = {0: 0, 1: zlib.crc32(before), 2: sum(before) % 2**32}
    return end["signature"] == sums[end["scheme"]]


def prepared(data, dropped):
    """The canonical file, and how many records of which kind were left out; or Refused."""
    source, file = Wide(data), File(dropped)
    fraction, offsets_in_end = read_head(source)
    unit = unit_of(*fraction)
    end, start = read_records(source, file, offsets_in_end)
    read_end(source)
    if not is_signed(data, end):
        raise Refused(start, 113)
    cells = finish(file.records, file.drawn)
    if isinstance(cells, int):
        raise Refused(start, cells)
    return canonical((unit, boxed(cells))), file.counts


def said_of(name, counts):
    """The line of what was left out; nothing where nothing was."""
    parts = [f"{counts[one]} {one if counts[one] == 1 else many}" for one, many in COUNTED.items() if counts[one]]
    return f"{name}: left out {', '.join(parts)}\n".encode() if parts else b""


def preparation(name, data, dropped):
    """Status, output and error output of the second program, of a file and what is named to be left out."""
    try:
        out, counts = prepared(data, dropped)
    except Refused as refusal:
        return 1, b"", f"{name}: {refusal}\n".encode()
    return 0, out, said_of(name, counts)
