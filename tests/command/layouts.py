"""Small and large files for the tests of the command."""

MAGIC = b"%SEMI-OASIS\r\n"
START = b"\x01\x031.0\x00\xe8\x07" + bytes(13)
END = b"\x02\xfc\x01" + bytes(253)


def number(n):
    """An unsigned integer in its shortest spelling."""
    front = b""
    while n > 127:
        front += bytes([n % 128 + 128])
        n //= 128
    return front + bytes([n])


def cell(name):
    return b"\x0e" + number(len(name)) + name


def rectangle(layer, datatype, width, height, x, y):
    """A RECTANGLE record that gives all fields, at a place that isn't negative."""
    return b"\x14\x7b" + b"".join(map(number, (layer, datatype, width, height, 2 * x, 2 * y)))


def file_of(body):
    return MAGIC + START + body + END


SMALL = file_of(cell(b"A") + rectangle(1, 0, 10, 20, 0, 0))

RESPELLED = file_of(cell(b"A") + b"\x00" + rectangle(1, 0, 10, 20, 0, 0))


def large(count):
    """A canonical file with this many rectangles."""
    return file_of(cell(b"A") + b"".join(rectangle(1, 0, 10, 20, i, 0) for i in range(count)))
