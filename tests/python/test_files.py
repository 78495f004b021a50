"""What a file may be, and what becomes of others."""

import io
import mmap
import os
from array import array

import oascanon
import pytest

KEY = "faa9cb7d21110cae5bde5660c1b56c7b0b00a54880eacf1bfeba45a6cc348d77"


@pytest.fixture
def path(top):
    return top / "examples/rectangle-respelled.oas"


class Named:
    """A path of another class."""

    def __init__(self, name):
        self.name = name

    def __fspath__(self):
        return self.name


class Slow(io.RawIOBase):
    """A file that gives a byte at a time."""

    def __init__(self, data):
        self.rest = list(data)

    def readable(self):
        return True

    def readinto(self, room):
        if not self.rest:
            return 0
        room[0] = self.rest.pop(0)
        return 1


def test_paths(path):
    for file in (str(path), path, Named(str(path)), Named(bytes(path))):
        assert oascanon.key(file) == KEY


def test_bytes_likes(path):
    data = path.read_bytes()
    assert len(data) % 2 == 1
    strided = memoryview(bytes(byte for each in data for byte in (each, 0)))[::2]
    for file in (data, bytearray(data), memoryview(data), memoryview(bytearray(data)), strided, array("B", data)):
        assert oascanon.key(file) == KEY
    with open(path, "rb") as file, mmap.mmap(file.fileno(), 0, access=mmap.ACCESS_READ) as mapped:
        assert oascanon.key(mapped) == KEY


def test_binary_files(path):
    data = path.read_bytes()
    opened = open(path, "rb"), open(path, "rb", buffering=0), os.fdopen(os.open(path, os.O_RDONLY), "rb")
    for file in (io.BytesIO(data), Slow(data), *opened):
        with file:
            assert oascanon.key(file) == KEY
            assert file.read() == b""


def test_a_file_is_read_from_where_it_stands(path):
    file = io.BytesIO(b"before" + path.read_bytes())
    file.seek(6)
    assert oascanon.key(file) == KEY


def test_a_pipe(path):
    ends = os.pipe()
    with open(ends[0], "rb") as source, open(ends[1], "wb") as sink:
        sink.write(path.read_bytes())
        sink.close()
        assert oascanon.key(source) == KEY


def test_what_is_no_file():
    for file in (None, 1, 1.0, object(), ["a"], ("a",), {}, io.StringIO("%SEMI-OASIS\r\n")):
        for call in (oascanon.key, oascanon.canonicalize, oascanon.check, oascanon.read):
            with pytest.raises(TypeError):
                call(file)


def test_a_file_that_is_open_as_text(path):
    with open(path, encoding="latin-1") as file, pytest.raises(TypeError, match="binary"):
        oascanon.key(file)


def test_faults_of_the_system_are_those_of_python(tmp_path, path):
    with pytest.raises(FileNotFoundError) as caught:
        oascanon.key(tmp_path / "none.oas")
    assert caught.value.filename == str(tmp_path / "none.oas")
    with pytest.raises(IsADirectoryError):
        oascanon.read(tmp_path)
    with pytest.raises(FileNotFoundError):
        oascanon.same(path, "")

    class Fails(io.RawIOBase):
        def read(self, size=-1):
            raise OSError(5, "it fails")

    with pytest.raises(OSError, match="it fails"):
        oascanon.check(Fails())


def test_a_file_that_does_not_wait():
    ends = os.pipe()
    os.set_blocking(ends[0], False)
    with open(ends[0], "rb", buffering=0) as source, open(ends[1], "wb"):
        with pytest.raises(BlockingIOError):
            oascanon.key(source)


class Endless:
    """A file of these bytes, and then of zeros without an end."""

    def __init__(self, data):
        self.data, self.given = io.BytesIO(data), 0

    def read(self, size):
        piece = self.data.read(size) or bytes(size)
        self.given += len(piece)
        return piece


def test_no_more_is_read_than_the_limit_of_the_input_and_one_byte(path):
    limits = oascanon.Limits(elements=1, weight=8, input=320 + 64 * 8)
    for data, number in ((b"", 1), (path.read_bytes(), 30), (path.read_bytes()[:-256], 31)):
        endless = Endless(data)
        with pytest.raises(oascanon.Refused) as caught:
            oascanon.key(endless, limits=limits)
        assert (caught.value.number, endless.given) == (number, limits.input + 1)


def test_names(tmp_path, path):
    bad = tmp_path / "bad.oas"
    bad.write_bytes(path.read_bytes()[:40])
    data, number = bad.read_bytes(), os.open(bad, os.O_RDONLY)
    named = [(file, str(bad)) for file in (str(bad), bad, Named(bytes(bad)), open(bad, "rb"))]
    for file, name in [*named, (data, None), (io.BytesIO(data), None), (open(number, "rb"), None)]:
        with pytest.raises(oascanon.Refused) as caught:
            oascanon.key(file)
        assert (caught.value.file, caught.value.which) == (name, 1)
    for file, name in ((bad, str(bad)), (data, None)):
        with pytest.raises(oascanon.Refused) as caught:
            oascanon.same(path, file)
        assert (caught.value.file, caught.value.which) == (name, 2)


def test_bytes_are_unchanged(path):
    data = bytearray(path.read_bytes())
    before = bytes(data)
    oascanon.canonicalize(data)
    assert data == before
    data += b"they can still grow"
