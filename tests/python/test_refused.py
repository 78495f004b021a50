"""Why a file is refused: the table of the reasons, and the exception."""

import copy
import ctypes
import pathlib
import pickle
import subprocess
import sys

import oascanon
import pytest
from oascanon._reasons import REASONS


def cut(top):
    """A file that ends within its rectangle."""
    return (top / "examples/rectangle.oas").read_bytes()[:40]


def refused(*arguments):
    with pytest.raises(oascanon.Refused) as caught:
        oascanon.key(*arguments)
    return caught.value


def test_fields(top, tmp_path):
    (tmp_path / "cut.oas").write_bytes(cut(top))
    found = refused(tmp_path / "cut.oas")
    assert (found.number, found.name, found.offset, found.within) == (2, "Truncated", 37, None)
    assert found.meaning == "the input ends where a byte is needed"
    assert found.remedy == "Get the file again, or look in the writer for a length or count that is too large."
    assert str(found) == f"{tmp_path}/cut.oas: refused 2 at 37: Truncated: the input ends where a byte is needed"


def test_a_name_of_two_lines(top, tmp_path):
    (tmp_path / "two\nlines\r.oas").write_bytes(cut(top))
    found = refused(tmp_path / "two\nlines\r.oas")
    assert found.file == f"{tmp_path}/two\nlines\r.oas"
    assert str(found).startswith(f"{tmp_path}/two\\nlines\\r.oas: refused 2 at 37: ")


def test_a_file_without_a_name(top):
    assert str(refused(cut(top))).startswith("file 1: refused 2 at 37: ")


def test_it_crosses_to_another_process(top):
    found = refused(cut(top))
    for other in (pickle.loads(pickle.dumps(found)), copy.copy(found)):
        assert (type(other), other.args, str(other)) == (oascanon.Refused, found.args, str(found))


def test_the_table_is_that_of_the_documents(top):
    made = subprocess.run([sys.executable, top / "scripts/python-reasons"], capture_output=True, text=True, check=True).stdout
    assert (top / "python/oascanon/_reasons.py").read_text() == made
    assert [*REASONS] == [*range(1, 35), *range(101, 114)]


def test_the_names_are_those_of_the_library():
    library = ctypes.CDLL(str(pathlib.Path(oascanon.__file__).with_name("liboascanon.so")))
    library.oascanon_status_name.restype = ctypes.c_char_p
    library.oascanon_status_name.argtypes = [ctypes.c_uint32]
    for number, reason in REASONS.items():
        assert library.oascanon_status_name(number).decode() == reason.name


def test_the_sentences_are_those_of_the_command(program):
    explained = program("oascanon", "explain")[1].decode()
    for reason in REASONS.values():
        for sentence in reason:
            assert sentence in explained


SCARCE = """
import re, resource, sys
import oascanon
data = open(sys.argv[1], "rb").read()
# A hundred thousand placements, each at another x.
places = (bytes((x & 127 | 128, x >> 7 & 127 | 128, x >> 14)) for x in range(0, 200_000, 2))
many = data[:37] + b"".join(b"\\x11\\xb0\\x01A" + place + b"\\0" for place in places) + data[-256:]
used = int(re.search(r"VmSize:\\s*(\\d+) kB", open("/proc/self/status").read())[1]) * 1024
resource.setrlimit(resource.RLIMIT_AS, (used, resource.RLIM_INFINITY))
try:
    oascanon.key(many)
except oascanon.Refused as refused:
    resource.setrlimit(resource.RLIMIT_AS, (resource.RLIM_INFINITY, resource.RLIM_INFINITY))
    print(refused.number, refused.name, len(oascanon.key(many)))
"""


def test_out_of_memory(top):
    words = [sys.executable, "-c", SCARCE, top / "examples/rectangle.oas"]
    assert subprocess.run(words, capture_output=True, text=True, check=False).stdout == "34 Memory 64\n"
