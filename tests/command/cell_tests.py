"""The keys of cells: each is the hash of the file of that cell alone."""
import hashlib
import subprocess

from layouts import cell, file_of, rectangle

CELLS = {
    b"A": cell(b"A") + rectangle(1, 0, 10, 20, 0, 0),
    b'"\\~': cell(b'"\\~'),
    b"B": cell(b"B") + rectangle(2, 0, 5, 5, 1, 1) * 2,
}


def keys(program, data, *words):
    return subprocess.run([program, "keys", *words], input=data, capture_output=True)


def line(name):
    return hashlib.sha256(file_of(CELLS[name])).hexdigest().encode() + b"  " + name + b"\n"


def test_each_cell(program, folder):
    done = keys(program, file_of(CELLS[b"B"] + CELLS[b'"\\~'] + CELLS[b"A"]))
    assert (done.returncode, done.stderr) == (0, b"")
    assert done.stdout == line(b'"\\~') + line(b"A") + line(b"B")


def test_one_cell_has_the_key_of_its_file(program, folder):
    (folder / "in").write_bytes(file_of(CELLS[b"B"]))
    key = subprocess.run([program, "key", folder / "in"], capture_output=True).stdout
    assert keys(program, None, folder / "in").stdout == key[:-1] + b"  B\n"


def test_no_cell(program, folder):
    done = keys(program, file_of(b""))
    assert (done.returncode, done.stdout, done.stderr) == (0, b"", b"")


def test_refused(program, folder):
    done = keys(program, file_of(CELLS[b"A"])[:-1])
    assert (done.returncode, done.stdout) == (1, b"")
    assert done.stderr.startswith(b"standard input: refused ")
