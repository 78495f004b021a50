"""diff, info and keys: the rows of the gate."""

import json

import oascanon
from conftest import said
from test_rows import files, rows_of, wanted


def test_diff(all_rows):
    for row in rows_of(all_rows, "diff"):
        assert said(oascanon.diff, *files(row)) == wanted(row, row.wanted[1].decode().splitlines()), row.name


def test_info(all_rows):
    for row in rows_of(all_rows, "info", "--json"):
        assert said(oascanon.info, *files(row)) == wanted(row, json.loads(row.wanted[1] or "null")), row.name


def test_keys(all_rows):
    for row in rows_of(all_rows, "keys"):
        lines = [line.split("  ") for line in row.wanted[1].decode().splitlines()]
        found = said(oascanon.keys, *files(row))
        assert found == wanted(row, {name: key for key, name in lines}), row.name
        assert isinstance(found, str) or [*found] == sorted(found), row.name


def test_the_second_file_is_named(tmp_path, top):
    (tmp_path / "bad.oas").write_bytes(b"")
    try:
        oascanon.diff(top / "examples/rectangle.oas", tmp_path / "bad.oas")
    except oascanon.Refused as refused:
        assert (refused.file, refused.which) == (str(tmp_path / "bad.oas"), 2)
    else:
        raise AssertionError("it isn't refused")


def test_answers_that_outgrow_the_first_room(top):
    data = (top / "examples/rectangle.oas").read_bytes()
    many = data[:34] + b"".join(b"\x0e\x04%04d" % number for number in range(9999)) + data[-256:]
    assert oascanon.info(many)["unplaced"] == [f"{number:04d}" for number in range(9999)]
    assert [*oascanon.keys(many)] == [f"{number:04d}" for number in range(9999)]
    assert oascanon.diff(data, many) == [
        *(f"+ 1 cell {number:04d}" for number in range(9999)), "- 1 cell A", "- 1 rectangle 1 0 10 20 0 0"
    ]


def test_weights(random_files):
    accepted = [name for name in random_files[::10] if not isinstance(said(oascanon.read, name), str)]
    assert accepted
    for name in accepted:
        assert oascanon.read(name).weight == oascanon.info(name)["weight"]
