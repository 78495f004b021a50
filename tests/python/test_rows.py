"""The rows of the gate, which were worked out by the rules: each call gives the answer that its row has."""

import hashlib

import oascanon
import pytest
from conftest import layout_of, said


def rows_of(all_rows, *command):
    found = [row for row in all_rows if row.program == "oascanon" and row.command == command]
    assert found
    return found


def wanted(row, answer):
    """The answer, or where the row's file is refused how the command says so."""
    status, _, err = row.wanted
    return err.decode().strip().split(": ")[1] if status == 1 else answer


def files(row):
    return [data for _, data in row.files]


def limits_of(row):
    return oascanon.Limits(*row.limits)


def test_canon(all_rows):
    for row in rows_of(all_rows, "canon"):
        assert said(oascanon.canonicalize, *files(row), limits=limits_of(row)) == wanted(row, row.wanted[1]), row.name


def test_key_of_the_rows_of_canon(all_rows):
    for row in rows_of(all_rows, "canon"):
        digest = hashlib.sha256(row.wanted[1]).hexdigest()
        assert said(oascanon.key, *files(row), limits=limits_of(row)) == wanted(row, digest), row.name


def test_read_of_the_rows_of_canon(all_rows):
    for row in rows_of(all_rows, "canon"):
        layout = said(oascanon.read, *files(row), limits=limits_of(row))
        assert layout == (wanted(row, None) or layout_of(row.wanted[1])), row.name


def test_key(all_rows):
    for row in rows_of(all_rows, "key"):
        assert said(oascanon.key, *files(row)) == wanted(row, row.wanted[1].decode().strip()), row.name


@pytest.mark.parametrize("call", [oascanon.check, oascanon.same])
def test_yes_or_no(all_rows, call):
    for row in rows_of(all_rows, call.__name__):
        assert said(call, *files(row)) == wanted(row, row.wanted[0] == 0), row.name


def test_show(all_rows):
    for row in rows_of(all_rows, "show"):
        layout = said(oascanon.read, *files(row))
        assert layout == (wanted(row, None) or layout_of(*files(row))), row.name
