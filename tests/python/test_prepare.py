"""prepare: the rows of the gate for the second program, what it says of what it left out, and random files of the standard."""

import random
from dataclasses import asdict

import oascanon
import pytest
from conftest import changed, files_in, said
from oascanon import Drop
from wide_files import WideMaker

WORDS = {"properties": Drop.PROPERTIES, "layer-names": Drop.LAYER_NAMES, "extensions": Drop.EXTENSIONS}
COUNTED = {
    "properties": ("property", "properties"),
    "property_names": ("property name", "property names"),
    "layer_names": ("layer name", "layer names"),
    "extensions": ("extension", "extensions"),
    "extension_names": ("extension name", "extension names"),
}


def dropped(words):
    """The flags of the words that --drop takes."""
    drop = Drop.NOTHING
    for word in words:
        drop |= WORDS[word]
    return drop


def line(name, left_out):
    """The line that the second program says of what was left out."""
    counts = [f"{count} {COUNTED[kind][count != 1]}" for kind, count in asdict(left_out).items() if count]
    return f"{name}: left out {', '.join(counts)}\n" if counts else ""


def answer(file, drop, name):
    """Output and error output, as the second program has them."""
    prepared = said(oascanon.prepare, file, drop=drop)
    if isinstance(prepared, str):
        return b"", f"{name}: {prepared}\n".encode()
    return prepared.canonical, line(name, prepared.left_out).encode()


@pytest.fixture
def prepared_rows(all_rows):
    """The rows in which a file is prepared, each with what is to be left out."""
    rows = [row for row in all_rows if row.program == "oasprep"]
    found = [row for row in rows if row.command == () or row.command[0] == "--drop" and len(row.command) == 2]
    assert found
    return [(row, dropped(row.command[1].split(",") if row.command else ())) for row in found]


def test_rows(prepared_rows):
    for row, drop in prepared_rows:
        assert answer(row.files[0][1], drop, "first") == row.wanted[1:], row.name


def test_a_place_in_a_block_has_two_parts(prepared_rows):
    inside = [(row, drop) for row, drop in prepared_rows if row.wanted[0] == 1 and b"+" in row.wanted[2]]
    assert inside
    for row, drop in inside:
        with pytest.raises(oascanon.Refused) as caught:
            oascanon.prepare(row.files[0][1], drop=drop)
        place = row.wanted[2].decode().split(" at ")[1]
        assert f"{caught.value.offset}+{caught.value.within}\n" == place, row.name


@pytest.mark.parametrize("drop", [3, "properties", None, ["properties"]])
def test_what_is_dropped_is_of_its_type(top, drop):
    with pytest.raises(TypeError):
        oascanon.prepare(top / "examples/rectangle.oas", drop=drop)


def foreign(seed, written):
    """What is to be left out, and a file of the standard: one in two is a changed file of KLayout's, and one a random file."""
    maker, made = WideMaker(seed), random.Random(seed)
    return maker.dropped(), changed(made.choice(written), made) if seed % 2 else maker.file()


def test_random_files(program, how_many, top, tmp_path):
    """The program takes one file at a time, so it is given a tenth as many."""
    written, name = files_in(top / "tests/rows/klayout"), str(tmp_path / "foreign.oas")
    for words, data in (foreign(seed, written) for seed in range(how_many // 10)):
        (tmp_path / "foreign.oas").write_bytes(data)
        wanted = program("oasprep", *(["--drop", ",".join(words)] if words else []), name)[1:]
        assert answer(name, dropped(words), name) == wanted, data.hex()
