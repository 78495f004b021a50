"""Layouts that KLayout makes at random and writes by its defaults, read again here: shape by shape the same."""

import json
import os
import pathlib
import subprocess
from collections import Counter

import layout as reference
import oascanon
import pytest
from conftest import element_of
from meaning import least_reading
from oascanon import Drop

# Debian's KLayout, its Python module, and the Python for which that is made.
KLAYOUT = pathlib.Path("/usr/lib/klayout")
MODULES = KLAYOUT / "pymod"
PYTHON = "/usr/bin/python3"
HOW_MANY = 200


@pytest.fixture(scope="module")
def folder(tmp_path_factory):
    if not (MODULES / "klayout/db").exists():
        pytest.skip("KLayout's Python module isn't here (Debian's klayout)")
    folder = tmp_path_factory.mktemp("klayout")
    paths = {"LD_LIBRARY_PATH": str(KLAYOUT), "PYTHONPATH": str(MODULES)}
    script = pathlib.Path(__file__).with_name("klayout_files.py")
    subprocess.run([PYTHON, script, folder, str(HOW_MANY)], env={**os.environ, **paths}, check=True)
    return folder


def made_of(fields):
    """An element as tests/reference has it: a polygon in its least reading, or as the rectangle that it goes round."""
    kind, *rest = fields
    if kind == 3:
        return reference.in_profile_two((kind, *rest[:2], least_reading([tuple(point) for point in rest[2]])))
    return (kind, *rest[:-1], tuple(map(tuple, rest[-1]))) if kind == 4 else (kind, *rest)


def test_each_shape_comes_back(folder):
    kinds = Counter()
    for seed in range(HOW_MANY):
        told = json.loads((folder / f"{seed}.json").read_text())
        prepared = oascanon.prepare(folder / f"{seed}.oas", drop=Drop.PROPERTIES | Drop.LAYER_NAMES)
        layout = oascanon.read(prepared.canonical)
        assert layout.unit == told["steps"]
        assert [cell.name for cell in layout.cells] == sorted(told["cells"])
        for cell in layout.cells:
            wanted = Counter(element_of(made_of(fields)) for fields in told["cells"][cell.name])
            assert Counter(cell.elements) == wanted, (seed, cell.name)
            kinds.update(type(element) for element in wanted)
    assert len(kinds) == 5 and min(kinds.values()) > HOW_MANY // 10


def test_what_is_left_out_is_counted(folder):
    both = Drop.PROPERTIES | Drop.LAYER_NAMES
    counted = [oascanon.prepare(folder / f"{seed}.oas", drop=both).left_out for seed in range(HOW_MANY)]
    assert all(left_out.properties and not left_out.extensions for left_out in counted)
    assert any(left_out.layer_names for left_out in counted)
    with pytest.raises(oascanon.Refused) as caught:
        oascanon.prepare(folder / "0.oas")
    assert caught.value.name == "Properties"
