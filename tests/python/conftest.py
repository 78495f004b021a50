"""What the tests of the Python package share: where things are, the rows of the gate, and layouts by the plain program of
tests/reference."""

import os
import pathlib
import random
import subprocess
import sys
from fractions import Fraction

import oascanon
import pytest

TOP = pathlib.Path(__file__).resolve().parents[2]
sys.path.insert(0, str(TOP / "tests/reference"))

import files  # noqa: E402
import layout as reference  # noqa: E402
import rows  # noqa: E402

KINDS = (oascanon.Placement, oascanon.Text, oascanon.Rectangle, oascanon.Polygon, oascanon.Path, oascanon.Circle)


def element_of(made):
    """An element of tests/reference as the package has it."""
    kind, *fields = (each.decode() if isinstance(each, bytes) else each for each in made)
    if kind == 0:
        fields[4] = bool(fields[4])
    if kind == 1:
        fields = [*fields[1:], fields[0]]
    if kind in (3, 4):
        fields[-1] = tuple(oascanon.Point(*point) for point in fields[-1])
    return KINDS[kind](*fields)


def layout_of(data):
    """The layout that a file means by tests/reference, or Refused."""
    unit, cells = reference.read(data)
    made = [(name.decode(), sorted(counted.elements())) for name, counted in sorted(cells.items())]
    return oascanon.Layout(Fraction(*unit), tuple(oascanon.Cell(name, tuple(map(element_of, each))) for name, each in made))


def said(call, *files, **options):
    """What a call returns, or how the command says that it refuses a file."""
    try:
        return call(*files, **options)
    except oascanon.Refused as refused:
        return str(refused).split(": ")[1]


@pytest.fixture(scope="session")
def top():
    return TOP


@pytest.fixture(scope="session")
def program():
    """Runs the command, or the second program, with these words. Returns its status, output and error output."""
    folder = pathlib.Path(os.environ["OASCANON"]).resolve().parent

    def run(name, *words):
        ran = subprocess.run([folder / name, *words], stdin=subprocess.DEVNULL, capture_output=True, check=False)
        return ran.returncode, ran.stdout, ran.stderr

    return run


@pytest.fixture(scope="session")
def how_many():
    """How many random files are tried."""
    return int(os.environ.get("OASCANON_FILES", "1000"))


@pytest.fixture(scope="session")
def all_rows():
    """The rows of the gate by profile two."""
    return [row for row in rows.all_rows() if row.profile == 2]


def changed(data, made):
    """A file, changed at a few places, most of them before END."""
    out = bytearray(data)
    for _ in range(made.randrange(1, 4)):
        at = made.randrange(min(len(out), 64 if made.randrange(4) else len(out)) + 1)
        length = made.randrange(4)
        out[at : at + made.randrange(4)] = made.choice([bytes(length), made.randbytes(length), out[at : at + length] * 2])
    return bytes(out if made.randrange(16) else out[: made.randrange(len(out) + 1)])


def random_file(seed, examples):
    """One file in two is a changed example, and one a random file of the profile, some of them with faults."""
    made = random.Random(seed)
    return changed(made.choice(examples), made) if seed % 2 else files.Maker(seed).file()


def files_in(folder):
    return [path.read_bytes() for path in sorted(folder.glob("*.oas"))]


@pytest.fixture(scope="session")
def random_files(tmp_path_factory, how_many):
    """The names of random files."""
    folder, examples = tmp_path_factory.mktemp("random"), files_in(TOP / "examples")
    for seed in range(how_many):
        (folder / f"{seed}.oas").write_bytes(random_file(seed, examples))
    return [str(folder / f"{seed}.oas") for seed in range(how_many)]
