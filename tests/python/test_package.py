"""The package: what its wheel holds, and that pip takes it without a network."""

import base64
import csv
import hashlib
import importlib.util
import inspect
import os
import pathlib
import subprocess
import sys
import typing
import zipfile

import oascanon
import pytest

INSTALLED = pathlib.Path(oascanon.__file__).parent
LIBRARY = INSTALLED / "liboascanon.so"


@pytest.fixture
def backend(top, monkeypatch):
    monkeypatch.setenv("OASCANON_LIBRARY", str(LIBRARY))
    spec = importlib.util.spec_from_file_location("backend", top / "python/backend.py")
    module = importlib.util.module_from_spec(spec)
    spec.loader.exec_module(module)
    return module


def test_the_wheel(backend, tmp_path, top):
    name = backend.build_wheel(tmp_path)
    assert name == f"oascanon-{oascanon.__version__}-py3-none-linux_x86_64.whl"
    with zipfile.ZipFile(tmp_path / name) as wheel:
        files = {path: wheel.read(path) for path in wheel.namelist()}
    assert files["oascanon/liboascanon.so"] == LIBRARY.read_bytes()
    sources = {f"oascanon/{path.name}" for path in (top / "python/oascanon").iterdir() if path.is_file()}
    (folder,) = {path.split("/")[0] for path in files} - {"oascanon"}
    about = {f"{folder}/{each}" for each in ("METADATA", "WHEEL", "RECORD")}
    assert set(files) == sources | about | {"oascanon/liboascanon.so"}
    assert b"Root-Is-Purelib: false\n" in files[f"{folder}/WHEEL"]
    for path, digest, size in csv.reader(files.pop(f"{folder}/RECORD").decode().splitlines()):
        if path in files:
            made = base64.urlsafe_b64encode(hashlib.sha256(files[path]).digest()).decode().rstrip("=")
            assert (digest, int(size)) == (f"sha256={made}", len(files.pop(path)))
    assert not files


def test_made_twice_it_has_the_same_bytes(backend, tmp_path):
    wheels = []
    for folder in (tmp_path / "one", tmp_path / "two"):
        folder.mkdir()
        wheels.append((folder / backend.build_wheel(folder)).read_bytes())
    assert wheels[0] == wheels[1]


def test_the_version_is_that_of_the_command(program):
    version = program("oascanon", "--version")[1].decode().split()[1]
    assert oascanon.__version__ == version.replace("-dev", ".dev0")


def test_without_the_library_it_says_what_to_do(top, tmp_path):
    given = {**os.environ, "OASCANON_LIBRARY": "/none.so"}
    words = [sys.executable, top / "python/backend.py", tmp_path]
    ran = subprocess.run(words, env=given, stderr=subprocess.PIPE, text=True, check=False)
    assert ran.returncode == 1 and ran.stderr == "/none.so isn't there: `make lib` at the top of the repository makes it\n"


def test_a_package_without_its_library_is_an_import_error(tmp_path):
    folder = tmp_path / "oascanon"
    folder.mkdir()
    for path in INSTALLED.glob("*.py"):
        (folder / path.name).write_bytes(path.read_bytes())
    words = [sys.executable, "-c", "import oascanon"]
    ran = subprocess.run(words, cwd=tmp_path, env={}, stderr=subprocess.PIPE, text=True, check=False)
    assert "ImportError: the library of oascanon can't be loaded" in ran.stderr


def test_all_that_is_public_is_described():
    public = [getattr(oascanon, name) for name in oascanon.__all__ if name not in ("File", "Element")]
    for thing in public:
        # The docstring that a dataclass gets by itself is its name and its fields.
        assert inspect.getdoc(thing) and not inspect.getdoc(thing).startswith(f"{thing.__name__}(")
        if inspect.isfunction(thing):
            parameters = inspect.signature(thing).parameters
            assert {*typing.get_type_hints(thing)} == {*parameters, "return"}
            assert parameters["limits"].kind is inspect.Parameter.KEYWORD_ONLY
