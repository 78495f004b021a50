"""docs/PYTHON.md: its examples print what it says."""

import doctest
import shutil


def test_examples(top, tmp_path, monkeypatch):
    (tmp_path / "examples").symlink_to(top / "examples")
    shutil.copy(top / "tests/rows/klayout/default-stdcell-with-everything.oas", tmp_path / "chip.oas")
    monkeypatch.chdir(tmp_path)
    failed, tried = doctest.testfile(str(top / "docs/PYTHON.md"), module_relative=False)
    assert tried > 5 and failed == 0


def test_it_is_short(top):
    lines = [line for line in (top / "docs/PYTHON.md").read_text().splitlines() if line and not line.startswith("    ")]
    assert len(lines) <= 10
