"""Random files, and the examples changed at random: the answers are those of the command, and nothing ends the process. The
command takes all files in one process, by --files0-from. One layout in ten is held against that of tests/reference."""

import hashlib
import os

import oascanon
from conftest import layout_of, said
from reading import Refused


def by_command(program, names, command, folder):
    """What the command says of each file, without its name: on standard output, or how it is refused."""
    (folder / "list").write_bytes(b"".join(os.fsencode(name) + b"\0" for name in names))
    _, out, err = program("oascanon", command, "--names", f"--files0-from={folder}/list")
    lines = out.decode().splitlines()
    words = [(line[66:], line[:64]) if command == "key" else line.split(": ") for line in lines]
    return dict([*words, *(line.split(": ") for line in err.decode().splitlines())])


def test_key(program, random_files, tmp_path):
    assert {name: said(oascanon.key, name) for name in random_files} == by_command(program, random_files, "key", tmp_path)


def test_check(program, random_files, tmp_path):
    words = {True: "canonical", False: "not canonical"}
    found = {name: said(oascanon.check, name) for name in random_files}
    assert {name: words.get(it, it) for name, it in found.items()} == by_command(program, random_files, "check", tmp_path)


def test_all_calls_agree(random_files):
    accepted = 0
    for name, other in zip(random_files, random_files[1:] + random_files[:1]):
        key, canonical, layout = said(oascanon.key, name), said(oascanon.canonicalize, name), said(oascanon.read, name)
        if isinstance(canonical, str):
            assert key == canonical == layout == said(oascanon.same, name, other)
            continue
        accepted += 1
        assert key == hashlib.sha256(canonical).hexdigest()
        assert oascanon.check(canonical) and oascanon.same(name, canonical) and oascanon.read(canonical) == layout
        second = said(oascanon.key, other)
        assert said(oascanon.same, name, other) == (second if " " in second else key == second)
    assert 0 < accepted < len(random_files)


def test_layouts(random_files):
    for name in random_files[::10]:
        with open(name, "rb") as file:
            data = file.read()
        try:
            wanted = layout_of(data)
        except Refused as refused:
            wanted = str(refused)
        assert said(oascanon.read, data) == wanted, data.hex()
