"""The second program, `oasprep`, which is next to the first."""
import pathlib, re, subprocess

from layouts import SMALL, cell, file_of, rectangle

TOP = pathlib.Path(__file__).resolve().parents[2]
RECTANGLE = rectangle(1, 0, 10, 20, 0, 0)
# A property P with the value 5, and the same once more; their name; a name of layers; an extension and its name.
PROPERTY, AGAIN = b"\x1c\x14\x01P\x08\x05", b"\x1d"
PROPERTY_NAME, LAYER_NAME = b"\x07\x01P", b"\x0b\x01L\x00\x00"
EXTENSION, EXTENSION_NAME = b"\x20\x00\x01Y", b"\x1e\x00\x01X"
DRESSED = file_of(PROPERTY_NAME + LAYER_NAME + EXTENSION_NAME + cell(b"A") + RECTANGLE + PROPERTY + AGAIN + EXTENSION)
ALL = "properties,layer-names,extensions"
SAID = "left out 2 properties, 1 property name, 1 layer name, 1 extension, 1 extension name"


def prep(program, *words, **more):
    beside = pathlib.Path(program).with_name("oasprep")
    return subprocess.run([beside, *words], capture_output=True, **more)


def test_pipe(program, folder):
    done = prep(program, "--drop", ALL, input=DRESSED)
    assert (done.returncode, done.stdout, done.stderr) == (0, SMALL, f"standard input: {SAID}\n".encode())


def test_dashes(program, folder):
    done = prep(program, "--drop", ALL, "-", "-", input=DRESSED)
    assert (done.returncode, done.stdout, done.stderr) == (0, SMALL, f"standard input: {SAID}\n".encode())


def test_files(program, folder):
    (folder / "in").write_bytes(DRESSED)
    done = prep(program, "--drop", ALL, folder / "in", folder / "out")
    assert (done.returncode, done.stdout, done.stderr) == (0, b"", f"{folder}/in: {SAID}\n".encode())
    assert (folder / "out").read_bytes() == SMALL


def test_onto_itself(program, folder):
    (folder / "in").write_bytes(DRESSED)
    assert prep(program, "--drop", ALL, folder / "in", folder / "in").returncode == 0
    assert (folder / "in").read_bytes() == SMALL


def test_words_for_what_is_left_out(program, folder):
    forms = [
        ("--drop", "properties", "--drop", "layer-names", "--drop", "extensions"),
        ("--drop=properties,extensions", "--drop=layer-names"),
        ("--drop", "extensions,properties,layer-names,properties"),
    ]
    for words in forms:
        assert prep(program, *words, input=DRESSED).stdout == SMALL, words


def test_nothing_is_left_out_unnamed(program, folder):
    for word, body, number in (("properties", PROPERTY, 101), ("layer-names", LAYER_NAME, 102), ("extensions", EXTENSION, 103)):
        whole = file_of(cell(b"A") + RECTANGLE + body)
        others = ",".join(other for other in ALL.split(",") if other != word)
        for words in ((), ("--drop", others)):
            done = prep(program, *words, input=whole)
            assert (done.returncode, done.stdout) == (1, b"")
            assert done.stderr == f"standard input: refused {number} at 45\n".encode()
        assert prep(program, "--drop", word, input=whole).stdout == SMALL


def test_nothing_is_said_of_nothing(program, folder):
    done = prep(program, "--drop", ALL, input=SMALL)
    assert (done.returncode, done.stdout, done.stderr) == (0, SMALL, b"")


def test_refused_creates_nothing(program, folder):
    (folder / "in").write_bytes(DRESSED)
    done = prep(program, folder / "in", folder / "out")
    assert (done.returncode, done.stderr) == (1, f"{folder}/in: refused 101 at 34\n".encode())
    assert not (folder / "out").exists()
    (folder / "out").write_bytes(b"old")
    assert prep(program, folder / "in", folder / "out").returncode == 1
    assert (folder / "out").read_bytes() == b"old"


def test_no_such_file(program, folder):
    done = prep(program, folder / "none")
    assert (done.returncode, done.stderr) == (1, f"{folder}/none: cannot be opened\n".encode())


def test_a_name_that_is_no_text(program, folder):
    """It is refused under its name."""
    (folder / "in").write_bytes(SMALL)
    done = prep(program, "--drop", ALL, b"odd\xff.oas", cwd=folder)
    assert (done.returncode, done.stdout, done.stderr) == (1, b"", b"odd\\xff.oas: cannot be opened\n")
    done = prep(program, "in", b"new\xff", cwd=folder)
    assert (done.returncode, done.stdout, done.stderr) == (1, b"", b"in: refused 33 at 0\n")
    assert [path.name for path in folder.iterdir()] == ["in"]


def test_a_name_that_is_not_utf_8(program, folder):
    beside = pathlib.Path(program).with_name("oasprep")
    done = subprocess.run([beside, b"\xff\\"], cwd=folder, capture_output=True)
    assert (done.returncode, done.stdout, done.stderr) == (1, b"", b"\\xff\\\\: cannot be opened\n")


def test_full_device(program, folder):
    done = prep(program, "--drop", ALL, "-", "/dev/full", input=DRESSED)
    assert (done.returncode, done.stderr) == (1, b"standard input: refused 33 at 0\n")


def test_words_that_are_not_understood(program, folder):
    for words in (("--drop",), ("--drop", "cells"), ("--drop", "properties,"), ("--brief",), ("a", "b", "c")):
        done = prep(program, *words, input=SMALL)
        assert done.returncode == 2 and done.stdout == b"" and done.stderr, words


def test_key_in_two_words(program, folder):
    beside = pathlib.Path(program).with_name("oasprep")
    (folder / "chip.oas").write_bytes(DRESSED)
    script = f"{beside} --drop {ALL} {folder}/chip.oas 2>/dev/null | {program} key"
    key = subprocess.run([program, "key"], input=SMALL, capture_output=True).stdout
    assert subprocess.run(["bash", "-c", script], capture_output=True).stdout == key


def flags(program):
    return set(re.findall(r"--[a-z0-9-]+", prep(program, "--help").stdout.decode().split("Examples:")[0]))


def test_help_fits_a_screen(program, folder):
    lines = prep(program, "--help").stdout.decode().splitlines()
    assert len(lines) <= 24, len(lines)


def test_version(program, folder):
    version = prep(program, "--version").stdout.split()[1].decode()
    assert f'"oasprep {version}"' in (TOP / "man/oasprep.1").read_text()
    assert subprocess.run([program, "--version"], capture_output=True).stdout.split()[1].decode() == version


def test_manual_and_completions(program, folder):
    assert flags(program) == {"--drop", "--key", "--check", "--same", "--files0-from", "--large", "--explain", "--progress", "--help", "--version"}
    for path in ("man/oasprep.1", "completions/oasprep.bash", "completions/_oasprep", "completions/oasprep.fish"):
        text = (TOP / path).read_text().replace("\\-", "-").replace("-l ", "--")
        for word in flags(program) | set(ALL.split(",")):
            assert word in text, f"{path} lacks {word}"


def test_bash_completes(program, folder):
    script = f"source {TOP}/completions/oasprep.bash; COMP_WORDS=(oasprep --drop properties,la); COMP_CWORD=2; _oasprep; echo ${{COMPREPLY[@]}}"
    assert subprocess.run(["bash", "-c", script], capture_output=True, text=True).stdout.split() == ["properties,layer-names"]
