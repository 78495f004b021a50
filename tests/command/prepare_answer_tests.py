"""What `oasprep` answers about files as tools write them."""
import hashlib, os, pathlib, subprocess

from layouts import MAGIC, RESPELLED, SMALL, cell, file_of, large, rectangle
from prepare_tests import ALL, DRESSED, PROPERTY, SAID

KEY = hashlib.sha256(SMALL).hexdigest()
# The same layout: with a property, with its unit as a float, and with one integer of more than ten bytes.
WITH_PROPERTY = file_of(cell(b"A") + rectangle(1, 0, 10, 20, 0, 0) + PROPERTY)
AS_FLOAT = MAGIC + b"\x01\x031.0" + b"\x07\x00\x00\x00\x00\x00\x40\x8f\x40" + SMALL[len(MAGIC) + 8:]
OTHER = file_of(cell(b"A") + rectangle(1, 0, 10, 30, 0, 0) + PROPERTY)
DROPPED = "left out 1 property\n"


def run(program, folder, *words, **more):
    """Runs the second program in this folder; returns the status, the output and the error output."""
    beside = pathlib.Path(program).with_name("oasprep")
    done = subprocess.run([str(word) for word in (beside, *words)], cwd=folder, capture_output=True, **more)
    return done.returncode, done.stdout.decode(), done.stderr.decode()


def make(folder):
    for name, data in (("a", WITH_PROPERTY), ("b", AS_FLOAT), ("c", RESPELLED), ("bad", WITH_PROPERTY[:-1]), ("o", OTHER)):
        (folder / name).write_bytes(data)


def test_keys(program, folder):
    make(folder)
    wanted = (0, f"{KEY}  a\n{KEY}  b\n{KEY}  c\n", f"a: {DROPPED}")
    assert run(program, folder, "--drop", "properties", "--key", "a", "b", "c") == wanted
    assert run(program, folder, "--key", "--drop=properties", "a", "b", "c") == wanted
    assert run(program, folder, "a", "b", "c", "--key", "--drop", "properties") == wanted


def test_a_key_of_one_file_has_its_name(program, folder):
    make(folder)
    assert run(program, folder, "--key", "b") == (0, f"{KEY}  b\n", "")
    assert run(program, folder, "--key", "./b") == (0, f"{KEY}  ./b\n", "")


def test_a_key_is_that_of_what_is_prepared(program, folder):
    (folder / "dressed").write_bytes(DRESSED)
    (folder / "many").write_bytes(large(5000))
    for name in ("dressed", "many"):
        run(program, folder, "--drop", ALL, name, "prepared")
        key = hashlib.sha256((folder / "prepared").read_bytes()).hexdigest()
        assert run(program, folder, "--drop", ALL, "--key", name)[:2] == (0, f"{key}  {name}\n")
    assert run(program, folder, "--drop", ALL, "--key", "dressed")[2] == f"dressed: {SAID}\n"


def test_keys_by_a_pipe(program, folder):
    assert run(program, folder, "--key", "--drop", "properties", input=WITH_PROPERTY) == (0, f"{KEY}  -\n", f"standard input: {DROPPED}")
    make(folder)
    assert run(program, folder, "--key", "b", "-", input=SMALL) == (0, f"{KEY}  b\n{KEY}  -\n", "")
    (folder / "-").write_bytes(SMALL)
    assert run(program, folder, "--key", "./-") == (0, f"{KEY}  ./-\n", "")
    assert run(program, folder, "--key", input=b"") == (1, "", "standard input: refused 2 at 0\n")


def test_a_refused_file_between_others(program, folder):
    make(folder)
    said = f"a: {DROPPED}bad: refused 2 at 51\nnone: cannot be opened\n"
    assert run(program, folder, "--drop", "properties", "--key", "a", "bad", "none", "b") == (1, f"{KEY}  a\n{KEY}  b\n", said)
    assert run(program, folder, "--key", "b", "a", "c") == (1, f"{KEY}  b\n{KEY}  c\n", "a: refused 101 at 45\n")


def test_lists_of_names(program, folder):
    make(folder)
    (folder / "list").write_bytes(b"a\0b\0")
    wanted = (0, f"{KEY}  a\n{KEY}  b\n", f"a: {DROPPED}")
    assert run(program, folder, "--drop", "properties", "--key", "--files0-from=list") == wanted
    assert run(program, folder, "--drop", "properties", "--key", "--files0-from", "-", input=b"a\0b") == wanted
    assert run(program, folder, "--key", "--files0-from=-", input=b"") == (0, "", "")
    assert run(program, folder, "--key", "--files0-from=-", input=b"none\0\xff\0b\0") == (
        1, f"{KEY}  b\n", "none: cannot be opened\n\\xff: cannot be opened\n")
    assert run(program, folder, "--key", "--files0-from=none") == (1, "", "none: cannot be opened\n")
    assert run(program, folder, "--key", "--files0-from=.") == (1, "", ".: refused 32 at 0\n")
    (folder / "-").write_bytes(SMALL)
    assert run(program, folder, "--key", "--files0-from=-", input=b"-\0") == (0, f"{KEY}  -\n", "")


def test_a_name_that_is_not_utf_8_between_others(program, folder):
    make(folder)
    beside = pathlib.Path(program).with_name("oasprep")
    done = subprocess.run([beside, "--key", "b", b"\xc3\n", "c"], cwd=folder, capture_output=True)
    assert done.returncode == 1 and done.stdout == f"{KEY}  b\n{KEY}  c\n".encode()
    assert done.stderr == b"\\xc3\\x0a: cannot be opened\n"


def test_lines_of_keys_are_those_of_sha256sum(program, folder):
    names = ["a", " b ", "c\nd", "e\\f", "g\\n\nh", "*", "-x", "\u00e4\u6f22"]
    for name in names:
        (folder / name).write_bytes(SMALL)
    status, lines, errors = run(program, folder, "--key", "--", *names)
    assert (status, errors, len(lines.splitlines())) == (0, "", len(names))
    assert subprocess.run(["sha256sum", "--strict", "-c", "-"], cwd=folder, input=lines.encode(), capture_output=True).returncode == 0


def test_keys_of_the_program_before(program, folder):
    """For files of the profile the lines are those of `oascanon key --names`, and one checks the other's."""
    make(folder)
    (folder / "x\ny").write_bytes(SMALL)
    lines = run(program, folder, "--key", "b", "c", "x\ny")[1]
    again = subprocess.run([program, "key", "c", "x\ny"], cwd=folder, capture_output=True, text=True)
    assert lines.splitlines()[1:] == again.stdout.splitlines()
    (folder / "keys").write_text("\n".join(lines.splitlines()[1:]) + "\n")
    assert subprocess.run([program, "key", "--check", "keys"], cwd=folder, capture_output=True).returncode == 0


def test_same(program, folder):
    make(folder)
    assert run(program, folder, "--same", "b", "c") == (0, "same\n", "")
    assert run(program, folder, "--drop", "properties", "--same", "a", "b") == (0, "same\n", f"a: {DROPPED}")
    assert run(program, folder, "--drop", "properties", "--same", "a", "a") == (0, "same\n", f"a: {DROPPED}a: {DROPPED}")
    assert run(program, folder, "--same", "--drop", "properties", "a", "o") == (3, "different\n", f"a: {DROPPED}o: {DROPPED}")
    assert run(program, folder, "--same", "-", "b", input=SMALL) == (0, "same\n", "")
    assert run(program, folder, "--drop", "properties", "--same", "c", "-", input=OTHER) == (3, "different\n", f"standard input: {DROPPED}")


def test_same_is_what_cmp_says(program, folder):
    make(folder)
    for first in "abco":
        for second in "abco":
            prepared = [run(program, folder, "--drop", "properties", name, f"{name}.prepared")[0] for name in (first, second)]
            equal = (folder / f"{first}.prepared").read_bytes() == (folder / f"{second}.prepared").read_bytes()
            assert prepared == [0, 0] and run(program, folder, "--drop", "properties", "--same", first, second)[0] == (0 if equal else 3)


def test_same_of_a_refused_file(program, folder):
    make(folder)
    assert run(program, folder, "--drop", "properties", "--same", "bad", "a") == (1, "", "bad: refused 2 at 51\n")
    assert run(program, folder, "--drop", "properties", "--same", "a", "bad") == (1, "", "bad: refused 2 at 51\n")
    assert run(program, folder, "--same", "b", "a") == (1, "", "a: refused 101 at 45\n")
    assert run(program, folder, "--same", "b", "none") == (1, "", "none: cannot be opened\n")
    assert "oasprep --drop properties,layer-names a " in run(program, folder, "--explain", "--same", "b", "a")[2]
    with open("/dev/full", "wb") as full:
        beside = pathlib.Path(program).with_name("oasprep")
        done = subprocess.run([beside, "--same", "b", "c"], cwd=folder, stdout=full, stderr=subprocess.PIPE)
    assert (done.returncode, done.stderr) == (1, b"b: refused 33 at 0\n")


def test_files_that_do_not_fit(program, folder):
    make(folder)
    for words in (["--same", "a"], ["--same", "a", "b", "c"], ["--same", "-", "-"], ["--same", "--key", "a", "b"], ["--same"],
                  ["--key", "-", "b", "-"], ["--files0-from=-"], ["--key", "--files0-from=list", "a"], ["a", "b", "c"]):
        status, out, errors = run(program, folder, *words, input=SMALL)
        assert (status, out) == (2, "") and errors.startswith("error: "), words


def test_keys_create_nothing(program, folder):
    make(folder)
    before = sorted(os.listdir(folder))
    run(program, folder, "--drop", "properties", "--key", "a", "bad", "b")
    assert sorted(os.listdir(folder)) == before


def test_an_output_that_fails(program, folder):
    make(folder)
    beside = pathlib.Path(program).with_name("oasprep")
    with open("/dev/full", "wb") as full:
        done = subprocess.run([beside, "--key", "b", "c"], cwd=folder, stdout=full, stderr=subprocess.PIPE)
    assert (done.returncode, done.stderr) == (1, b"b: refused 33 at 0\n")
    done = subprocess.run(["bash", "-c", f"{beside} --key b c b c | head -n 1"], cwd=folder, capture_output=True)
    assert (done.stdout, done.stderr) == (f"{KEY}  b\n".encode(), b"")


def test_an_empty_pipe_of_a_refused_program(program, folder):
    make(folder)
    beside = pathlib.Path(program).with_name("oasprep")
    done = subprocess.run(["bash", "-c", f"{beside} a | {beside} --key"], cwd=folder, capture_output=True)
    assert (done.returncode, done.stdout, done.stderr) == (1, b"", b"a: refused 101 at 45\n")


def test_a_refusal_of_many_is_explained(program, folder):
    make(folder)
    status, lines, errors = run(program, folder, "--explain", "--key", "b", "a", "c")
    assert (status, lines) == (1, f"{KEY}  b\n{KEY}  c\n")
    assert errors.startswith("a: refused 101 at 45\n  = Properties: ") and "try: oasprep --drop properties,layer-names a" in errors
