"""Whether `oasprep --check` says of a file that it is the canonical file that it is prepared to."""
import os, pathlib, subprocess

from layouts import RESPELLED, SMALL, large
from prepare_answer_tests import AS_FLOAT, DROPPED, OTHER, WITH_PROPERTY, run
from prepare_tests import ALL, DRESSED, SAID

FILES = {"a": WITH_PROPERTY, "b": AS_FLOAT, "c": RESPELLED, "s": SMALL, "o": OTHER, "bad": WITH_PROPERTY[:-1]}


def make(folder):
    for name, data in FILES.items():
        (folder / name).write_bytes(data)


def test_check(program, folder):
    make(folder)
    assert run(program, folder, "--check", "s") == (0, "s: canonical\n", "")
    assert run(program, folder, "--check", "./s") == (0, "./s: canonical\n", "")
    assert run(program, folder, "--check", "c") == (3, "c: not canonical\n", "")
    assert run(program, folder, "--check", "b") == (3, "b: not canonical\n", "")
    assert run(program, folder, "--drop", "properties", "--check", "s") == (0, "s: canonical\n", "")
    assert run(program, folder, "--drop", "properties", "--check", "a") == (3, "a: not canonical\n", f"a: {DROPPED}")
    assert run(program, folder, "--check", "a") == (1, "", "a: refused 101 at 45\n")
    assert run(program, folder, "--drop=properties", "--check", "bad") == (1, "", "bad: refused 2 at 51\n")
    assert run(program, folder, "--check", "none") == (1, "", "none: cannot be opened\n")


def test_what_is_prepared_is_canonical(program, folder):
    (folder / "dressed").write_bytes(DRESSED)
    (folder / "many").write_bytes(large(5000))
    for name in ("dressed", "many"):
        run(program, folder, "--drop", ALL, name, "prepared")
        assert run(program, folder, "--check", "prepared") == (0, "prepared: canonical\n", "")
    assert run(program, folder, "--drop", ALL, "--check", "dressed") == (3, "dressed: not canonical\n", f"dressed: {SAID}\n")


def test_it_is_what_cmp_says(program, folder):
    make(folder)
    for name in "abcso":
        assert run(program, folder, "--drop", "properties", name, "prepared")[0] == 0
        equal = (folder / "prepared").read_bytes() == FILES[name]
        assert run(program, folder, "--drop", "properties", "--check", name)[0] == (0 if equal else 3)


def test_check_of_the_program_before(program, folder):
    """With each byte changed in turn: what `oascanon check --names` accepts has its line, and no other file is canonical."""
    names = [f"{i}" for i in range(len(SMALL))]
    for i, name in enumerate(names):
        (folder / name).write_bytes(SMALL[:i] + bytes([SMALL[i] ^ 1]) + SMALL[i + 1:])
    lines = run(program, folder, "--drop", ALL, "--check", *names)[1].splitlines()
    before = subprocess.run([program, "check", "--names", *names], cwd=folder, capture_output=True, text=True).stdout.splitlines()
    assert len(before) > 5 and set(before) <= set(lines)
    assert {line for line in lines if not line.endswith(": not canonical")} == {line for line in before if not line.endswith(": not canonical")}


def test_check_by_a_pipe(program, folder):
    make(folder)
    assert run(program, folder, "--check", input=SMALL) == (0, "-: canonical\n", "")
    assert run(program, folder, "--check", "--drop", "properties", input=WITH_PROPERTY) == (3, "-: not canonical\n", f"standard input: {DROPPED}")
    assert run(program, folder, "--check", "s", "-", input=RESPELLED) == (3, "s: canonical\n-: not canonical\n", "")
    assert run(program, folder, "--check", input=b"") == (1, "", "standard input: refused 2 at 0\n")
    beside = pathlib.Path(program).with_name("oasprep")
    done = subprocess.run(["bash", "-c", f"{beside} --drop properties a | {beside} --check"], cwd=folder, capture_output=True)
    assert (done.returncode, done.stdout, done.stderr) == (0, b"-: canonical\n", f"a: {DROPPED}".encode())


def test_check_of_many(program, folder):
    make(folder)
    assert run(program, folder, "--check", "s", "s") == (0, "s: canonical\ns: canonical\n", "")
    wanted = (3, "s: canonical\na: not canonical\ns: canonical\n", f"a: {DROPPED}")
    assert run(program, folder, "--drop", "properties", "--check", "s", "a", "s") == wanted
    assert run(program, folder, "s", "a", "s", "--check", "--drop=properties") == wanted
    said = "bad: refused 2 at 51\nnone: cannot be opened\n"
    assert run(program, folder, "--check", "--drop=properties", "c", "bad", "none", "s") == (1, "c: not canonical\ns: canonical\n", said)
    (folder / "x\ny").write_bytes(SMALL)
    lines = subprocess.run([program, "check", "--names", "x\ny", "c"], cwd=folder, capture_output=True, text=True).stdout
    assert run(program, folder, "--check", "x\ny", "c")[1] == lines


def test_check_of_lists(program, folder):
    make(folder)
    (folder / "list").write_bytes(b"s\0c\0")
    wanted = (3, "s: canonical\nc: not canonical\n", "")
    assert run(program, folder, "--check", "--files0-from=list") == wanted
    assert run(program, folder, "--check", "--files0-from", "-", input=b"s\0c") == wanted
    assert run(program, folder, "--check", "--files0-from=-", input=b"") == (0, "", "")
    assert run(program, folder, "--check", "--files0-from=-", input=b"none\0s\0") == (1, "s: canonical\n", "none: cannot be opened\n")


def test_check_of_files_that_do_not_fit(program, folder):
    make(folder)
    for words in (["--check", "--key", "s"], ["--check", "--same", "s", "c"], ["--check", "-", "s", "-"], ["--check", "--files0-from=list", "s"]):
        status, out, errors = run(program, folder, *words, input=SMALL)
        assert (status, out) == (2, "") and errors.startswith("error: "), words


def test_check_of_a_refused_file_is_explained(program, folder):
    make(folder)
    status, lines, errors = run(program, folder, "--explain", "--check", "s", "a")
    assert (status, lines) == (1, "s: canonical\n")
    assert errors.startswith("a: refused 101 at 45\n  = Properties: ") and "try: oasprep --drop properties,layer-names a canonical.oas" in errors


def test_check_with_an_output_that_fails(program, folder):
    make(folder)
    beside = pathlib.Path(program).with_name("oasprep")
    with open("/dev/full", "wb") as full:
        done = subprocess.run([beside, "--check", "s", "c"], cwd=folder, stdout=full, stderr=subprocess.PIPE)
    assert (done.returncode, done.stderr) == (1, b"s: refused 33 at 0\n")
    done = subprocess.run(["bash", "-c", f"{beside} --check s c s c | head -n 1"], cwd=folder, capture_output=True)
    assert (done.stdout, done.stderr) == (b"s: canonical\n", b"")


def test_check_creates_nothing(program, folder):
    make(folder)
    before = sorted(os.listdir(folder))
    run(program, folder, "--drop", "properties", "--check", "a", "bad", "s")
    assert sorted(os.listdir(folder)) == before
