"""Very many files: names of any bytes, outputs that fail, and saved keys."""
import hashlib, os, pathlib, subprocess, time

from layouts import RESPELLED, SMALL, large

KEY = hashlib.sha256(SMALL).hexdigest()
ODD = b"odd\xff\\\xc3.oas"
SHOWN = "odd\\xff\\\\\\xc3.oas"


def run(folder, *words, **more):
    """Runs in this folder; returns the status, the output and the error output."""
    done = subprocess.run(list(words), cwd=folder, capture_output=True, timeout=120, **more)
    return done.returncode, done.stdout.decode(), done.stderr.decode()


def make(folder):
    (folder / "a").write_bytes(SMALL)
    (folder / "b").write_bytes(RESPELLED)
    (folder / "c").write_bytes(large(3))
    with open(os.fsencode(folder) + b"/" + ODD, "wb") as file:
        file.write(SMALL)


def test_a_name_that_is_no_text(program, folder):
    """It is refused by itself, under its name, and the others are handled."""
    make(folder)
    line = f"{SHOWN}: cannot be opened"
    for command, answers in (("key", f"{KEY}  a\n{KEY}  b\n"), ("check", "a: canonical\nb: not canonical\n")):
        status, out, errors = run(folder, program, command, "a", ODD, "b")
        assert (status, out) == (1, answers) and errors.startswith(line) and errors.count("\n") == 1, errors
        status, out, errors = run(folder, program, command, "--files0-from=-", input=b"a\0" + ODD + b"\0b\0")
        assert (status, out) == (1, answers) and errors.startswith(line) and errors.count("\n") == 1, errors
    for words in (["canon", ODD], ["show", ODD], ["same", "a", ODD], ["diff", ODD, "a"], ["key", b"--files0-from=" + ODD]):
        status, out, errors = run(folder, program, *words)
        assert (status, out) == (1, "") and errors.startswith(line), (words, errors)
    status, out, errors = run(folder, program, "canon", "a", b"new\xff")
    assert (status, out) == (1, "") and "refused 33 at 0" in errors, errors
    assert not os.path.exists(os.fsencode(folder) + b"/new\xff")


def test_long_words(program, folder):
    make(folder)
    status, out, errors = run(folder, program, "key", "a", "x" * 100_000, "b")
    assert (status, out) == (1, f"{KEY}  a\n{KEY}  b\n") and errors.startswith("x" * 100_000 + ": cannot be opened")


def test_a_reader_that_goes_away(program, folder):
    make(folder)
    (folder / "big").write_bytes(large(20_000))
    (folder / "list").write_bytes(b"a\0" * 2_000)
    for words in ("show big", "key --files0-from=list", "check --files0-from=list", "keys big", "canon big", "diff a big"):
        script = f"{program} {words} | head -c 1 >/dev/null; echo ${{PIPESTATUS[0]}}"
        began = time.monotonic()
        status, out, errors = run(folder, "bash", "-c", script)
        assert errors == "" and out in ("0\n", "1\n", "3\n"), (words, out, errors)
        assert words != "show big" or out == "1\n", out
        assert time.monotonic() - began < 60


def without_a_reader(folder, *words, **more):
    """Runs with a pipe as standard output whose reader went away; returns the status and the error output."""
    reader, writer = os.pipe()
    os.close(reader)
    with os.fdopen(writer, "wb") as pipe:
        done = subprocess.run(list(words), cwd=folder, stdout=pipe, stderr=subprocess.PIPE, timeout=20, **more)
    return done.returncode, done.stderr.decode()


def test_an_output_without_a_reader_has_no_line(program, folder):
    make(folder)
    keep(folder, program, "a", "b")
    (folder / "list").write_bytes(b"a\0b\0")
    for words in ("canon a", "check a", "check a b", "key a", "key --files0-from=list", "key --check keys", "same a b",
                  "diff a c", "diff --markers m a c", "show a", "keys a", "info a", "rekey a -", "canon --explain a", "explain",
                  "--help", "--version", "key --help"):
        assert without_a_reader(folder, program, *words.split()) == (1, ""), words
    for words in (("a",), ("--explain", "a"), ("--help",)):
        assert without_a_reader(folder, pathlib.Path(program).with_name("oasprep"), *words) == (1, ""), words


# What reads many files, each of which prints a line.
LISTS = ("key a pipe", "check a pipe", "key --files0-from=list", "check --files0-from=list", "key --check keys")


def test_no_file_is_opened_after_the_output_failed(program, folder):
    """The next file is a pipe that nobody writes to, at which the run would wait."""
    make(folder)
    os.mkfifo(folder / "pipe")
    (folder / "list").write_bytes(b"a\0pipe\0")
    (folder / "keys").write_text(f"{KEY}  a\n{KEY}  pipe\n")
    for words in map(str.split, LISTS):
        assert without_a_reader(folder, program, *words) == (1, ""), words
        with open("/dev/full", "wb") as full:
            done = subprocess.run([program, *words], cwd=folder, stdout=full, stderr=subprocess.PIPE, timeout=20)
        assert (done.returncode, done.stderr) == (1, b"a: refused 33 at 0\n"), (words, done.stderr)


def test_an_output_that_fails_ends_the_run(program, folder):
    make(folder)
    (folder / "list").write_bytes(b"a\0" * 2_000)
    (folder / "keys").write_text(f"{KEY}  a\n" * 2_000)
    for words in (["key", "--files0-from=list"], ["check", "--files0-from=list"], ["key", "a", "b", "a"], ["key", "--check", "keys"]):
        with open("/dev/full", "wb") as full:
            done = subprocess.run([program, *words], cwd=folder, stdout=full, stderr=subprocess.PIPE)
        assert done.returncode == 1 and done.stderr.count(b"\n") == 1 and b"refused 33 at 0" in done.stderr, (words, done.stderr)


def test_standard_input_is_a_dash(program, folder):
    make(folder)
    assert run(folder, program, "key", "--names", input=SMALL) == (0, f"{KEY}  -\n", "")
    assert run(folder, program, "key", "a", "-", input=SMALL) == (0, f"{KEY}  a\n{KEY}  -\n", "")
    assert run(folder, program, "check", "--names", "-", input=SMALL) == (0, "-: canonical\n", "")
    assert run(folder, program, "key", "--names", input=SMALL[:-1])[2].startswith("standard input: refused 2 at 45")


def test_lines_that_end_in_a_zero(program, folder):
    make(folder)
    (folder / "x\ny\\").write_bytes(SMALL)
    assert run(folder, program, "key", "-z", "a", "x\ny\\") == (0, f"{KEY}  a\0{KEY}  x\ny\\\0", "")
    assert run(folder, program, "key", "--zero", "b") == (0, f"{KEY}  b\0", "")
    assert run(folder, program, "key", "-z", input=SMALL) == (0, f"{KEY}  -\0", "")
    # As sha256sum prints them for canonical files.
    assert run(folder, program, "key", "-z", "a", "x\ny\\")[1] == run(folder, "sha256sum", "-z", "a", "x\ny\\")[1]


def keep(folder, program, *names):
    """Saves the keys of these files."""
    (folder / "keys").write_bytes(subprocess.run([program, "key", "--names", "--", *names], cwd=folder, capture_output=True).stdout)


def test_keys_that_hold(program, folder):
    make(folder)
    (folder / "x\ny\\").write_bytes(SMALL)
    (folder / "-z").write_bytes(SMALL)
    keep(folder, program, "a", "c", "x\ny\\", "-z")
    lines = "a: OK\nc: OK\nx\\ny\\\\: OK\n-z: OK\n"
    assert run(folder, program, "key", "--check", "keys") == (0, lines, "")
    assert run(folder, program, "key", "--check", "keys", "--quiet") == (0, "", "")
    # Another spelling has the same key.
    (folder / "a").write_bytes(RESPELLED)
    assert run(folder, program, "key", "--check=-", input=(folder / "keys").read_bytes()) == (0, lines, "")


def test_keys_that_changed(program, folder):
    make(folder)
    keep(folder, program, "a", "b", "c")
    (folder / "b").write_bytes(large(2))
    assert run(folder, program, "key", "--check", "keys") == (3, "a: OK\nb: changed\nc: OK\n", "")
    assert run(folder, program, "key", "-q", "--check", "keys") == (3, "b: changed\n", "")
    (folder / "a").write_bytes(SMALL[:-1])
    (folder / "c").unlink()
    status, out, errors = run(folder, program, "key", "-q", "--check", "keys")
    assert (status, out) == (1, "b: changed\n")
    assert [line.split(" (")[0] for line in errors.splitlines()] == ["a: refused 2 at 45", "c: cannot be opened"]


def test_kept_keys_by_zeros(program, folder):
    make(folder)
    (folder / "x\ny\\").write_bytes(SMALL)
    (folder / "keys").write_bytes(f"{KEY}  a\0{KEY}  c\0{KEY}  x\ny\\".encode())
    assert run(folder, program, "key", "-z", "--check", "keys") == (3, "a: OK\0c: changed\0x\ny\\: OK\0", "")


def test_lines_that_are_no_keys(program, folder):
    make(folder)
    for line in ("", KEY, f"{KEY} a", f"{KEY[:-1]}  a", f"{KEY.upper()}  a", f"\\{KEY}  a\\b", "# a remark"):
        (folder / "keys").write_text(f"{KEY}  a\n{line}\n{KEY}  b\n")
        status, out, errors = run(folder, program, "key", "--check", "keys")
        assert (status, out, errors) == (1, "a: OK\nb: OK\n", "keys: line 2 is no key and name\n"), (line, out, errors)
    assert run(folder, program, "key", "--check", "none")[2].startswith("none: cannot be opened")
    assert run(folder, program, "key", "--check", "keys", "a")[0] == 2


def test_a_list_of_keys_reads_no_standard_input(program, folder):
    (folder / "-").write_bytes(SMALL)
    assert run(folder, program, "key", "--check=-", input=f"{KEY}  -\n".encode()) == (0, "-: OK\n", "")
