"""Many files at once: names, lists of names, `-`, and statuses."""
import hashlib, subprocess

from layouts import RESPELLED, SMALL

KEY = hashlib.sha256(SMALL).hexdigest()


def run(folder, *words, **more):
    """Runs in this folder; returns the status, the output and the error output."""
    done = subprocess.run([str(word) for word in words], cwd=folder, capture_output=True, **more)
    return done.returncode, done.stdout.decode(), done.stderr.decode()


def make(folder):
    (folder / "a").write_bytes(SMALL)
    (folder / "b").write_bytes(RESPELLED)
    (folder / "bad").write_bytes(SMALL[:-1])


def test_one_file_has_no_name(program, folder):
    make(folder)
    assert run(folder, program, "key", "b") == (0, f"{KEY}\n", "")
    assert run(folder, program, "check", "b") == (3, "not canonical\n", "")


def test_many(program, folder):
    make(folder)
    assert run(folder, program, "key", "a", "b") == (0, f"{KEY}  a\n{KEY}  b\n", "")
    assert run(folder, program, "check", "a", "b") == (3, "a: canonical\nb: not canonical\n", "")
    assert run(folder, program, "check", "b", "a", "a") == (3, "b: not canonical\na: canonical\na: canonical\n", "")


def test_names_of_one(program, folder):
    make(folder)
    assert run(folder, program, "key", "--names", "b") == (0, f"{KEY}  b\n", "")
    assert run(folder, program, "check", "a", "--names") == (0, "a: canonical\n", "")
    assert run(folder, program, "key", "--names", input=SMALL) == (0, f"{KEY}  -\n", "")


def test_refused_among_others(program, folder):
    make(folder)
    line = "bad: refused 2 at 45\n"
    assert run(folder, program, "check", "b", "bad", "a") == (1, "b: not canonical\na: canonical\n", line)
    assert run(folder, program, "key", "none", "a", "bad") == (1, f"{KEY}  a\n", f"none: cannot be opened\n{line}")


def test_keys_are_those_of_sha256sum(program, folder):
    """For canonical files the lines are those of `sha256sum`, also for odd names."""
    names = ["a", " b ", "c\nd", "e\\f", "g\\n\nh", "*", "-x", "\u00e4\u6f22"]
    for name in names:
        (folder / name).write_bytes(SMALL)
    status, lines, errors = run(folder, program, "key", "--", *names)
    assert (status, errors) == (0, "")
    for name, line in zip(names, lines.splitlines()):
        mark, shown = ("\\", name.replace("\\", "\\\\").replace("\n", "\\n")) if "\n" in name else ("", name)
        assert line == f"{mark}{KEY}  {shown}", line
    assert run(folder, "sha256sum", "--strict", "-c", "-", input=lines.encode())[0] == 0


def test_odd_names_in_one_line(program, folder):
    (folder / "a\nb").write_bytes(SMALL[:-1])
    assert run(folder, program, "key", "a\nb")[2] == "a\\nb: refused 2 at 45\n"
    assert run(folder, program, "show", "c\r\nd")[2] == "c\\r\\nd: cannot be opened\n"
    assert run(folder, program, "key", "e\\nf")[2] == "e\\nf: cannot be opened\n"


def test_lists(program, folder):
    make(folder)
    (folder / "list").write_bytes(b"a\0b\0")
    wanted = (0, f"{KEY}  a\n{KEY}  b\n", "")
    assert run(folder, program, "key", "--files0-from=list") == wanted
    assert run(folder, program, "key", "--files0-from", "-", input=b"a\0b") == wanted
    assert run(folder, program, "check", "--files0-from=list") == (3, "a: canonical\nb: not canonical\n", "")
    assert run(folder, program, "key", "--files0-from=-", input=b"") == (0, "", "")
    assert run(folder, program, "key", "--files0-from=-", input=b"\xff\0a\0") == (
        1, f"{KEY}  a\n", "\\xff: cannot be opened\n")
    assert run(folder, program, "key", "--files0-from=none") == (1, "", "none: cannot be opened\n")
    assert run(folder, program, "key", "--files0-from=.") == (1, "", ".: refused 32 at 0\n")
    assert run(folder, program, "key", "--files0-from=list", "a")[0] == 2


def test_a_list_reads_no_standard_input(program, folder):
    (folder / "-").write_bytes(SMALL)
    assert run(folder, program, "key", "--files0-from=-", input=b"-\0") == (0, f"{KEY}  -\n", "")


def test_dash(program, folder):
    make(folder)
    (folder / "-").write_bytes(SMALL[:-1])
    assert run(folder, program, "key", "-", input=SMALL) == (0, f"{KEY}\n", "")
    assert run(folder, program, "key", "a", "-", input=SMALL) == (0, f"{KEY}  a\n{KEY}  -\n", "")
    assert run(folder, program, "key", "./-") == (1, "", "./-: refused 2 at 45\n")
    assert run(folder, program, "same", "-", "b", input=SMALL) == (0, "same\n", "")
    assert run(folder, program, "same", "a", "-", input=RESPELLED) == (0, "same\n", "")
    done = subprocess.run([program, "canon", "-", "-"], cwd=folder, input=RESPELLED, capture_output=True)
    assert (done.returncode, done.stdout) == (0, SMALL)
    assert (folder / "-").read_bytes() == SMALL[:-1]


def test_dash_twice(program, folder):
    make(folder)
    for words in (["same", "-", "-"], ["key", "-", "a", "-"], ["check", "--names", "-", "-"]):
        status, out, errors = run(folder, program, *words, input=SMALL)
        assert (status, out) == (2, ""), words
        assert "standard input" in errors


def test_full_device(program, folder):
    make(folder)
    with open("/dev/full", "wb") as full:
        done = subprocess.run([program, "key", "a", "b"], cwd=folder, stdout=full, stderr=subprocess.PIPE)
    assert done.returncode == 1 and done.stderr == b"a: refused 33 at 0\n"


def test_closed_pipe(program, folder):
    make(folder)
    script = f"{program} key a b a b | head -n 1"
    assert run(folder, "bash", "-c", script)[1] == f"{KEY}  a\n"
