"""`explain`, and `--explain` of each command."""
import pathlib, re, subprocess

from layouts import RESPELLED, SMALL

TOP = pathlib.Path(__file__).resolve().parents[2]


def run(folder, *words, **more):
    """Runs in this folder; returns the status, the output and the error output."""
    done = subprocess.run([str(word) for word in words], cwd=folder, capture_output=True, **more)
    return done.returncode, done.stdout.decode(), done.stderr.decode()


def reasons():
    """Number, name, meaning and remedy of each reason, as docs/REFUSALS.md has them, without its links."""
    text = re.sub(r"\[([^\]]*)\]\([^)]*\)", r"\1", (TOP / "docs/REFUSALS.md").read_text())
    return re.findall(r"^\| (\d+) \| (\w+) \| (.*?) \| .*? \| (.*) \|$", text, re.M)


def preparing_reasons():
    """The same for the reasons from 101 on, as docs/PREPARING.md has them."""
    return re.findall(r"^\| (1\d\d) \| (\w+) \| (.*?) \| (.*?) \|$", (TOP / "docs/PREPARING.md").read_text(), re.M)


def line_of(number, words="", advice=""):
    """The lines below a refusal."""
    _, name, meaning, remedy = reasons()[number - 1]
    return f"  = {name}: {meaning}{words}\n  = {remedy}\n{advice}"


CUT = SMALL[:-1]
CUT_LINES = line_of(2, "", f"  = ends early: 45 of {len(CUT)} bytes are whole records\n")


def test_reasons_are_those_of_the_page(program, folder):
    page = [f"{n} {name}\n  {meaning}\n  {remedy}\n" for n, name, meaning, remedy in reasons() + preparing_reasons()]
    assert len(page) == 34 + 13
    assert run(folder, program, "explain") == (0, "".join(page), "")
    for text in page:
        number, name = text.split("\n")[0].split()
        assert run(folder, program, "explain", number) == (0, text, "")
        assert run(folder, program, "explain", name) == (0, text, "")


def test_numbers_that_are_none(program, folder):
    for word in ("0", "35", "100", "114", "023", "x", "coordinaterange", "Coordinate", "99999999999999999999", ""):
        status, out, errors = run(folder, program, "explain", word)
        assert (status, out) == (2, "") and len(errors.splitlines()) == 1, word
    assert run(folder, program, "explain", "1", "2")[0] == 2


def test_explain_with_a_full_output(program, folder):
    with open("/dev/full", "wb") as full:
        done = subprocess.run([program, "explain", "5"], stdout=full, stderr=subprocess.PIPE)
    assert done.returncode == 1 and done.stderr == b"standard output: refused 33 at 0\n"


def test_a_line_more_for_each_command(program, folder):
    (folder / "a").write_bytes(SMALL)
    (folder / "bad").write_bytes(SMALL[:-1])
    for words in (["canon", "bad", "out"], ["check", "bad"], ["key", "--names", "bad"], ["show", "bad"], ["keys", "bad"],
                  ["rekey", "bad", "out"], ["same", "a", "bad"], ["diff", "bad", "a"], ["key", "bad", "a"]):
        status, out, errors = run(folder, program, *words)
        assert (status, errors) == (1, "bad: refused 2 at 45\n"), words
        assert run(folder, program, *words, "--explain") == (status, out, errors + CUT_LINES), words


def test_nothing_more_without_a_refusal(program, folder):
    (folder / "a").write_bytes(SMALL)
    (folder / "b").write_bytes(RESPELLED)
    for words in (["key", "a"], ["check", "b"], ["same", "a", "b"], ["rekey", "b", "out"], ["show", "a"]):
        assert run(folder, program, *words, "--explain") == run(folder, program, *words), words


def test_many_refused(program, folder):
    (folder / "bad").write_bytes(SMALL[:-1])
    (folder / "text").write_bytes(b"%SEMI-OASIT")
    (folder / "list").write_bytes(b"text\0bad\0")
    lines = f"text: refused 1 at 0\n{line_of(1)}bad: refused 2 at 45\n{CUT_LINES}"
    assert run(folder, program, "key", "--explain", "text", "bad") == (1, "", lines)
    assert run(folder, program, "check", "--explain", "--files0-from=list") == (1, "", lines)


def test_names_like_lines(program, folder):
    name = "a: refused 7 at 3"
    (folder / name).write_bytes(SMALL[:-1])
    (folder / "a\nb").write_bytes(SMALL[:-1])
    assert run(folder, program, "key", "--explain", name)[2] == f"{name}: refused 2 at 45\n{CUT_LINES}"
    assert run(folder, program, "key", "--explain", "a\nb")[2] == f"a\\nb: refused 2 at 45\n{CUT_LINES}"


def test_words_of_the_system_for_an_input(program, folder):
    missing = "none: cannot be opened\n  = No such file or directory (os error 2)\n"
    assert run(folder, program, "key", "--explain", "none") == (1, "", missing)
    (folder / "list").write_bytes(b"none\0")
    assert run(folder, program, "key", "--explain", "--files0-from=list") == (1, "", missing)
    assert run(folder, program, "key", "--explain", "--files0-from=none") == (1, "", missing)
    status, _, errors = run(folder, program, "show", "--explain", ".")
    assert (status, errors) == (1, ".: refused 32 at 0\n" + line_of(32, "", "  = Is a directory (os error 21)\n"))


def test_words_of_the_system_for_an_output(program, folder):
    (folder / "in").write_bytes(SMALL)
    full = " (/dev/full: No space left on device (os error 28))"
    assert run(folder, program, "canon", "--explain", "in", "/dev/full") == (
        1, "", "in: refused 33 at 0\n" + line_of(33, full))
    nowhere = " (no/out: No such file or directory (os error 2))"
    assert run(folder, program, "canon", "--explain", "in", "no/out") == (
        1, "", "in: refused 33 at 0\n" + line_of(33, nowhere))
    odd = " (no/a\\nb: No such file or directory (os error 2))"
    assert run(folder, program, "canon", "--explain", "in", "no/a\nb")[2].endswith(line_of(33, odd))
    with open("/dev/full", "wb") as device:
        done = subprocess.run([program, "key", "--explain", "in"], cwd=folder, stdout=device, stderr=subprocess.PIPE)
    words = " (standard output: No space left on device (os error 28))"
    assert done.returncode == 1 and done.stderr.decode() == "in: refused 33 at 0\n" + line_of(33, words)


def test_closed_error_output(program, folder):
    (folder / "bad").write_bytes(SMALL[:-1])
    with open("/dev/full", "wb") as full:
        done = subprocess.run([program, "key", "--explain", "bad"], cwd=folder, stdout=subprocess.PIPE, stderr=full)
    assert (done.returncode, done.stdout) == (1, b"")
