"""`--progress`: what it shows in a log and on a terminal, and that it changes nothing else."""
import pathlib, re, subprocess

from layouts import RESPELLED, SMALL, cell, file_of, number, rectangle
from terminals import on_terminal

CLEAR = "\r" + 79 * " " + "\r"


def run(folder, *words, **more):
    """Runs in this folder; returns the status, the output and the error output."""
    done = subprocess.run([str(word) for word in words], cwd=folder, capture_output=True, **more)
    return done.returncode, done.stdout, done.stderr.decode()


def shown(name, count, whole=None, after=""):
    """A line of what was read."""
    of = f" of {whole} bytes read, {count * 100 // whole} %" if whole is not None else " bytes read"
    return f"{name}: {count}{of}{after}"


def both(name, size):
    """The lines of a small input, in a log."""
    return shown(name, 0, size) + "\n" + shown(name, size, size, ", sorting") + "\n"


def test_lines_of_a_log_are_whole(program, folder):
    (folder / "in").write_bytes(SMALL)
    status, out, errors = run(folder, program, "key", "--progress", "in")
    assert (status, out) == run(folder, program, "key", "in")[:2]
    assert errors == both("in", len(SMALL))


def test_a_pipe(program, folder):
    status, out, errors = run(folder, program, "canon", "--progress", input=RESPELLED)
    assert (status, out) == (0, SMALL)
    assert errors == "standard input: 0 bytes read\n" + shown("standard input", len(RESPELLED), None, ", sorting") + "\n"


def test_on_a_terminal_one_line_is_written_over(program, folder):
    (folder / "in").write_bytes(SMALL)
    size = len(SMALL)
    status, out, text = on_terminal(folder, program, "key", "--progress", "in")
    assert (status, out) == run(folder, program, "key", "in")[:2]
    lines = ["\r" + line.ljust(79) for line in (shown("in", 0, size), shown("in", size, size, ", sorting"))]
    assert text == "".join(lines) + CLEAR + CLEAR


def test_long_names_fit_a_terminal(program, folder):
    name = "a" * 60 + "z.oas"
    (folder / name).write_bytes(SMALL)
    text = on_terminal(folder, program, "key", "--progress", name)[2]
    assert all(len(line) <= 79 for line in text.split("\r")) and f"..{name[-20:]}: 0 of" in text


def test_not_more_often_than_every_64_mib(program, folder):
    whole = file_of(cell(b"A") + bytes(150 << 20) + rectangle(1, 0, 10, 20, 0, 0))
    (folder / "in").write_bytes(whole)
    status, out, errors = run(folder, program, "canon", "--progress", "in")
    assert (status, out) == (0, SMALL)
    found = re.findall(r"^in: (\d+) of (\d+) bytes read, (\d+) %(, sorting)?$", errors, re.M)
    counts = [int(n) for n, _, _, _ in found]
    assert len(counts) == len(errors.splitlines()) == 4 and counts[0] == 0 and counts[-1] == len(whole)
    assert all(64 << 20 <= b - a < 65 << 20 for a, b in zip(counts, counts[1:-1]))
    assert all(int(n) * 100 // int(of) == int(percent) for n, of, percent, _ in found)
    assert [bool(last) for _, _, _, last in found] == [False, False, False, True]


def test_bytes_that_are_written(program, folder):
    """A row of 3,000,000 rectangles in one record, listed in as many lines."""
    row = b"\x14\x7f" + rectangle(1, 0, 10, 20, 0, 0)[2:] + b"\x02" + number(3_000_000 - 2) + number(7)
    (folder / "in").write_bytes(file_of(cell(b"A") + row))
    status, out, errors = run(folder, program, "show", "--progress", "in")
    assert status == 0 and out.count(b"\n") == 3_000_002
    counts = [int(n) for n in re.findall(r"^standard output: (\d+) bytes written$", errors, re.M)]
    assert len(counts) == len(out) // (64 << 20) and 64 << 20 <= counts[0] < 65 << 20


def test_lines_stand_alone(program, folder):
    """Each message begins on a line of its own."""
    (folder / "bad").write_bytes(SMALL[:-1])
    status, out, text = on_terminal(folder, program, "key", "--progress", "bad")
    assert (status, out) == (1, b"")
    assert text.split(CLEAR)[-1].startswith("bad: refused 2 at 45\n  = Truncated: ")
    status, _, errors = run(folder, program, "same", "--progress", "bad", "none")
    assert status == 1 and errors.splitlines()[-1] == "none: cannot be opened"


def test_many(program, folder):
    for name in ("a", "b"):
        (folder / name).write_bytes(SMALL)
    status, out, errors = run(folder, program, "check", "--progress", "a", "b")
    assert (status, out) == (0, b"a: canonical\nb: canonical\n")
    assert errors == both("a", len(SMALL)) + both("b", len(SMALL))


def test_oasprep(program, folder):
    (folder / "in").write_bytes(SMALL)
    status, out, errors = run(folder, pathlib.Path(program).with_name("oasprep"), "--progress", "in")
    assert (status, out) == (0, SMALL) and errors.startswith(both("in", len(SMALL)))


def test_a_closed_error_output_changes_nothing(program, folder):
    (folder / "in").write_bytes(SMALL)
    with open("/dev/full", "wb") as full:
        done = subprocess.run([program, "key", "--progress", "in"], cwd=folder, stdout=subprocess.PIPE, stderr=full)
    assert (done.returncode, done.stdout) == run(folder, program, "key", "in")[:2]
