"""Files by name, pipes, terminals that hang up, full devices."""
import subprocess

from layouts import RESPELLED, SMALL, large


def run(*words, **more):
    return subprocess.run([str(word) for word in words], capture_output=True, **more)


def test_pipe(program, folder):
    done = run(program, "canon", input=RESPELLED)
    assert (done.returncode, done.stdout, done.stderr) == (0, SMALL, b"")


def test_reader_that_stops(program, folder):
    whole = large(100_000)
    (folder / "in").write_bytes(whole)
    script = f"{program} canon {folder}/in | head -c 100 | wc -c"
    assert run("bash", "-c", script).stdout.strip() == b"100"


def test_full_device(program, folder):
    (folder / "in").write_bytes(SMALL)
    done = run(program, "canon", folder / "in", "/dev/full")
    assert done.returncode == 1 and b"refused 33 at 0" in done.stderr


def test_refused_creates_nothing(program, folder):
    (folder / "in").write_bytes(SMALL[:-1])
    done = run(program, "canon", folder / "in", folder / "out")
    assert done.returncode == 1 and done.stderr == f"{folder}/in: refused 2 at 45\n".encode()
    assert not (folder / "out").exists()


def test_refused_leaves_the_old_file(program, folder):
    (folder / "in").write_bytes(SMALL[:-1])
    (folder / "out").write_bytes(b"old")
    run(program, "canon", folder / "in", folder / "out")
    assert (folder / "out").read_bytes() == b"old"


def test_onto_itself(program, folder):
    (folder / "in").write_bytes(RESPELLED)
    assert run(program, "canon", folder / "in", folder / "in").returncode == 0
    assert (folder / "in").read_bytes() == SMALL


def test_no_such_file(program, folder):
    done = run(program, "key", folder / "none")
    assert done.returncode == 1 and done.stderr == f"{folder}/none: cannot be opened\n".encode()
