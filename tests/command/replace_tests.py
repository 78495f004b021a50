"""A file that is replaced: whatever happens, the old one is unchanged until the new one is whole."""
import os, resource, signal, subprocess, time
from unittest import SkipTest

from layouts import RESPELLED, SMALL, large

# Large enough that a kill finds the program at work; its last record is out of order, so that it isn't canonical.
COUNT = 300_000
CANONICAL = large(COUNT)
LARGE = CANONICAL.replace(b"\x0e\x01A", b"\x0e\x01A\x00", 1)


def run(*words, **more):
    return subprocess.run([str(word) for word in words], capture_output=True, **more)


def names(folder):
    return sorted(os.listdir(folder))


def test_size_limit(program, folder):
    (folder / "f").write_bytes(LARGE)

    def limit():
        signal.signal(signal.SIGXFSZ, signal.SIG_IGN)
        resource.setrlimit(resource.RLIMIT_FSIZE, (4096, 4096))

    done = run(program, "canon", folder / "f", folder / "f", preexec_fn=limit)
    assert done.returncode == 1 and b"refused 33 at 4096" in done.stderr, done.stderr
    assert (folder / "f").read_bytes() == LARGE and names(folder) == ["f"]


def test_full_disk(program, folder):
    disk = folder / "disk"
    disk.mkdir()
    if run("mount", "-t", "tmpfs", "-o", "size=4m", "tmpfs", disk).returncode:
        raise SkipTest("nothing can be mounted here")
    try:
        (disk / "f").write_bytes(LARGE)
        done = run(program, "canon", disk / "f", disk / "f")
        assert done.returncode == 1 and b"refused 33" in done.stderr, done.stderr
        assert (disk / "f").read_bytes() == LARGE and names(disk) == ["f"]
    finally:
        run("umount", disk)


def test_kills(program, folder):
    moments = 40
    start = time.monotonic()
    (folder / "whole").write_bytes(LARGE)
    run(program, "canon", folder / "whole", folder / "whole")
    whole = time.monotonic() - start
    for moment in range(moments):
        (folder / "f").write_bytes(LARGE)
        process = subprocess.Popen([program, "canon", folder / "f", folder / "f"])
        time.sleep(whole * 1.2 * moment / moments)
        process.send_signal(signal.SIGKILL)
        process.wait()
        assert (folder / "f").read_bytes() in (LARGE, CANONICAL), moment
    # What a kill leaves has a name of its own, and doesn't hinder the next run.
    (folder / "f").write_bytes(LARGE)
    assert run(program, "canon", folder / "f", folder / "f").returncode == 0
    assert (folder / "f").read_bytes() == CANONICAL


def test_mode_stays(program, folder):
    (folder / "f").write_bytes(RESPELLED)
    os.chmod(folder / "f", 0o640)
    assert run(program, "canon", folder / "f", folder / "f").returncode == 0
    assert (folder / "f").stat().st_mode & 0o7777 == 0o640 and (folder / "f").read_bytes() == SMALL
    assert names(folder) == ["f"]


def test_link(program, folder):
    (folder / "target").mkdir()
    (folder / "target/f").write_bytes(RESPELLED)
    (folder / "link").symlink_to("target/f")
    assert run(program, "canon", folder / "link", folder / "link").returncode == 0
    assert (folder / "link").is_symlink() and (folder / "target/f").read_bytes() == SMALL
    assert names(folder / "target") == ["f"]


def test_no_leave_to_write(program, folder):
    (folder / "closed").mkdir()
    (folder / "closed/f").write_bytes(RESPELLED)
    os.chmod(folder / "closed/f", 0o666)
    os.chmod(folder / "closed", 0o555)
    os.chmod(folder, 0o755)
    nobody = {"user": 65534, "group": 65534, "extra_groups": []} if os.geteuid() == 0 else {}
    done = run(program, "canon", folder / "closed/f", folder / "closed/f", **nobody)
    os.chmod(folder / "closed", 0o755)
    assert done.returncode == 1 and done.stderr.endswith(b"refused 33 at 0\n"), done.stderr
    assert (folder / "closed/f").read_bytes() == RESPELLED and names(folder / "closed") == ["f"]


def test_pipe_as_output(program, folder):
    os.mkfifo(folder / "pipe")
    (folder / "f").write_bytes(RESPELLED)
    reader = subprocess.Popen(["cat", folder / "pipe"], stdout=subprocess.PIPE)
    assert run(program, "canon", folder / "f", folder / "pipe").returncode == 0
    assert reader.communicate()[0] == SMALL


def test_rekey_onto_itself(program, folder):
    (folder / "f").write_bytes(SMALL)
    assert run(program, "rekey", folder / "f", folder / "f").returncode == 0
    assert (folder / "f").read_bytes() == SMALL and names(folder) == ["f"]
