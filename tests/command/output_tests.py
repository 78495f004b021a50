"""Outputs by name: they are written whole or not at all, and overwrite nothing that should stay."""
import fcntl, os, pathlib, resource, signal, stat, subprocess
from unittest import SkipTest

from layouts import RESPELLED, SMALL, large

MANUAL = pathlib.Path(__file__).resolve().parents[2] / "man"
# Large enough that a signal finds the program while it writes.
COUNT = 40_000
CANONICAL = large(COUNT)
LARGE = CANONICAL.replace(b"\x0e\x01A", b"\x0e\x01A\x00", 1)


def run(*words, **more):
    return subprocess.run([str(word) for word in words], capture_output=True, **more)


def names(folder):
    return sorted(os.listdir(folder))


def stop_while_it_writes(program, folder, number):
    """Sends the signal as soon as something new is in the folder."""
    before = set(os.listdir(folder))
    process = subprocess.Popen([program, "canon", folder / "in", folder / "out"], stderr=subprocess.DEVNULL)
    while process.poll() is None and set(os.listdir(folder)) == before:
        pass
    process.send_signal(number)
    process.wait()


def test_signals_leave_no_part(program, folder):
    (folder / "in").write_bytes(LARGE)
    for number in (signal.SIGINT, signal.SIGTERM, signal.SIGHUP, signal.SIGKILL):
        stop_while_it_writes(program, folder, number)
        if (folder / "out").exists():
            assert (folder / "out").read_bytes() == CANONICAL, number
            (folder / "out").unlink()
    # What was left is taken over.
    assert run(program, "canon", folder / "in", folder / "out").returncode == 0
    assert names(folder) == ["in", "out"] and (folder / "out").read_bytes() == CANONICAL


def limited(to):
    def limit():
        signal.signal(signal.SIGXFSZ, to)
        resource.setrlimit(resource.RLIMIT_FSIZE, (4096, 4096))
        resource.setrlimit(resource.RLIMIT_CORE, (0, 0))

    return limit


def test_size_limit_of_a_new_file(program, folder):
    (folder / "in").write_bytes(LARGE)
    run(program, "canon", folder / "in", folder / "out", preexec_fn=limited(signal.SIG_DFL))
    assert "out" not in names(folder)
    # Where the signal is ignored, the refusal says how much the limit allows.
    done = run(program, "canon", folder / "in", folder / "out", preexec_fn=limited(signal.SIG_IGN))
    assert done.returncode == 1 and b"refused 33 at 4096" in done.stderr, done.stderr
    assert (folder / "out").read_bytes() == CANONICAL[:4096] and names(folder) == ["in", "out"]


def test_full_disk_leaves_no_new_file(program, folder):
    disk = folder / "disk"
    disk.mkdir()
    if run("mount", "-t", "tmpfs", "-o", "size=64k", "tmpfs", disk).returncode:
        raise SkipTest("nothing can be mounted here")
    try:
        (folder / "in").write_bytes(LARGE)
        done = run(program, "canon", folder / "in", disk / "out")
        assert done.returncode == 1 and b"refused 33" in done.stderr, done.stderr
        assert names(disk) == []
    finally:
        run("umount", disk)


def test_two_runs_to_one_file(program, folder):
    (folder / "in").write_bytes(LARGE)
    runs = [subprocess.Popen([program, "canon", folder / "in", folder / "out"]) for _ in range(4)]
    assert [process.wait() for process in runs] == [0] * 4
    assert names(folder) == ["in", "out"] and (folder / "out").read_bytes() == CANONICAL


def test_a_held_file_is_left_alone(program, folder):
    (folder / "in").write_bytes(RESPELLED)
    (folder / ".out.oascanon-0").write_bytes(b"of another run")
    with open(folder / ".out.oascanon-0", "r+b") as held:
        fcntl.flock(held, fcntl.LOCK_EX)
        assert run(program, "canon", folder / "in", folder / "out").returncode == 0
        assert names(folder) == [".out.oascanon-0", "in", "out"]
        assert held.read() == b"of another run"
    assert run(program, "canon", folder / "in", folder / "out").returncode == 0
    assert names(folder) == ["in", "out"] and (folder / "out").read_bytes() == SMALL


def test_a_link_under_the_new_name_leads_nowhere(program, folder):
    (folder / "in").write_bytes(RESPELLED)
    (folder / "victim").write_bytes(b"kept")
    (folder / ".out.oascanon-0").symlink_to("victim")
    assert run(program, "canon", folder / "in", folder / "out").returncode == 0
    assert (folder / "victim").read_bytes() == b"kept" and (folder / "out").read_bytes() == SMALL


def test_mode_of_a_new_file(program, folder):
    (folder / "in").write_bytes(RESPELLED)
    assert run(program, "canon", folder / "in", folder / "out", umask=0o027).returncode == 0
    assert (folder / "out").stat().st_mode & 0o7777 == 0o640


def test_links_to_new_files(program, folder):
    (folder / "in").write_bytes(RESPELLED)
    (folder / "to").mkdir()
    (folder / "first").symlink_to("to/second")
    (folder / "to/second").symlink_to("out")
    assert run(program, "canon", folder / "in", folder / "first").returncode == 0
    assert (folder / "first").is_symlink() and names(folder / "to") == ["out", "second"]
    assert (folder / "to/out").read_bytes() == SMALL
    (folder / "loop").symlink_to("loop")
    assert run(program, "canon", folder / "in", folder / "loop").returncode == 1


def test_outputs_that_no_file_can_be(program, folder):
    (folder / "in").write_bytes(RESPELLED)
    for name in (".", "none/", "none/.", "none/out", "in/out", ""):
        done = run(program, "canon", "in", name, cwd=folder)
        assert done.returncode == 1 and b"refused 33 at 0" in done.stderr, (name, done)
    assert names(folder) == ["in"]


def test_long_names(program, folder):
    (folder / "in").write_bytes(RESPELLED)
    for name in ("o" * 255, "\u00e4" * 127):
        assert run(program, "canon", folder / "in", folder / name).returncode == 0
        assert run(program, "canon", folder / "in", folder / name).returncode == 0
        assert (folder / name).read_bytes() == SMALL
    assert len(names(folder)) == 3


def test_in_a_folder_whose_name_is_no_text(program, folder):
    odd = os.fsencode(folder) + b"/\xff"
    os.mkdir(odd)
    with open(odd + b"/in", "wb") as file:
        file.write(RESPELLED)
    for _ in range(2):
        assert run(program, "canon", "in", "out", cwd=odd).returncode == 0
    with open(odd + b"/out", "rb") as file:
        assert file.read() == SMALL


def test_standard_output_by_its_name(program, folder):
    (folder / "in").write_bytes(RESPELLED)
    with open(folder / "out", "wb") as out:
        before = os.fstat(out.fileno()).st_ino
        done = subprocess.run([program, "canon", folder / "in", "/dev/stdout"], stdout=out)
    assert done.returncode == 0 and (folder / "out").stat().st_ino == before
    assert (folder / "out").read_bytes() == SMALL


def test_markers_take_no_input(program, folder):
    (folder / "a").write_bytes(SMALL)
    (folder / "b").write_bytes(large(3))
    (folder / "link").symlink_to("a")
    os.link(folder / "b", folder / "second")
    for words in (["a", "a", "b"], ["b", "a", "b"], ["./a", "a", "b"], ["link", "a", "b"], ["second", "a", "b"], ["a", "-", "b"]):
        with open(folder / "a", "rb") as first:
            done = run(program, "diff", "--markers", *words, cwd=folder, stdin=first)
        assert done.returncode == 2 and done.stdout == b"" and words[0].encode() in done.stderr, (words, done)
    assert (folder / "a").read_bytes() == SMALL and (folder / "b").read_bytes() == large(3)
    assert run(program, "diff", "--markers", "m", "a", "b", cwd=folder).returncode == 3
    assert run(program, "diff", "--markers", "m", "a", "b", cwd=folder).returncode == 3


def test_no_clobber(program, folder):
    (folder / "a").write_bytes(RESPELLED)
    (folder / "b").write_bytes(large(3))
    (folder / "nowhere").symlink_to("none")
    for name in ("b", "a", "nowhere", "/dev/null"):
        done = run(program, "canon", "--no-clobber", "a", name, cwd=folder)
        assert done.returncode == 1 and done.stderr == f"{name}: exists, and is not replaced\n".encode(), done
    assert (folder / "b").read_bytes() == large(3) and (folder / "a").read_bytes() == RESPELLED
    assert run(program, "canon", "--no-clobber", "a", "c", cwd=folder).returncode == 0
    assert (folder / "c").read_bytes() == SMALL and names(folder) == ["a", "b", "c", "nowhere"]
    assert run(program, "canon", "--no-clobber", "a", cwd=folder).stdout == SMALL


def test_no_clobber_of_a_file_that_comes_meanwhile(program, folder):
    os.mkfifo(folder / "in")
    process = subprocess.Popen([program, "canon", "--no-clobber", "in", "out"], cwd=folder, stderr=subprocess.PIPE)
    with open(folder / "in", "wb") as feed:
        (folder / "out").write_bytes(b"of another")
        feed.write(RESPELLED)
    errors = process.communicate(timeout=60)[1]
    assert process.returncode == 1 and b"refused 33" in errors, errors
    assert (folder / "out").read_bytes() == b"of another" and names(folder) == ["in", "out"]


def test_canon_says_what_its_output_is(program, folder):
    text = run(program, "canon", "--help").stdout.decode()
    assert "--no-clobber" in text and "replaced" in text.split("Example:")[1]


def test_owner_group_and_mode(program, folder):
    if os.geteuid() != 0:
        raise SkipTest("only root gives files away")
    (folder / "f").write_bytes(RESPELLED)
    os.chown(folder / "f", 12345, 23456)
    os.chmod(folder / "f", 0o6750)
    assert run(program, "canon", folder / "f", folder / "f").returncode == 0
    found = (folder / "f").stat()
    assert (found.st_uid, found.st_gid, stat.S_IMODE(found.st_mode)) == (12345, 23456, 0o6750)
    assert (folder / "f").read_bytes() == SMALL


def test_what_a_replaced_file_does_not_keep(program, folder):
    """What the manual page says: attributes, times and other names."""
    before = 1_000_000_000
    (folder / "f").write_bytes(RESPELLED)
    os.link(folder / "f", folder / "second")
    os.utime(folder / "f", (before, before))
    try:
        os.setxattr(folder / "f", "user.note", b"old")
    except OSError:
        pass
    assert run(program, "canon", folder / "f", folder / "f").returncode == 0
    assert (folder / "f").read_bytes() == SMALL and (folder / "second").read_bytes() == RESPELLED
    assert (folder / "f").stat().st_mtime > before and "user.note" not in os.listxattr(folder / "f")
    page = (MANUAL / "oascanon.1").read_text()
    kinds = ("Extended attributes and access control lists aren't kept", "times are those of the new file", "hard links keep")
    assert all(words in page for words in kinds)
    assert "Files that are written" in page and "Files that are written" in (MANUAL / "oasprep.1").read_text()


def test_of_another_owner(program, folder):
    """A user who may not change owners keeps the group where it is theirs, and no set-ID bit of another owner."""
    if os.geteuid() != 0:
        raise SkipTest("only root gives files away")
    nobody = {"user": 65534, "group": 65534, "extra_groups": []}
    os.chmod(folder, 0o777)
    for group, before, after in ((65534, 0o6775, (65534, 65534, 0o2775)), (0, 0o6664, (65534, 65534, 0o644))):
        (folder / "f").write_bytes(RESPELLED)
        os.chown(folder / "f", 0, group)
        os.chmod(folder / "f", before)
        assert run(program, "canon", folder / "f", folder / "f", **nobody).returncode == 0
        found = (folder / "f").stat()
        assert (found.st_uid, found.st_gid, stat.S_IMODE(found.st_mode)) == after, (oct(before), oct(found.st_mode))
