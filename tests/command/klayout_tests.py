"""The last step of `klayout-to-canonical`: what happens to OUT. Programs with KLayout's names replace KLayout's, and pass the
layout on unchanged; tests/klayout has the real ones."""
import os, pathlib, stat, subprocess
from unittest import SkipTest

from layouts import SMALL

SCRIPT = pathlib.Path(__file__).resolve().parents[2] / "scripts/klayout-to-canonical"
HANDS_ON = '#!/bin/bash\nset -- "${@: -2}"\ncp "$1" "$2"\n'


def run(program, folder, target, source="../in.oas", **more):
    """Converts the small layout, or this file, to this target, in a folder of its own."""
    tools = folder / "tools"
    tools.mkdir(exist_ok=True)
    for name, text in (("strm2oas", HANDS_ON), ("strmrun", "#!/bin/bash\n")):
        (tools / name).write_text(text)
        (tools / name).chmod(0o755)
    work = folder / "work"
    work.mkdir(exist_ok=True)
    (folder / "in.oas").write_bytes(SMALL)
    environment = dict(os.environ, OASCANON=program, KLAYOUT_TOOLS=str(tools))
    words = ["bash", SCRIPT, source, target]
    return subprocess.run(words, cwd=work, env=environment, capture_output=True, timeout=60, **more)


def names(folder):
    return sorted(os.listdir(folder / "work"))


def test_klayout_new_file(program, folder):
    done = run(program, folder, "out.oas")
    assert (done.returncode, done.stdout) == (0, b"canonical\n"), done.stderr
    assert names(folder) == ["out.oas"] and (folder / "work/out.oas").read_bytes() == SMALL


def test_klayout_pipe(program, folder):
    (folder / "work").mkdir()
    os.mkfifo(folder / "work/pipe")
    reader = subprocess.Popen(["cat", folder / "work/pipe"], stdout=subprocess.PIPE)
    try:
        done = run(program, folder, "pipe")
        assert done.returncode == 0, done.stderr
        assert (folder / "work/pipe").is_fifo() and names(folder) == ["pipe"]
        assert reader.communicate(timeout=10)[0] == SMALL
    finally:
        reader.kill()


def test_klayout_device(program, folder):
    """A device stays one. As root that is one of the test's own, so that a program that replaces it does no harm."""
    device, listed = pathlib.Path("/dev/null"), []
    if os.geteuid() == 0:
        (folder / "work").mkdir()
        device, listed = folder / "work/null", ["null"]
        try:
            os.mknod(device, 0o666 | stat.S_IFCHR, os.makedev(1, 3))
            device.write_bytes(b"")
        except OSError as error:
            raise SkipTest("no device can be made here") from error
    done = run(program, folder, device)
    assert (done.returncode, done.stdout) == (0, b""), done
    assert stat.S_ISCHR(device.stat().st_mode) and device.stat().st_rdev == os.makedev(1, 3) and names(folder) == listed


def test_klayout_link_and_mode(program, folder):
    (folder / "work").mkdir()
    (folder / "work/target").write_bytes(b"old")
    (folder / "work/target").chmod(0o600)
    (folder / "work/link").symlink_to("target")
    assert run(program, folder, "link").returncode == 0
    assert (folder / "work/link").is_symlink() and names(folder) == ["link", "target"]
    target = folder / "work/target"
    assert target.read_bytes() == SMALL and target.stat().st_mode & 0o7777 == 0o600


def test_klayout_folder(program, folder):
    done = run(program, folder, ".")
    assert done.returncode == 1 and names(folder) == [], (done, names(folder))


def test_klayout_odd_names(program, folder):
    (folder / "work").mkdir()
    (folder / "work/-y.oas").write_bytes(SMALL)
    assert run(program, folder, "y.oas", "-y.oas").returncode == 0
    assert (folder / "work/y.oas").read_bytes() == SMALL
    for name in ("y.oas", "-y.oas"):
        (folder / "work" / name).unlink()
    assert run(program, folder, "-x.oas").returncode == 0
    assert names(folder) == ["-x.oas"] and (folder / "work/-x.oas").read_bytes() == SMALL
    done = run(program, folder, "-")
    assert (done.returncode, done.stdout) == (0, SMALL) and names(folder) == ["-x.oas"]
