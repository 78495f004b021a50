"""Each step at which a file is written, by strace: that it is on the disk before it has its name, and what is there after a
fault or a kill at that step."""
import os, pathlib, re, shutil, subprocess
from unittest import SkipTest

from layouts import RESPELLED, SMALL, large

OLD = b"what was there"
NAMING = "rename,renameat,renameat2,link,linkat"
SYNC = "fsync,fdatasync"


def commands(program):
    """The commands that write a file `out`, once without one there and once with `--no-clobber` or an old one."""
    prepare = pathlib.Path(program).with_name("oasprep")
    yield False, [program, "canon", "--no-clobber", "respelled", "out"]
    for has_old in (False, True):
        yield has_old, [program, "canon", "respelled", "out"]
        yield has_old, [program, "rekey", "small", "out"]
        yield has_old, [program, "diff", "--markers", "out", "small", "larger"]
        yield has_old, [prepare, "respelled", "out"]


class Case:
    """A command in a folder of its own, and what it writes."""

    def __init__(self, folder, has_old, words):
        self.words, self.log = [str(word) for word in words], folder / "log"
        self.folder = folder / "work"
        shutil.rmtree(self.folder, ignore_errors=True)
        self.folder.mkdir()
        for name, data in (("small", SMALL), ("respelled", RESPELLED), ("larger", large(3))):
            (self.folder / name).write_bytes(data)
        self.old = OLD if has_old else None
        self.expected = self.written_plainly()

    def written_plainly(self):
        """What the command writes where nothing is wrong, and then the place is as it was."""
        subprocess.run(self.words, cwd=self.folder, capture_output=True, check=False)
        data = self.out()
        os.remove(self.folder / "out")
        if self.old is not None:
            (self.folder / "out").write_bytes(self.old)
        return data

    def out(self):
        """The bytes of the file, or nothing where there is none."""
        path = self.folder / "out"
        return path.read_bytes() if path.exists() else None

    def names(self):
        return sorted(os.listdir(self.folder))

    def traced(self, *words):
        """Runs the command, and returns how it ended and what was traced."""
        whole = ["strace", "-qq", "-o", self.log, "-e", f"trace={SYNC},{NAMING},write", *words, *self.words]
        done = subprocess.run(whole, cwd=self.folder, capture_output=True, check=False)
        return done, self.log.read_text(errors="replace")


def cases(program, folder):
    """Each command in its turn."""
    probe = ["strace", "-qq", "-o", folder / "log", "true"]
    if not shutil.which("strace") or subprocess.run(probe, capture_output=True, check=False).returncode:
        raise SkipTest("there is no strace, or nothing can be traced here")
    for has_old, words in commands(program):
        yield Case(folder, has_old, words)


def test_a_file_is_on_the_disk_before_it_has_its_name(program, folder):
    for case in cases(program, folder):
        _, lines = case.traced()
        steps = re.findall(rf"^({(SYNC + ',' + NAMING).replace(',', '|')})\((.*)\) += (-?\d+)", lines, re.M)
        named = [number for number, (name, words, _) in enumerate(steps) if name in NAMING and '"out"' in words]
        assert len(named) == 1 and all(status == "0" for _, _, status in steps), (case.words, lines)
        assert any(name in SYNC for name, _, _ in steps[: named[0]]), (case.words, lines)
        assert case.out() == case.expected


def test_a_fault_at_any_step_leaves_what_was_there(program, folder):
    for case in cases(program, folder):
        before = case.names()
        # The first bytes of `diff` go to standard output.
        full = [] if "diff" in case.words else ["write:error=ENOSPC:when=1"]
        for fault in (*full, f"{SYNC}:error=EIO", f"{NAMING}:error=EACCES"):
            done, lines = case.traced("-e", f"inject={fault}")
            assert "INJECTED" in lines and done.returncode == 1, (case.words, fault, done)
            assert re.fullmatch(rb"[a-z]+: refused 33 at \d+\n", done.stderr), (case.words, fault, done)
            assert case.out() == case.old and case.names() == before, (case.words, fault, case.names())


def test_a_kill_at_any_step_leaves_no_part(program, folder):
    for case in cases(program, folder):
        for step in ("write", SYNC, NAMING):
            for signal in ("KILL", "TERM"):
                case.traced("-e", f"inject={step}:signal={signal}:when=1")
                assert case.out() in (case.old, case.expected), (case.words, step, signal)
                # What was left is taken over.
                if "--no-clobber" in case.words and case.out() is not None:
                    os.remove(case.folder / "out")
                subprocess.run(case.words, cwd=case.folder, capture_output=True, check=False)
                assert case.out() == case.expected, (case.words, step, signal)
                assert case.names() == ["larger", "out", "respelled", "small"], (case.words, step, signal)
                os.remove(case.folder / "out")
                if case.old is not None:
                    (case.folder / "out").write_bytes(case.old)
