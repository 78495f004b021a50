"""Trying a command line: a folder with the files of each scene, the run, and what it has changed."""

import os
import signal
import subprocess

from results import PROGRESS, TO_TRY, Result, markers_in

SECONDS = 60
MARKERS = "m"


def whole(output):
    """What was written to a file that is open."""
    return os.pread(output.fileno(), os.fstat(output.fileno()).st_size, 0)


class Place:
    """A folder for a program, with a folder for each scene, in which the files are as the scene has them."""

    def __init__(self, program, folder, scenes):
        self.program, self.folder = program, folder
        self.out, self.err = (open(folder / name, "w+b", buffering=0) for name in ("out", "err"))
        self.given = {}
        for scene in scenes:
            (folder / scene.name).mkdir()
            for name in scene.files:
                self.restore(scene, name)
            for kind, data in scene.stdin.items():
                (folder / f"{scene.name} {kind}").write_bytes(data)
                self.given[scene, kind] = open(folder / f"{scene.name} {kind}", "rb", buffering=0)

    def restore(self, scene, name):
        """Leaves a file as the scene has it, or none."""
        path = self.folder / scene.name / name
        if name in scene.files:
            path.write_bytes(scene.files[name])
        else:
            path.unlink()

    def changes(self, scene):
        """The files that aren't as the scene has them, which are then as it has them again; those that are gone are None."""
        found = {}
        for entry in os.scandir(self.folder / scene.name):
            with open(entry.path, "rb") as file:
                found[entry.name] = file.read()
        changed = {name: found.get(name) for name in {*found, *scene.files} if found.get(name) != scene.files.get(name)}
        for name in changed:
            self.restore(scene, name)
        return changed

    def run(self, words, scene, kind):
        """Runs the program; returns its status, its output and its error output."""
        given = self.given[scene, kind]
        given.seek(0)
        for output in (self.out, self.err):
            output.seek(0)
            output.truncate()
        signal.alarm(SECONDS)
        where = {"stdin": given, "stdout": self.out, "stderr": self.err, "cwd": self.folder / scene.name}
        ran = subprocess.run([self.program, *words], **where, check=False)
        signal.alarm(0)
        return ran.returncode, whole(self.out), whole(self.err)

    def result(self, words, scene, kind):
        """What came of a command line, as results.py has it."""
        status, out, err = self.run(words, scene, kind)
        err = err.decode("utf-8", "backslashreplace")
        names = tuple(dict.fromkeys(found[1] for found in PROGRESS.finditer(err)))
        changed = self.changes(scene)
        if MARKERS in changed:
            changed[MARKERS] = markers_in(changed[MARKERS])
        return Result(status, out, TO_TRY.sub("", PROGRESS.sub("", err)), names, tuple(sorted(changed.items())))
