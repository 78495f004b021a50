"""The parts of the gate that come after `rt ci`: what each runs, what it needs, and what came of it."""

import contextlib
import os
import pathlib
import re
import shutil
import signal
import subprocess
import tempfile
import threading
import time
from dataclasses import dataclass, field

COUNTS = re.compile(r"(\d+) passed, (\d+) failed")
NOT_RUN = "not run: "
# Each takes a few minutes at most, on a slow machine too.
SECONDS = 40 * 60


@dataclass
class Part:
    """A name, the words of the command, which runs at the top, packages of Debian's with the files that tell whether they are
    there, and the name of the part whose end it waits for."""

    name: str
    words: list
    package: tuple = None
    after: str = None


@dataclass
class Result:
    """A part's counts, and the lines that say what wasn't run or how it broke off."""

    name: str
    passed: int
    failed: int
    told: list = field(default_factory=list)


KLAYOUT = ("klayout", "/usr/lib/klayout/strm2oas")
SHELLS = ("zsh fish", "/usr/bin/fish")
SLURM = ("slurm-wlm munge parallel", "/usr/sbin/slurmctld")
PYTHON = (
    "python3-pytest python3-pip klayout",
    *(f"/usr/lib/python3/dist-packages/{name}/__init__.py" for name in ("pytest", "pip")),
    "/usr/lib/klayout/pymod/klayout/db",
)


def parts_of(top, after_ci):
    """The parts, the longest first. A folder of tests/ that isn't named here is a part by its `run`, which is given the program."""
    named = [
        Part("library", ["tests/library", *(["--after-ci"] if after_ci else [])]),
        Part("c", ["tests/c/run", "lib"], after="library"),
        Part("python", ["tests/python/run", "./oascanon"], PYTHON, after="library"),
        Part("readings", ["tests/reference/readings"]),
        Part("reference", ["tests/reference/compare", "./oascanon", "2000"]),
        Part("command", ["tests/command/run", "./oascanon"]),
        Part("workflows", ["tests/workflows/run", "./oascanon"], ("parallel", "/usr/bin/parallel")),
        Part("vault", ["tests/workflows/vault", "./oascanon"]),
        Part("pre-commit", ["tests/workflows/pre-commit", "./oascanon"], ("pre-commit", "/usr/bin/pre-commit")),
        Part("large", ["tests/large", "./oascanon"]),
        Part("klayout", ["tests/klayout/run", "./oascanon"], KLAYOUT),
        Part("klayout-package", ["tests/klayout/package", "./oascanon"], KLAYOUT),
        Part("klayout-prepared", ["tests/klayout/prepared", "."], KLAYOUT),
        Part("inflate", ["tests/inflate", "crates/oas_bench/out/oas_bench"]),
        Part("cluster", ["tests/cluster/run", "./oascanon"], SLURM),
        Part("dist", ["tests/dist/run"], ("lintian", "/usr/bin/lintian"), after="library"),
        Part("completion", ["tests/completion/run"], SHELLS),
    ]
    folders = {pathlib.Path(part.words[0]).parent.name for part in named}
    others = [path for path in sorted((top / "tests").glob("*/run")) if path.parent.name not in folders]
    return named + [Part(path.parent.name, [str(path.relative_to(top)), "./oascanon"]) for path in others]


def chosen_of(parts, names):
    """The parts of these names, and those whose end they wait for."""
    awaited = {part.after for part in parts if part.name in names}
    return [part for part in parts if part.name in names or part.name in awaited]


APT = threading.Lock()
UPDATED = []


def apt_get(*words):
    """Returns the last line of what apt-get said where it failed, or None."""
    whole = ["apt-get", "-q", "-o", "DPkg::Lock::Timeout=300", *words]
    ran = subprocess.run(whole, stdin=subprocess.DEVNULL, stdout=subprocess.PIPE, stderr=subprocess.STDOUT, errors="replace",
                         env={**os.environ, "DEBIAN_FRONTEND": "noninteractive"}, check=False)
    return (ran.stdout.strip().splitlines() or ["it failed"])[-1] if ran.returncode else None


def lacking(package):
    """Installs the packages where they aren't there. Returns why they aren't there then, or None."""
    names, *files = package or ("",)
    missing = [file for file in files if not os.path.exists(file)]
    if not missing:
        return None
    if os.geteuid() or not shutil.which("apt-get"):
        return f"there is no {missing[0]}, and Debian's {names} can't be installed here"
    with APT:
        if not UPDATED:
            UPDATED.append(apt_get("update"))
        why = apt_get("install", "-y", "--no-install-recommends", *names.split())
    return None if all(map(os.path.exists, files)) else f"Debian's {names} can't be installed: {why}"


def result_of(name, last, status):
    """What a command's last line and its status say. A status other than 0 is a failure, whatever the line says."""
    counts = COUNTS.fullmatch(last)
    if counts:
        passed, failed = map(int, counts.groups())
        told = [f"its status is {status}"] if status and not failed else []
        return Result(name, passed, max(failed, int(status != 0)), told)
    if status == 0 and last.startswith(NOT_RUN):
        return Result(name, 0, 0)
    return Result(name, 0, 1, [f"it ended with status {status} and no counts: {last[:200]}"])


# What runs now: each command leads a group of its own, with all that it starts.
RUNNING = set()


def stop_all():
    """Ends all that runs."""
    for process in list(RUNNING):
        os.killpg(process.pid, signal.SIGKILL)


def outcome(words):
    """Runs a command; returns its status and what it printed. When its time is over it ends, with all that it started."""
    how = {"stdin": subprocess.DEVNULL, "stdout": subprocess.PIPE, "stderr": subprocess.STDOUT, "errors": "replace"}
    process = subprocess.Popen(words, start_new_session=True, **how)
    RUNNING.add(process)
    try:
        output, _ = process.communicate(timeout=SECONDS)
        return process.returncode, output
    except subprocess.TimeoutExpired:
        os.killpg(process.pid, signal.SIGKILL)
        return -signal.SIGKILL, process.communicate()[0] + f"it had not ended after {SECONDS} seconds\n"
    finally:
        RUNNING.discard(process)


def ended(part, status, output, start):
    """A part's result, what it printed, and how many seconds it took."""
    lines = output.rstrip("\n").split("\n")
    result = result_of(part.name, lines[-1], status)
    result.told += [line for line in lines if line.startswith(NOT_RUN)]
    if output and not output.endswith("\n"):
        output += "\n"
    return result, output, time.monotonic() - start


def run_part(part):
    """Runs a part; returns its result, what it printed, and how many seconds it took."""
    start = time.monotonic()
    why = lacking(part.package)
    try:
        status, output = (0, f"{NOT_RUN}{why}\n") if why else outcome(part.words)
    except OSError as error:
        status, output = error.errno, f"{part.words[0]} cannot be run: {error.strerror}\n"
    return ended(part, status, output, start)


class Fed:
    """A part that runs already, and is given lines one by one."""

    def __init__(self, part):
        self.part, self.start, self.output = part, time.monotonic(), tempfile.TemporaryFile("w+", errors="replace")
        how = {"stdin": subprocess.PIPE, "stdout": self.output, "stderr": subprocess.STDOUT, "text": True}
        # In the session of what runs beside it, within which its priority counts.
        self.process = subprocess.Popen(part.words, process_group=0, **how)
        RUNNING.add(self.process)

    def feed(self, line):
        # Where it has ended, its status says why.
        with contextlib.suppress(OSError):
            self.process.stdin.write(f"{line}\n")
            self.process.stdin.flush()

    def close(self):
        """Tells it that no more lines come."""
        with contextlib.suppress(OSError):
            self.process.stdin.close()

    def end(self):
        """As run_part, once it has ended."""
        status = self.process.wait()
        RUNNING.discard(self.process)
        self.output.seek(0)
        return ended(self.part, status, self.output.read(), self.start)
