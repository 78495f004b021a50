"""The gate's own script, tests/run, and what a merge calls, .ci/run, over a stub of `rt` and of each part: what fails is named,
and all is counted. And what the first build, scripts/prove, says where there is no kit, or another one."""
import os, pathlib, re, shutil, stat, subprocess, sys, tempfile

TESTS = pathlib.Path(__file__).resolve().parents[1]
sys.path.insert(0, str(TESTS))
from parts import parts_of

GREEN = 'echo "1 passed, 0 failed"'
NOT_RUN = "not run: no right to mount"
# What `rt ci` says of crates that it proves, or takes from an earlier run, and edits that pass where they are given these two.
PROVES = 'echo "rt: oas_ring proved"; echo "rt: oas_ring: its tests are proved"; echo "rt: oas_num is kept: an earlier run proved the same"'
OF_THESE = 'read one; read other; test "$one $other" = "oas_ring oas_num"'
# What a part or `rt ci` does in place of what it is for, and then: whether the run passes, and what is named as failed.
CASES = [
    ("all pass", {}, True, None),
    ("a part fails", {"tests/command/run": 'echo "2 passed, 1 failed"; exit 1'}, False, "command"),
    ("a part ends badly", {"tests/docs/run": f"{GREEN}; exit 3"}, False, "docs"),
    ("a part has no counts", {"tests/inflate": "echo done"}, False, "inflate"),
    ("a part isn't there", {"tests/large": None}, False, "large"),
    ("a part can't run", {"tests/large": f'echo "{NOT_RUN}"'}, True, None),
    ("rt ci fails", {"bin/rt": 'echo "7 passed, 1 failed"; exit 1'}, False, "rt ci"),
    ("rt ci is killed", {"bin/rt": f"{GREEN}; kill -9 $$"}, False, "rt ci"),
    ("there is no rt", {"bin/rt": None}, False, "rt ci"),
    ("each crate's edits are tried", {"bin/rt": f"{PROVES}; {GREEN}", "tests/edits.py": f"{OF_THESE} || exit 1; {GREEN}"}, True, None),
    ("an edit is not refused", {"tests/edits.py": 'cat >/dev/null; echo "9 passed, 1 failed"; exit 1'}, False, "edits"),
    ("the edits end at once", {"tests/edits.py": "exit 1"}, False, "edits"),
    ("the library isn't built", {"tests/library": "echo NOT built; exit 1"}, False, "library"),
]


def script(path, text):
    path.parent.mkdir(parents=True, exist_ok=True)
    path.write_text(f"#!/bin/sh\n{text}\n")
    path.chmod(path.stat().st_mode | stat.S_IXUSR)


def run(folder, changed, is_merge):
    """Runs the gate in this folder, or what a merge calls: its status, the parts that it names as failed, the counts of each line
    and of the last, and what it says of the part `large`."""
    for name in ("tests/run", "tests/parts.py", "Makefile", ".ci/run"):
        (folder / name).parent.mkdir(exist_ok=True)
        shutil.copy(TESTS.parent / name, folder / name)
    # Where a package isn't there, it can't be installed.
    stubs = dict.fromkeys(["bin/rt", "tests/edits.py", *(part.words[0] for part in parts_of(TESTS.parent, after_ci=True))], GREEN)
    for name, text in (stubs | {"bin/apt-get": "exit 1"} | changed).items():
        if text is not None:
            script(folder / name, text)
    words, path = [sys.executable, folder / "tests/run"], str(folder / "bin")
    if is_merge:
        words, path = [folder / ".ci/run"], f"{path}:{os.environ['PATH']}"
    # As a merge has it, also where make runs this.
    environment = {name: value for name, value in os.environ.items() if not name.startswith("MAKE")} | {"PATH": path}
    ran = subprocess.run(words, env=environment, stdin=subprocess.DEVNULL, stdout=subprocess.PIPE,
                         stderr=subprocess.STDOUT, text=True, check=False)
    lines = ran.stdout.rstrip("\n").split("\n== all\n")[-1].splitlines()
    failed = next((line.removeprefix("FAILED: ") for line in lines if line.startswith("FAILED: ")), None)
    counts = [tuple(map(int, found)) for found in re.findall(r"(\d+) passed, (\d+) failed$", "\n".join(lines), re.M)]
    last = counts[-1] if re.fullmatch(r"\d+ passed, \d+ failed", lines[-1]) else None
    return ran.returncode, failed, counts[:-1], last, [line for line in lines if line.startswith("large: ")]


def told_of_a_kit(version):
    """What the first build prints where `rt version` says this, or where there is no rt."""
    with tempfile.TemporaryDirectory() as folder:
        if version:
            script(pathlib.Path(folder, "rt"), f"echo {version}")
        words = [sys.executable, TESTS.parent / "scripts/prove", "oascanon"]
        ran = subprocess.run(words, env={**os.environ, "PATH": folder}, stdout=subprocess.PIPE, stderr=subprocess.STDOUT, text=True, check=False)
    return ran.returncode, ran.stdout


def checks():
    """Whether each case ends as it must, and what is to be told where it doesn't."""
    for version in (None, "rattle-kit-1a logic 0"):
        status, told = told_of_a_kit(version)
        is_clear = told.count("\n") == 1 and (version or "no rt") in told
        yield status == 1 and is_clear, f"the first build, where rt is of {version}: {status}, {told}"
    # make finds a real rt in the search path, where there is one.
    runs = [(case, False) for case in CASES] + [(case, True) for case in CASES if "bin/rt" not in case[1]]
    for (name, changed, passes, named), is_merge in runs:
        with tempfile.TemporaryDirectory() as folder:
            status, failed, each, last, large = run(pathlib.Path(folder), changed, is_merge)
        total, gate = tuple(map(sum, zip(*each))), ".ci/run" if is_merge else "the gate"
        is_right = (status == 0, failed, last) == (passes, named, total)
        yield is_right, f"{gate}, where {name}: {status}, {failed}, {last} for {total}"
        if NOT_RUN in str(changed):
            yield large == [f"large: {NOT_RUN}"], f"{gate}, where {name}: {large}"
    page = (TESTS.parent / "CONTRIBUTING.md").read_text()
    for part in parts_of(TESTS.parent, after_ci=True):
        yield f"`{part.name}`" in page, f"CONTRIBUTING.md doesn't say what the part {part.name} runs"
