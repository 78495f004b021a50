"""What follows a refusal: on a terminal by default, elsewhere with `--explain`."""
import gzip, os, pathlib, stat, subprocess, threading

from explain_tests import line_of, preparing_reasons, run
from layouts import SMALL, cell, file_of, large, rectangle
from terminals import on_terminal, to_terminal

# A property with the value 5.
DRESSED = file_of(cell(b"A") + rectangle(1, 0, 10, 20, 0, 0) + b"\x1c\x14\x01P\x08\x05")
# As stream files begin: HEADER, of version 600, and BGNLIB.
GDSII = bytes.fromhex("000600020258001c0102") + bytes(24)
TO_PREPARE = "oasprep --drop properties,layer-names"


def prep(program):
    return pathlib.Path(program).with_name("oasprep")


def try_of(number, command):
    return line_of(number, "", f"  = try: {command}\n")


def test_the_first_thing_that_everyone_meets(program, folder):
    (folder / "chip.oas").write_bytes(DRESSED)
    line = "chip.oas: refused 11 at 45\n"
    advice = try_of(11, f"{TO_PREPARE} chip.oas | oascanon key")
    assert on_terminal(folder, program, "key", "chip.oas") == (1, b"", line + advice)
    assert run(folder, program, "key", "--explain", "chip.oas") == (1, "", line + advice)
    assert run(folder, program, "key", "chip.oas") == (1, "", line)


def test_what_is_to_be_tried_serves(program, folder):
    key = subprocess.run([program, "key"], input=SMALL, capture_output=True, text=False).stdout
    environment = {**os.environ, "PATH": f"{pathlib.Path(program).parent}:{os.environ['PATH']}"}
    for name in ("chip.oas", "-x.oas", "two words.oas", "it's.oas", "$HOME;x.oas", "chip.oas.gz", "-it's $x.oas.gz"):
        (folder / name).write_bytes(gzip.compress(SMALL) if name.endswith(".gz") else DRESSED)
        shown = on_terminal(folder, program, "key", "--", name)[2]
        command = shown.splitlines()[-1].removeprefix("  = try: ")
        done = subprocess.run(["bash", "-c", command], cwd=folder, env=environment, capture_output=True)
        assert (done.returncode, done.stdout) == (0, key), (name, command, done)


def test_what_is_to_be_tried_by_command(program, folder):
    (folder / "a").write_bytes(SMALL)
    (folder / "in").write_bytes(DRESSED)
    for words, onward in ((("canon", "in", "out.oas"), " out.oas"), (("canon", "in", "-"), ""), (("show", "in"), " | oascanon show"),
                          (("keys", "in"), " | oascanon keys"), (("info", "in"), " | oascanon info"), (("check", "in"), " canonical.oas"),
                          (("same", "a", "in"), " canonical.oas"), (("diff", "in", "a"), " canonical.oas")):
        assert run(folder, program, *words, "--explain")[2].endswith(f"  = try: {TO_PREPARE} in{onward}\n"), words
    done = subprocess.run([program, "key", "--explain"], input=DRESSED, capture_output=True, text=False)
    assert done.stderr.decode() == "standard input: refused 11 at 45\n" + try_of(11, f"{TO_PREPARE} | oascanon key")


def test_what_a_file_looks_like(program, folder):
    (folder / "chip.gds").write_bytes(GDSII)
    (folder / "chip.oas.gz").write_bytes(gzip.compress(SMALL))
    (folder / "text.oas").write_bytes(SMALL.replace(b"\r\n", b"\n", 1))
    (folder / "other").write_bytes(b"not a layout")
    gdsii = "  = looks like GDSII\n  = try: klayout-to-canonical chip.gds canonical.oas\n"
    zipped = "  = looks like gzip\n  = try: gzip -dc chip.oas.gz | oascanon key\n"
    text = "  = looks like OASIS copied as text: get the file again, as binary\n"
    for name, advice in (("chip.gds", gdsii), ("chip.oas.gz", zipped), ("text.oas", text), ("other", "")):
        assert on_terminal(folder, program, "key", name)[2] == f"{name}: refused 1 at 0\n" + line_of(1, "", advice)
    with open(folder / "chip.gds", "rb") as file:
        done = subprocess.run([program, "key", "--explain"], stdin=file, capture_output=True)
    assert b"  = looks like GDSII\n" in done.stderr


def test_where_a_file_ends_early(program, folder):
    whole = large(2000)
    (folder / "cut").write_bytes(whole[:-600])
    shown = on_terminal(folder, program, "key", "cut")[2]
    at = int(shown.splitlines()[0].split()[-1])
    assert 1000 < at < len(whole) - 600
    assert shown.splitlines()[-1] == f"  = ends early: {at:,} of {len(whole) - 600:,} bytes are whole records"
    (folder / "empty").write_bytes(b"")
    assert on_terminal(folder, program, "key", "empty")[2].endswith("\n  = the file is empty\n")


def test_why_a_file_cannot_be_opened_or_read(program, folder):
    missing = "none: cannot be opened\n  = No such file or directory (os error 2)\n"
    assert on_terminal(folder, program, "key", "none") == (1, b"", missing)
    assert on_terminal(folder, prep(program), "none") == (1, b"", missing)
    assert on_terminal(folder, program, "key", ".")[2].endswith("\n  = Is a directory (os error 21)\n")
    (folder / "own").write_bytes(SMALL)
    os.chmod(folder / "own", 0)
    if os.geteuid():
        assert on_terminal(folder, program, "key", "own")[2].endswith("\n  = Permission denied (os error 13)\n")


def test_faults_of_an_output_name_it(program, folder):
    (folder / "in").write_bytes(SMALL)
    for words in ((program, "canon", "in", "no/out.oas"), (prep(program), "in", "no/out.oas")):
        status, _, shown = on_terminal(folder, *words)
        assert status == 1 and shown.startswith("in: refused 33 at 0\n")
        assert " (no/out.oas: No such file or directory (os error 2))\n" in shown


def test_oasprep_explains(program, folder):
    (folder / "in").write_bytes(DRESSED)
    _, name, meaning, remedy = preparing_reasons()[0]
    wanted = f"in: refused 101 at 45\n  = {name}: {meaning}\n  = {remedy}\n  = try: {TO_PREPARE} in | oascanon key\n"
    assert run(folder, prep(program), "--explain", "in") == (1, "", wanted)
    assert on_terminal(folder, prep(program), "in") == (1, b"", wanted)
    assert run(folder, prep(program), "in") == (1, "", "in: refused 101 at 45\n")
    assert run(folder, prep(program), "--drop", "properties", "--explain", "in", "out")[2] == "in: left out 1 property\n"


def test_a_place_in_a_block_is_explained(program, folder):
    """A block, stored by DEFLATE, with a record that no file may have."""
    block = b"\x22\x00\x01\x06" + b"\x01\x01\x00\xfe\xff\x23"
    (folder / "in").write_bytes(file_of(cell(b"A") + block))
    lines = run(folder, prep(program), "--explain", "in")[2].splitlines()
    assert lines[0] == "in: refused 12 at 37+0" and lines[1].startswith("  = UnknownRecord: "), lines


def piped(program, first, second):
    script = f"{first} | {second}; echo ${{PIPESTATUS[@]}}"
    environment = {**os.environ, "PATH": f"{pathlib.Path(program).parent}:{os.environ['PATH']}"}
    done = subprocess.run(["bash", "-c", script], capture_output=True, text=True, env=environment)
    return done.stdout, done.stderr


def test_a_refused_program_before_a_pipe_leaves_one_line(program, folder):
    (folder / "in").write_bytes(DRESSED)
    for command in ("key", "canon", "show", "check"):
        out, errors = piped(program, f"oasprep {folder}/in", f"oascanon {command}")
        assert (out, errors) == ("1 1\n", f"{folder}/in: refused 101 at 45\n"), command
    out, errors = piped(program, f"oascanon canon {folder}/in", "oascanon key")
    assert (out, errors) == ("1 1\n", f"{folder}/in: refused 11 at 45\n")
    assert piped(program, "true", "oascanon key") == ("0 1\n", "standard input: refused 2 at 0\n")
    assert piped(program, f"oasprep {folder}/none", "oascanon key") == ("1 1\n", f"{folder}/none: cannot be opened\n")


def test_a_pipe_with_a_name_keeps_its_rights(program, folder):
    os.mkfifo(folder / "pipe", 0o600)
    reader = threading.Thread(target=lambda: (folder / "pipe").read_bytes())
    reader.start()
    with open(folder / "pipe", "wb") as pipe:
        done = subprocess.run([prep(program)], input=DRESSED, stdout=pipe, stderr=subprocess.PIPE)
    reader.join()
    assert done.returncode == 1 and stat.S_IMODE(os.stat(folder / "pipe").st_mode) == 0o600


def test_a_binary_answer_and_a_terminal(program, folder):
    (folder / "in").write_bytes(SMALL)
    said = "error: a binary file isn't written to a terminal; name OUT, or - to insist\n"
    for words in ((program, "canon", "in"), (prep(program), "in")):
        assert to_terminal(folder, *words) == (2, b"", said), words
        status, shown, errors = to_terminal(folder, *words, "-")
        assert (status, errors) == (0, "") and shown.startswith(b"%SEMI-OASIS"), words
    assert to_terminal(folder, program, "key", "in")[0] == 0
    assert to_terminal(folder, program, "canon", "in", "out")[0] == 0 and (folder / "out").read_bytes() == SMALL


def test_help_with_a_full_output(program, folder):
    for words in ((program, "--help"), (program, "--version"), (program, "key", "--help"), (prep(program), "--help"), (prep(program), "--version")):
        with open("/dev/full", "wb") as full:
            done = subprocess.run(words, stdout=full, stderr=subprocess.PIPE, text=True)
        assert done.returncode == 1 and done.stderr.startswith("error: standard output: "), words


def test_each_help_names_the_other_program(program, folder):
    assert "oasprep" in run(folder, program, "--help")[1]
    assert "oascanon" in run(folder, prep(program), "--help")[1]
