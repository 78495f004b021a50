"""The facts of a layout: numbers counted by hand, and what a refused file leaves."""

import json, subprocess

from layouts import file_of

# A rectangle on layer 1, twice, and one on layer 7/2; a placement of a cell that is there, and of one that isn't; a text.
TOP = (b"\x0e\x03TOP" + 2 * b"\x14\x7b\x01\x00\x0a\x14\x00\x00" + b"\x14\x7b\x07\x02\x05\x05\x02\x02"
       + b"\x11\xb0\x01A\x00\x00" + b"\x11\xb0\x02NO\x00\x00" + b"\x13\x5b\x02Hi\x03\x04\x00\x00")
A = b"\x0e\x01A"
FACTS = b"""unit 1000/1
cells 2
undefined 1 NO
unplaced 1 TOP
elements 6
placements 2
texts 1
rectangles 3
layer 1 0 2
layer 7 2 1
textlayer 3 4 1
"""


def info(program, data, *words):
    return subprocess.run([program, "info", *words], input=data, capture_output=True)


def test_facts_are_counted(program, _folder):
    data = file_of(TOP + A)
    done = info(program, data)
    canonical = subprocess.run([program, "canon"], input=data, capture_output=True).stdout
    assert (done.returncode, done.stderr) == (0, b"")
    facts, weight, size = done.stdout.rsplit(b"\n", 3)[:3]
    assert facts + b"\n" == FACTS and weight.startswith(b"weight ")
    assert size == b"size %d" % len(canonical)


def test_facts_are_those_of_the_layout(program, folder):
    (folder / "in").write_bytes(file_of(TOP + A))
    subprocess.run([program, "canon", folder / "in", folder / "out"], check=True)
    assert info(program, None, folder / "in").stdout == info(program, None, folder / "out").stdout


def as_json(lines):
    """The JSON of the lines of facts, whose names have no space."""
    kinds = dict.fromkeys(("placements", "texts", "rectangles", "polygons", "paths", "circles"), 0)
    found = {"kinds": kinds, "layers": [], "textlayers": []}
    for word, *fields in map(str.split, lines.splitlines()):
        if word == "unit":
            found[word] = dict(zip(("num", "den"), map(int, fields[0].split("/"))))
        elif word in ("undefined", "unplaced"):
            found[word] = fields[1:]
        elif word == "layer":
            found["layers"].append(dict(zip(("layer", "datatype", "elements"), map(int, fields))))
        elif word == "textlayer":
            found["textlayers"].append(dict(zip(("textlayer", "texttype", "elements"), map(int, fields))))
        else:
            (kinds if word in kinds else found)[word] = int(fields[0])
    return found


def test_json_has_the_facts_of_the_text(program, _folder):
    quoted = b'\x0e\x03"\\/' + b"\x14\x7b" + 2 * (9 * b"\xff" + b"\x01") + b"\x05\x05\x02\x02"
    for body in (TOP + A, TOP, A, b"", TOP + quoted):
        done = info(program, file_of(body), "--json")
        assert (done.returncode, done.stderr) == (0, b"") and done.stdout.endswith(b"}\n")
        assert b" " not in done.stdout and done.stdout.count(b"\n") == 1
        assert json.loads(done.stdout) == as_json(info(program, file_of(body)).stdout.decode())
    assert json.loads(done.stdout)["layers"][-1] == {"layer": 2**64 - 1, "datatype": 2**64 - 1, "elements": 1}
    assert '"\\/' in json.loads(done.stdout)["unplaced"]


def test_a_refused_file_has_no_facts(program, _folder):
    for words in ((), ("--json",)):
        done = info(program, file_of(TOP + A)[:-1], *words)
        assert (done.returncode, done.stdout) == (1, b"")
        assert done.stderr.startswith(b"standard input: refused ")


def test_a_full_output_is_refused(program, _folder):
    with open("/dev/full", "wb") as full:
        done = subprocess.run([program, "info"], input=file_of(TOP + A), stdout=full, stderr=subprocess.PIPE)
    assert done.returncode == 1 and done.stderr.startswith(b"standard input: refused 33 at ")
