"""What differs between two files."""
import json, subprocess, time
from decimal import Decimal
from xml.etree import ElementTree

from layouts import RESPELLED, SMALL, cell, file_of, large, rectangle


def run(*words, **more):
    return subprocess.run([str(word) for word in words], capture_output=True, **more)


def diff(program, folder, before, after, *flags):
    (folder / "a").write_bytes(before)
    (folder / "b").write_bytes(after)
    return run(program, "diff", *flags, folder / "a", folder / "b")


def answer(program, folder, before, after, *flags):
    done = diff(program, folder, before, after, *flags)
    assert done.stderr == b""
    return done.returncode, done.stdout.decode()


def test_the_same(program, folder):
    assert answer(program, folder, SMALL, RESPELLED) == (0, "")


def test_elements_and_cells(program, folder):
    before = file_of(cell(b"A") + 2 * rectangle(1, 0, 10, 20, 0, 0) + rectangle(3, 0, 1, 1, 0, 0) + cell(b"B"))
    after = file_of(cell(b"C") + rectangle(2, 0, 5, 5, 0, 0) + cell(b"A") + rectangle(3, 0, 1, 1, 0, 0) + rectangle(4, 0, 1, 1, 7, 8))
    assert answer(program, folder, before, after) == (3, """@ cell A
- 2 rectangle 1 0 10 20 0 0
+ 1 rectangle 4 0 1 1 7 8
- 1 cell B
+ 1 cell C
+ 1 rectangle 2 0 5 5 0 0
""")


def test_units(program, folder):
    other = SMALL.replace(b"\x00\xe8\x07", b"\x00\xd0\x0f", 1)
    assert answer(program, folder, SMALL, other) == (3, "- 1 unit 1000/1\n+ 1 unit 2000/1\n")


def test_refused(program, folder):
    done = diff(program, folder, SMALL, SMALL[:-1])
    assert (done.returncode, done.stdout, done.stderr) == (1, b"", f"{folder}/b: refused 2 at 45\n".encode())
    done = diff(program, folder, SMALL[:-1], SMALL[:-1])
    assert (done.returncode, done.stdout, done.stderr) == (1, b"", f"{folder}/a: refused 2 at 45\n".encode())


def test_no_such_file(program, folder):
    (folder / "a").write_bytes(SMALL)
    done = run(program, "diff", folder / "a", folder / "b")
    assert (done.returncode, done.stdout, done.stderr) == (1, b"", f"{folder}/b: cannot be opened\n".encode())


def test_full_device(program, folder):
    (folder / "a").write_bytes(SMALL)
    (folder / "b").write_bytes(file_of(b""))
    with open("/dev/full", "wb") as full:
        done = subprocess.run([program, "diff", folder / "a", folder / "b"], stdout=full, stderr=subprocess.PIPE)
    assert done.returncode == 1 and b"refused 33 at 0" in done.stderr


def test_many(program, folder):
    begun = time.monotonic()
    code, text = answer(program, folder, large(200_000), file_of(cell(b"A")))
    assert code == 3 and text.startswith("@ cell A\n- 1 rectangle 1 0 10 20 0 0\n") and text.count("\n") == 200_001
    assert time.monotonic() - begun < 20


BEFORE = file_of(cell(b"A") + 2 * rectangle(1, 0, 10, 20, 0, 0) + rectangle(3, 0, 1, 1, 0, 0) + cell(b"B"))
AFTER = file_of(cell(b"C") + rectangle(2, 0, 5, 5, 0, 0) + cell(b"A") + rectangle(3, 0, 1, 1, 0, 0) + rectangle(4, 0, 1, 1, 7, 8))


def test_brief(program, folder):
    assert answer(program, folder, BEFORE, AFTER, "--brief") == (3, "@ cell A - 2 + 1\n- cell B - 0 + 0\n+ cell C - 0 + 1\n")
    assert answer(program, folder, SMALL, RESPELLED, "--brief") == (0, "")


def test_brief_counts_the_lines_of_the_whole(program, folder):
    lines = [line.split() for line in answer(program, folder, BEFORE, AFTER)[1].splitlines()]
    counted, name = {}, None
    for sign, second, third, *rest in lines:
        if "cell" in (second, third):
            name = third if second == "cell" else rest[0]
            counted[name] = [0, 0]
        else:
            counted[name]["-+".index(sign)] += int(second)
    briefly = [line.split() for line in answer(program, folder, BEFORE, AFTER, "--brief")[1].splitlines()]
    assert counted == {fields[2]: [int(fields[4]), int(fields[6])] for fields in briefly}


def test_limit(program, folder):
    whole = answer(program, folder, BEFORE, AFTER)[1].splitlines(keepends=True)
    for count in range(len(whole) + 2):
        first = "".join(whole[:count]) + ("...\n" if count < len(whole) else "")
        assert answer(program, folder, BEFORE, AFTER, "--limit", str(count)) == (3, first)
    assert answer(program, folder, BEFORE, AFTER, "--brief", "--limit=1") == (3, "@ cell A - 2 + 1\n...\n")
    assert answer(program, folder, SMALL, RESPELLED, "--limit", "0") == (0, "")


def test_limit_that_is_no_number(program, folder):
    assert diff(program, folder, SMALL, SMALL, "--limit", "x").returncode == 2
    assert diff(program, folder, SMALL, SMALL, "--limit").returncode == 2


def test_limit_of_many(program, folder):
    code, text = answer(program, folder, large(200_000), file_of(cell(b"A")), "--limit", "3")
    assert code == 3 and text == "@ cell A\n- 1 rectangle 1 0 10 20 0 0\n- 1 rectangle 1 0 10 20 1 0\n...\n"
    assert answer(program, folder, large(200_000), file_of(cell(b"A")), "--brief") == (3, "@ cell A - 200000 + 0\n")


KINDS = file_of(cell(b"A") + rectangle(1, 0, 10, 20, 0, 0) + rectangle(1, 5, 10, 20, 0, 0) + rectangle(2, 5, 10, 20, 0, 0)
                + bytes.fromhex("11b001420000" "135b017301050000"))


def test_cells(program, folder):
    whole = answer(program, folder, BEFORE, AFTER)[1].splitlines(keepends=True)
    assert answer(program, folder, BEFORE, AFTER, "--cell", "A") == (3, "".join(whole[:3]))
    assert answer(program, folder, BEFORE, AFTER, "--cell", "C", "--cell=B") == (3, "".join(whole[3:]))
    assert answer(program, folder, BEFORE, AFTER, "--cell", "a") == (0, "")
    assert answer(program, folder, BEFORE, AFTER, "--brief", "--cell", "C") == (3, "+ cell C - 0 + 1\n")
    assert answer(program, folder, BEFORE, AFTER, "--cell", "A", "--limit", "2") == (3, "".join(whole[:2]) + "...\n")


def test_layers(program, folder):
    assert answer(program, folder, BEFORE, AFTER, "--layer", "3") == (0, "")
    assert answer(program, folder, BEFORE, AFTER, "--layer", "2") == (3, "@ cell C\n+ 1 rectangle 2 0 5 5 0 0\n")
    assert answer(program, folder, AFTER, BEFORE, "--layer", "2", "--brief") == (3, "@ cell C - 1 + 0\n")
    assert answer(program, folder, BEFORE, AFTER, "--layer", "4") == (3, "@ cell A\n+ 1 rectangle 4 0 1 1 7 8\n")
    assert answer(program, folder, BEFORE, AFTER, "--layer", "4", "--cell", "C") == (0, "")
    assert answer(program, folder, BEFORE, AFTER, "--layer", "4/1") == (0, "")
    assert answer(program, folder, BEFORE, AFTER, "--layer", "4/0", "--layer=1/0", "--brief") == (3, "@ cell A - 2 + 1\n")


def test_layers_of_each_kind(program, folder):
    text, one, five, other = "- 1 text 1 5 0 0 s\n", "- 1 rectangle 1 0 10 20 0 0\n", "- 1 rectangle 1 5 10 20 0 0\n", "- 1 rectangle 2 5 10 20 0 0\n"
    for layers, lines in ((["1"], text + one + five), (["1/5"], text + five), (["2", "1/0"], one + other), (["5"], ""), (["0"], "")):
        words = [word for layer in layers for word in ("--layer", layer)]
        assert answer(program, folder, KINDS, file_of(cell(b"A")), *words) == ((3, "@ cell A\n" + lines) if lines else (0, "")), layers


def test_json(program, folder):
    code, text = answer(program, folder, BEFORE, AFTER, "--json")
    assert code == 3 and text.splitlines()[0] == (
        '{"kind":"rectangle","sign":"-","count":2,"cell":"A","layer":1,"datatype":0,"width":10,"height":20,"x":0,"y":0}')
    assert [tuple(json.loads(line).values())[:4] for line in text.splitlines()] == [
        ("rectangle", "-", 2, "A"), ("rectangle", "+", 1, "A"), ("cell", "-", 1, "B"), ("cell", "+", 1, "C"), ("rectangle", "+", 1, "C")]
    assert answer(program, folder, SMALL, RESPELLED, "--json") == (0, "")


def test_json_has_the_fields_of_the_lines(program, folder):
    before = file_of(cell(b"A") + bytes.fromhex("11b001420406" "135b02225c03040709" "153b01000402012829000000" "16fb0100050f050604000608" "1b3b0100050709"))
    fields = []
    for line in answer(program, folder, before, file_of(cell(b"A")), "--json")[1].splitlines():
        kind, sign, count, name, *rest = json.loads(line).values()
        words = (" ".join(",".join(map(str, point)) for point in each) if isinstance(each, list) else str(each) for each in rest)
        fields.append(" ".join([sign, str(count), kind, *words]))
        assert name == "A"
    assert fields == answer(program, folder, before, file_of(cell(b"A")))[1].splitlines()[1:]


def test_json_of_counts_and_of_a_limit(program, folder):
    assert answer(program, folder, BEFORE, AFTER, "--json", "--brief", "--limit", "1") == (
        3, '{"kind":"cell","sign":"@","cell":"A","removed":2,"added":1}\n{"kind":"more"}\n')
    assert answer(program, folder, BEFORE, AFTER, "--json", "--limit", "0") == (3, '{"kind":"more"}\n')


def test_microns(program, folder):
    assert answer(program, folder, BEFORE, AFTER, "--unit", "um", "--cell", "A") == (
        3, "@ cell A\n- 2 rectangle 1 0 0.01 0.02 0 0\n+ 1 rectangle 4 0 0.001 0.001 0.007 0.008\n")
    assert answer(program, folder, BEFORE, AFTER, "--unit=grid") == answer(program, folder, BEFORE, AFTER)
    assert answer(program, folder, BEFORE, AFTER, "--unit=um", "--brief") == answer(program, folder, BEFORE, AFTER, "--brief")


def test_microns_of_json_are_exact(program, folder):
    words = "--json", "--layer", "1", "--layer", "4"
    steps, microns = (answer(program, folder, BEFORE, AFTER, *words, "--unit", unit)[1].splitlines() for unit in ("grid", "um"))
    for one, other in zip(steps, microns, strict=True):
        one, other = (json.loads(line, parse_float=Decimal) for line in (one, other))
        for name in ("width", "height", "x", "y"):
            assert other.pop(name) * 1000 == one.pop(name)
        assert one == other


def test_a_unit_that_is_none(program, folder):
    for words in (["--unit"], ["--unit", "mm"], ["--unit="], ["--unit", "um", "--unit", "um"]):
        done = diff(program, folder, SMALL, SMALL, *words)
        assert (done.returncode, done.stdout) == (2, b"") and b"--unit <UNIT>" in done.stderr, words


def test_json_of_many(program, folder):
    begun = time.monotonic()
    code, text = answer(program, folder, large(200_000), file_of(cell(b"A")), "--json", "--unit", "um")
    assert code == 3 and text.count("\n") == 200_000 and all(line.startswith('{"kind":"rectangle",') for line in text.splitlines())
    assert time.monotonic() - begun < 40


def test_a_layer_that_is_none(program, folder):
    for layer in ("x", "1/", "/1", "1/2/3", "-1", "", "18446744073709551616"):
        done = diff(program, folder, SMALL, SMALL, f"--layer={layer}")
        assert (done.returncode, done.stdout) == (2, b"") and b"a layer is a number" in done.stderr, layer
    assert diff(program, folder, SMALL, SMALL, "--layer").returncode == 2
    assert diff(program, folder, SMALL, SMALL, "--cell").returncode == 2


def items(path):
    """The items of a report database: category, cell, multiplicity and values of each."""
    root = ElementTree.parse(path).getroot()
    assert root.tag == "report-database"
    return [(item.findtext("category"), item.findtext("cell"), int(item.findtext("multiplicity")), [value.text for value in item.find("values")])
            for item in root.find("items")]


def test_markers(program, folder):
    lines = answer(program, folder, BEFORE, AFTER)
    assert answer(program, folder, BEFORE, AFTER, "--markers", folder / "m") == lines
    assert items(folder / "m") == [
        ("removed.rectangle", "A", 2, ["box: (0,0;0.01,0.02)", "text: 'layer 1/0'"]),
        ("added.rectangle", "A", 1, ["box: (0.007,0.008;0.008,0.009)", "text: 'layer 4/0'"]),
        ("removed.cell", "B", 1, ["text: 'cell'"]),
        ("added.cell", "C", 1, ["text: 'cell'"]),
        ("added.rectangle", "C", 1, ["box: (0,0;0.005,0.005)", "text: 'layer 2/0'"]),
    ]


def test_markers_whatever_the_lines(program, folder):
    assert answer(program, folder, BEFORE, AFTER, "--markers", folder / "m", "--brief", "--limit=0") == (3, "...\n")
    assert len(items(folder / "m")) == 5
    assert answer(program, folder, SMALL, RESPELLED, "--markers", folder / "m") == (0, "")
    assert items(folder / "m") == []


def test_markers_of_cells_and_layers(program, folder):
    assert answer(program, folder, BEFORE, AFTER, "--markers", folder / "m", "--cell", "A", "--layer", "4") == (3, "@ cell A\n+ 1 rectangle 4 0 1 1 7 8\n")
    assert items(folder / "m") == [("added.rectangle", "A", 1, ["box: (0.007,0.008;0.008,0.009)", "text: 'layer 4/0'"])]
    assert [name.text for name in ElementTree.parse(folder / "m").getroot().iterfind("cells/cell/name")] == ["A"]
    assert answer(program, folder, BEFORE, AFTER, "--markers", folder / "m", "--layer", "2")[0] == 3
    assert items(folder / "m") == [("added.rectangle", "C", 1, ["box: (0,0;0.005,0.005)", "text: 'layer 2/0'"])]


def described(path):
    """The description of a report database."""
    return ElementTree.parse(path).getroot().findtext("description")


def test_markers_limit(program, folder):
    assert answer(program, folder, BEFORE, AFTER, "--markers", folder / "m") == answer(program, folder, BEFORE, AFTER)
    whole = items(folder / "m")
    for most in range(len(whole) + 2):
        lines = answer(program, folder, BEFORE, AFTER, "--markers", folder / "m", "--markers-limit", str(most))
        assert lines == answer(program, folder, BEFORE, AFTER)
        assert items(folder / "m") == whole[:most]
        more = f" (the first {most} of {len(whole)} markers)" if most < len(whole) else ""
        assert described(folder / "m") == "The difference of A and B" + more
    assert answer(program, folder, SMALL, RESPELLED, "--markers", folder / "m", "--markers-limit=0") == (0, "")
    assert described(folder / "m") == "The difference of A and B"


def test_markers_limit_of_other_units(program, folder):
    other = SMALL.replace(b"\x00\xe8\x07", b"\x00\xd0\x0f", 1).replace(b"\x0e\x01A", b"\x0e\x01B")
    assert answer(program, folder, SMALL, other, "--markers", folder / "m", "--markers-limit=3")[0] == 3
    assert described(folder / "m").endswith(" the unit of its own layout (the first 3 of 4 markers)")


def test_markers_limit_that_holds_by_itself(program, folder):
    many = file_of(cell(b"A") + b"".join(rectangle(1, 0, 10, 20, i, 0) for i in range(100_001)))
    code, text = answer(program, folder, many, file_of(cell(b"A")), "--markers", folder / "m", "--brief")
    assert (code, text) == (3, "@ cell A - 100001 + 0\n")
    assert described(folder / "m") == "The difference of A and B (the first 100000 of 100001 markers)"
    assert len(items(folder / "m")) == 100_000
    assert answer(program, folder, many, file_of(cell(b"A")), "--markers", folder / "m", "--limit=0", "--markers-limit", str(2**32)) == (3, "...\n")
    assert len(items(folder / "m")) == 100_001 and described(folder / "m") == "The difference of A and B"


def test_markers_limit_that_is_none(program, folder):
    for words in (["--markers", folder / "m", "--markers-limit", "x"], ["--markers", folder / "m", "--markers-limit=-1"],
                  ["--markers", folder / "m", "--markers-limit"], ["--markers-limit", "1"]):
        assert diff(program, folder, BEFORE, AFTER, *words).returncode == 2, words
    assert not (folder / "m").exists()


def test_markers_of_a_refused_file(program, folder):
    done = diff(program, folder, SMALL, SMALL[:-1], "--markers", folder / "m")
    assert (done.returncode, done.stdout, done.stderr) == (1, b"", f"{folder}/b: refused 2 at 45\n".encode())
    assert not (folder / "m").exists()
    (folder / "m").write_text("kept")
    assert diff(program, folder, SMALL[:-1], SMALL, "--markers", folder / "m").returncode == 1
    assert (folder / "m").read_text() == "kept"


def test_markers_to_a_full_device(program, folder):
    done = diff(program, folder, BEFORE, AFTER, "--markers", "/dev/full")
    assert (done.returncode, done.stderr) == (1, b"/dev/full: refused 33 at 0\n")
    assert done.stdout.decode() == answer(program, folder, BEFORE, AFTER)[1]


def test_markers_without_the_lines(program, folder):
    (folder / "a").write_bytes(BEFORE)
    (folder / "b").write_bytes(AFTER)
    with open("/dev/full", "wb") as full:
        done = subprocess.run([program, "diff", "--markers", folder / "m", folder / "a", folder / "b"], stdout=full, stderr=subprocess.PIPE)
    assert (done.returncode, done.stderr) == (1, f"{folder}/a: refused 33 at 0\n".encode())
    assert not (folder / "m").exists()


def test_markers_to_standard_output(program, folder):
    assert diff(program, folder, SMALL, SMALL, "--markers", "-").returncode == 2
