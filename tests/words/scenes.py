"""The files that a command line finds. In each scene the same names have other files, so that together the results show which
files were read, which of two was read first, by which limits, and what was asked of them."""

from dataclasses import dataclass

from commands import answer
from layouts import cell, file_of, number, rectangle
from table import CELLS, FILES, KEYS, NAMES, is_option

# A polygon that goes round a rectangle: canonical by profile one alone.
BOX = bytes.fromhex("153B010004030128290001290000")
UNKNOWN = b"\x23"
GRID = 2**60
COPIES = 2**25
LISTS = ("n", "l")


@dataclass(frozen=True, eq=False)
class Scene:
    """The files by their names, and what standard input gives where it is a layout, a list of names or a list of keys."""

    name: str
    files: dict
    stdin: dict


def layout(counts, width, more=b""):
    """Cells with so many rectangles of this width, the first ones on layer 1 with datatype 0, on layer 2, and on layer 1 with
    datatype 1."""
    rows = [b"".join(rectangle(1 + x % 2, x // 2, width, 20, 100 * x, 0) for x in range(count)) for count in counts]
    return file_of(b"".join(cell(name.encode()) + row for name, row in zip(CELLS, rows)) + more)


def canonical(data, profile=2):
    return answer("canon", [("", data)], profile)[1]


def respelled(data):
    """The same layout with a PAD, which no canonical file has."""
    return data.replace(cell(b"A"), cell(b"A") + b"\x00", 1)


def key_of(data):
    """The key of a file, or of nothing where it is refused."""
    return (answer("key", [("", data)])[1] or answer("key", [("", layout((), 1))])[1]).strip()


def refused(before):
    """A file that is refused, at a place of its own."""
    return file_of(cell(b"A") + rectangle(1, 0, 10, 20, 0, 0) * before + UNKNOWN)


def too_many(before):
    """A file with more copies than the standard limits allow, all of which are outside the grid: the large limits refuse it for
    that."""
    row = b"\x14\x7f" + rectangle(1, 0, 10, 20, GRID + 1, 0)[2:] + b"\x02" + number(COPIES - 2) + number(7)
    return file_of(cell(b"A") + rectangle(1, 0, 10, 20, 0, 0) * before + row)


def list_of_keys(*pairs):
    """A list of keys and names whose lines end with an end of a line, and after that the same list, whose lines end with a zero
    byte; so either reading of it finds all of them."""
    lines = [key + b"  " + name for key, name in pairs]
    return b"".join(line + b"\n" for line in lines) + b"\0" + b"".join(line + b"\0" for line in lines)


def scene(name, dash, given, **layouts):
    """A scene with these layouts in the file with the name `-`, from standard input, and in others."""
    other = b"0" * 64
    keys = {name: key_of(data) for name, data in layouts.items()}
    listed = list_of_keys((keys.get("a", other), b"a"), (other, b"b"), (key_of(dash), b"-"))
    stdin = {FILES: given, NAMES: b"b\0a\0b\0", KEYS: list_of_keys((other, b"a"), (keys.get("b", other), b"b"))}
    return Scene(name, {"-": dash, "n": b"b\0-\0", "l": listed, **layouts}, stdin)


A, B, GIVEN, DASH = layout((1, 3, 4), 10), layout((2, 4, 1), 11), layout((3, 1, 5), 12, BOX), layout((4, 4, 4), 13)
OLD = layout((2, 2, 2), 14)
SCENES = (
    scene("accepted", respelled(DASH), respelled(GIVEN), a=canonical(A), b=respelled(B)),
    scene("refused", too_many(1), too_many(0), a=too_many(2), b=too_many(3)),
    scene("a alone", refused(1), canonical(GIVEN, 1), a=respelled(A), b=refused(2), o=OLD),
    scene("without a", canonical(DASH), too_many(0), b=canonical(GIVEN, 1), o=OLD),
)


def scenes_of(request):
    """The scenes that tell a command's requests apart. Only `same` and `diff` read two files; only `canon` and `rekey` write
    files that may be there, and write the same for a file that is canonical by profile one."""
    return SCENES if request.command in ("same", "diff", "canon", "rekey") else SCENES[:2]


def is_named(request):
    """Whether no file of a request is named like an option, as none is."""
    return not any(is_option(name or "-") for name in (*request.inputs, request.output))


def is_seen(request):
    """Whether all of a request can be seen by its results: not where a file isn't there, a layout is read as a list, a file
    that is there in all scenes isn't to be replaced, nothing is compared but a file with itself or no cell, or a difference is
    cut after one line."""
    is_list = request.reads == FILES or request.inputs[0] in (None, *LISTS)
    is_kept = "no-clobber" in request.flags and request.output in ("./-", *request.inputs)
    is_alike = request.command == "diff" and (len({*request.inputs}) == 1 or request.cells == frozenset())
    is_cut = request.limit in (0, 1)
    return is_named(request) and is_list and not is_kept and not is_alike and not is_cut
