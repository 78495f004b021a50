"""The rows of the gate: those of tests/rows, and those of crates that have limits, or a profile, or go through memory."""

import pathlib
import re
import sys

TOP = pathlib.Path(__file__).resolve().parents[2]
TESTS = TOP / "crates/program_tests/src/commands"
CHECKED = TOP / "crates/canon_tests/src/files/table.rt"
sys.path.insert(0, str(TOP / "tests/rows"))

from tables import STANDARD, Row, bytes_of, canon_rows, command_rows, refused, rows_of_tables  # noqa: E402


def lines(file, constant):
    """The fields of each row of a string constant, whose quotes are escaped."""
    text = file.read_text()
    rows = re.search(rf'const {constant}: &str = "\\\n(.*?)(?<!\\)";', text, re.DOTALL)[1].replace('\\"', '"').splitlines()
    return [row.split(" | ") for row in rows if not row.startswith("#")]


def under_limits(name, numbers, body, answer):
    """A row of `canon` under limits of its own."""
    limits = tuple(map(int, numbers.split()))
    return [row._replace(limits=limits) for row in canon_rows(name, body, answer)]


def checked(name, file, *answers):
    """The rows of a file for which `check` prints this, by profile one and by profile two."""
    lines = {"canonical": (0, b"canonical\n", b""), "other": (3, b"not canonical\n", b"")}
    wanted = [refused(answer) or lines[answer] for answer in (answers[0], answers[-1])]
    return [Row(name, "oascanon", ("check",), [("first", bytes_of(file))], wanted[i], profile=i + 1) for i in (0, 1)]


def in_both_profiles(row):
    """A row of `canon` that also holds by profile one: whatever is refused, and what has no polygon that may be a box."""
    has_polygons = b"\x15" in row.files[0][1]
    is_alike = row.command == ("canon",) and (row.wanted[0] or not has_polygons)
    return [row, row._replace(name=f"{row.name}-by-profile-one", profile=1)] if is_alike else [row]


def of_crates():
    """The rows of crates."""
    out = []
    for table in (("table.rt", "ROWS"), ("readings_table.rt", "WHOLE")):
        out += [row for fields in lines(TESTS / table[0], table[1]) for row in canon_rows(*fields, bytes_of)]
    for table in (("modal_table.rt", "MODAL"), ("readings_table.rt", "READINGS")):
        out += [row for fields in lines(TESTS / table[0], table[1]) for row in canon_rows(*fields)]
    out += [row for fields in lines(TESTS / "limits_table.rt", "UNDER_LIMITS") for row in under_limits(*fields)]
    for table in (("readings_table.rt", "LISTED"), ("answers.rt", "ANSWERS"), ("answers.rt", "REFUSED"),
                  ("rekeying.rt", "REKEYED")):
        out += [row for fields in lines(TESTS / table[0], table[1]) for row in command_rows(*fields)]
    return out


def all_rows():
    """All rows of the gate."""
    once = of_crates() + rows_of_tables()
    both = [row for fields in lines(CHECKED, "ROWS") for row in checked(*fields)]
    return [each for row in once for each in in_both_profiles(row)] + both


def command_of(row):
    """The command of a row as commands.py has it."""
    if row.program == "oascanon":
        return " ".join(row.command)
    return " ".join(["prepare", *row.command[1:]]).replace(",", " ")
