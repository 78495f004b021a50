"""The worked rows of the gate, as far as a call of the library has their command (tests/reference/rows.py).

A refusal is a number, which file is refused (1, or of two 1 or 2), the offset, and the offset within a block's data or None.
"""

import functools
import importlib.util
import os
import re

TOP = os.path.dirname(os.path.dirname(os.path.dirname(os.path.abspath(__file__))))
CALLS = {("diff",): "diff", ("keys",): "keys", ("info", "--json"): "info"}
DROPS = {"properties": 1, "layer-names": 2, "extensions": 4}
# A larger file takes seconds.
MOST = 1 << 14
KINDS = ("propert(?:y|ies)", "property names?", "layer names?", "extensions?", "extension names?")


@functools.cache
def gate():
    """The module that reads the rows of the gate."""
    spec = importlib.util.spec_from_file_location("gate_rows", os.path.join(TOP, "tests", "reference", "rows.py"))
    module = importlib.util.module_from_spec(spec)
    spec.loader.exec_module(module)
    return module


@functools.cache
def all_rows():
    """The rows under the standard limits by profile two."""
    return [row for row in gate().all_rows() if row.limits == gate().STANDARD and row.profile == 2]


def refusal_of(told):
    """The refusal that a line of standard error says."""
    name, number, at, within = re.fullmatch(rb"(first|second): refused (\d+) at (\d+)(?:\+(\d+))?\n", told).groups()
    return int(number), (b"first", b"second").index(name) + 1, int(at), None if within is None else int(within)


def rows():
    """Each row of `canon`: its name and file, and either its canonical bytes or its refusal's number and offset."""
    for row in all_rows():
        if (row.program, row.command) == ("oascanon", ("canon",)):
            status, canonical, told = row.wanted
            yield row.name, row.files[0][1], canonical if status == 0 else refusal_of(told)[:3:2]


def reports():
    """Each row of `diff`, `keys` and `info --json`: its name, the call, the files, and either the text or the refusal."""
    for row in all_rows():
        if row.program == "oascanon" and row.command in CALLS:
            status, text, told = row.wanted
            yield row.name, CALLS[row.command], [data for _, data in row.files], refusal_of(told) if status == 1 else text


def left_out(told):
    """How many records of each kind a line says were left out, in the order of the header."""
    counts = [re.search(rb"(\d+) %s(?=[,\n])" % kind.encode(), told) for kind in KINDS]
    return [int(count[1]) if count else 0 for count in counts]


def prepared():
    """Each row of `oasprep` with a small file: its name, the bits of what is left out, the file, and either the canonical bytes and
    the counts, or the refusal."""
    for row in all_rows():
        ((_, data), *_) = row.files
        if row.program == "oasprep" and len(data) <= MOST:
            drop = sum(DROPS[word] for word in row.command[1].split(",")) if row.command else 0
            status, canonical, told = row.wanted
            yield row.name, drop, data, refusal_of(told) if status == 1 else (canonical, left_out(told))
