"""The results of the commands, from the bytes of their files."""

import hashlib

from canonical import canonical, listing
from difference import diff
from facts import info, info_json
from layout import STANDARD, read
from preparing import preparation
from reading import Refused

STDIN = "standard input"


def answer(command, files, profile=2, limits=STANDARD):
    """Status, output and error output of a command, with its options, on files, each a name and its bytes. What `rekey` writes
    is its output; `prepare` is the second program."""
    if command.startswith("prepare --same"):
        return compared(files, command.split()[2:])
    if command.startswith("prepare"):
        return prepared(*files[0], command.split()[1:])
    layouts = []
    for name, data in files:
        try:
            layouts.append(read(data, profile, limits))
        except Refused as refusal:
            return 1, b"", f"{name}: {refusal}\n".encode()
    if command == "rekey":
        return rekeyed(*files[0], limits)
    return *said(command, files[0][1], layouts), b""


def prepared(name, data, words):
    """The same of the second program, with words for a question and for what is left out."""
    status, out, err = preparation(name, data, [word for word in words if not word.startswith("--")])
    shown = "-" if name == STDIN else name
    if "--key" in words and status == 0:
        out = f"{hashlib.sha256(out).hexdigest()}  {shown}\n".encode()
    if "--check" in words and status == 0:
        status, verdict = (0, "canonical") if out == data else (3, "not canonical")
        out = f"{shown}: {verdict}\n".encode()
    return status, out, err


def compared(files, dropped):
    """The same of the second program, of whether two files mean the same."""
    (one, a, first), (other, b, second) = (preparation(*file, dropped) for file in files)
    if one or other:
        return 1, b"", first if one else second
    return (0, b"same\n", first + second) if a == b else (3, b"different\n", first + second)


def said(command, data, layouts):
    """Status and output of a command on layouts, the first of which is that of the bytes."""
    out = canonical(layouts[0])
    if command == "canon":
        return 0, out
    if command == "show":
        return 0, listing(layouts[0])
    if command == "key":
        return 0, hashlib.sha256(out).hexdigest().encode() + b"\n"
    if command == "keys":
        return 0, b"".join(map(key_line, cells_alone(layouts[0])))
    if command == "info":
        return 0, info(layouts[0])
    if command == "info --json":
        return 0, info_json(layouts[0])
    if command.startswith("diff"):
        return diff(layouts, command.split()[1:])
    if command == "check":
        return (0, b"canonical\n") if out == data else (3, b"not canonical\n")
    return (0, b"same\n") if layouts[0] == layouts[1] else (3, b"different\n")


def cells_alone(layout):
    """The name of each cell, ascending, and the layout that has this unit and that cell alone."""
    unit, cells = layout
    return [(name, (unit, {name: cells[name]})) for name in sorted(cells)]


def key_line(cell):
    """The key of a cell alone, and its name."""
    name, alone = cell
    return hashlib.sha256(canonical(alone)).hexdigest().encode() + b"  " + name + b"\n"


def rekeyed(name, data, limits):
    """The canonical file by profile two, of a file that is canonical by profile one."""
    if canonical(read(data, 1, limits)) != data:
        return 3, b"", f"{name}: not profile 1 canonical\n".encode()
    return 0, canonical(read(data, 2, limits)), b""
