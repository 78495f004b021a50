"""The rows of this folder: files, and the result that a command has to give for each.

A table is a text file with a row a line; above a row, after `# `, is the wrong reading that it rules out, or what it shows.
The fields of a row are separated by ` | `; they depend on the folder of its table:

| Folder | Fields |
|---|---|
| canon | a name, a file, and its canonical file, or `same` |
| commands | a name, a command, its file or two with ` & ` between, the status, and the output, with `;` for the end of a line |
| prepared | a name, what is named to be left out, a file, what is written, and what is said to be left out; `klayout.txt` has files that KLayout 0.28.5 wrote, which are in the folder klayout |

A file is given in pieces: hex, `00*252` for repeated bytes, `@NAME` for a file of this folder, `-` for nothing, or a word of
WORDS. HEAD and TAIL are added around it, unless it begins with HEAD or MAGIC. NUMBER@PLACE in place of an output is a refusal,
and `! ` comes before other lines of the error output.
"""

import pathlib
from collections import namedtuple

HERE = pathlib.Path(__file__).resolve().parent
STANDARD = (2**24, 2**28, 2**36)
# As in crates/test_tools.
WORDS = {
    "MAGIC": "2553454D492D4F415349530D0A", "START": "0103312E30", "OFFSETS": "00*13", "CELL": "0E0141",
    "RECT": "147B01000A140000", "BOX": "153B010004030128290001290000", "HEAD": "MAGIC START 00E807 OFFSETS",
    "TAIL": "02FC01 00*252 00", "-": "",
}
NAMES = ("first", "second")

# A program, the words of its command, its files as pairs of a name and bytes, the expected status, output and error output, and
# by which limits and profile.
Row = namedtuple("Row", "name program command files wanted limits profile", defaults=(STANDARD, 2))


def bytes_of(pieces):
    """The bytes of a file that is given in pieces."""
    out = b""
    for piece in pieces.split():
        one, _, times = piece.partition("*")
        if piece in WORDS:
            out += bytes_of(WORDS[piece])
        elif piece.startswith("@"):
            out += (HERE / piece[1:]).read_bytes()
        else:
            out += bytes.fromhex(one) * int(times or 1)
    return out


def file_of(pieces):
    """The same for a whole file, or for what is between HEAD and TAIL."""
    is_whole = pieces.split(" ")[0] in ("HEAD", "MAGIC") or pieces.startswith("@")
    return bytes_of(pieces if is_whole else f"HEAD {pieces} TAIL")


def refused(answer, name="first"):
    """The result of a file with NUMBER@PLACE in its row, or None where it has something else."""
    number, sign, place = answer.partition("@")
    return (1, b"", f"{name}: refused {number} at {place}\n".encode()) if number.isdigit() and sign else None


def canon_rows(name, file, answer, spelled=file_of):
    """A row of `canon`, and that its output is unchanged by it."""
    row = Row(name, "oascanon", ("canon",), [("first", spelled(file))], refused(answer))
    if row.wanted:
        return [row]
    out = spelled(file if answer == "same" else answer)
    row = row._replace(wanted=(0, out, b""))
    return [row] if answer == "same" else [row, row._replace(name=f"{name}-again", files=[("first", out)])]


def command_rows(name, command, files, status, answer):
    named = list(zip(NAMES, map(file_of, files.split(" & "))))
    lines = "" if answer == "-" else answer.removeprefix("! ").replace(";", "\n")
    if answer.startswith("! "):
        wanted = int(status), b"", lines.encode()
    else:
        wanted = refused(answer) or (int(status), file_of(answer) if command == "rekey" else lines.encode(), b"")
    return [Row(name, "oascanon", tuple(command.split()), named, wanted)]


def prepared_rows(name, dropped, file, answer, said):
    words = () if dropped == "-" else ("--drop", dropped)
    line = b"" if said == "-" else f"first: left out {said}\n".encode()
    wanted = refused(answer) or (0, file_of(file if answer == "same" else answer), line)
    return [Row(name, "oasprep", words, [("first", file_of(file))], wanted)]


FOLDERS = {"canon": canon_rows, "commands": command_rows, "prepared": prepared_rows}


def rows_of(table):
    """The rows of a table."""
    fields = [line.split(" | ") for line in table.read_text().splitlines() if not line.startswith("#")]
    return [row for each in fields for row in FOLDERS[table.parent.name](*each)]


def rows_of_tables():
    """The rows of all tables of this folder."""
    return [row for folder in FOLDERS for table in sorted((HERE / folder).glob("*.txt")) for row in rows_of(table)]
