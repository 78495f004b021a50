"""The reasons for a refusal, by their numbers. Made by scripts/python-reasons of docs/REFUSALS.md and docs/PREPARING.md."""

from __future__ import annotations

from typing import Dict, NamedTuple


class Reason(NamedTuple):
    """A reason's name, when it is given, and what to do about it."""

    name: str
    meaning: str
    remedy: str


REASONS: Dict[int, Reason] = {
    1: Reason(
        "Magic",
        "one of the first 13 bytes isn't that of the magic",
        "It isn't an OASIS file, or it was changed on the way (as text, CR LF became LF).",
    ),
    2: Reason(
        "Truncated",
        "the input ends where a byte is needed",
        "Get the file again, or look in the writer for a length or count that is too large.",
    ),
    3: Reason(
        "IntegerRange",
        "an integer goes on after its tenth byte, or is 2^64 or more: its tenth byte is above `01`",
        "If it is END and KLayout wrote the file, prepare it with `oasprep`. Otherwise the writer is at fault.",
    ),
    4: Reason(
        "StringByte",
        "a string has a byte outside its class: `21` to `7E` in a cell name, `20` to `7E` in a text",
        "Rename the cell or the text; blanks aren't allowed in cell names, and no letters beyond ASCII anywhere.",
    ),
    5: Reason(
        "EmptyName",
        "a cell name has length 0",
        "Name the cell.",
    ),
    6: Reason(
        "FloatReal",
        "a real is of type 6 or 7",
        "Prepare the file with `oasprep`, or have the writer use whole numbers or fractions; magnifications and odd "
        "angles are often the cause.",
    ),
    7: Reason(
        "RealType",
        "a real's type is above 7",
        "The writer is at fault.",
    ),
    8: Reason(
        "Unit",
        "the unit is zero or negative, or a part of it is zero",
        "Give a positive number of grid steps in a micron.",
    ),
    9: Reason(
        "Version",
        "the version string isn't `1.0`",
        "Export as OASIS 1.0.",
    ),
    10: Reason(
        "OffsetFlag",
        "START's offset-flag is above 1",
        "The writer is at fault.",
    ),
    11: Reason(
        "RecordLeftOut",
        "the record's id is 7 to 12, 23 to 26 or 28 to 34, which the profile leaves out",
        "Prepare the file with `oasprep`, or export without properties, layer names, compression and trapezoids.",
    ),
    12: Reason(
        "UnknownRecord",
        "the record's id is above 34",
        "The writer is at fault.",
    ),
    13: Reason(
        "OutOfPlace",
        "the first record isn't START; START comes a second time; an element stands outside a cell",
        "The writer is at fault.",
    ),
    14: Reason(
        "InfoByte",
        "a bit of an info byte that must be 0 is 1; a square gives a height; an extension scheme is above 15",
        "The writer is at fault.",
    ),
    15: Reason(
        "ListKind",
        "a point list's type is above 5",
        "The writer is at fault.",
    ),
    16: Reason(
        "PointCount",
        "a polygon has too few points, or an odd number of deltas in list type 0 or 1; in the library also a polygon of"
        " fewer than three points or a path of none that is added to a draft",
        "Leave out polygons of fewer than three points.",
    ),
    17: Reason(
        "RepetitionKind",
        "a repetition's type is above 11",
        "The writer is at fault.",
    ),
    18: Reason(
        "ModalUndefined",
        "a field is left out, and nothing in the cell has set its modal variable",
        "The writer is at fault; remember that CELL makes the variables undefined.",
    ),
    19: Reason(
        "Magnification",
        "a magnification isn't 1, or its denominator is zero",
        "Flatten or rescale the magnified placements before export.",
    ),
    20: Reason(
        "Angle",
        "an angle isn't a whole multiple of 90 degrees, or its denominator is zero",
        "Flatten the turned placements before export.",
    ),
    21: Reason(
        "MixedNumbering",
        "a name record counts its number although records of its class give theirs, or the other way round",
        "The writer is at fault.",
    ),
    22: Reason(
        "NumberTwice",
        "a name record gives a number that has another string already",
        "The writer is at fault.",
    ),
    23: Reason(
        "CoordinateRange",
        "a position, vertex, far corner or extension lies outside -2^60 to 2^60, a half-width or radius is above 2^60, "
        "or a running sum of a repetition lies outside -2^62 to 2^62",
        "Look for a wild coordinate; no real layout is near these limits.",
    ),
    24: Reason(
        "TooManyElements",
        "the elements so far and this record's copies are more than 2^24 (2^26 with `--large`)",
        "Use the flag `--large`, split the layout, or use more hierarchy.",
    ),
    25: Reason(
        "TooHeavy",
        "the weight is more than 2^28 (2^30 with `--large`)",
        "Use the flag `--large`, split the layout, or use more hierarchy; long names on many placements weigh much.",
    ),
    26: Reason(
        "UnknownReference",
        "a number is used that no name record of its class gives",
        "The writer is at fault.",
    ),
    27: Reason(
        "DuplicateCell",
        "two CELL records define one name",
        "Merge or rename the cells.",
    ),
    28: Reason(
        "EndLength",
        "END isn't 256 bytes",
        "The writer is at fault, or the padding was changed.",
    ),
    29: Reason(
        "ValidationScheme",
        "END's validation scheme isn't 0",
        "Prepare the file with `oasprep`, or export without a checksum.",
    ),
    30: Reason(
        "TrailingBytes",
        "a byte follows END",
        "Cut the file off there, once you know what the rest is.",
    ),
    31: Reason(
        "InputTooLong",
        "there is a byte after the input's limit of 2^36 (2^38 with `--large`), and it was asked for",
        "Split the layout.",
    ),
    32: Reason(
        "Read",
        "the input's device failed",
        "Look at the disk, the pipe or the program that feeds it. A folder in place of a file is refused so too.",
    ),
    33: Reason(
        "Write",
        "the output failed, can't be created, or took none of the bytes that it was offered",
        "Look at the disk or the pipe. What went out is the beginning of the canonical file, or of the command's "
        "answer, of that length. A file that was to be replaced stands as it was, and where none stood none stands, "
        "except that under a limit on the size of files (`ulimit -f`) the part of a new file that fits stays under its "
        "name.",
    ),
    34: Reason(
        "Memory",
        "a request for memory was refused",
        "Run it where there is more memory.",
    ),
    101: Reason(
        "Properties",
        "a record is of 7 to 10, 28 or 29, and properties aren't to be left out",
        "Name them with `--drop properties`, if the key needn't stand for them.",
    ),
    102: Reason(
        "LayerNames",
        "a record is a LAYERNAME, and these aren't to be left out",
        "Name them with `--drop layer-names`, if the key needn't stand for them.",
    ),
    103: Reason(
        "Extensions",
        "a record is of 30 to 33, and extensions aren't to be left out",
        "Name them with `--drop extensions`, if the key needn't stand for them.",
    ),
    104: Reason(
        "CblockType",
        "a block's kind of compression isn't 0",
        "The writer is at fault.",
    ),
    105: Reason(
        "CblockNested",
        "a block stands within a block; START or END there is 13",
        "The writer is at fault.",
    ),
    106: Reason(
        "CblockLength",
        "a block inflates to other than the stated number of bytes, or doesn't use just the stated number",
        "The writer is at fault, or the file was changed.",
    ),
    107: Reason(
        "CblockBorder",
        "a record runs out of its block",
        "The writer is at fault.",
    ),
    108: Reason(
        "Deflate",
        "a block's bytes are no DEFLATE stream, or an unfinished one",
        "The file was changed, or its writer is at fault.",
    ),
    109: Reason(
        "Trapezoid",
        "the corners of a trapezoid cross, or enclose nothing",
        "Look at the shape; draw it as a polygon.",
    ),
    110: Reason(
        "CtrapezoidType",
        "the kind of a CTRAPEZOID is above 25",
        "The writer is at fault.",
    ),
    111: Reason(
        "ValueType",
        "the type of a property's value is above 15",
        "The writer is at fault.",
    ),
    112: Reason(
        "IntervalType",
        "the type of a LAYERNAME's interval is above 4",
        "The writer is at fault.",
    ),
    113: Reason(
        "Checksum",
        "the signature isn't that of the file",
        "The file was changed on its way: get it again.",
    ),
}
