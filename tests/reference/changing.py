"""The changed rules: wrong readings, each as other text for a piece of one of the reference's modules.

Those of the folder changes are there one after the other, separated by an empty line: a line with the module and what the
changed rule says, the old text after `- `, which occurs in the module once, and the new text after `+ `. After `& ` and a
module comes another edit of the same change, and after `# ` what was tried and changes no result. Those that say the same for
one modal variable after the other are made here, and those of whole tables in systematic.py.
"""

import pathlib
from collections import namedtuple

import systematic

FOLDER = pathlib.Path(__file__).resolve().parent / "changes"

# What it says, and its edits.
Change = namedtuple("Change", "says edits")
# A module, its old text and its new one.
Edit = namedtuple("Edit", "module old new")

# Pieces of meaning.py: how a variable's value is looked for, and what a record gives.
LOOK_BACK = "for j in range(i, cell_of(records, i), -1):\n        if (given :="
NOTHING_GAVE = "return None\n\n\ndef is_relative"
GIVES = "return record.get(variable)"

NUMBERS = ("textlayer", "texttype", "layer", "datatype", "width", "height", "half_width", "start", "end", "radius")
VARIABLES = (*NUMBERS, "repetition", "cell", "string", "polygon", "path")
ELEMENTS = {"placements": (17, 18), "turned placements": (18,), "texts": (19,), "rectangles": (20,), "polygons": (21,),
            "paths": (22,), "circles": (27,)}
GEOMETRY = ("rectangles", "polygons", "paths", "circles")
ALIKE = (("width", "height"), ("width", "half_width"), ("width", "radius"), ("half_width", "radius"), ("layer", "textlayer"),
         ("datatype", "texttype"), ("polygon", "path"), ("cell", "string"))


def of_meaning(says, old, new):
    return Change(says, [Edit("meaning", old, new)])


def kept_at_a_cell(variable):
    begin = f'-1 if variable == "{variable}" else cell_of(records, i)'
    new = LOOK_BACK.replace("cell_of(records, i)", begin)
    return of_meaning(f"CELL leaves the modal {variable} as it is", LOOK_BACK, new)


def zero_where_undefined(variable):
    new = NOTHING_GAVE.replace("None", f'0 if variable == "{variable}" else None')
    return of_meaning(f"{variable} is 0 where nothing gave it", NOTHING_GAVE, new)


def kept_apart(variable, elements):
    """Elements of a kind have the variable for themselves."""
    kinds = ELEMENTS[elements]
    test = f'variable == "{variable}" and (records[j]["kind"] in {kinds}) != (records[i]["kind"] in {kinds})'
    new = LOOK_BACK.replace("if (given", f"if {test}:\n            continue\n        if (given")
    return of_meaning(f"{elements} have a modal {variable} of their own", LOOK_BACK, new)


def also_set_by(variable, other):
    """A field of one variable sets another one too."""
    new = f'return record.get(variable, record.get("{other}") if variable == "{variable}" else None)'
    return of_meaning(f"{other} sets the modal {variable}", GIVES, new)


def of_variables():
    """The same for one modal variable after the other."""
    yield from map(kept_at_a_cell, VARIABLES)
    yield from map(zero_where_undefined, NUMBERS)
    yield from (kept_apart("repetition", elements) for elements in ELEMENTS)
    yield from (kept_apart(variable, elements) for variable in ("layer", "datatype") for elements in GEOMETRY)
    for one, other in ALIKE:
        yield also_set_by(one, other)
        yield also_set_by(other, one)


def edit_of(module, lines):
    old, new = ("\n".join(line[2:] for line in lines if line[0] == sign) for sign in "-+")
    return Edit(module, old, new)


def of_text(text):
    """The changed rule of a piece of text."""
    first, *further = text.split("\n& ")
    front, *lines = first.splitlines()
    module, says = front.split(": ", 1)
    edits = [edit_of(module, lines)] + [edit_of(each[0], each[1:]) for each in map(str.splitlines, further)]
    return Change(says, edits)


def all_changes():
    out = list(of_variables())
    out += [Change(piece.says, [Edit(piece.module, *systematic.edit_of(piece))]) for piece in systematic.all_pieces()]
    for file in sorted(FOLDER.glob("*.txt")):
        out += [of_text(text) for text in file.read_text().strip().split("\n\n") if not text.startswith("# ")]
    return out
