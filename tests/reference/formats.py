"""The lines of a difference in microns, or as JSON: docs/LISTING.md, "In microns" and "As JSON", read aloud."""

import json

# The fields of a line of each kind, in order: a string takes what is left of the line, and points do.
FIELDS = {
    "cell": ("cell",),
    "placement": ("placed", "x", "y", "turns", "flip"),
    "text": ("textlayer", "texttype", "x", "y", "string"),
    "rectangle": ("layer", "datatype", "width", "height", "x", "y"),
    "polygon": ("layer", "datatype", "points"),
    "path": ("layer", "datatype", "half_width", "start", "end", "points"),
    "circle": ("layer", "datatype", "radius", "x", "y"),
}
# Those that are grid steps.
STEPS = ("x", "y", "width", "height", "half_width", "start", "end", "radius", "points")
# Those that aren't numbers.
STRINGS = ("kind", "sign", "cell", "placed", "string")


def microns(steps, unit):
    """A number of grid steps in microns: its first 64 digits after the point, of which those that are zeros at the end go."""
    num, den = unit
    whole, rest = divmod(abs(steps) * den, num)
    digits = f"{rest * 10**64 // num:064}".rstrip("0")
    return "-" * (steps < 0) + str(whole) + "." * bool(digits) + digits


def converted(name, text, unit):
    """The text of a field in microns, where it is grid steps."""
    if name not in STEPS:
        return text
    return " ".join(",".join(microns(int(steps), unit) for steps in point.split(",")) for point in text.split(" "))


def fields_of(kind, rest):
    """The names and the texts of the fields of a line, which follow its kind."""
    names = FIELDS[kind]
    return list(zip(names, rest.split(" ", len(names) - 1)))


def of_line(line, units, is_json, cell):
    """The entry of a line that begins with a sign and a count."""
    sign, count, kind, rest = line.split(" ", 3)
    if kind == "unit":
        num, den = rest.split("/")
        return as_object(kind, [("sign", sign), ("count", count), ("num", num), ("den", den)]) if is_json else line
    fields = fields_of(kind, rest)
    if units:
        fields = [(name, converted(name, text, units["-+".index(sign)])) for name, text in fields]
    if not is_json:
        return " ".join([sign, count, kind, *(text for _, text in fields)])
    place = [] if kind == "cell" else [("cell", cell)]
    return as_object(kind, [("sign", sign), ("count", count), *place, *fields])


def value(name, text):
    """The JSON of a field."""
    if name in STRINGS:
        return json.dumps(text)
    if name == "points":
        return "[" + ",".join(f"[{point}]" for point in text.split(" ")) + "]"
    return text


def as_object(kind, fields):
    return "{" + ",".join(f'"{name}":{value(name, text)}' for name, text in [("kind", kind), *fields]) + "}"


def of_counts(line, is_json):
    """The entry of a line of `--brief`, `SIGN cell NAME - N + M`."""
    sign, _, name, _, removed, _, added = line.split(" ")
    return as_object("cell", [("sign", sign), ("cell", name), ("removed", removed), ("added", added)]) if is_json else line


def entries(lines, units, is_json):
    """What is printed for the lines of a difference: in microns where units are given, one for each layout."""
    cell, out = None, []
    for line in lines:
        first, second, *_ = line.split(" ")
        if second == "cell" and first != "@" or first == "@" and line.count(" ") > 2:
            out.append(of_counts(line, is_json))
        elif first == "@":
            cell = line.split(" ")[2]
            out += [] if is_json else [line]
        else:
            cell = line.split(" ")[3] if line.split(" ")[2] == "cell" else cell
            out.append(of_line(line, units, is_json, cell))
    return out
