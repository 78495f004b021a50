"""The facts of a layout, as lines and as JSON: docs/INFO.md as code."""

import json
from collections import Counter

from canonical import canonical
from meaning import weight

KINDS = ("placements", "texts", "rectangles", "polygons", "paths", "circles")


def elements(cells):
    """All elements with how often each is there, in all cells together."""
    out = Counter()
    for counted in cells.values():
        out.update(counted)
    return out


def by_layer(counted, is_text):
    """How many texts, or how many other elements that aren't placements, there are of each layer and datatype."""
    out = Counter()
    for made, times in counted.items():
        if made[0] == 1 and is_text:
            out[made[2:4]] += times
        if made[0] > 1 and not is_text:
            out[made[1:3]] += times
    return sorted(out.items())


def facts(layout):
    (num, den), cells = layout
    counted = elements(cells)
    placed = {made[1] for made in counted if made[0] == 0}
    return {
        "unit": (num, den),
        "cells": len(cells),
        "undefined": sorted(placed - set(cells)),
        "unplaced": sorted(set(cells) - placed),
        "elements": sum(counted.values()),
        "kinds": {name: sum(times for made, times in counted.items() if made[0] == kind) for kind, name in enumerate(KINDS)},
        "layers": by_layer(counted, False),
        "textlayers": by_layer(counted, True),
        "weight": sum(1 + len(name) for name in cells) + sum(times * weight(made) for made, times in counted.items()),
        "size": len(canonical(layout)),
    }


def names_of(label, names):
    return [" ".join([label, str(len(names)), *(name.decode() for name in names)])]


def info(layout):
    known = facts(layout)
    lines = ["unit %d/%d" % known["unit"], f"cells {known['cells']}"]
    lines += names_of("undefined", known["undefined"]) + names_of("unplaced", known["unplaced"])
    lines += [f"elements {known['elements']}"]
    lines += [f"{name} {count}" for name, count in known["kinds"].items() if count]
    lines += [f"layer {layer} {datatype} {count}" for (layer, datatype), count in known["layers"]]
    lines += [f"textlayer {layer} {texttype} {count}" for (layer, texttype), count in known["textlayers"]]
    lines += [f"weight {known['weight']}", f"size {known['size']}"]
    return "".join(line + "\n" for line in lines).encode()


def info_json(layout):
    known = facts(layout)
    known["unit"] = dict(zip(("num", "den"), known["unit"]))
    for label in ("undefined", "unplaced"):
        known[label] = [name.decode() for name in known[label]]
    known["layers"] = [{"layer": layer, "datatype": kind, "elements": count} for (layer, kind), count in known["layers"]]
    known["textlayers"] = [{"textlayer": layer, "texttype": kind, "elements": count}
                           for (layer, kind), count in known["textlayers"]]
    return json.dumps(known, sort_keys=True, separators=(",", ":")).encode() + b"\n"
