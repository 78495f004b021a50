"""Run inside KLayout without a display: what the menu's items find and write, over layouts that are made here. The environment names
the programs and an empty folder. Prints a line for each check that fails, and then `N passed, M failed`."""

import os
import subprocess
import sys

import pya

import oascanon_klayout as work

FOLDER = os.environ["FOLDER"]
PROGRAM = os.environ["OASCANON"]
counts = {True: 0, False: 0}


def expect(name, holds):
    counts[bool(holds)] += 1
    if not holds:
        print(f"FAIL {name}")


def made(width, named=False):
    layout = pya.Layout()
    layout.dbu = 0.001
    top, leaf = layout.create_cell("TOP"), layout.create_cell("LEAF")
    layer = layout.layer(pya.LayerInfo(7, 1, "metal") if named else pya.LayerInfo(7, 1))
    leaf.shapes(layer).insert(pya.Box(0, 0, width, 20))
    leaf.shapes(layer).insert(pya.Polygon([pya.Point(0, 0), pya.Point(5, 9), pya.Point(9, 0)]))
    top.insert(pya.CellInstArray(leaf.cell_index(), pya.Trans(0, False, 100, 0), pya.Vector(50, 0), pya.Vector(0, 50), 3, 2))
    return layout


def told(*words):
    return subprocess.run([PROGRAM, *words], stdout=subprocess.PIPE, stderr=subprocess.PIPE, text=True)


def path(name):
    return os.path.join(FOLDER, name)


def failure(call, *given):
    try:
        call(*given)
    except work.Failed as fault:
        return str(fault)
    return None


layout = made(10)
key = work.key(layout)
expect("a key has 64 digits", len(key.found) == 64 and set(key.found) <= set("0123456789abcdef"))
expect("nothing was left out of a plain layout", key.left_out == "")
expect("the same layout made again has the same key", work.key(made(10)).found == key.found)
expect("another has another", work.key(made(11)).found != key.found)

named = work.key(made(10, named=True))
expect("names of layers are left out, and that is said", "layer name" in named.left_out)
expect("and the key is that of the layout without them", named.found == key.found)

saved = work.save(layout, path("saved.oas"))
expect("what is saved is canonical", work.is_canonical(path("saved.oas")).found)
expect("and has the key", told("key", path("saved.oas")).stdout.strip() == key.found)
layout.write(path("plain.gds"))
before = open(path("saved.oas"), "rb").read()
expect("a file that isn't canonical is told", failure(work.is_canonical, path("plain.gds")) is not None)
expect("a refusal has its reason's words", "Magic" in (failure(work.is_canonical, path("plain.gds")) or ""))
expect("a folder that isn't there", failure(work.save, layout, path("no/such.oas")) is not None)
expect("what was saved before stays", open(path("saved.oas"), "rb").read() == before)

expect("the same layout from GDSII makes no line", work.compare(layout, path("plain.gds"), path("none.lyrdb")).found == "")
made(11).write(path("other.oas"))
changed = work.compare(layout, path("other.oas"), path("changed.lyrdb"))
expect("a layout that differs is told by its cell", changed.found == "@ cell LEAF - 1 + 1\n")
report = pya.ReportDatabase("changed")
report.load(path("changed.lyrdb"))
expect("and KLayout reads the markers", report.num_items() == 2)
expect("the layout in hand is unchanged", work.key(layout).found == key.found and layout.cells() == 2)
expect("a program that isn't there is told", "isn't in the search path" in (os.environ.update(OASPREP="", PATH="/nowhere") or failure(work.key, layout) or ""))
print(f"{counts[True]} passed, {counts[False]} failed")
sys.stdout.flush()
os._exit(1 if counts[False] else 0)
