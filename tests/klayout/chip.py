"""Run inside KLayout: writes the layouts old.oas and new.oas of the picture: a chip with pads, and the same with a wire moved, a pad
missing and a via more."""

import os

import pya


def chip(is_new):
    layout = pya.Layout()
    layout.dbu = 0.001
    metal, poly, via = (layout.layer(pya.LayerInfo(number, 0)) for number in (8, 5, 7))
    top, pad, cell = layout.create_cell("CHIP"), layout.create_cell("PAD"), layout.create_cell("CELL")
    pad.shapes(metal).insert(pya.Box(0, 0, 6000, 6000))
    pad.shapes(via).insert(pya.Box(1500, 1500, 4500, 4500))
    for at in range(5):
        cell.shapes(poly).insert(pya.Box(800 * at, 0, 800 * at + 300, 5000))
        shift = 900 if is_new and at == 2 else 0
        cell.shapes(metal).insert(pya.Path([pya.Point(0, 900 * at + 300 + shift // 3), pya.Point(3600, 900 * at + 300 + shift // 3)], 240))
    if is_new:
        cell.shapes(via).insert(pya.Box(1700, 2300, 2000, 2600))
    for at in range(8):
        for x, y in ((9000 * at, -12000), (9000 * at, 42000)):
            if not (is_new and at == 6 and y > 0):
                top.insert(pya.CellInstArray(pad.cell_index(), pya.Trans(x, y)))
    top.insert(pya.CellInstArray(cell.cell_index(), pya.Trans(2000, 0), pya.Vector(5000, 0), pya.Vector(0, 6500), 13, 6))
    return layout


for name in ("old", "new"):
    chip(name == "new").write(os.path.join(os.environ["FOLDER"], f"{name}.oas"))
os._exit(0)
