"""Makes random layouts with KLayout, writes them as KLayout does by default, and tells what is in them.

    klayout_files.py FOLDER HOW_MANY

For each there is FOLDER/N.oas, and FOLDER/N.json: how many grid steps a micron has, and by the names of the cells their
elements, as tests/reference has them. It needs KLayout's own Python module.
"""

import json
import pathlib
import random
import sys

import klayout.db as db

STEPS = (1000, 2000, 200, 100)
FAR = 2**30


class Maker:
    """A layout, from a seed."""

    def __init__(self, seed):
        self.random = random.Random(seed)
        self.steps = self.random.choice(STEPS)
        self.layout = db.Layout()
        self.layout.dbu = 1 / self.steps
        layers = {(self.random.randrange(256), self.random.randrange(8)) for _ in range(4)}
        names = ("", "METAL")
        self.layers = [self.layout.layer(db.LayerInfo(*each, self.random.choice(names))) for each in sorted(layers)]
        self.cells = [self.layout.create_cell(f"CELL_{number}") for number in range(self.random.randrange(1, 5))]

    def number(self, most=200):
        most = self.random.choice((most, most, FAR))
        return self.random.randint(-most, most)

    def length(self):
        return abs(self.number()) + 1

    def points(self, least):
        return [db.Point(self.number(), self.number()) for _ in range(self.random.randrange(least, 7))]

    def box(self):
        left, low = self.number(), self.number()
        return db.Box(left, low, left + self.random.randrange(1, 300), low + self.random.randrange(1, 300))

    def shape(self):
        """A box, a polygon, a path or a text."""
        kind = self.random.randrange(5)
        if kind == 0:
            return self.box()
        if kind == 1:
            return db.Polygon(self.box())
        if kind == 2:
            return db.Polygon(self.points(3))
        if kind == 3:
            half = self.random.randrange(1, 50)
            return db.Path(self.points(2), 2 * half, self.random.choice((0, half, 7)), self.random.choice((0, half, -3)))
        return db.Text(self.random.choice(("A", "two words", "~!")), self.number(), self.number())

    def placement(self, cell):
        """A cell below this one, once or in rows."""
        turned = db.Trans(self.random.randrange(4), bool(self.random.randrange(2)), self.number(), self.number())
        if self.random.randrange(2):
            return db.CellInstArray(cell.cell_index(), turned)
        steps = db.Vector(self.length(), self.random.randrange(3)), db.Vector(-self.random.randrange(3), self.length())
        return db.CellInstArray(cell.cell_index(), turned, *steps, self.random.randrange(1, 4), self.random.randrange(1, 4))

    def fill(self):
        for number, cell in enumerate(self.cells):
            for _ in range(self.random.randrange(12)):
                shape = self.shape()
                if isinstance(shape, db.Polygon) and shape.num_points_hull() < 3:
                    continue
                # Some shapes are there several times, and some have a property.
                for _ in range(self.random.choice((1, 1, 1, 3))):
                    put = cell.shapes(self.random.choice(self.layers)).insert(shape)
                    if not self.random.randrange(8):
                        put.set_property(1, "a value")
            for _ in range(self.random.randrange(3) if number else 0):
                cell.insert(self.placement(self.random.choice(self.cells[:number])))


def pairs(points):
    return [(point.x, point.y) for point in points]


def elements_of_shape(shape, layer):
    if shape.is_box():
        box = shape.box
        return 2, *layer, box.width(), box.height(), box.left, box.bottom
    if shape.is_path():
        path = shape.path
        return 4, *layer, path.width // 2, path.bgn_ext, path.end_ext, pairs(path.each_point())
    if shape.is_text():
        text = shape.text
        return 1, text.string, *layer, text.x, text.y
    return 3, *layer, pairs(shape.polygon.each_point_hull())


def elements_of_instance(instance, layout):
    """A placement for each copy."""
    name, trans = layout.cell(instance.cell_index).name, instance.trans
    for column in range(max(instance.na, 1)):
        for row in range(max(instance.nb, 1)):
            at = trans.disp + instance.a * column + instance.b * row
            yield 0, name, at.x, at.y, trans.angle, int(trans.is_mirror())


def elements(cell, layout):
    for index in layout.layer_indexes():
        info = layout.get_info(index)
        yield from (elements_of_shape(shape, (info.layer, info.datatype)) for shape in cell.shapes(index).each())
    for instance in cell.each_inst():
        yield from elements_of_instance(instance, layout)


def main():
    folder = pathlib.Path(sys.argv[1])
    for seed in range(int(sys.argv[2])):
        maker = Maker(seed)
        maker.fill()
        maker.layout.write(str(folder / f"{seed}.oas"))
        cells = {cell.name: [*elements(cell, maker.layout)] for cell in maker.layout.each_cell()}
        (folder / f"{seed}.json").write_text(json.dumps({"steps": maker.steps, "cells": cells}))


main()
