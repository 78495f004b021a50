# Writes the layouts of this test, each as GDSII and as OASIS by KLayout's own defaults, into the folder that FOLDER names.

def drawn(layout, metal, vias)
  sub = layout.create_cell("SUB")
  sub.shapes(metal).insert(RBA::Box::new(0, 0, 100, 200))
  sub.shapes(metal).insert(RBA::Polygon::new([RBA::Point::new(0, 0), RBA::Point::new(50, 80), RBA::Point::new(100, 0)]))
  sub.shapes(vias).insert(RBA::Path::new([RBA::Point::new(0, 0), RBA::Point::new(0, 500)], 20))
  sub.shapes(vias).insert(RBA::Text::new("pin", RBA::Trans::new(3, 4)))
  top = layout.create_cell("TOP")
  40.times { |i| top.shapes(metal).insert(RBA::Box::new(300 * i, 0, 300 * i + 50, 70)) }
  columns, rows = RBA::Point::new(1000, 0), RBA::Point::new(0, 2000)
  top.insert(RBA::CellInstArray::new(sub.cell_index, RBA::Trans::new(0, false, 0, 0), columns, rows, 3, 2))
  top.insert(RBA::CellInstArray::new(sub.cell_index, RBA::Trans::new(1, true, 500, 600)))
  top
end

def written(layout, name)
  layout.write(File.join(ENV["FOLDER"], name + ".gds"))
  layout.write(File.join(ENV["FOLDER"], name + ".oas"))
end

plain = RBA::Layout::new
drawn(plain, plain.layer(1, 0), plain.layer(2, 5))
written(plain, "plain")

dressed = RBA::Layout::new
top = drawn(dressed, dressed.layer(RBA::LayerInfo::new(1, 0, "metal")), dressed.layer(2, 5))
top.shapes(dressed.layer(2, 5)).each { |shape| shape.set_property(1, "net") }
top.shapes(dressed.layer(3, 0)).insert(RBA::Box::new(0, 0, 10, 10)).set_property(1, "net")
written(dressed, "dressed")

# Each of the shapes three times: KLayout writes that as a repetition, and loses the copies when it reads it.
coincident = RBA::Layout::new
top = drawn(coincident, coincident.layer(1, 0), coincident.layer(2, 5))
3.times { top.shapes(coincident.layer(4, 0)).insert(RBA::Box::new(0, 0, 10, 10)) }
written(coincident, "coincident")

empty = RBA::Layout::new
empty.create_cell("TOP")
written(empty, "empty")

magnified = RBA::Layout::new
metal = magnified.layer(1, 0)
top = drawn(magnified, metal, magnified.layer(2, 5))
sub = magnified.cell("SUB")
top.insert(RBA::CellInstArray::new(sub.cell_index, RBA::CplxTrans::new(2.0, 0, false, RBA::Vector::new(0, 0))))
written(magnified, "magnified")
