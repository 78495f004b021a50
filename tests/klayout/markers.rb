# Prints each item of the report database that MARKERS names: its category, its cell, and its values.

database = RBA::ReportDatabase::new("markers")
database.load(ENV["MARKERS"])
database.each_item do |item|
  category = database.category_by_id(item.category_id).path
  cell = database.cell_by_id(item.cell_id).name
  values = []
  item.each_value { |value| values << value.to_s }
  puts ([category, cell] + values).join(" | ")
end
