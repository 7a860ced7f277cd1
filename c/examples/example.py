"""Reads a geometry, rewrites it, and reads a column of such: `python3 c/examples/example.py`. It wants the package."""
import array

import porchsorrel_wkb as wkb

polygon = bytes.fromhex("0020000003000010e600000001000000013ff00000000000004000000000000000")
found = wkb.check(polygon)
print(found.kind.name, "of", found.parts, "parts in", found.size, "bytes, SRID", found.srid)
whole, ring = wkb.parts(polygon)
for x, y in wkb.coordinates(polygon, ring):
    print(x, y)

little = wkb.write(polygon)
print(little.hex())

# Rows that are objects of their own, as a list or a column of pandas has them. None is a null row.
rows = wkb.Column.of([polygon, None, polygon[:-1]])
print(*(wkb.Status(status).name for status in rows.check()))

# A column of three rows. The last one would end after the data.
data = polygon + little
column = wkb.Column(data, array.array("q", [0, 33, 62, 99]))
print(*(wkb.Status(status).name for status in column.check()))
statuses, boxes = column.bounds()
print(*(box.x.greatest for box in boxes if box.x.count))
levels = column.coordinates()
print(*levels.row_offsets, *levels.ring_offsets)
