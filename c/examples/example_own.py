"""Encodes coordinates of one's own: a point, two line strings, which are collected into one geometry, and a polygon
with a hole."""
from array import array

import porchsorrel_wkb as wkb


def print_rows(kind, coordinates, **offsets):
    """Print the encodings of rows, as hex, and return them. Coordinates and offsets may also be numpy's arrays."""
    levels = {level: array("q", numbers) for level, numbers in offsets.items()}
    rows = wkb.column_from_coordinates(kind, array("d", coordinates), **levels)
    name = kind.name.replace("_", "").lower()
    for status, begin, end in zip(rows.statuses, rows.offsets, rows.offsets[1:]):
        text = wkb.status_text(status) if status else name
        print(f"{text}: {bytes(rows.data[begin:end]).hex()}")
    return rows


# A level whose offsets are left out has one item for each of the next: one coordinate is one ring, one single, one row.
print_rows(wkb.Kind.POINT, [1, 2])

# Two line strings: the first has two coordinates from 0 on, the second two from 2 on.
lines = print_rows(wkb.Kind.LINE_STRING, [0, 0, 1, 1, 5, 5, 6, 6], ring_offsets=[0, 2, 4])
both = wkb.collect(wkb.Column(lines.data, lines.offsets), wkb.Kind.MULTI_LINE_STRING)
print(f"multilinestring: {both.hex()}")

# A polygon of two rings: an exterior of five coordinates, and an interior of four.
both_rings = [0, 0, 9, 0, 9, 9, 0, 9, 0, 0, 1, 1, 2, 2, 1, 2, 1, 1]
print_rows(wkb.Kind.POLYGON, both_rings, ring_offsets=[0, 5, 9], single_offsets=[0, 2])
