#!/usr/bin/env python3
"""A column of geometries, read by the processes of Dask: `dask_column.py [ROWS [PARTS]]`.

The rows are points, of which one in a hundred is cut. Each process reports the statuses, the keys and the facts of its
parts, which are pickled. Prints how many rows are refused, how many have the value of an earlier one, and the bounds of
all. Without `scheduler=` a `distributed.Client` that was made before takes them to other machines.
"""
import struct
import sys

import dask
import porchsorrel_wkb as wkb


@dask.delayed
def answers(rows):
    """The statuses, the keys and the facts of some rows."""
    column = wkb.Column.of(rows)
    written = column.write()
    return bytes(written.statuses), list(written.rows), column.facts()


def main(rows=100_000, parts=8):
    made = [struct.pack("<BI2d", 1, 1, i % 100, -1)[: 20 if i % 100 == 0 else 21] for i in range(rows)]
    found = dask.compute(*(answers(made[at::parts]) for at in range(parts)), scheduler="processes")
    refused = sum(status != wkb.Status.OK for statuses, _, _ in found for status in statuses)
    keys = [key for _, of_part, _ in found for key in of_part if key]
    print(f"{rows} rows, {refused} refused, {len(keys) - len(set(keys))} duplicates")
    print(wkb.Facts.joined([facts for _, _, facts in found]).box)


if __name__ == "__main__":
    if "--help" in sys.argv:
        print(__doc__)
    else:
        main(*map(int, sys.argv[1:]))
