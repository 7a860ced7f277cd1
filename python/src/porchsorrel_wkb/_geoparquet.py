# SPDX-License-Identifier: MIT OR Apache-2.0
"""What GeoParquet says of a column of geometries."""
import math
from typing import Any, Dict, List, NamedTuple, Optional

from ._buffers import Inputs, many
from ._calls import parts
from ._columns import Column
from ._enums import Dimension, Kind, Order, Status
from ._library import status_text
from ._results import ColumnBounds, Facts
from ._rows import object_of

VERSION = "1.1.0"
# What a dimension adds to the name of a kind, as MultiPoint; those with an m are left out.
SIGNS = {Dimension.XY: "", Dimension.XYZ: " Z"}
# Kinds without edges.
POINTS = Kind.POINT, Kind.MULTI_POINT


class GeoParquet(NamedTuple):
    """What a writer of GeoParquet needs beside the column.

    :ivar metadata: what the file says under its key `geo`, as JSON: `json.dumps(metadata)`
    :ivar bounds: the covering, records of xmin, ymin, xmax and ymax, where one is asked for: an array for Arrow's
        packages
    """

    metadata: Dict[str, Any]
    bounds: Optional[ColumnBounds]


def geoparquet(column: Column, name: str = "geometry", covering: Optional[str] = None) -> GeoParquet:
    """Return what GeoParquet 1.1.0 says of a file with this column, as it is, under a name.

    `covering` is the name of a second column, of the bounds of each row. The CRS is that of `column.metadata`; where
    that has none, the file says that none is known. A null row counts as none. Raise `ValueError` where the file would
    not be GeoParquet: a row is rejected, has an m, is EWKB or has bytes behind its geometry, or the CRS isn't PROJJSON.
    Where edges are spherical, lines and polygons may leave the boxes of their coordinates: then nothing is said of
    bounds, and a covering is a `ValueError`. Nor is anything said of bounds that are infinite, which JSON can't have.
    """
    facts = column.facts()
    _expect_rows(column, facts)
    about: Dict[str, Any] = {
        "encoding": "WKB",
        "geometry_types": [kind.name.title().replace("_", "") + SIGNS[dimension] for kind, dimension in facts.types],
        **_crs_of(column.metadata),
    }
    ranges = [facts.box.x, facts.box.y] + [facts.box.z] * bool(facts.box.z.count)
    has_arcs = about.get("edges") == "spherical" and any(kind not in POINTS for kind, _ in facts.types)
    if has_arcs and covering is not None:
        raise ValueError("edges are spherical, and an arc leaves the box of its ends: lines have no covering")
    if all(math.isfinite(end) for it in ranges for end in it[:2]) and not has_arcs:
        about["bbox"] = [it.least for it in ranges] + [it.greatest for it in ranges]
    if covering is not None:
        axes = "xy" + "z" * bool(facts.box.z.count)
        ends: List[str] = [axis + end for end in ("min", "max") for axis in axes]
        about["covering"] = {"bbox": {end: [covering, end] for end in ends}}
    metadata = {"version": VERSION, "primary_column": name, "columns": {name: about}}
    return GeoParquet(metadata, None if covering is None else column.bounds())


def _expect_rows(column: Column, facts: Facts) -> None:
    """Raise an error for the first row that GeoParquet can't have."""
    for i, status in enumerate(bytes(column.check()) if facts.accepted + facts.nulls < facts.rows else b""):
        if status not in (Status.OK, Status.NULL_ROW):
            raise ValueError(f"row {i} is rejected: {column.faults().get(i) or status_text(status)}")
    for kind, dimension in facts.types:
        if dimension not in SIGNS:
            raise ValueError(f"a {kind.name} is {dimension.name}, and GeoParquet {VERSION} has no m")
    written = column.write()
    with Inputs() as inputs:
        data, offsets = column._shown(inputs)
        # Accepted rows don't overlap, and no encoding is longer than its row. So where the encodings are all that is
        # between the least offset and the greatest one, each is its row.
        if bytes(data[max(many.min(offsets), 0) : max(many.max(offsets), 0)]) == bytes(written.data):
            return
        for i, (begin, end, row) in enumerate(zip(offsets, offsets[1:], written.rows)):
            if row is not None and data[begin:end] != row and not _is_iso(bytes(data[begin:end])):
                raise ValueError(f"row {i} is EWKB, or has bytes behind its geometry: "
                                 "Column.from_arrow(column.write()) is a column of ISO WKB alone")


def _is_iso(row: bytes) -> bool:
    """Return whether nothing is behind a geometry, and no code in it has a flag of EWKB."""
    table = parts(row)
    return table[0].end == len(row) and all(
        row[it.begin + (4 if it.order == Order.LITTLE else 1)] == 0 for it in table if it.kind != Kind.RING
    )


def _crs_of(text: Optional[str]) -> Dict[str, Any]:
    """Return what GeoParquet says of a CRS and of edges that GeoArrow's metadata has."""
    held = {} if text is None else object_of(text)
    crs, edges = held.get("crs"), held.get("edges")
    if crs is not None and not isinstance(crs, dict):
        raise ValueError(f"the CRS is {crs!r}, and GeoParquet takes PROJJSON alone: set column.metadata")
    if edges not in (None, "planar", "spherical"):
        raise ValueError(f"edges of GeoParquet are planar or spherical, and not {edges!r}")
    return {"crs": crs, **({"edges": edges} if edges else {})}
