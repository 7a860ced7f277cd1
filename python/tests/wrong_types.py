"""Calls that a checker of types must reject: `mypy --strict` passes this file only where it rejects each such line."""
import array
import mmap
from typing import Any, List, Optional, Tuple

import porchsorrel_wkb as wkb


class NotArrow:
    """No Arrow array."""

    def __arrow_c_array__(self) -> int:
        return 0


class Stream:
    """Arrow arrays one after another, and by itself one, as pyarrow and others have them."""

    def __arrow_c_array__(self, requested_schema: Optional[object] = None) -> Tuple[Any, Any]:
        raise NotImplementedError

    def __arrow_c_stream__(self, requested_schema: Optional[object] = None) -> Any:
        raise NotImplementedError


def wrong(part: wkb.Part, column: wkb.Column) -> None:
    """Each line is rejected."""
    wkb.check("text")  # type: ignore[arg-type]
    wkb.bounds([1, 2])  # type: ignore[arg-type]
    wkb.well_formed("text")  # type: ignore[arg-type]
    column.metadata = {"crs": 1}  # type: ignore[assignment]
    wkb.write(b"", 0)  # type: ignore[arg-type]
    wkb.write(b"", srid="4326")  # type: ignore[arg-type]
    wkb.same(b"", "text")  # type: ignore[arg-type]
    wkb.coordinates(b"", 0)  # type: ignore[arg-type]
    wkb.Column([1, 2], b"")  # type: ignore[arg-type]
    wkb.Column(b"", "x")  # type: ignore[arg-type]
    wkb.Column.of([1, 2])  # type: ignore[list-item]
    wkb.Column.of("text")  # type: ignore[arg-type]
    wkb.Column.from_arrow([b""])  # type: ignore[arg-type]
    wkb.Column.from_arrow(NotArrow())  # type: ignore[arg-type]
    wkb.Column.chunks_from_arrow(NotArrow())  # type: ignore[arg-type]
    wkb.column_from_coordinates(1, b"")  # type: ignore[arg-type]
    wkb.column_from_coordinates(wkb.Kind.POINT, [1.0, 2.0])  # type: ignore[arg-type]
    column.coordinates(3)  # type: ignore[arg-type]
    wkb.collect(column, 4)  # type: ignore[arg-type]
    wkb.collect(b"", wkb.Kind.MULTI_POINT)  # type: ignore[arg-type]
    part.count = 0  # type: ignore[misc]
    column.write().rows[0] + b""  # type: ignore[operator]
    wkb.column_from_coordinates(wkb.Kind.POINT, NotArrow())  # type: ignore[arg-type]


def right(data: bytes, mapped: mmap.mmap, rows: List[Optional[bytes]]) -> List[wkb.Found]:
    """No line is rejected."""
    wkb.Column(memoryview(data), array.array("q"), bytearray(data))
    wkb.Column.of(rows)
    wkb.Column.from_arrow(Stream())
    for column in wkb.Column.chunks_from_arrow(Stream(), "geometry"):
        column.check()
    wkb.column_from_coordinates(wkb.Kind.LINE_STRING, array.array("d"), array.array("i"))
    levels = wkb.Column.of(rows).coordinates()
    written = wkb.column_from_coordinates(wkb.Kind.POINT, levels, dimension=wkb.Dimension.XYZ)
    wkb.Column.of(written.rows)
    wkb.Column.from_arrow(written)
    wkb.check(wkb.collect(wkb.Column.of(rows), wkb.Kind.MULTI_POINT, wkb.Dimension.XYZ, srid=4326))
    wkb.write(data, srid=4326)
    wkb.Facts.joined(map(wkb.Column.facts, wkb.Column.of(rows).split(2)))
    print(wkb.well_formed(data), [str(wkb.Column.of(rows)[:1].faults()[0])])
    return [wkb.check(data), wkb.check(mapped)]
