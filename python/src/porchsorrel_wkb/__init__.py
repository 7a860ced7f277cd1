# SPDX-License-Identifier: MIT OR Apache-2.0
"""WKB and EWKB, read and written by a library compiled from formally verified sources.

The package itself is tested, and not proved. It needs CPython 3.8 or later.

One geometry, at the start of a blob::

    check(blob)                     Found: its kind, dimension, SRID, size; raises Refused if it isn't a geometry
    well_formed(blob)               whether it is one geometry and nothing after it, as SQL's wkb_well_formed
    bounds(blob)                    Box: x, y, z and m, each with least, greatest and count
    write(blob[, order, form, srid])  its one encoding; by default a key: geometries of one value have the same
    same(blob, other)               whether both have one value, whatever their byte orders and SRIDs are
    parts(blob)                     Table of Part: itself, and its rings and members, in preorder
    coordinates(blob, part)         a list of tuples, for a point, a line string or a ring
    view(blob, part)                a numpy array over the blob's own memory, for the same
    geopackage_header(blob)         what a GeoPackage has before a geometry: its size, SRID and envelope; or None
    dump(blob[, items, lines])      what the bytes say, line by line, and where they are rejected

A column of geometries, in one piece of memory as Arrow has it::

    Column.of(rows)                 of a list, or a column of pandas or geopandas; None is a null row
    Column.from_arrow(array[, name])  of an array of pyarrow, or of another with __arrow_c_array__
    Column.chunks_from_arrow(stream[, name])  one for each chunk of a column or a table with __arrow_c_stream__
    Column(data, offsets[, validity])  of any buffers; first= and rows= pick a slice
    column.check(), .found(), .bounds(), .write([order, form, srid]), .parts(), .coordinates([dimension])
                                    results for all rows, and a Status for each; no row stops a call
    column.facts(), .metadata       the types, SRIDs and bounds of all rows; the CRS, as GeoArrow has it
    column.faults()                 why rows are rejected, and at which byte: a Fault for each such row, by its index
    column[first:end], column.split(count)  columns over the same memory, for a thread each
    Facts.joined(several)           the facts of several columns together
    geoparquet(column[, name, covering])  what a file of GeoParquet says of it
    collect(column, kind[, dimension, order, form, srid])
                                    the multi geometry or the collection whose members are the rows, also of a list
    column_from_coordinates(kind, coordinates[, ring_offsets, single_offsets, row_offsets])
                                    the encodings of rows of one kind, from coordinates of your own, or of an
                                    array of GeoArrow in their place

What the numbers mean, as enums of integers::

    Status, is_refusal(status), is_early_end(status), status_text(status)
                                    the result of a call or of a row
    Kind, Dimension, Order, Form    POINT.., XY.., BIG and LITTLE, ISO..

Records are Found, Fault, Part, Range, Box and GeoPackageHeader, which are named tuples. Table is a sequence of Part or
Box, and becomes a structured array by numpy.asarray. The column calls return ColumnFound, ColumnBounds, ColumnParts,
ColumnEncodings and ColumnCoordinates, which are compared as a whole, and Facts; geoparquet returns a GeoParquet.
Bounds, encodings and coordinates are arrays for packages of Arrow, and `rows` of ColumnEncodings is a sequence of bytes
and None. Refused is a ValueError with `status`, `fault`, the part that is rejected, and of a collection `row`, its
index.

A blob is anything with the buffer protocol. A call holds its buffer until it returns or raises, and no longer; only
view returns an array over the blob's memory. Sizes and offsets are in bytes. Functions, results, columns and Refused
can be pickled, for other processes.

Calls over a column, or over a blob of 16 KB or more, release the GIL, so that several threads run in parallel, if all
that is read is read-only, such as bytes, a column that Column.of makes, and memory of Arrow. Over memory that may be
written, such as a bytearray or most arrays of numpy, calls keep it, since another thread could write it meanwhile.
memoryview(it).toreadonly() says that nobody does. No other process may write the input during a call: of a mapped file
that others write, such as a numpy.memmap, pass a copy, bytes(it).

The library is inside this package: version() is that of its wkb.h. help(wkb.write), and so on, says more of each name.
"""
from ._calls import (
    bounds as bounds, check as check, coordinates as coordinates, dump as dump, geopackage_header as geopackage_header,
    parts as parts, same as same, view as view, well_formed as well_formed, write as write,
)
from ._columns import Column as Column, collect as collect
from ._enums import (
    Dimension as Dimension, Form as Form, Kind as Kind, Order as Order, Status as Status, is_early_end as is_early_end,
    is_refusal as is_refusal,
)
from ._errors import Refused as Refused
from ._geoparquet import GeoParquet as GeoParquet, geoparquet as geoparquet
from ._levels import column_from_coordinates as column_from_coordinates
from ._library import status_text as status_text, version as version
from ._records import (
    Box as Box, Fault as Fault, Found as Found, GeoPackageHeader as GeoPackageHeader, Part as Part, Range as Range,
    Table as Table,
)
from ._results import (
    ColumnBounds as ColumnBounds, ColumnCoordinates as ColumnCoordinates, ColumnEncodings as ColumnEncodings,
    ColumnFound as ColumnFound, ColumnParts as ColumnParts, Facts as Facts,
)

__version__ = "1.0.0"

# Tracebacks, pickles and help name what is public by its place here.
for _it in [it for it in vars().values() if hasattr(it, "__qualname__")]:
    _it.__module__ = __name__
del _it
