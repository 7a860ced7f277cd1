# SPDX-License-Identifier: MIT OR Apache-2.0
"""Rows that are written from coordinates in levels."""
import ctypes
import operator
from typing import List, Optional, Tuple, Union

from ._arrow import ArrowArray
from ._buffers import (
    WORD_SIZE, Buffer, Inputs, check_bits, code_of, new_numbers, new_offsets, numbers_of, size_of_offsets, view_of,
)
from ._enums import Dimension, Form, Kind, Order, make_options
from ._errors import expect_same
from ._geoarrow import Levels, levels_of_arrow
from ._library import COLUMN_FROM_COORDINATES, address_of, wkb_levels, wkb_options
from ._results import ColumnEncodings


def _level(offsets: Optional[Buffer], offset_size: Optional[int]) -> Optional[Buffer]:
    """Return the offsets of a level as ones of 64 bits."""
    if offsets is None or size_of_offsets(offsets, offset_size)[0] == WORD_SIZE:
        return offsets
    return numbers_of("i8", memoryview(view_of(offsets).tobytes()).cast("i"))


def _check_words(coordinates: Buffer, dimension: Dimension) -> None:
    """Raise an error unless the buffer has doubles, in rows of as many as the dimension has or one after another."""
    with view_of(coordinates) as view:
        if code_of(view) != "d":
            raise TypeError(f"coordinates of format {view.format!r} are not 64-bit floats of this machine")
        if view.ndim != 1 and (view.shape or ())[1:] != (dimension.width,):
            raise ValueError(f"coordinates of shape {view.shape} have not {dimension.width} numbers each")


def _write(kind: Kind, options: Tuple[int, int, int], it: Levels) -> ColumnEncodings:
    """Return the encodings of rows in levels."""
    _check_words(it.coordinates, it.dimension)
    check_bits(it.validity)
    with Inputs() as inputs:
        levels, call = _place(inputs, it), inputs.choose(COLUMN_FROM_COORDINATES)
        statuses, offsets = new_numbers("u1", levels.rows), new_offsets(levels.rows)
        ends = view_of(offsets)[1:], statuses
        given = ctypes.byref(levels), kind, it.dimension, ctypes.byref(wkb_options(*options))
        size = call(*given, None, 0, *ends)
        data = new_numbers("u1", size)
        again = call(*given, data, size, *ends)
    expect_same(again == size)
    return ColumnEncodings._made(statuses, offsets, data, _form=int(options[1]), _metadata=it.metadata)


def _place(inputs: Inputs, it: Levels) -> wkb_levels:
    """Return levels as the library takes them, while their buffers are held."""
    words = inputs.aligned(it.coordinates)
    count = words.nbytes // WORD_SIZE
    items, rest = divmod(count, it.dimension.width)
    if rest:
        raise ValueError(f"{count} numbers are not {it.dimension.width} for each coordinate")
    placed: List[Optional[int]] = [address_of(words), count]
    for offsets in it.offsets:
        ends = None
        if offsets is not None:
            numbers = inputs.hold(inputs.aligned(offsets).cast("B").cast("q"))
            if len(numbers) and numbers[0] != 0:
                raise ValueError(f"the offsets of a level begin with 0, and not with {numbers[0]}")
            ends, items = address_of(numbers[1:]), max(len(numbers) - 1, 0)
        placed += ends, items
    return wkb_levels(*placed, inputs.bits(it.validity, it.first + items), it.first)


def column_from_coordinates(
    kind: Kind,
    coordinates: Union[Buffer, ArrowArray],
    ring_offsets: Optional[Buffer] = None,
    single_offsets: Optional[Buffer] = None,
    row_offsets: Optional[Buffer] = None,
    *,
    dimension: Optional[Dimension] = None,
    order: Order = Order.LITTLE,
    form: Optional[Form] = None,
    srid: Optional[int] = None,
    validity: Optional[Buffer] = None,
    validity_offset: int = 0,
    offset_size: Optional[int] = None,
) -> ColumnEncodings:
    """Return the encodings of rows of one kind, from POINT to MULTI_POLYGON: the inverse of `Column.coordinates`.

    The levels are those of `ColumnCoordinates`. None is a level with one item for each of the next: points need no
    offsets, line strings `ring_offsets`, polygons `single_offsets` too, and multi geometries `row_offsets`. Offsets are
    32-bit or 64-bit numbers that begin with 0; where they are raw bytes, `offset_size` says how many bytes one has.
    `coordinates` has 64-bit floats, `dimension.width` for each; an empty point is one of NaNs. `validity` is the
    validity bitmap, as for `Column`, with the first row's bit at `validity_offset`. Without a `dimension` it is XY.
    Clear the bits of rejected rows and of collections. Otherwise a rejected row comes back as an empty multi geometry,
    or is BAD_LEVELS if the kind is no multi geometry; a collection comes back as the geometry of this kind that its
    singles make, if they make one.

    In the place of all these, `coordinates` may be an Arrow array of GeoArrow's type for the kind, or a slice of one:
    any object with the method `__arrow_c_array__`. Coordinates that are interleaved are not copied, nor are offsets of
    64 bits that begin with 0. It is rejected as `Column.from_arrow` rejects arrays.

    No row stops the call: where the offsets don't fit the kind or each other, the row is BAD_LEVELS and has no bytes.
    `Column(it.data, it.offsets, validity)` is a column of the result. It has no SRIDs but `srid`, which makes it EWKB,
    as that of `wkb.write` does.
    """
    kind, first_bit = Kind(kind), operator.index(validity_offset)
    if kind in (Kind.RING, Kind.GEOMETRY_COLLECTION):
        raise ValueError(f"no row of kind {kind.name} is written from coordinates")
    if first_bit < 0:
        raise ValueError(f"validity_offset={first_bit} can't be negative")
    given, options = (ring_offsets, single_offsets, row_offsets), make_options(order, form, srid)
    if hasattr(coordinates, "__arrow_c_array__"):
        if first_bit or any(it is not None for it in (*given, validity, offset_size)):
            raise TypeError("an Arrow array has its own offsets and validity: no others are taken")
        levels = levels_of_arrow(coordinates, kind)
        if dimension not in (None, levels.dimension):
            raise ValueError(f"the Arrow array has coordinates of {levels.dimension.name}, and not {dimension!r}")
        return _write(kind, options, levels)
    rings, singles, rows = (_level(it, offset_size) for it in given)
    dimension = Dimension.XY if dimension is None else Dimension(dimension)
    return _write(kind, options, Levels(coordinates, (rings, singles, rows), validity, first_bit, dimension))
