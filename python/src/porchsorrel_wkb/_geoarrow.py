# SPDX-License-Identifier: MIT OR Apache-2.0
"""Levels of coordinates in arrays of GeoArrow, as other packages hand them out in capsules."""
import array
from typing import Any, List, NamedTuple, Optional, Tuple

from ._arrow import VALIDITY, WITH_ONE, Array, Schema, check_array, expect, taken
from ._buffers import WORD_SIZE, Buffer, has_numpy, new_numbers
from ._enums import Dimension, Kind

# The level of each list of a kind, from the outermost on: 0 has the ends of rings, 1 of singles, 2 of rows.
LEVELS = {
    Kind.POINT: (), Kind.LINE_STRING: (0,), Kind.POLYGON: (1, 0), Kind.MULTI_POINT: (2,),
    Kind.MULTI_LINE_STRING: (2, 0), Kind.MULTI_POLYGON: (2, 1, 0),
}
# The bytes of an offset, by the formats of lists.
LIST_SIZES = {b"+l": 4, b"+L": 8}


class Levels(NamedTuple):
    """Coordinates in levels."""

    coordinates: Any
    offsets: Tuple[Optional[Buffer], Optional[Buffer], Optional[Buffer]]  # of rings, of singles and of rows
    validity: Any
    first: int  # the bit of the first row
    dimension: Dimension
    owner: Any = None  # what the memory lives by
    metadata: Optional[bytes] = None  # what GeoArrow's type says of the rows


class _Window(NamedTuple):
    """Some items of an array."""

    schema: Schema
    array: Array
    first: int
    rows: int


def _check(it: _Window, children: int, buffers: range, depth: int) -> None:
    """Raise an error unless the counts fit, and no item inside a row is null."""
    check_array(it.array, children, buffers)
    expect(it.schema.n_children == children and not it.schema.dictionary, "array has other children than its type")
    expect(it.first + it.rows <= it.array.offset + it.array.length, "array has fewer items than its lists say")
    expect(not depth or not it.array.has_nulls(it.first, it.rows), "array has items inside rows that are null")


def _inner(it: _Window, number: int, first: int, count: int) -> _Window:
    """Return some items of a child, counted from its first."""
    child = it.array.child(number)
    return _Window(it.schema.child(number), child, child.offset + first, count)


def _opened(it: _Window, depth: int) -> Tuple[Buffer, _Window]:
    """Return the offsets of a list, of 64 bits from 0 on, and the items in it."""
    size = LIST_SIZES.get(it.schema.format or b"")
    if size is None:
        raise TypeError(f"an Arrow array of format {_format(it)} is not a list, where this kind has one")
    _check(it, 1, WITH_ONE, depth)
    if it.rows == 0:
        return array.array("q", [0]), _inner(it, 0, 0, 0)
    end = it.first + it.rows + 1
    offsets = it.array.buffer(1, end * size).cast("i" if size == 4 else "q")[it.first :]
    least, most = offsets[0], offsets[-1]
    expect(0 <= least <= most, f"array has lists from item {least} to {most}")
    inner = _inner(it, 0, least, most - least)
    if least == 0 and size == WORD_SIZE:
        return offsets, inner
    return array.array("q", (place - least for place in offsets)), inner


def _format(it: _Window) -> str:
    return repr((it.schema.format or b"").decode(errors="replace"))


def _words(it: _Window, number: int, first: int, count: int) -> Any:
    """Return some doubles of a child."""
    words = _inner(it, number, first, count)
    if words.schema.format != b"g":
        raise TypeError(f"coordinates of format {_format(words)} are not 64-bit floats ('g')")
    _check(words, 0, WITH_ONE, 1)
    return words.array.buffer(1, WORD_SIZE * (words.first + count)).cast("d")[words.first :]


def _coordinates(it: _Window, depth: int) -> Tuple[Any, str]:
    """Return the coordinates one after another, and the name of their dimension. Interleaved ones are not copied."""
    form = it.schema.format or b""
    if form in (b"+w:2", b"+w:3", b"+w:4"):
        _check(it, 1, VALIDITY, depth)
        width = int(form[3:])
        name = it.schema.child(0).name(8)
        return _words(it, 0, width * it.first, width * it.rows), name if len(name) == width else "xyzm"[:width]
    if form == b"+s" and 2 <= it.schema.n_children <= 4:
        width = it.schema.n_children
        _check(it, width, VALIDITY, depth)
        words, held = new_numbers("f8", width * it.rows), ""
        for i in range(width):
            numbers = _words(it, i, it.first, it.rows)
            words[i::width] = numbers if has_numpy else array.array("d", numbers)
            held += it.schema.child(i).name(8)
        return words, held
    raise TypeError(f"an Arrow array of format {_format(it)} has no coordinates: lists of 2 to 4, or records of them")


def levels_of_arrow(of: Any, kind: Kind) -> Levels:
    """Return the levels of an array of rows of this kind."""
    schema, top = taken(of)
    it = _Window(schema, top, top.offset, top.length)
    offsets: List[Optional[Buffer]] = [None, None, None]
    for depth, level in enumerate(LEVELS[kind]):
        offsets[level], it = _opened(it, depth)
    words, name = _coordinates(it, len(LEVELS[kind]))
    if name.upper() not in Dimension.__members__:
        raise TypeError(f"coordinates of {name!r} are not of xy, xyz, xym or xyzm")
    held = offsets[0], offsets[1], offsets[2]
    validity = top.validity(top.offset, top.length)
    return Levels(words, held, validity, top.offset % 8, Dimension[name.upper()], top, schema.metadata())
