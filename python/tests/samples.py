"""Geometries whose bytes are worked out by hand, and columns of them."""
import array
import struct

import porchsorrel_wkb as wkb
from porchsorrel_wkb import Status

try:
    import numpy
except ImportError:
    numpy = None

# (1, 2) in either byte order; a polygon of one ring of one point, with an SRID, in EWKB and as it is written; a
# multi point of (1, 2) and an empty point; a line string with z of (1, 2, 3) and (5, NaN, -7).
POINT = bytes.fromhex("0101000000000000000000f03f0000000000000040")
BIG_POINT = bytes.fromhex("00000000013ff00000000000004000000000000000")
POLYGON = bytes.fromhex("0020000003000010e600000001000000013ff00000000000004000000000000000")
ISO_POLYGON = bytes.fromhex("01030000000100000001000000000000000000f03f0000000000000040")
EMPTY_POINT = bytes.fromhex("0101000000000000000000f87f000000000000f87f")
POINTS = bytes.fromhex("010400000002000000") + POINT + EMPTY_POINT
LINE = bytes.fromhex("01ea03000002000000") + struct.pack("<6d", 1, 2, 3, 5, float("nan"), -7)

# Rows of a column, and their statuses.
ROWS = [POINT, None, b"", POLYGON, b"\2"]
STATUSES = [0, Status.NULL_ROW, Status.SHORT_HEADER, 0, Status.INVALID_BYTE_ORDER]


def rows_of(*rows):
    """The bytes and the 64-bit offsets of a column."""
    offsets = [0]
    for row in rows:
        offsets.append(offsets[-1] + len(row))
    return b"".join(rows), array.array("q", offsets)


def statuses(column):
    return list(column.check())


def geometry(kind, dimension=0, order="<", form=1000):
    """A geometry of each kind with one member, ring and coordinate: 1, 2, .. The code counts dimensions by thousands,
    as ISO has them, or with 0 by the flags of EWKB."""
    flags = 1000 * dimension if form else (dimension in (1, 3)) << 31 | (dimension in (2, 3)) << 30
    words = [1.0, 2.0, 3.0, 4.0][: (2, 3, 3, 4)[dimension]]
    one, body = struct.pack(order + "I", 1), struct.pack(f"{order}{len(words)}d", *words)
    head = {it: struct.pack(order + "BI", order == "<", it + flags) for it in range(1, 8)}
    single = {1: head[1] + body, 2: head[2] + one + body, 3: head[3] + one + one + body}
    return single.get(kind) or head[kind] + one + single[1 if kind == 7 else kind - 3]


def flat(numbers):
    """Numbers as text, since a NaN isn't equal to itself."""
    return " ".join(repr(float(number)) for number in memoryview(numbers).cast("B").cast("d"))


def slices(count):
    """The first item and the length of each slice of so many items."""
    return [(first, length) for first in range(count + 1) for length in range(count + 1 - first)]


def calls(data, column, levels):
    """The calls over an input, a column, and the coordinates of points."""
    return (lambda: wkb.check(data), lambda: wkb.bounds(data), lambda: wkb.write(data), lambda: wkb.parts(data),
            lambda: wkb.same(data, data), lambda: wkb.same(POINT, data), lambda: wkb.same(data, POINT), column.check,
            column.bounds, column.parts, column.write, column.coordinates,
            lambda: wkb.collect(column, wkb.Kind.MULTI_POINT),
            lambda: wkb.column_from_coordinates(wkb.Kind.POINT, levels))
