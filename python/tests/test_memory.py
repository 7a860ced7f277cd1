"""Memory, of Python and of the library's allocator: none is kept by calls that are made again and again. Work and
memory are proportional to the input, whatever its views and names say: offsets, by checks/hosts/cost."""
import contextlib
import ctypes
import gc
import struct
import sys
import tracemalloc
import unittest

import porchsorrel_wkb as wkb
from capsules import KEPT, Arrow, Records, Stream, Views, memory_of
from samples import LINE, POINT, POLYGON, ROWS
from porchsorrel_wkb import Column, Kind, Status, collect, column_from_coordinates

COLUMN, POINTS = Column.of(ROWS), Column.of([POINT, POINT])
# Calls that return, and such that raise: those that make or end structs of Arrow, and others with memory of ctypes.
CALLS = {
    "an array that comes in": lambda: Column.from_arrow(Arrow()).check(),
    "views that come in": lambda: Column.from_arrow(Views([POINT, None, POLYGON], 1)).check(),
    "records that come in": lambda: Column.from_arrow(Records(Arrow(name=b"a")), "a").check(),
    "records without a name": lambda: Column.from_arrow(Records(Arrow())),
    "a wrong array that comes in": lambda: Column.from_arrow(Arrow(n_buffers=2)),
    "a stream": lambda: [it.check() for it in Column.chunks_from_arrow(Stream(Arrow(), [Arrow(), Arrow()]))],
    "a stream that is left": lambda: next(Column.chunks_from_arrow(Stream(Arrow(), [Arrow(), Arrow()]))),
    "a stream that fails": lambda: list(Column.chunks_from_arrow(Stream(Arrow(), [], b"text"))),
    "encodings there and back": lambda: Column.from_arrow(COLUMN.write()).check(),
    "polygons that go out": lambda: Column.of([POLYGON, None]).coordinates().__arrow_c_array__(),
    "coordinates there and back": lambda: column_from_coordinates(Kind.POINT, POINTS.coordinates()),
    "arrays that don't fit": lambda: COLUMN.write()._replace(data=b"").__arrow_c_array__(),
    "check": lambda: wkb.check(bytearray(POLYGON)),
    "a refusal": lambda: wkb.check(POLYGON[:-1]),
    "parts": lambda: wkb.coordinates(LINE, wkb.parts(LINE)[0]),
    "a dump": lambda: wkb.dump(POLYGON),
    "a row that is not collected": lambda: collect(COLUMN, Kind.MULTI_POINT),
    "columns": lambda: (COLUMN.faults(), COLUMN.facts(), list(COLUMN.parts().parts), wkb.geoparquet(POINTS)),
}
FEW, MANY, TRIES = 20, 200, 8


class Allocated(ctypes.Structure):
    """The mallinfo2 of glibc from 2.33 on: what is in use, among others."""

    _fields_ = [(name, ctypes.c_size_t) for name in ("_0", "_1", "_2", "_3", "mapped", "_5", "_6", "used", "_8", "_9")]


def allocated():
    """How many blocks Python has, and pieces of 64 bytes the library's allocator has, where it tells."""
    KEPT.clear()
    gc.collect()
    told, tell = Allocated(), getattr(ctypes.CDLL(None), "mallinfo2", None)
    if tell is not None:
        tell.restype = Allocated
        told = tell()
    return sys.getallocatedblocks(), (told.mapped + told.used) // 64


def growth_of(call):
    """How much more memory there is after many calls."""
    for count in (FEW, MANY):
        before = allocated()
        for _ in range(count):
            with contextlib.suppress(TypeError, ValueError, OSError):
                call()
    return max(after - first for after, first in zip(allocated(), before))


class Memory(unittest.TestCase):
    def test_calls(self):
        """What every second call has kept at least, each time that it is tried: Python itself keeps some now and then.
        """
        for name, call in CALLS.items():
            with self.subTest(name):
                self.assertTrue(any(growth_of(call) < MANY // 2 for _ in range(TRIES)))


class Nested(unittest.TestCase):
    def views(self, rows, size):
        """So many views of one row of this size, a line string."""
        row = struct.pack("<BII", 1, 2, (size - 9) // 16) + bytes(size - 9)
        source = Views([row], 1)
        source.memory[1] = memory_of(rows * source.memory[1].raw)
        source.array.buffers[0], source.array.buffers[1] = None, ctypes.addressof(source.memory[1])
        source.array.length = rows
        return source

    def test_views(self):
        """Views of 16 bytes each, over one row of 489 or 249: copies have at most 16 bytes for each of these."""
        for rows, size in ((33, 489), (1000, 249)):
            column = Column.from_arrow(self.views(rows, size))
            self.assertEqual(list(column.check()), rows * [Status.OK])
        for rows, size in ((34, 489), (50_000, 800_009)):
            with self.assertRaisesRegex(ValueError, "views share bytes"):
                Column.from_arrow(self.views(rows, size))

    def test_names(self):
        """Columns that share a name of a megabyte, which is not read to its end."""
        column, shape = Arrow(name=10**6 * b"n"), Arrow(rows=[POINT], name=b"shape")
        source = Records(*200 * [column], shape, length=1)
        source.children = ()
        tracemalloc.start()
        self.addCleanup(tracemalloc.stop)
        with self.assertRaises(ValueError) as raised:
            Column.from_arrow(source, "none")
        self.assertLess(tracemalloc.get_traced_memory()[1], 10**6)
        self.assertRegex(str(raised.exception), "no column 'none', but .*'nnn.* and more$")
