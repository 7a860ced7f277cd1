"""The calls for columns: of rows in many pieces or in one, from coordinates, and rows as one geometry."""
import array
import ctypes
import mmap
import pickle
import struct
import sys
import unittest

from samples import (
    BIG_POINT, EMPTY_POINT, ISO_POLYGON, LINE, POINT, POINTS, POLYGON, ROWS, STATUSES, numpy, rows_of, statuses,
)
from porchsorrel_wkb import Column, Dimension, Form, Kind, Refused, Status, check, collect, column_from_coordinates

try:
    import pandas
except ImportError:
    pandas = None


class Of(unittest.TestCase):
    def is_right(self, rows):
        column = Column.of(rows)
        self.assertEqual((len(column), list(column.check())), (5, STATUSES))
        self.assertEqual(bytes(column.write().data), POINT + ISO_POLYGON)

    def test_lists(self):
        geometries = type("Geometries", (), {"to_wkb": lambda _: iter(ROWS)})()  # as geopandas has them
        for rows in (ROWS, tuple(ROWS), iter(ROWS), (it for it in ROWS), dict(enumerate(ROWS)).values(), geometries):
            self.is_right(rows)
        twice = bytes(byte for byte in POINT for _ in range(2))
        self.is_right([memoryview(twice)[::2], None, array.array("d"), bytearray(POLYGON), memoryview(b"\2")])
        self.assertEqual(statuses(Column.of([memoryview(POINT + b"\0").cast("H"), POINT])), [0, 0])
        self.is_right([(ctypes.c_int16 * 1).from_buffer_copy(b"\2\0") if it == b"\2" else it for it in ROWS])

    def test_copies(self):
        row = bytearray(POINT)
        column = Column.of([row])
        row.clear()
        self.assertEqual(list(column.check()), [0])

    def test_refused(self):
        for row in ("text", 5, 1.5, float("nan"), [1]):
            text = f"row 1 is neither bytes nor None: .*, not .{type(row).__name__}.: "
            with self.assertRaisesRegex(TypeError, text):
                Column.of([POINT, row])
        for whole in (POINT, bytearray(POINT), memoryview(POINT), "text", array.array("B", POINT), mmap.mmap(-1, 21)):
            self.assertRaisesRegex(TypeError, "this is one", Column.of, whole)
        self.assertRaisesRegex(TypeError, "which from_arrow takes", Column.of, Column.of([POINT]).write())
        self.assertRaises(TypeError, Column.of, 5)

    @unittest.skipUnless(pandas and numpy, "pandas or numpy is not here")
    def test_pandas(self):
        self.is_right(pandas.Series(ROWS))
        for missing in (float("nan"), pandas.NA, pandas.NaT):
            self.is_right(pandas.Series([missing if it is None else it for it in ROWS], index=list("edcba")))
        self.is_right(pandas.DataFrame({"geometry": ROWS}).geometry)
        self.is_right(pandas.array(ROWS, dtype=object))
        self.assertRaisesRegex(TypeError, "of 2 dimensions is not", Column.of, pandas.DataFrame({"geometry": ROWS}))

    @unittest.skipUnless(numpy, "numpy is not here")
    def test_numpy(self):
        self.is_right(numpy.array(ROWS, dtype=object))
        self.assertRaisesRegex(TypeError, "type S drops the zeros", Column.of, numpy.array([POINT, b"\1\0"]))
        self.assertRaisesRegex(TypeError, "of 2 dimensions", Column.of, numpy.array([[POINT]], dtype=object))
        masked = numpy.ma.array([POINT, POINT], mask=[False, True], dtype=object)
        for row, numbers in ((0, numpy.array([1.0])), (1, masked), (1, [POINT, numpy.float64("nan")])):
            self.assertRaisesRegex(TypeError, f"row {row} .* one number of numpy's", Column.of, numbers)
        self.assertEqual(len(Column.of(numpy.array([]))), 0)


class Split(unittest.TestCase):
    def test_faults(self):
        """What a row with bad offsets has is no fault."""
        for data, offsets in ((POINT, [0, 99]), (bytes(range(20)), [0, 10, 5, 20])):
            column = Column(data, array.array("q", offsets))
            self.assertEqual([*column.faults()], [i for i, it in enumerate(column.check()) if it >= 32])
        self.assertEqual([*column.check()], [Status.CODE_OUT_OF_RANGE, Status.BAD_OFFSETS, Status.BAD_OFFSETS])

    def test_slices(self):
        """Of memory of its own, of Arrow and of others; what is pickled has the bytes of the slice alone."""
        data, offsets = rows_of(POINT, LINE, 1000 * b"\2", POLYGON)
        whole = Column(memoryview(data), memoryview(offsets), memoryview(b"\5"))
        for column in (Column.of([POINT, None, LINE, b"", POLYGON]), Column.from_arrow(Column.of(3 * [POINT]).write()),
                       whole, whole[1:]):
            for some in (slice(1, 3), slice(None), slice(-2, None), slice(3, 1), slice(9, 99), slice(0, 0)):
                self.assertEqual(statuses(column[some]), statuses(column)[some])
                self.assertEqual(statuses(pickle.loads(pickle.dumps(column[some]))), statuses(column)[some])
            for count in (1, 2, 4, 9):
                columns = column.split(count)
                self.assertEqual(([it.metadata for it in columns], sum(map(statuses, columns), [])),
                                 ([column.metadata] * count, statuses(column)))
                self.assertLess(max(map(len, columns)) - min(map(len, columns)), 2)
            for count in (0, -1):
                self.assertRaises(ValueError, column.split, count)
        self.assertEqual(statuses(Column(data, offsets, b"\5", first=1, rows=2)), statuses(whole[1:3]))
        self.assertLess(len(pickle.dumps(whole[:2])), 1000)
        self.assertRaisesRegex(ValueError, "every 2", lambda: column[::2])
        for wrong in (lambda: column[0], lambda: list(column), lambda: column["a"]):
            self.assertRaisesRegex(TypeError, "column of one", wrong)


class Taken(unittest.TestCase):
    """What a column is made of."""

    def test_offsets(self):
        """Of a column, and of levels, which are copied where numbers of eight bytes can't be."""
        data, offsets, coordinates = 3 * POINT, [0, 21, 42, 63], array.array("d", bytes(1008))
        packed = struct.pack("=4q", *offsets)
        for taken in (
            [array.array(code, offsets) for code in "ilqLQ"]
            + [(kind * 4)(*offsets) for kind in (ctypes.c_int32, ctypes.c_int64, ctypes.c_uint64)]
            + [memoryview(struct.pack("=4i", *offsets)).cast("i")]
            + [memoryview(bytes(i) + packed)[i:].cast("q") for i in range(1, 8)]
            + ([numpy.array(offsets, kind) for kind in ("i4", "i8", "u8")] if numpy else [])
            + ([numpy.array([0, 9, 21, 9, 42, 9, 63], kind)[::2] for kind in ("i4", "i8")] if numpy else [])
        ):
            self.assertEqual(statuses(Column(data, taken)), [0, 0, 0], taken)
            size = memoryview(taken).itemsize
            self.assertEqual(statuses(Column(data, taken, offset_size=size)), [0, 0, 0], taken)
            self.assertRaises(TypeError, Column, data, taken, offset_size=12 - size)
            written = column_from_coordinates(Kind.LINE_STRING, coordinates, taken)
            self.assertEqual(list(written.offsets), [0, 345, 690, 1035], taken)
        for size, code in ((4, "i"), (8, "q")):  # bytes without a type, as Arrow's own buffers are
            raw = struct.pack(f"=4{code}", *offsets)
            for taken in (raw, bytearray(raw), memoryview(raw).cast("b"), memoryview(raw).cast("c")):
                self.assertEqual(statuses(Column(data, taken, offset_size=size)), [0, 0, 0])
                written = column_from_coordinates(Kind.LINE_STRING, coordinates, taken, offset_size=size)
                self.assertEqual(list(written.offsets), [0, 345, 690, 1035])
        swapped = ">i8" if sys.byteorder == "little" else "<i8"
        for refused in (
            [array.array(code, offsets) for code in "hHIbdf"]
            + [(ctypes.c_int64.__ctype_be__ * 4)(*offsets), (ctypes.c_int32.__ctype_be__ * 4)(*offsets)]
            + [packed, "0123456789abcdef", offsets]
            + ([numpy.array(offsets, kind) for kind in (swapped, "u4", "f8", "i2", "?")] if numpy else [])
        ):
            self.assertRaises(TypeError, Column, data, refused)
            self.assertRaises(TypeError, column_from_coordinates, Kind.LINE_STRING, coordinates, refused)

    def test_no_rows(self):
        for offsets in (array.array("q"), array.array("q", [0])):
            levels = column_from_coordinates(Kind.LINE_STRING, array.array("d"), offsets)
            self.assertEqual((len(levels.statuses), list(levels.offsets), len(levels.data)), (0, [0], 0))
        for offsets in (array.array("q"), array.array("q", [0]), array.array("i"), array.array("i", [5])):
            column = Column(POINT, offsets, b"\0")
            results = column.bounds(), column.found(), column.parts(), column.write(), column.coordinates()
            lengths = [[0, 0], [0, 0], [0, 1, 0], [0, 1, 0], [0, 1, 1, 1, 0]]
            self.assertEqual([len(column.check()), *([*map(len, it)] for it in results)], [0, *lengths])
            for kind in (Kind.MULTI_POINT, Kind.GEOMETRY_COLLECTION):
                found = check(collect(column, kind, Dimension.XYZM))
                self.assertEqual((found.kind, found.dimension, found.count), (kind, Dimension.XYZM, 0))

    def test_texts(self):
        """Errors in offsets or in a slice are reported."""
        data, offsets = rows_of(*[POINT] * 3)
        raw = struct.pack("=4q", *offsets)
        for text, offsets, options in (
            ("first=0 and rows=-1 can't be negative", offsets, {"rows": -1}),
            ("first=-1 and rows=None can't be negative", offsets, {"first": -1}),
            *((f"not {rows} from row {first} on", offsets, {"first": first, "rows": rows})
              for first, rows in ((4, 0), (2**62, 0), (0, 2**62))),
            *(("", offsets, wrong) for wrong in ({"first": 0.5}, {"rows": "1"})),
            ("4 offsets have 3 rows: not 3 from row 1 on", offsets, {"first": 1, "rows": 3}),
            ("4 offsets have 3 rows: not 0 from row 4 on", offsets, {"first": 4}),
            ("0 offsets have 0 rows: not 1 from row 0 on", array.array("q"), {"rows": 1}),
            ("7 bytes are after the last offset", raw[:-1], {"offset_size": 8}),
            ("format 'i' have 4 bytes: no offset_size=8", array.array("i", offsets), {"offset_size": 8}),
            ("raw bytes need offset_size=4 or offset_size=8, and not None", raw, {}),
            ("raw bytes need offset_size=4 or offset_size=8, and not 2", raw, {"offset_size": 2}),
            ("one dimension, and not 2", memoryview(raw).cast("B", (4, 8)), {"offset_size": 8}),
        ):
            with self.assertRaises((TypeError, ValueError)) as raised:
                Column(data, offsets, **options)
            self.assertIn(text, str(raised.exception))

    def test_wrong_validity(self):
        data, offsets = rows_of(*[POINT] * 9)
        self.assertEqual(statuses(Column(data, offsets, array.array("b", [-1, 1]))), 9 * [0])
        for validity, first in ((b"\xff", 0), (b"\xff", 8), (b"", 0)):
            self.assertRaises(ValueError, Column, data, offsets, validity, first=first)
        for wrong in (array.array("i", [1] * 9), array.array("d", [1] * 9), "ff", 255):
            self.assertRaises(TypeError, Column, data, offsets, wrong)


class Results(unittest.TestCase):
    def test_dimensions(self):
        for dimension in (4, -1, "XY", None):
            self.assertRaises(ValueError, Column.of([LINE]).coordinates, dimension)

    def test_types(self):
        column = Column(*rows_of(POINTS, EMPTY_POINT, POLYGON))
        it, written = column.coordinates(), column_from_coordinates(Kind.POINT, array.array("d", [1, 2]))
        for numbers, code in zip((column.check(), it.row_offsets, it.coordinates, *written), "BqdBqB"):
            self.assertEqual(numbers.dtype if numpy else numbers.typecode, code)
        if numpy:
            self.assertEqual(it.coordinates.shape, (4, 2))
            self.assertEqual(it.ring_offsets[it.single_offsets[it.row_offsets]].tolist(), [0, 2, 3, 4])
            table = column.found().found
            found = numpy.asarray(table)
            self.assertEqual((found["kind"].tolist(), found["srid"].tolist()), ([4, 1, 3], [0, 0, 4326]))
            self.assertTrue(numpy.shares_memory(found, table.__array__()))
            self.assertFalse(numpy.shares_memory(found, table.__array__(copy=True)))


class Levels(unittest.TestCase):
    """What rows are written from."""

    def test_coordinates(self):
        raw = POINT[5:]
        for taken in [
            array.array("d", [1, 2]), memoryview(raw).cast("d"), (ctypes.c_double * 2)(1, 2),
            *(memoryview(bytes(i) + raw)[i:].cast("d") for i in range(1, 8)),
        ] + ([numpy.array([[1, 2]], "f8"), numpy.array([[1.0], [2.0]]).T] if numpy else []):
            self.assertEqual(bytes(column_from_coordinates(Kind.POINT, taken).data), POINT)

    def test_wrong_arguments(self):
        numbers = array.array("d", [1, 2])
        for error, text, arguments, options in (
            (ValueError, "no row of kind RING", (Kind.RING, numbers), {}),
            (ValueError, "no row of kind GEOMETRY_COLLECTION", (Kind.GEOMETRY_COLLECTION, numbers), {}),
            (ValueError, "8 is not a valid Kind", (8, numbers), {}),
            (ValueError, "4 is not a valid Dimension", (1, numbers), {"dimension": 4}),
            (ValueError, "'' is not a valid Dimension", (1, numbers), {"dimension": ""}),
            (ValueError, "2 is not a valid Order", (1, numbers), {"order": 2}),
            (ValueError, "no other form", (1, numbers), {"srid": 4326, "form": Form.ISO}),
            (ValueError, "3 numbers are not 2 for each", (1, array.array("d", [1, 2, 3])), {}),
            (TypeError, "format 'f' are not 64-bit floats", (1, array.array("f", numbers)), {}),
            (TypeError, "format 'B' are not 64-bit floats", (1, bytes(16)), {}),
            (TypeError, "numpy.asarray or array.array", (1, [1.0, 2.0]), {}),
            (ValueError, r"shape \(1, 2\) have not 3 numbers", (1, memoryview(POINT[5:]).cast("d", (1, 2))),
             {"dimension": Dimension.XYZ}),
            (ValueError, r"shape \(1, 1, 2\) have not 2 numbers",
             (1, memoryview(POINT[5:]).cast("d", (1, 1, 2))), {}),
            (ValueError, "begin with 0, and not with 1", (2, numbers, array.array("q", [1])), {}),
            (ValueError, "0 bytes of validity hold fewer than 1 bits", (1, numbers), {"validity": b""}),
            (ValueError, "hold fewer than 9 bits", (1, numbers), {"validity": b"\xff", "validity_offset": 8}),
            (TypeError, "is not bits in bytes", (1, numbers), {"validity": numbers}),
            (ValueError, "can't be negative", (1, numbers), {"validity_offset": -1}),
        ):
            with self.assertRaisesRegex(error, text):
                column_from_coordinates(*arguments, **options)


class Collected(unittest.TestCase):
    def test_bytes(self):
        self.assertEqual(collect([POINT, EMPTY_POINT], Kind.MULTI_POINT), POINTS)
        line = collect([LINE], Kind.MULTI_LINE_STRING, Dimension.XYZ)
        self.assertEqual((type(line), line), (bytes, bytes.fromhex("01ed03000001000000") + LINE))
        big = bytes.fromhex("002000000400000d3e00000002") + 2 * BIG_POINT
        self.assertEqual(collect(Column.of([POINT, BIG_POINT]), 4, 0, 0, 2, 3390), big)

    def test_rows(self):
        """The first row that is no member, its fault and what is said of it."""
        for column, row, status, text in (
            (Column.of([POINT, None, b""]), 1, Status.NULL_ROW, "the row is null"),
            (Column(2 * POINT, array.array("q", [0, 21, 7])), 1, Status.BAD_OFFSETS, "before a row ends"),
            (Column.of([POINT[:-1]]), 0, Status.SHORT_POINT, r"at byte 0 \(part 0\): it needs 21 bytes and has 20"),
        ):
            with self.assertRaisesRegex(Refused, f"^row {row}: .*{text}$") as raised:
                collect(column, Kind.MULTI_POINT)
            for error in (raised.exception, pickle.loads(pickle.dumps(raised.exception))):
                self.assertEqual((error.row, error.status, error.which), (row, status, 1))
                self.assertEqual((str(error), error.fault), (str(raised.exception), raised.exception.fault))

    def test_arguments(self):
        column = Column.of([POINT])
        for kind in (0, 1, 2, Kind.POLYGON, 8, -1):
            text = "is not a valid Kind" if kind in (8, -1) else "has no geometries as members"
            self.assertRaisesRegex(ValueError, text, collect, column, kind)
        for arguments in ((4,), (-1,), (0, 2), (0, 1, 4), (0, 1, 2), (0, 1, 0, 7), (0, 1, 2, 2**32)):
            self.assertRaises(ValueError, collect, column, Kind.MULTI_POINT, *arguments)
        self.assertRaisesRegex(TypeError, "made of many rows", collect, POINT, Kind.MULTI_POINT)

    def test_many_rows(self):
        """2**32 rows, of which none is read: their offsets are addresses without memory."""
        flags = mmap.MAP_PRIVATE | mmap.MAP_ANONYMOUS
        with mmap.mmap(-1, 4 * (2**32 + 1), flags=flags, prot=mmap.PROT_READ) as offsets:
            with memoryview(offsets).cast("i") as numbers:
                column = Column(b"", numbers)
                with self.assertRaisesRegex(ValueError, "^there are more rows than a count of four bytes holds$"):
                    collect(column, Kind.MULTI_POINT)
                del column
