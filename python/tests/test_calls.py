"""The calls for one geometry. Any buffer is taken, and none is exported after a call."""
import array
import ctypes
import gc
import itertools
import pickle
import struct
import unittest

import porchsorrel_wkb as wkb
from samples import BIG_POINT, EMPTY_POINT, LINE, POINT, POLYGON, calls, numpy, rows_of
from porchsorrel_wkb import Column, Dimension, Form, Kind, Order, Part, Refused, Status


class Calls(unittest.TestCase):
    def test_parts(self):
        table = wkb.parts(POLYGON)
        whole, ring = table
        self.assertEqual(whole, Part(0, 33, 13, 1, 2, 4326, Kind.POLYGON, Dimension.XY, Order.BIG))
        self.assertEqual(ring, Part(13, 33, 17, 1, 2, None, Kind.RING, Dimension.XY, Order.BIG))
        self.assertEqual((len(table), table[1], table[-2], table[1:]), (2, ring, whole, [ring]))
        self.assertEqual(repr(table).splitlines(), ["<table of 2 Part>", f"  {table[0]}", f"  {table[1]}"])
        for index in (2, -3):
            self.assertRaises(IndexError, lambda: table[index])

    def test_coordinates(self):
        for data in (POINT, BIG_POINT, LINE):  # what the check has found of one is enough
            lists = [repr(wkb.coordinates(data, it)) for it in (wkb.check(data), wkb.parts(data)[0])]
            self.assertEqual(*lists)
        self.assertEqual(lists[0], "[(1.0, 2.0, 3.0), (5.0, nan, -7.0)]")
        whole, _ = wkb.parts(POLYGON)
        for call in (wkb.coordinates, wkb.view) if numpy else (wkb.coordinates,):
            with self.assertRaisesRegex(ValueError, "a POLYGON has no coordinates of its own, but 1 rings or members"):
                call(POLYGON, whole)

    def test_count(self):
        """A ring is found where it is, whatever byte of its count is not zero."""
        count = 2**16 + 2**8 + 1
        rings = [struct.pack(order + "BIII", order == "<", 3, 1, count) + bytes(16 * count) for order in "<>"]
        for data in rings:
            self.assertEqual(len(wkb.coordinates(data, wkb.parts(data)[1])), count)

    @unittest.skipUnless(numpy, "numpy is not here")
    def test_numpy(self):
        data = bytearray(POLYGON)
        view = wkb.view(data, wkb.parts(data)[1])
        self.assertEqual((view.tolist(), view.dtype), ([[1.0, 2.0]], numpy.dtype(">f8")))
        data[17:25] = struct.pack(">d", 7)
        self.assertEqual(view[0, 0], 7)
        self.assertEqual(wkb.view(LINE, wkb.parts(LINE)[0]).shape, (2, 3))

    @unittest.skipIf(numpy, "numpy is here")
    def test_no_numpy(self):
        self.assertRaises(ImportError, wkb.view, POINT, wkb.parts(POINT)[0])

    def test_write(self):
        """An SRID without a form is one of EWKB."""
        self.assertEqual(wkb.write(POLYGON + b"....", Order.BIG, Form.EWKB_OWN_SRID), POLYGON)
        for srid, word in ((2**32 - 1, b"\xff\xff\xff\xff"), (2**31, b"\0\0\0\x80")):
            row = b"\1\1\0\0\x20" + word + POINT[5:]
            self.assertEqual([wkb.write(POINT, form=Form.EWKB_WITH_SRID, srid=srid), wkb.write(POINT, srid=srid),
                              wkb.column_from_coordinates(1, array.array("d", [1, 2]), srid=srid).rows[0],
                              wkb.Column.of([POINT]).write(srid=srid).rows[0]], 4 * [row])
            self.assertEqual((wkb.check(row).srid, wkb.parts(row)[0].srid), (srid, srid))

    def test_write_large(self):
        """Inputs that are long, and one that is longer than its geometry."""
        for count in (4095, 4096, 4097, 100_000):
            words = struct.pack(f"<{2 * count}d", *range(2 * count))
            line = struct.pack("<BII", 1, 2, count) + words
            with_srid = struct.pack("<BIII", 1, 0x20000002, 4326, count) + words
            self.assertEqual(wkb.write(line, form=Form.EWKB_WITH_SRID, srid=4326), with_srid)
            self.assertEqual(wkb.write(with_srid), line)
        self.assertEqual(wkb.write(POINT + bytes(200_000)), POINT)

    def test_options(self):
        for options in ((2,), (2**32,), (-1,), (0, 4), (0, 2, -1), (0, 2, 2**32)):
            self.assertRaises(ValueError, wkb.write, POINT, *options)
            self.assertRaises(ValueError, wkb.Column(*rows_of(POINT)).write, *options)
        for srid in (4326.0, 0.0, ""):
            self.assertRaises(TypeError, wkb.write, POINT, 0, 2, srid)
        self.assertRaisesRegex(ValueError, "from 0 to 4294967295", wkb.write, POINT, srid=-1)
        for form in Form:
            srid = None if form == Form.EWKB_WITH_SRID else 4326
            for call in (wkb.Column(*rows_of(POINT)).write, lambda *it: wkb.write(POINT, *it)):
                self.assertRaisesRegex(ValueError, "an SRID is written in", call, Order.LITTLE, form, srid)

    def test_same(self):
        self.assertIs(wkb.same(POINT, BIG_POINT), True)
        self.assertIs(wkb.same(POINT, EMPTY_POINT), False)
        for first, second, which in ((b"\2", b"", 1), (POINT, b"POINT", 2)):
            with self.assertRaises(Refused) as raised:
                wkb.same(first, second)
            self.assertEqual(raised.exception.which, which)
        text = wkb.status_text(Status.INVALID_BYTE_ORDER)
        self.assertEqual(str(raised.exception), f"the second input: {text}, at byte 0 (part 0); this is text")

    def test_refused(self):
        """The status, and what is said behind its text; what is no WKB from its first byte on is named."""
        other, code, where = Status.INVALID_BYTE_ORDER, Status.CODE_OUT_OF_RANGE, ", at byte 0 (part 0)"
        for data, status, end in (
            (POLYGON[:-1], Status.SHORT_LINEAR_RING, ", at byte 13 (part 1): it needs 20 bytes and has 19"),
            (b"\1\21\0\0\0", code, f" 17, a triangle, which this library does not read{where}"),
            (b"\1\22\0\0\0", code, f" 18{where}"), (b"\2", other, where), (b"POINT", other, f"{where}; this is text"),
            (POINT.hex().encode(), other, f"{where}; this is hexadecimal text"),
            (b"GP\0\1" + bytes(4) + POINT, other, f"{where}; this is the blob of a GeoPackage"),
        ):
            with self.assertRaises(Refused) as raised:
                wkb.check(data)
            it, text = raised.exception, wkb.status_text(status)
            self.assertEqual((it.status, it.fault.status, it.which, it.text), (status, status, 1, text))
            self.assertEqual([str(it), str(pickle.loads(pickle.dumps(it)))], 2 * [text + end])

    def test_statuses(self):
        """A status that a later version has is of a class too, and has a name."""
        self.assertEqual([it for it in Status if wkb.is_refusal(it)], list(Status)[8:])
        self.assertEqual([it for it in Status if wkb.is_early_end(it)], [32, 48, 49, 50, 51])
        self.assertTrue(wkb.is_early_end(Status(255)) and not wkb.is_early_end(Status(47)))
        later = Status(numpy.uint8(52) if numpy else 52)
        self.assertEqual((later.name, later, wkb.is_refusal(later)), ("STATUS_52", 52, True))
        self.assertEqual((Status(19).name, pickle.loads(pickle.dumps(later))), ("STATUS_19", later))
        for number, call in itertools.product((-1, 256, 2**32, "ok", None, 1.5), (Status, wkb.status_text)):
            self.assertRaises((TypeError, ValueError), call, number)
        fault = wkb.Fault(0, 0, 9, 5, 0, Status(52))
        self.assertTrue(str(Refused(fault, 1, "later")).endswith("it needs 9 bytes and has 5"))

    def test_geometries(self):
        """An object with an attribute wkb, as shapely's geometries, is told where its bytes are; it is not asked. Text
        is told what makes bytes of it."""
        class Geometry:
            @property
            def wkb(self):
                raise AssertionError

        calls = wkb.check, wkb.bounds, wkb.parts, wkb.write, wkb.well_formed, lambda it: wkb.same(POINT, it)
        for call in (*calls, lambda it: wkb.Column.of([it])):
            self.assertRaisesRegex(TypeError, "attribute wkb has the bytes", call, Geometry())
            for wrong in (1, [1.0, 2.0], POINT.hex()):
                self.assertRaisesRegex(TypeError, "bytes.fromhex .*numpy.asarray or array.array", call, wrong)


class Parts(unittest.TestCase):
    """Parts and texts that are wrong: nothing is read that isn't there."""

    def test_records(self):
        """Numbers that nothing has, as a table that was pickled may have them, and places that aren't there."""
        for record, size in ((wkb.Found, 64), (wkb.Part, 64), (wkb.Fault, 40)):
            self.assertRaises((ValueError, IndexError), lambda: wkb.Table(record, b"\xff" * size)[0])
            self.assertRaises(IndexError, lambda: wkb.Table(record, bytes(2 * size - 1))[1])

    def no_coordinates(self, data, part):
        for call in (wkb.coordinates, wkb.view) if numpy else (wkb.coordinates,):
            with self.assertRaisesRegex(ValueError, "have no such|has no coordinates", msg=part):
                call(data, part)

    def test_parts(self):
        """A part may have other values, and the bytes have those of one."""
        ring = wkb.parts(POLYGON)[1]
        for name, value in itertools.product(("begin", "offset", "count"), (-1, 0, 5, 2**31, 2**32, 2**63 - 1)):
            if value != getattr(ring, name):
                self.no_coordinates(POLYGON, ring._replace(**{name: value}))
        for size in range(len(POLYGON)):
            self.no_coordinates(POLYGON[:size], ring)
        for data in (POINT, LINE, wkb.write(LINE, srid=7)):
            (part,) = wkb.parts(data)
            for name, others in (("kind", Kind), ("dimension", wkb.Dimension), ("order", wkb.Order),
                                 ("srid", (None, 0, 7)), ("count", (0, 1, 2, 3)), ("offset", (0, 5, 9, 13))):
                for other in others:
                    if other == getattr(part, name):
                        self.assertEqual(len(wkb.coordinates(data, part)), part.count)
                    else:
                        self.no_coordinates(data, part._replace(**{name: other}))
        for other in (None, 1, POLYGON, wkb.Range(1.0, 2.0, 3)):
            self.assertRaisesRegex(TypeError, "a Part of parts", wkb.coordinates, POLYGON, other)


class Buffers(unittest.TestCase):
    def test_nothing_is_exported(self):
        gc.disable()
        self.addCleanup(gc.enable)
        of = lambda data: (
            *calls(data, Column(data, array.array("q", [0, len(data)])), array.array("d", [1, 2])),
            lambda: wkb.coordinates(data, wkb.parts(data)[0]), lambda: numpy and wkb.view(data, wkb.parts(POLYGON)[0]),
            lambda: Column(data, b"\0" * 7, offset_size=4),
            lambda: Column(b"", bytes(16), data, first=10**6, offset_size=8),
            lambda: Column(data, data[:16], data, offset_size=8).check(),
            lambda: wkb.column_from_coordinates(Kind.LINE_STRING, array.array("d"), data, offset_size=8),
        )
        for start, number in itertools.product((POINT, POINT[:-1], POINT + b"..."), range(len(of(POINT)))):
            data, kept = bytearray(start), None
            try:
                result = of(data)[number]()
            except ValueError as error:
                kept = error  # and with it the frames of the call
            data.append(1)
            del kept
        del result

    def test_column_keeps_no_export(self):
        data, offsets, validity = bytearray(POINT), array.array("q", [0, 21]), bytearray(b"\1")
        column = Column(data, offsets, validity)
        self.assertEqual(list(column.check()), [0])
        data += POINT
        del offsets[1:]
        self.assertRaisesRegex(ValueError, "1 offsets are left, too few for 1 rows", column.check)
        offsets.append(21)
        validity.clear()
        self.assertRaises(ValueError, column.check)

    def test_any_buffer(self):
        twice = bytes(byte for byte in POINT for _ in range(2))
        for data in (
            bytearray(POINT), memoryview(POINT), memoryview(b".." + POINT)[2:], memoryview(twice)[::2],
            array.array("B", POINT), (ctypes.c_char * 21).from_buffer_copy(POINT),
        ):
            self.assertEqual(wkb.write(data, Order.BIG), BIG_POINT)
        self.assertEqual(wkb.check(memoryview(BIG_POINT + b"...").cast("i")).size, 21)
        for none in (b"", bytearray(), memoryview(b""), array.array("d"), (ctypes.c_char * 5 * 0)()):
            with self.assertRaises(Refused) as raised:
                wkb.check(none)
            self.assertEqual(raised.exception.status, Status.SHORT_HEADER)
            self.assertEqual(list(Column(none, bytes(8), offset_size=4).check()), [Status.SHORT_HEADER])
            self.assertRaisesRegex(ValueError, "other bytes", wkb.coordinates, none, wkb.check(POINT))
