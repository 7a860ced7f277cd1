"""The ways out of a column's results, rows and arrays of Arrow, and coordinates from arrays of GeoArrow."""
import array
import ctypes
import gc
import itertools
import struct
import threading
import unittest
from unittest import mock

import porchsorrel_wkb as wkb
from capsules import Again, Arrow, Array, Lists, Schema, address_of, deep, memory_of, pointers, rename
from samples import BIG_POINT, EMPTY_POINT, ISO_POLYGON, POINT, POLYGON, ROWS, geometry, numpy, slices
from porchsorrel_wkb import Column, Dimension, Form, Kind, Order, Status, _results, column_from_coordinates

try:
    import shapely
    import shapely.wkb
except ImportError:
    shapely = None


def structs_of(capsules):
    """The structs of a pair of capsules."""
    schema, held = capsules
    return (Schema.from_address(address_of(id(schema), b"arrow_schema")),
            Array.from_address(address_of(id(held), b"arrow_array")))


def child_of(it, number=0):
    return type(it).from_address(it.children[number])


def numbers_at(address, kind, count):
    return struct.unpack(f"={count}{kind}", ctypes.string_at(address, count * struct.calcsize(kind)) if count else b"")


def items_of(schema, it, are_rows=True):
    """The values of an array, read as Arrow's format says. Only rows may be null (flag 2)."""
    end, form = it.offset + it.length, schema.format.decode()
    assert schema.flags == 2 * are_rows
    if form == "g":
        return list(numbers_at(it.buffers[1], "d", end)[it.offset :])
    bits = ctypes.string_at(it.buffers[0], (end + 7) // 8) if it.buffers[0] else b"\xff" * (end + 1)
    present = [bits[i // 8] >> i % 8 & 1 for i in range(it.offset, end)]
    assert present.count(0) == it.null_count
    if form in ("z", "Z"):
        ends = numbers_at(it.buffers[1], {"z": "i", "Z": "q"}[form], end + 1)
        data = ctypes.string_at(it.buffers[2], ends[-1]) if ends[-1] else b""
        found = [data[a:b] for a, b in zip(ends, ends[1:])]
    elif form == "+s":
        assert schema.n_children == it.n_children
        found = list(zip(*(items_of(child_of(schema, i), child_of(it, i), False) for i in range(it.n_children))))
    else:
        inner = items_of(child_of(schema), child_of(it), False)
        width = int(form[3:]) if form.startswith("+w:") else 0
        code = {"+l": "i", "+L": "q"}.get(form)
        ends = numbers_at(it.buffers[1], code, end + 1) if code else range(0, width * (end + 1), width)
        found = [inner[a:b] for a, b in zip(ends, ends[1:])]
    return [item if is_there else None for item, is_there in zip(found[it.offset :], present)]


def texts_of(schema):
    """The name of an extension in a type's metadata, and what it says; None where there is none."""
    at = ctypes.c_void_p.from_address(ctypes.addressof(schema) + Schema.metadata.offset).value
    (count,), texts, at = numbers_at(at, "i", 1) if at else (0,), [], (at or 0) + 4
    for _ in range(2 * count):
        (size,) = numbers_at(at, "i", 1)
        texts.append(ctypes.string_at(at + 4, size).decode())
        at += 4 + size
    assert texts[::2] in ([], ["ARROW:extension:name", "ARROW:extension:metadata"])
    return tuple(texts[1::2]) or (None, None)


def names_of(schema):
    """The formats and names of a type, and of all inside it."""
    children = [child_of(schema, i) for i in range(schema.n_children)]
    return [(schema.format.decode(), schema.name.decode()), *(it for child in children for it in names_of(child))]


def read(of, asked=None):
    """The values of an array that is handed out, and its type: formats, names and the extension's name."""
    capsules = of.__arrow_c_array__(asked)
    schema, it = structs_of(capsules)
    return items_of(schema, it), names_of(schema), texts_of(schema)[0]


def asked_for(form):
    """A capsule of a schema with this format, as a consumer asks for it."""
    return Arrow(format=form).__arrow_c_array__()[0]


class RowsOfBytes(unittest.TestCase):
    def test_sequence(self):
        rows, expected = Column.of(ROWS).write().rows, [POINT, None, None, ISO_POLYGON, None]
        self.assertEqual((len(rows), list(rows), repr(rows)), (5, expected, "<5 encodings>"))
        bounds = (None, *range(-6, 7))
        for i in range(-5, 5):
            self.assertEqual(rows[i], expected[i])
        for begin, end, step in itertools.product(bounds, bounds, (None, 1, 2, -1, -3)):
            self.assertEqual(rows[begin:end:step], expected[begin:end:step])
        for index in (5, -6):
            self.assertRaises(IndexError, lambda: rows[index])
        self.assertRaises(TypeError, lambda: rows["0"])
        self.assertEqual((rows.index(ISO_POLYGON), None in rows), (3, True))
        self.assertEqual(list(Column.of([]).write().rows), [])

    def test_many(self):
        """More rows than are made at a time."""
        rows = [None if i % 7 == 3 else POINT for i in range(9000)]
        self.assertEqual(list(Column.of(rows).write().rows), rows)
        self.assertEqual(Column.of(rows).write(Order.BIG).rows[4090:4100],
                         [row and BIG_POINT for row in rows[4090:4100]])

    @unittest.skipUnless(shapely and numpy, "shapely or numpy is not here")
    def test_shapely(self):
        loads = getattr(shapely, "from_wkb", lambda rows: [row and shapely.wkb.loads(row) for row in rows])
        found = loads(Column.of([POINT, None, b"", LINE, b"\2"]).write().rows)
        self.assertEqual([it and it.geom_type for it in found], ["Point", None, None, "LineString", None])
        self.assertEqual(found[0].coords[0], (1.0, 2.0))


class Encodings(unittest.TestCase):
    def test_rows(self):
        """Null and rejected rows are null, and the offsets have the size that is asked for."""
        for asked, form in ((None, "Z"), (b"Z", "Z"), (b"z", "z"), (b"u", "Z")):
            for rows, expected in (([POINT, b"", None, POLYGON], [POINT, None, None, ISO_POLYGON]),
                                   ([POINT, POINT], [POINT, POINT]), ([], []), ([None] * 9, [None] * 9)):
                found = read(Column.of(rows).write(), asked and asked_for(asked))
                self.assertEqual(found, (expected, [(form, "")], "geoarrow.wkb"))
        released = Arrow(format=b"z")
        capsule, _ = released.__arrow_c_array__()
        released.release("schema", released.schema)  # with its texts, and none of them is asked for
        self.assertEqual(len(Column.of([POINT]).write().__arrow_c_array__(capsule)), 2)

    def test_forms(self):
        """GeoArrow's type has no SRIDs, so that EWKB is binary alone."""
        for form in Form:
            options = {"form": form, "srid": 7 if form == Form.EWKB_WITH_SRID else None}
            levels = column_from_coordinates(Kind.POINT, array.array("d", [1, 2]), **options)
            self.assertEqual([read(it)[2] for it in (Column.of([POLYGON]).write(**options), levels)],
                             2 * ["geoarrow.wkb" if form == Form.ISO else None])

    def test_wide(self):
        """From so many bytes, or items of any level, on an end doesn't fit 32 bits: here 21 bytes, or 2 items."""
        rows = LINE, part(3, 2 * [bytes(4)]), part(6, 2 * [part(3, [])])
        for most, form, sign in ((22, b"z", b"+l"), (21, b"Z", b"+l"), (2, b"Z", b"+L")):
            with mock.patch.object(_results, "NARROW", most):
                asked = [Column.of([row]).coordinates().__arrow_c_array__() for row in rows]
                asked.append(Column.of([POINT]).write().__arrow_c_array__(asked_for(b"z")))
            self.assertEqual([structs_of(it)[0].format for it in asked], [sign, sign, sign, form])


class Released(unittest.TestCase):
    """What is handed out keeps what it shows, and lets it go once."""

    def test_renamed(self):
        """A consumer gives capsules other names, as DLPack's do."""
        for capsule in Column.of([POINT]).write().__arrow_c_array__():
            rename(capsule, b"used")

    def test_moved(self):
        """A consumer moves structs, or children of theirs, and releases them after the end of their capsules, from any
        thread."""
        for source, depth, expected in ((Column.of([POINT]).write(), 0, [POINT]),
                                        (Column.of([ISO_POLYGON]).coordinates(), 1, [[[1.0, 2.0]]])):
            capsules = source.__arrow_c_array__()
            inner = [child_of(it) if depth else it for it in structs_of(capsules)]
            moved = [type(it).from_buffer_copy(it) for it in inner]
            for it in inner:
                it.release = None
            del capsules, inner, source
            gc.collect()
            others = [Column.of([EMPTY_POINT]).write().__arrow_c_array__() for _ in range(9)]  # in memory that is free
            self.assertEqual((items_of(*moved, not depth), len(others)), (expected, 9))
            for it in moved:
                release = ctypes.CFUNCTYPE(None, ctypes.c_void_p)(it.release)
                thread = threading.Thread(target=release, args=(ctypes.addressof(it),))
                thread.start()
                thread.join()
                self.assertIsNone(it.release)


def part(code, *parts):
    body = b"".join(it if isinstance(it, bytes) else struct.pack("<I", len(it)) + b"".join(it) for it in parts)
    return struct.pack("<BI", 1, code) + body


def pairs(*numbers):
    return [struct.pack("<2d", x, y) for x, y in zip(numbers[::2], numbers[1::2])]


LINE, OTHER = part(2, pairs(1, 2, 3, 4)), part(2, pairs(5, 6))
SQUARE = part(3, [struct.pack("<I", 2) + b"".join(pairs(1, 2, 3, 4)), struct.pack("<I", 0)])
# Of each kind rows, their values in GeoArrow, and its lists.
KINDS = {
    Kind.POINT: ([POINT, POINT], [[1.0, 2.0]] * 2, []),
    Kind.LINE_STRING: ([LINE, part(2, [])], [[[1.0, 2.0], [3.0, 4.0]], []], ["vertices"]),
    Kind.POLYGON: ([SQUARE, part(3, [])], [[[[1.0, 2.0], [3.0, 4.0]], []], []], ["rings", "vertices"]),
    Kind.MULTI_POINT: ([part(4, [POINT, POINT]), part(4, [])], [[[1.0, 2.0]] * 2, []], ["points"]),
    Kind.MULTI_LINE_STRING: ([part(5, [LINE, OTHER]), part(5, [])],
                             [[[[1.0, 2.0], [3.0, 4.0]], [[5.0, 6.0]]], []], ["linestrings", "vertices"]),
    Kind.MULTI_POLYGON: ([part(6, [SQUARE, SQUARE]), part(6, [])],
                         [[[[[1.0, 2.0], [3.0, 4.0]], []]] * 2, []], ["polygons", "rings", "vertices"]),
}


class Coordinates(unittest.TestCase):
    def test_each_kind(self):
        """Of each kind, with null and rejected rows, which are null, or without; and back, by offsets of any size."""
        for (kind, (rows, values, lists)), (asked, sign), has_nulls in itertools.product(
                KINDS.items(), ((None, "+l"), (b"+l", "+l"), (b"+L", "+L"), (b"+w:2", "+l")), (False, True)):
            if has_nulls:
                rows, values = ([None, it[0], bad, *10 * it, None] for it, bad in ((rows, b"\2"), (values, None)))
            names = list(zip([sign] * len(lists) + ["+w:2", "g"], ["", *lists, "xy"]))
            levels, asked = Column.of(rows).coordinates(), asked and asked_for(asked)
            extension = f"geoarrow.{kind.name.lower().replace('_', '')}"
            self.assertEqual(read(levels, asked), (values, names, extension))
            it = column_from_coordinates(kind, Again(levels.__arrow_c_array__(asked)))
            self.assertEqual(list(it.rows), [None if value is None else row for row, value in zip(rows, values)])
            self.assertEqual(list(it.statuses), [Status.NULL_ROW if value is None else 0 for value in values])

    def test_several_kinds(self):
        """Rows of several kinds, or of collections, are lists without a name."""
        for rows in ([POINT, LINE], [part(7, [POINT, LINE])], [SQUARE, part(6, [SQUARE])], []):
            values, names, extension = read(Column.of(rows).coordinates())
            self.assertEqual((extension, names[0], len(values)), (None, ("+l", ""), len(rows)))
        self.assertEqual(read(Column.of([None]).coordinates())[0], [None])


class FromGeoArrow(unittest.TestCase):
    def test_slices(self):
        """Every slice of 17 rows, of which each third is null, with bits in three bytes; of points and of lists."""
        ends = [*itertools.accumulate((i % 4 for i in range(17)), initial=0)]
        words = [*map(float, range(2 * ends[-1]))]
        validity = memory_of(sum(1 << i for i in range(17) if i % 3).to_bytes(3, "little"))
        points = [part(1, *pairs(*words[2 * i : 2 * i + 2])) for i in range(17)]
        lines = [part(2, pairs(*words[2 * a : 2 * b])) for a, b in zip(ends, ends[1:])]
        together, apart = ([words], ["xy"]), ([words[::2], words[1::2]], "xy")
        for kind, levels, form, rows, numbers in (
            (Kind.POINT, [], b"", points, together), (Kind.POINT, [], b"", points, apart),
            (Kind.LINE_STRING, [ends], b"+l", lines, apart), (Kind.LINE_STRING, [ends], b"+L", lines, together),
        ):
            for offset, length in slices(17):
                source = Lists(levels, *numbers, offset=offset, length=length, form=form, null_count=-1)
                source.array.buffers[0] = ctypes.addressof(validity)
                expected = [rows[i] if i % 3 else None for i in range(offset, offset + length)]
                self.assertEqual(list(column_from_coordinates(kind, source).rows), expected, (kind, offset, length))
        it = Lists([(0, 1, 3), (0, 2, 3, 3)], [(1, 2, 3, 4, 5, 6)], offset=1)
        (row,) = column_from_coordinates(Kind.MULTI_LINE_STRING, it).rows
        self.assertEqual(row, part(5, [OTHER, part(2, [])]))
        without = Lists([(0,)], [(1.0, 2.0)], buffers=pointers([None, None]))  # no rows have no offsets
        self.assertEqual(list(column_from_coordinates(Kind.LINE_STRING, without).rows), [])

    def test_slices_inside(self):
        """Coordinates, and their numbers, that begin behind the front of an array."""
        for depth, offset, length in ((1, 1, 2), (2, 2, 4)):
            it = Lists([(0, 2)], [(9.0, 9.0, 1.0, 2.0, 3.0, 4.0)])
            deep(it, 1).array.length = 2
            deep(it, depth).array.offset, deep(it, depth).array.length = offset, length
            self.assertEqual(list(column_from_coordinates(Kind.LINE_STRING, it).rows), [LINE])

    def test_nulls_inside(self):
        """Items inside rows may have validity, where it says that all are there."""
        together, apart = ([(1.0, 2.0, 3.0, 4.0, 5.0, 6.0)],), (2 * [(1.0, 2.0, 3.0)], "xy")
        for bits, depth, words in itertools.product((b"\x3f", b"\xff", b"\x05"), (1, 2, 3), (together, apart)):
            source, validity = Lists([(0, 3), range(4)], *words), memory_of(bits)
            it = deep(source, depth).array
            it.buffers[0], it.null_count = ctypes.addressof(validity), -1
            if bits != b"\x05":
                self.assertEqual(list(column_from_coordinates(Kind.POLYGON, source).statuses), [0])
            else:
                self.assertRaisesRegex(ValueError, "null", column_from_coordinates, Kind.POLYGON, source)

    def test_arguments(self):
        make = lambda: Lists([(0, 2)], [(1.0, 2.0, 3.0, 4.0)])
        for given in ({"ring_offsets": array.array("q", [0])}, {"validity": b"\1"}, {"offset_size": 4},
                      {"validity_offset": 1}):
            with self.assertRaisesRegex(TypeError, "has its own offsets"):
                column_from_coordinates(Kind.LINE_STRING, make(), **given)
        for other in [it for it in Dimension if it != Dimension.XYZ]:
            self.assertRaisesRegex(ValueError, f"coordinates of XYZ, and not <Dimension.{other.name}:",
                                   column_from_coordinates, Kind.POINT, Lists([], [(1.0, 2.0, 3.0)], ["xyz"]),
                                   dimension=other)
        it = column_from_coordinates(Kind.LINE_STRING, make(), dimension=Dimension.XY, form=Form.EWKB_WITH_SRID, srid=7)
        self.assertEqual(wkb.check(it.rows[0]).srid, 7)


class Changed(unittest.TestCase):
    """Results with other arrays in them go out only if what is shown is there."""

    ENCODINGS = Column.of(2 * [POINT]).write()
    LINE = Column.of([geometry(2)]).coordinates()

    def test_refused(self):
        offsets = ([0, 21], [0, 21, 43], [0, 22, 21], [-1, 21, 42], [1, 0, 42], [0, 2**62, 42], [])
        for it in (
            *(self.ENCODINGS._replace(offsets=array.array("q", it)) for it in offsets),
            *(self.ENCODINGS._replace(offsets=array.array(code, [0, 21, 42, 0, 0, 0])) for code in "iB"),
            *(self.LINE._replace(coordinates=array.array(code, [0] * 8)) for code in "fi"),
            self.ENCODINGS._replace(data=bytes(41)), self.ENCODINGS._replace(statuses=bytes(3)),
            self.LINE._replace(coordinates=array.array("d", [])),
        ):
            self.assertRaisesRegex(ValueError, "don't fit together", it.__arrow_c_array__)
        kept = self.ENCODINGS._replace(offsets=array.array("q", [0, 21, 42, 42]))
        self.assertEqual(list(Column.from_arrow(kept).check()), [0, 0])

    def test_pieces(self):
        """What isn't in one piece goes out as its copy."""
        every_second = self.ENCODINGS._replace(offsets=memoryview(array.array("q", [0, 9, 21, 9, 42]))[::2])
        self.assertEqual(list(Column.from_arrow(every_second).write().rows), 2 * [POINT])
        if numpy:
            turned = self.LINE._replace(coordinates=numpy.asfortranarray(numpy.array([[1.0, 2.0]])))
            self.assertEqual(list(column_from_coordinates(Kind.LINE_STRING, turned).rows), [geometry(2)])

    @unittest.skipUnless(numpy, "numpy is not here")
    def test_less(self):
        """Without its z a coordinate has two numbers, and goes out as such; with other widths there is none."""
        levels = Column.of([geometry(2, 1)]).coordinates(Dimension.XYZ)
        self.assertEqual(levels.coordinates.tolist(), [[1.0, 2.0, 3.0]])
        flat = levels._replace(coordinates=levels.coordinates[:, :2].copy())
        self.assertEqual(list(column_from_coordinates(Kind.LINE_STRING, flat).rows), [geometry(2)])
        wide = levels._replace(coordinates=numpy.zeros((1, 5)))
        self.assertRaisesRegex(ValueError, "5 numbers", wide.__arrow_c_array__)

    def test_written_later(self):
        """An array that has gone out doesn't change."""
        written, levels = Column.of(2 * [POINT]).write(), Column.of([geometry(2)]).coordinates()
        capsules, lines = written.__arrow_c_array__(), levels.__arrow_c_array__()
        written.offsets[1], written.data[0], written.statuses[0] = 2**40, 9, 16
        levels.ring_offsets[1], levels.coordinates[0] = 2**40, 7.0
        self.assertEqual(items_of(*structs_of(capsules)), 2 * [POINT])
        self.assertEqual(items_of(*structs_of(lines)), [[[1.0, 2.0]]])
