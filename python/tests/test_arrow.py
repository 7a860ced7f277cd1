"""Columns of Arrow's arrays and streams: those of capsules.py, right, odd, and such as can't be right; and OGR's where
its bindings are."""
import contextlib
import gc
import itertools
import pickle
import struct
import unittest

from capsules import (
    FILL, NOWHERE, SHORT, Again, Arrow, Lists, Records, Stream, Views, deep, new_capsule, pointer, pointers,
)
from samples import BIG_POINT, ISO_POLYGON, POINT, POLYGON, ROWS, STATUSES, slices, statuses
from porchsorrel_wkb import Column, Kind, Status, column_from_coordinates

try:
    from osgeo import gdal, ogr
except ImportError:
    gdal = ogr = None

LOW, HIGH, HUGE = -(2**63), 2**63 - 1, 2**62
BAD = LOW, -1, HUGE, HIGH
# The errors that calls document, and what they say: structs that can't be right, and an array of another type.
WRONG, OTHER = (ValueError, ""), (TypeError, "")
GONE = ValueError, "is released already"


def sizes(*numbers):
    """Metadata of keys and values that say that they have so many bytes."""
    return struct.pack("=i", len(numbers) // 2) + b"".join(struct.pack("=i", it) + 20 * b"1" for it in numbers)


def view(*numbers):
    """A view of the first row: length, the first bytes, buffer and offset."""
    return struct.pack("=4i", *numbers)


# A field of a struct, or of one of its lists, and values of which each makes any array wrong.
OF_ANY = [
    *((f"array.{name}", (*BAD, more), WRONG)
      for name, more in (("n_buffers", 0), ("length", 2**61), ("offset", 2**61), ("n_children", 9))),
    ("array.null_count", (LOW, -2, len(ROWS) + 2, HIGH), WRONG),
    ("array.buffers", (None,), WRONG),
    ("array.dictionary", (NOWHERE,), WRONG),
    ("schema.n_children", (*BAD, 9), WRONG),
    ("schema.release", (None,), WRONG),
]
# Of any array that isn't in lists; the last rows are right, and have the statuses that follow.
OF_TOP = OF_ANY + [
    ("schema.format", (None,), WRONG),
    ("array.private_data", (NOWHERE,), STATUSES),
    ("schema.private_data", (NOWHERE,), STATUSES),
    ("schema.flags", (LOW, -1), STATUSES),
    ("schema.metadata", (bytes(4), b"\xff" * 4, *(sizes(*it) for it in ((20, -1), (-1, 20), (20, 2**24 + 1),
                                                                       (2**31 - 1, 20)))), STATUSES),
]
OF_BINARY = OF_TOP + [
    ("array.n_buffers", (2, 2**31 + 3), (ValueError, "can't have .* buffers")),
    ("array.offset", (-1,), (ValueError, "rows from row -1")),
    ("array.buffers.1", (None,), WRONG),
    ("array.buffers.2", (None,), WRONG),
    ("schema.dictionary", (NOWHERE,), (TypeError, "'dictionary'")),
    ("schema.format", (b"", b"\xff\xfe", b"u", b"vu", b"zz", b"Z ", b"w:21", b"+l", 10**5 * b"z"),
     (TypeError, "format '.*' is not binary")),
    ("schema.format", (b"+s",), (TypeError, "'[+]s' is not binary .*; name= picks")),
    ("array.null_count", (0, 1, len(ROWS)), STATUSES),
]
OF_OFFSETS = OF_BINARY + [("array.n_buffers", (4, 5), WRONG)]
OF_VIEWS = OF_BINARY + [
    ("array.n_buffers", (3,), WRONG),
    ("array.buffers.3", (None,), WRONG),
    ("schema.format", (b"z", b"Z"), WRONG),
    ("memory.1", [view(len(POINT), 0, *it) for it in ((1, 0), (-1, 0), (2**31 - 1, 0), (0, 34), (0, -1),
                                                      (0, -(2**31)))], WRONG),
    ("memory.1", [view(it, 0, 0, 0) for it in (len(POINT + POLYGON) + 1, 2**31 - 1)], WRONG),
    ("memory.1", [view(it, 0, 0, 0) for it in (0, -1, LOW >> 32)], [Status.SHORT_HEADER, *STATUSES[1:]]),
    ("memory.3", [struct.pack("=q", it) for it in (LOW, -1, 0, len(POINT) - 1, HIGH)], WRONG),
]
OF_RECORDS = OF_TOP + [
    ("array.length", (len(ROWS) + 1,), WRONG),
    ("array.offset", (1,), WRONG),
    ("array.null_count", (1,), WRONG),
    *((f"{of}.n_children", (0, 3), WRONG) for of in ("array", "schema")),
    *((f"{of}.children{item}", (None,), WRONG) for of in ("array", "schema") for item in ("", ".1")),
    ("schema.format", (b"", b"z", b"+l", b"+S", b"\xff"), WRONG),
    ("schema.dictionary", (NOWHERE,), WRONG),
    ("schema.children.0", (None,), WRONG),
    ("children.1.schema.name", (None, b"", b"shap", b"shape\xff"), WRONG),
    *((f"children.1.{of}.release", (None,), WRONG) for of in ("array", "schema")),
    ("array.children.0", (None,), STATUSES),  # of a column that nobody asks for
]
OF_LISTS = OF_ANY + [
    *((f"{of}.{field}", values, WRONG) for of in ("array", "schema") for field, values in (
        ("n_children", (0, 2)), ("children", (None,)), ("children.0", (None,)), ("release", (None,)))),
    ("schema.dictionary", (NOWHERE,), WRONG),
    ("array.n_buffers", (3,), WRONG),
]
OF_OUTER = OF_LISTS + [
    ("array.n_buffers", (1,), WRONG),
    ("array.null_count", (1,), WRONG),
    ("array.buffers.1", (None,), WRONG),
    ("schema.format", (None, b"", b"+", b"+s", b"+w", b"z", b"+l "), OTHER),
]
OF_INNER = OF_LISTS + [
    ("array.length", (2,), WRONG), ("schema.format", (b"+w:0", b"+w:1", b"+w:5", b"+w:-2", b"+w:", b"+l"), OTHER),
]
OF_APART = [it for it in OF_INNER if it[0] != "schema.n_children"] + [
    ("schema.n_children", (2,), WRONG), ("schema.n_children", (*BAD, 0, 1, 5), OTHER),
]
OF_NUMBERS = OF_ANY + [
    ("array.n_buffers", (1, 3), WRONG),
    ("array.length", (0, 5), WRONG),
    ("array.buffers.1", (None,), WRONG),
    ("schema.format", (b"", b"f", b"G", b"z", b"+l", b"+w:2"), OTHER),
]


def records(source):
    """Records with a column that nobody asks for, and with this one."""
    source.schema.name = b"shape"
    return Records(Arrow(format=None, name=None, n_buffers=HIGH, release=None), source)


def lists():
    return Lists([(0, 1, 3)], [(1.0, 2.0, 3.0, 4.0, 5.0, 6.0)])


def array(source):
    return [Column.from_arrow(source, "shape" if source.children else None)]


def stream(source):
    return Column.chunks_from_arrow(Stream(source, [source]), "shape" if source.children else None)


def coordinates(source, kind=Kind.LINE_STRING):
    return [Column.of(column_from_coordinates(kind, source).rows)]


# What is made, how deep the struct is in it, the rows for it, what is made of it, and the call that takes it.
SOURCES = [
    *((make, 0, rows, to, take) for to in (lambda it: it, records) for take in (array, stream)
      for make, rows in ((Arrow, OF_OFFSETS), (lambda: Arrow(b"Z"), OF_OFFSETS), (lambda: Views(ROWS, 1), OF_VIEWS))),
    *((lambda: records(Arrow()), 0, OF_RECORDS, lambda it: it, take) for take in (array, stream)),
    *((lists, depth, rows, lambda it: it, coordinates) for depth, rows in enumerate((OF_OUTER, OF_INNER, OF_NUMBERS))),
    (lambda: Lists([(0, 1, 3)], 3 * [(1.0, 2.0, 3.0)], "xyz"), 1, OF_APART, lambda it: it, coordinates),
]


def change(it, path, value):
    """Give a field of a struct, or an item of a list, another value."""
    *steps, last = path.split(".")
    for step in steps:
        it = it[int(step)] if step.isdigit() else getattr(it, step)
    if not last.isdigit():
        setattr(it, last, value)
    elif path.startswith("memory"):
        it[int(last)][: len(value)] = value
    else:
        it[int(last)] = value


def changed(make, depth, to, take, *changes):
    """The columns of an array in which some fields are changed."""
    it = make()
    for path, value in changes:
        change(deep(it, depth), path, value)
    return take(to(it))


def cases():
    """What each case is, what becomes of it, and a call that returns columns."""
    for number, (make, depth, rows, to, take) in enumerate(SOURCES):
        yield (number, "as it is"), [0, 0] if take is coordinates else STATUSES, lambda: changed(make, 0, to, take)
        for path, values, expected in rows:
            for value in values:
                yield (number, path, value), expected, lambda: changed(make, depth, to, take, (path, value))
    for make, some in (
        (Arrow, (("array.offset", HUGE), ("array.length", HUGE))),
        (Arrow, (("array.offset", -1), ("array.length", HIGH))),
        (Arrow, (("array.buffers.0", None), ("array.null_count", 1))),
        (Arrow, (("schema.n_children", 1), ("array.n_children", 1), ("array.children", pointers([NOWHERE])))),
        (lambda: records(Arrow()), (("array.offset", HUGE), ("children.1.array.offset", HUGE))),
        (lambda: records(Arrow()), (("schema.n_children", 3), ("children.1.schema.name", None))),
        (lambda: records(Arrow()), (("schema.n_children", 2**31), ("array.n_children", 2**31))),
    ):
        yield some, WRONG, lambda: changed(make, 0, lambda it: it, array, *some)
    for to, take, expected in ((lambda it: it, array, GONE), (records, array, GONE), (lambda it: it, stream, [])):
        yield "released already", expected, lambda: changed(Arrow, 0, to, take, ("array.release", None))
    words, is_stream = [(1.0, 2.0, 3.0, 4.0)], type("Chunked", (), {"__arrow_c_stream__": None})()
    for error, text, take, source, *more in (
        (TypeError, "'[+]w:2' is not a list", coordinates, Lists([], words)),
        (TypeError, "'[+]l' has no coordinates", coordinates, Lists([(0, 1)], words), Kind.POINT),
        (TypeError, "'z' is not a list", coordinates, Arrow()),
        (TypeError, "'Z' has no coordinates", coordinates, Arrow(b"Z"), Kind.POINT),
        (TypeError, "coordinates of 'yx'", coordinates, Lists([], [(1.0,), (2.0,)], "yx"), Kind.POINT),
        (ValueError, "lists from item 0 to -1", coordinates, Lists([(0, -1)], words)),
        (ValueError, "lists from item -1 to 1", coordinates, Lists([(-1, 1)], words)),
        (ValueError, "lists from item 2 to 1", coordinates, Lists([(2, 1)], words)),
        (ValueError, "fewer items", coordinates, Lists([(0, 3)], words)),
        (ValueError, r"no column 'x', but \['', 'shape'\]", Column.from_arrow, records(Arrow()), "x"),
        (ValueError, r"no column 'x', but \[\]", Column.from_arrow, Arrow(), "x"),
        (ValueError, r"no column 1, but \['', 'shape'\]", Column.from_arrow, records(Arrow()), 1),
        (TypeError, "list has no method __arrow_c_array__$", Column.from_arrow, ROWS),
        (TypeError, "list has no method __arrow_c_stream__$", Column.chunks_from_arrow, ROWS),
        (TypeError, "from_arrow takes", Column.chunks_from_arrow, Arrow()),
        (TypeError, "chunks_from_arrow takes", Column.from_arrow, is_stream),
        # The type of a stream is looked at before an array is asked for.
        (TypeError, "binary", Column.chunks_from_arrow, Stream(Arrow(b"u"), [])),
    ):
        yield text, (error, text), lambda: take(source, *more)
    yield from stream_cases()
    yield from second_cases()


def stream_cases():
    def of(fault=None, **changes):
        return lambda: list(Column.chunks_from_arrow(Stream(Arrow(), [Arrow()], fault, **changes)))

    for name in ("get_schema", "get_next", "release"):
        yield name, WRONG, of(**{name: None})
    yield "no get_last_error", STATUSES, of(get_last_error=None)
    yield "a fault without get_last_error", (OSError, "5.*the Arrow stream failed"), of(b"text", get_last_error=None)
    for text, said in ((b"\0", ""), (b"?", "5.*the Arrow stream failed"), (b"\xff\xfe", ""), (10**5 * b"it", "5.*it$")):
        yield text[:9], (OSError, said), of(text)
    for code in (-(2**31), -1, 0, 1, 2**31 - 1):
        returns = FILL(lambda *_: code)
        for name, of_none in (("get_schema", WRONG), ("get_next", [])):
            yield (name, code), (OSError, "") if code else of_none, of(**{name: pointer(returns)})
    schema, it = both = Arrow().__arrow_c_array__()
    for wrong in (None, 5, "text", (), (schema,), (schema, schema), (it, schema), (None, None), 2 * both):
        yield wrong, ((ValueError, TypeError), ""), lambda: [Column.from_arrow(Again(wrong))]
    for wrong in (None, 5, "text", schema, it, both):
        yield wrong, WRONG, lambda: list(Column.chunks_from_arrow(Again(wrong)))


def second_cases():
    """Capsules that are taken twice, and structs that are released before they are taken, whose texts are gone."""
    for source, take in (
        (Arrow(), array), (Records(Arrow(name=b"shape")), array), (Column.of([POINT]).write(), array),
        (Lists([], [(1.0, 2.0)]), lambda it: coordinates(it, Kind.POINT)),
        (Column.of([POINT]).coordinates(), lambda it: coordinates(it, Kind.POINT)),
    ):
        again = Again(source.__arrow_c_array__())
        again.children = getattr(source, "children", ())
        take(again)
        yield "twice", GONE, lambda: take(again)
    column = Arrow(name=b"shape")
    source = Records(column)
    column.release("schema", column.schema)
    yield "a child", GONE, lambda: array(source)


class Wrong(unittest.TestCase):
    def test_all(self):
        """An error is one that calls document, and what is taken has its statuses."""
        count = 0
        for count, (name, expected, call) in enumerate(cases()):
            is_right = isinstance(expected, list)
            with self.subTest(str(name)[:200]):
                with contextlib.nullcontext() if is_right else self.assertRaisesRegex(*expected):
                    self.assertEqual([int(it) for column in call() for it in column.write().statuses], expected)
        self.assertGreater(count, 1000)


class FromArrow(unittest.TestCase):
    def test_slices(self):
        """Every slice of 17 rows, whose bits are in three bytes, some of them in views or in one of three buffers."""
        rows = [None if i % 3 == 1 else b"\2" if i % 5 == 2 else POINT for i in range(17)]
        rows[9:13] = b"", bytes(SHORT), bytes(SHORT + 1), ISO_POLYGON
        whole = Column.of(rows)
        for make in (lambda *it: Arrow(b"z", rows, *it), lambda *it: Arrow(b"Z", rows, *it),
                     lambda *it: Views(rows, 3, *it)):
            for offset, length in slices(17):
                source = make(offset, length)
                column = Column.from_arrow(source)
                again = pickle.loads(pickle.dumps(column))
                self.assertEqual([column.write(), again.write()], 2 * [whole[offset : offset + length].write()])
                self.assertEqual(source.released[:1], ["schema"])
        # What is pickled is the bytes, the offsets and the bits of its own rows.
        self.assertLess(len(pickle.dumps(Column.from_arrow(Arrow(b"Z", 500 * [POINT, None], 900, 10)))), 1000)
        source = Views(rows[:8], 3)
        self.assertEqual(statuses(Column.from_arrow(source)), statuses(whole[:8]))
        self.assertEqual(source.released, ["schema", "array"])
        self.assertEqual(statuses(Column.from_arrow(Views([b"\2", None], 0))), [STATUSES[4], Status.NULL_ROW])
        self.assertEqual(statuses(Column.from_arrow(Arrow(rows=[None, b""]))), STATUSES[1:3])
        none = Arrow(rows=[])
        none.array.buffers[1] = None  # no rows have no offsets
        self.assertEqual(len(Column.from_arrow(none).write().offsets), 1)

    def test_records(self):
        """Every slice of 16 records, whose bits are two bytes and no more, is taken unless a record in it is null."""
        rows = 2 * [BIG_POINT, *ROWS, b"", POINT]
        shape = 60 * "\u00e9"  # a name of 120 bytes
        whole = {shape: statuses(Column.of(rows)), "other": 16 * [0]}
        asked = (None, shape), (None, "other"), (0, shape), (7, shape), (8, shape), (15, shape)
        for (null, name), (offset, length) in itertools.product(asked, slices(16)):
            bits = None if null is None else (2**16 - 1 - 2**null).to_bytes(2, "little")
            columns = Arrow(b"Z", name=b"other", rows=17 * [POINT]), Arrow(name=shape.encode(), rows=rows)
            source = Records(*columns, offset=offset, length=length, validity=bits)
            if null is not None and offset <= null < offset + length:
                self.assertRaisesRegex(ValueError, "null as a whole", Column.from_arrow, source, name)
            else:
                self.assertEqual(statuses(Column.from_arrow(source, name)), whole[name][offset : offset + length])

    def test_lifetime(self):
        """The memory lives as long as a column over it, and not longer. The schema goes at once."""
        source = Arrow()
        first, second = Column.from_arrow(source).split(2)
        self.assertIs(first._data, second._data)
        again = pickle.loads(pickle.dumps(second))
        del first
        gc.collect()
        self.assertEqual((statuses(second), source.released), (STATUSES[2:], ["schema"]))
        del second
        gc.collect()
        self.assertEqual((source.released, statuses(again)), (["schema", "array"], STATUSES[2:]))

    def test_hostile_offsets(self):
        """Offsets that fall or are negative. No byte past the last one is read, and what is pickled has these rows."""
        for ends in itertools.product((-(2**31), -1, 0, 7, 21, 42, 2**31 - 1), repeat=3):
            source = Arrow(rows=[BIG_POINT, POINT, POINT], offset=1, length=2)
            source.memory[1][4:] = struct.pack("=3i", *ends[:2], min(ends[2], 63))
            whole = Column.from_arrow(source)
            for column in (whole, whole[:1], whole[1:]):
                self.assertEqual(statuses(pickle.loads(pickle.dumps(column))), statuses(column), ends)


class FromChunks(unittest.TestCase):
    def test_chunks(self):
        """Each chunk lives as long as its column, and the stream as long as chunks are asked for."""
        for make, name in ((Arrow, None), (lambda: records(Arrow()), "shape")):
            sources, schema = [make() for _ in range(3)], make()
            stream = Stream(schema, sources)
            chunks = Column.chunks_from_arrow(stream, name)
            self.assertEqual(schema.released, ["schema"])
            first, second = next(chunks), next(chunks)
            self.assertEqual([statuses(first), statuses(second)], [STATUSES] * 2)
            del first, second
            gc.collect()
            self.assertEqual([it.released for it in sources], [["array"], ["array"], []])
            (third,) = chunks
            del chunks
            gc.collect()
            self.assertEqual((stream.released, sources[2].released, statuses(third)), (1, [], STATUSES))

    def test_ends(self):
        """A stream with an array of no rows, one that is left; a wrong array in one, and alone."""
        (column,) = Column.chunks_from_arrow(Stream(Arrow(), [Arrow(rows=[])]))
        stream, wrong, alone = Stream(Arrow(), [Arrow(), Arrow()]), Arrow(n_buffers=2), Arrow(n_buffers=2)
        self.assertEqual((len(column), statuses(next(Column.chunks_from_arrow(stream)))), (0, STATUSES))
        self.assertRaises(ValueError, next, Column.chunks_from_arrow(Stream(wrong, [wrong])))
        self.assertRaises(ValueError, Column.from_arrow, alone)
        gc.collect()
        self.assertEqual((stream.released, sorted(alone.released)), (1, ["array", "schema"]))
        self.assertEqual(wrong.released, ["schema", "array"])


class Ogr:
    """OGR's stream of a layer, with the capsule protocol. Its structs live by OGR's own objects."""

    def __init__(self, layer, size):
        self.kept = layer.GetArrowStream([f"MAX_FEATURES_IN_BATCH={size}", "INCLUDE_FID=NO"])

    def __arrow_c_stream__(self, requested_schema=None):
        return new_capsule(int(self.kept.this), b"arrow_array_stream", None)


@unittest.skipUnless(ogr and hasattr(ogr.Layer, "GetArrowStream"), "OGR's bindings, of GDAL 3.6 or later, are not here")
class FromOgr(unittest.TestCase):
    """Arrays that OGR makes of a layer's geometries: what is read of them is what OGR says of them."""

    def test_layer(self):
        ogr.UseExceptions()
        held = ogr.GetDriverByName("Memory").CreateDataSource("shapes")
        layer = held.CreateLayer("shapes", geom_type=ogr.wkbUnknown)
        layer.CreateField(ogr.FieldDefn("name", ogr.OFTString))
        texts = "POINT (1 2)", None, "LINESTRING ZM (1 2 3 4,5 6 7 8)", "GEOMETRYCOLLECTION (POINT EMPTY)"
        geometries = [text and ogr.CreateGeometryFromWkt(text) for text in 15 * texts]
        for it in geometries:
            feature = ogr.Feature(layer.GetLayerDefn())
            feature["name"] = "a name"
            if it:
                feature.SetGeometry(it)
            layer.CreateFeature(feature)
        expected = [it and bytes(it.ExportToIsoWkb(ogr.wkbNDR)) for it in geometries]
        for size in (1, 7, 60, 100):
            source = Ogr(layer, size)
            columns = list(Column.chunks_from_arrow(source, "wkb_geometry"))
            self.assertEqual([row for it in columns for row in it.write().rows], expected)
            del source  # OGR allows one stream of a layer at a time
