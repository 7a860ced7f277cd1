"""What GeoArrow's types say of their rows stays with them, in and out; coordinates go out interleaved or separated, and
boxes as records."""
import itertools
import json
import math
import pickle
import struct
import types
import unittest

from capsules import Arrow, Lists, Records, Stream, Views
from porchsorrel_wkb import Column, Dimension, Kind, column_from_coordinates
from samples import EMPTY_POINT, LINE, POINT, ROWS, geometry
from test_arrow_out import asked_for, child_of, numbers_at, read, structs_of, texts_of

CRS = b'{"crs": "EPSG:3857", "edges": "spherical"}'


def encoded(name=b"geoarrow.wkb", text=CRS):
    """The metadata of a type that is an extension of Arrow's: how many pairs, and each text behind its length."""
    texts = b"other", b"1", b"ARROW:extension:name", name, b"ARROW:extension:metadata", text
    return struct.pack("=i", 3) + b"".join(struct.pack("=i", len(it)) + it for it in texts)


def told_of(source, name=None, metadata=None):
    """An array of others whose type says this of its rows."""
    source.schema.metadata = metadata or encoded()
    source.schema.name = name
    return source


def metadata_of(of):
    """What the type of an array that goes out says of its rows: its name, and the text."""
    capsules = of.__arrow_c_array__()
    return texts_of(structs_of(capsules)[0])


class Metadata(unittest.TestCase):
    def test_in(self):
        for source in (Arrow(), Arrow(b"Z"), Views(ROWS, 1), Arrow(rows=[])):
            self.assertEqual(Column.from_arrow(told_of(source)).metadata, CRS.decode())
        records = Records(Arrow(name=b"a"), told_of(Arrow(), b"b"), length=len(ROWS))
        self.assertEqual(Column.from_arrow(records, "b").metadata, CRS.decode())
        chunks = Column.chunks_from_arrow(Stream(told_of(Arrow()), [Arrow(), Arrow()]))
        self.assertEqual([it.metadata for it in chunks], [CRS.decode()] * 2)

        for metadata, expected in (
            (encoded(b"ogc.wkb"), CRS.decode()), (encoded(b"arrow.uuid"), None), (encoded(b"geoarrow"), None),
            (encoded(text=b""), None), (struct.pack("=i", 0), None), (struct.pack("=i", -1), None),
        ):
            self.assertEqual(Column.from_arrow(told_of(Arrow(), metadata=metadata)).metadata, expected)
        self.assertIsNone(Column.from_arrow(Arrow()).metadata)
        for name, text, error in ((b"geoarrow.wkt", CRS, TypeError), (b"geoarrow.point", CRS, TypeError),
                                  *((b"ogc.wkb", text, ValueError) for text in (b"{nonsense", b"[1]", b"\xff"))):
            source = told_of(Arrow(), metadata=encoded(name, text))
            self.assertRaisesRegex(error, "is not WKB|metadata is", Column.from_arrow, source)

    def test_out(self):
        column = pickle.loads(pickle.dumps(Column.from_arrow(told_of(Arrow(rows=[POINT, None])))))
        for it, name in ((column.write(), "geoarrow.wkb"), (column.coordinates(), "geoarrow.point"),
                         (column.coordinates().separated(), "geoarrow.point"), (column.bounds(), "geoarrow.box")):
            for held in (it, pickle.loads(pickle.dumps(it)), it._replace(statuses=bytes(it.statuses))):
                self.assertEqual(metadata_of(held), (name, CRS.decode()))
        levels = column_from_coordinates(Kind.POINT, column.coordinates())
        self.assertEqual(metadata_of(levels), ("geoarrow.wkb", CRS.decode()))

    def test_set(self):
        """What is no JSON object is an error when it is set, and changes nothing."""
        column = Column.of([POINT])
        column.metadata = '{"crs": "S\u00e3o \u6771"}'
        for wrong, error in (({"crs": 1}, TypeError), (CRS, TypeError), ("EPSG:4326", ValueError), ("", ValueError),
                             ("[]", ValueError), ("null", ValueError), ('{"crs": NaN}', ValueError),
                             (10**5 * "[", ValueError)):
            with self.subTest(str(wrong)[:20]), self.assertRaisesRegex(error, "metadata is"):
                column.metadata = wrong
        self.assertEqual(metadata_of(column.write()), ("geoarrow.wkb", '{"crs": "S\u00e3o \u6771"}'))
        self.assertEqual(Column.from_arrow(column.write()).metadata, column.metadata)
        column.metadata = None
        self.assertEqual(metadata_of(column.write()), ("geoarrow.wkb", "{}"))

    def test_crs(self):
        """A column of geopandas has a CRS of pyproj."""
        frame = type("Series", (list,), {"crs": types.SimpleNamespace(to_json_dict=lambda: {"id": 7})})([POINT])
        self.assertEqual(json.loads(Column.of(frame).metadata), {"crs": {"id": 7}, "crs_type": "projjson"})
        for other in (None, "EPSG:4326", 4326):
            frame.crs = other
            self.assertIsNone(Column.of(frame).metadata)


class Coordinates(unittest.TestCase):
    def test_each_dimension(self):
        """In each dimension, interleaved and separated, and back."""
        for kind, dimension in itertools.product((Kind.POINT, Kind.LINE_STRING), Dimension):
            levels, axes = Column.of([geometry(kind, dimension)]).coordinates(dimension), dimension.name.lower()
            words = [1.0, 2.0, 3.0, 4.0][: dimension.width]
            for it, value, form, leaves in (
                (levels, words, f"+w:{dimension.width}", [("g", axes)]),
                (levels.separated(), tuple(words), "+s", [("g", axis) for axis in axes]),
            ):
                values, names, _ = read(it)
                self.assertEqual(values, [value if kind == Kind.POINT else [value]])
                self.assertEqual((names[-1 - len(leaves)][0], names[-len(leaves) :]), (form, leaves))
                self.assertEqual(list(column_from_coordinates(kind, it).rows), [geometry(kind, dimension)])

    def test_asked(self):
        """A consumer asks by the schema that it wants."""
        line, point = Column.of([geometry(2)]).coordinates(), Column.of([POINT]).coordinates()
        for form in (b"+l", b"+L"):
            separate = Lists([(0, 1)], [(1.0,), (2.0,)], "xy", form=form).__arrow_c_array__()[0]
            self.assertEqual(read(line, separate)[:2], ([[(1.0, 2.0)]], [
                (form.decode(), ""), ("+s", "vertices"), ("g", "x"), ("g", "y")]))
        self.assertEqual(read(point, asked_for(b"+s"))[0], [(1.0, 2.0)])
        together = Lists([(0, 1)], [(1.0, 2.0)]).__arrow_c_array__()[0]
        self.assertEqual(read(line, together)[1], [("+l", ""), ("+w:2", "vertices"), ("g", "xy")])

    def test_null_rows(self):
        """A null row of points has NaNs; separated it is null too."""
        levels = Column.of([POINT, None, b"\2"]).coordinates()
        capsules = levels.__arrow_c_array__()
        schema, it = structs_of(capsules)
        numbers = numbers_at(child_of(it).buffers[1], "d", child_of(it).length)
        self.assertEqual((schema.format, *map(str, numbers)), (b"+w:2", "1.0", "2.0", "nan", "nan", "nan", "nan"))
        self.assertEqual(read(levels.separated())[0], [(1.0, 2.0), None, None])

    def test_no_coordinates(self):
        """Rows without coordinates come back, and no rows."""
        for kind, rows in ((6, []), (6, [None]), (2, [bytes.fromhex("010200000000000000")])):
            levels = Column.of(rows).coordinates()
            for it in (levels, levels.separated()):
                self.assertEqual(list(column_from_coordinates(kind, it).rows), rows)


class Boxes(unittest.TestCase):
    def test_axes(self):
        """The axes are those of any row, and a box without coordinates has infinities."""
        none, less = math.inf, -math.inf
        for rows, axes, expected in (
            ([], "xy", []), ([EMPTY_POINT], "xy", [(none, none, less, less)]),
            ([POINT, None, b"\2"], "xy", [(1.0, 2.0, 1.0, 2.0), None, None]),
            ([LINE], "xyz", [(1.0, 2.0, -7.0, 5.0, 2.0, 3.0)]), ([geometry(1, 2)], "xym", [(1.0, 2.0, 3.0) * 2]),
            ([geometry(1, 3), POINT], "xyzm", [(1.0, 2.0, 3.0, 4.0) * 2, (1.0, 2.0, none, none, 1.0, 2.0, less, less)]),
        ):
            names = [("+s", ""), *(("g", axis + end) for end in ("min", "max") for axis in axes)]
            self.assertEqual(read(Column.of(rows).bounds()), (expected, names, "geoarrow.box"))
