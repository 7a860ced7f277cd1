"""What the rows of a column have together, results as a whole, and what GeoParquet says of rows."""
import array
import contextlib
import itertools
import json
import math
import pickle
import struct
import unittest

import porchsorrel_wkb as wkb
from porchsorrel_wkb import Column, Kind, Range
from samples import BIG_POINT, EMPTY_POINT, LINE, POINT, POINTS, POLYGON, ROWS, geometry

NONE = Range(math.inf, -math.inf, 0)


class Together(unittest.TestCase):
    def test_none(self):
        """Rows of which none is accepted; one with bad offsets is not refused."""
        for column, counts in ((Column.of([]), (0, 0, 0, 0)), (Column.of([None]), (1, 0, 1, 0)),
                               (Column(b"\2", array.array("q", [0, 1, 0])), (2, 0, 0, 1))):
            facts = column.facts()
            self.assertEqual((facts.rows, facts.accepted, facts.nulls, facts.refused), counts)
            self.assertEqual((facts.types, facts.srids, facts.box), ([], set(), wkb.Box(NONE, NONE, NONE, NONE)))

    def test_joined(self):
        """The facts of slices, joined, are those of the column: their types have one order, and -0 is below +0."""
        ends = struct.pack("<BI2d", 1, 1, 0.0, -0.0), struct.pack("<BI2d", 1, 1, -0.0, 0.0)
        rows = [*ROWS, geometry(6, 3), *ends, LINE, EMPTY_POINT, wkb.write(POINT, srid=7), None, geometry(2, 2)]
        for some in (rows, rows[::-1]):
            column = Column.of(some)
            for count in range(1, len(rows) + 2):
                joined = wkb.Facts.joined(map(Column.facts, column.split(count)))
                self.assertEqual((joined, repr(joined.box)), (column.facts(), repr(column.facts().box)))
        self.assertEqual(wkb.Facts.joined([]), Column.of([]).facts())


class Whole(unittest.TestCase):
    """Results are compared as a whole, and tables show their first rows."""

    def test_equal(self):
        for call in (Column.bounds, Column.found, Column.parts, Column.write, Column.coordinates):
            ours, again, other = call(Column.of(ROWS)), call(Column.of(ROWS)), call(Column.of([LINE]))
            self.assertIs(ours == again, True)
            self.assertIs(ours == pickle.loads(pickle.dumps(ours)), True)
            self.assertIs(ours != again, False)
            self.assertIs(ours == other, False)
            self.assertIs(ours == tuple(ours), False)
            self.assertRaises(TypeError, hash, ours)
        found, parts = wkb.Table(wkb.Found, bytes(64)), wkb.Table(wkb.Part, bytes(127))
        for record, is_same in ((wkb.Found, True), (wkb.Part, False)):
            self.assertIs(found == wkb.Table(record, bytes(64)), is_same)
        self.assertEqual((len(found), len(parts)), (1, 1))  # half a record is none
        self.assertIs(wkb.parts(POINTS) == wkb.parts(POINTS), True)
        self.assertIs(wkb.parts(POINTS) == list(wkb.parts(POINTS)), False)

    def test_shown(self):
        table = wkb.parts(struct.pack("<BII", 1, 4, 6) + 6 * POINT)
        lines = repr(table).splitlines()
        self.assertEqual((lines[0], lines[5], lines[6], len(lines)), ("<table of 7 Part>", f"  {table[4]}", "  ..", 7))
        html = table._repr_html_()
        self.assertEqual((html.count("<tr>"), html.count("<th>begin</th>"), "7 rows" in html), (6, 1, True))
        self.assertIn("<td>MULTI_POINT</td><td>XY</td><td>LITTLE</td>", html)


CRS = {"type": "GeographicCRS", "name": "WGS 84"}


class GeoParquet(unittest.TestCase):
    def test_metadata(self):
        """As the specification of 1.1.0 has it: types without order, the box of x and y, no CRS told by null."""
        column = Column.of([POINT, None, geometry(6), geometry(2, order=">"), POINTS])
        metadata, bounds = wkb.geoparquet(column)
        self.assertIsNone(bounds)
        self.assertEqual(json.loads(json.dumps(metadata)), {
            "version": "1.1.0", "primary_column": "geometry", "columns": {"geometry": {
                "encoding": "WKB", "geometry_types": ["Point", "LineString", "MultiPoint", "MultiPolygon"],
                "crs": None, "bbox": [1.0, 2.0, 1.0, 2.0]}}})

    def test_covering(self):
        column = Column.of([POINT, geometry(1, 1)])
        column.metadata = json.dumps({"crs": CRS, "edges": "spherical"})
        metadata, bounds = wkb.geoparquet(column, "shape", "bbox")
        self.assertEqual(metadata["columns"], {"shape": {
            "encoding": "WKB", "geometry_types": ["Point", "Point Z"], "crs": CRS, "edges": "spherical",
            "bbox": [1.0, 2.0, 3.0, 1.0, 2.0, 3.0],
            "covering": {"bbox": {it: ["bbox", it] for it in ("xmin", "ymin", "zmin", "xmax", "ymax", "zmax")}}}})
        self.assertEqual(bounds, column.bounds())

    def test_each_kind(self):
        """An arc between two ends isn't in their box."""
        names = "Point LineString Polygon MultiPoint MultiLineString MultiPolygon GeometryCollection".split()
        for (kind, name), (dimension, sign) in itertools.product(enumerate(names, 1), ((0, ""), (1, " Z"))):
            column, has_box = Column.of([POINT, geometry(kind, dimension)]), kind in (Kind.POINT, Kind.MULTI_POINT)
            column.metadata = '{"edges": "spherical"}'
            said = wkb.geoparquet(column).metadata["columns"]["geometry"]
            self.assertEqual(said["geometry_types"], list(dict.fromkeys(["Point", name + sign])))
            self.assertEqual("bbox" in said, has_box)
            with contextlib.nullcontext() if has_box else self.assertRaisesRegex(ValueError, "arc leaves the box"):
                wkb.geoparquet(column, covering="bbox")

    def test_without_coordinates(self):
        """There is no box unless there are numbers in x and in y, all of which JSON has."""
        x_alone, y_alone = (struct.pack("<BI2d", 1, 1, *words) for words in ((1, math.nan), (math.nan, 1)))
        x_and_z, y_and_z = (struct.pack("<BI3d", 1, 1001, *words) for words in ((1, math.nan, 3), (math.nan, 1, 3)))
        far = struct.pack("<BI2d", 1, 1, 1, math.inf)
        for rows in ([], [None], [EMPTY_POINT], [geometry(2)[:5] + bytes(4)], [x_alone], [y_alone], [x_and_z],
                     [y_and_z], [far]):
            self.assertNotIn("bbox", wkb.geoparquet(Column.of(rows)).metadata["columns"]["geometry"])

    def test_refused(self):
        inside = struct.pack("<BII", 1, 1007, 1) + geometry(1, 1, form=0)
        for row, text in (
            (b"\2", r"row 1 is rejected: a byte order is neither 0 nor 1, at byte 0 \(part 0\)"),
            (POLYGON, "row 1 is EWKB"), (geometry(1, 2), "a POINT is XYM"),
            (geometry(7, 3), "a GEOMETRY_COLLECTION is XYZM"), (geometry(1, 1, form=0), "row 1 is EWKB"),
            (geometry(5, 1, ">", form=0), "row 1 is EWKB"), (inside, "row 1 is EWKB"),
            (BIG_POINT + b"\0", "row 1 .*bytes"),
        ):
            self.assertRaisesRegex(ValueError, text, wkb.geoparquet, Column.of([POINT, row]))
        written = Column.of([POINT, POLYGON, geometry(1, 1, form=0), BIG_POINT + b"\0"]).write()
        self.assertTrue(wkb.geoparquet(Column(written.data, written.offsets)))
        # Where a geometry has its code a ring has a count and numbers, of any bytes.
        for order in "<>":
            polygon = geometry(3, order=order)[:13] + struct.pack(order + "2d", 0.1, -0.1)
            self.assertTrue(wkb.geoparquet(Column.of([polygon])))
        many = struct.pack(">BIII", 0, 3, 1, 2**16) + bytes(2**20)
        self.assertTrue(wkb.geoparquet(Column.of([many])))
        column = Column(2 * POINT, array.array("q", [0, 42, 21]))
        self.assertRaisesRegex(ValueError, "row 1 is rejected: the row's offsets", wkb.geoparquet, column)
        for text, expected in (  # Arrow's metadata is not looked at before
            (b'{"crs": "EPSG:4326"}', "PROJJSON alone"), (b'{"edges": "vincenty"}', "'vincenty'"),
            *((it, "column.metadata is") for it in (b"", b"EPSG:4326", b"[]", b"\xff")),
        ):
            column = Column.of([POINT])
            column._metadata = text
            self.assertRaisesRegex(ValueError, expected, wkb.geoparquet, column)
