"""The inputs of c/test/lasting.rows, whose answers are those of a model: one by one, and as a slice of a column with
null rows."""
import array
import pathlib
import struct
import unittest
from typing import NamedTuple

import porchsorrel_wkb as wkb
from samples import flat
from porchsorrel_wkb import Column, Dimension, Fault, Form, Found, Kind, Order, Status, column_from_coordinates

FILE = pathlib.Path(__file__).resolve().parents[2] / "c/test/lasting.rows"
# The options of the sums.
OPTIONS = [(order, form, 4326 if form == Form.EWKB_WITH_SRID else None) for order in Order for form in Form]


def summed(data):
    """FNV-1a in 32 bits."""
    total = 0x811C9DC5
    for byte in data:
        total = (total ^ byte) * 0x01000193 & 0xFFFFFFFF
    return total


def packed(box):
    ranges = box.x, box.y, box.z, box.m
    return struct.pack("<" + 4 * "2dQ", *(number for it in ranges for number in (it.least, it.greatest, it.count)))


# The sums of a row that is null or rejected: none of what is written, and of no bounds, parts and levels.
NOTHING = struct.pack("<" + 4 * "2dQ", *4 * (float("inf"), float("-inf"), 0))
NONE = [None] * 8 + [summed(NOTHING), summed(b""), summed(b"")]


class Row(NamedTuple):
    """An input and its answer: what is found, or the fault; sums of what is written, the bounds, parts and levels."""

    data: bytes
    answer: object
    sums: list

    @classmethod
    def of(cls, line):
        data, status, *words = line.split(" ")
        if int(status):
            return cls(bytes.fromhex(data), Fault(*map(int, words), Status(int(status))), NONE)
        *numbers, srid, has_srid, kind, dimension, _, order = map(int, words[:11])
        found = Found(*numbers, srid if has_srid else None, Kind(kind), Dimension(dimension), Order(order))
        return cls(bytes.fromhex(data), found, [int(it, 16) for it in words[11:]])

    @property
    def status(self):
        return getattr(self.answer, "status", Status.OK)


def answer_of(call, data):
    """What a call returns, or its fault."""
    try:
        return call(data)
    except wkb.Refused as refused:
        return refused.fault


@unittest.skipUnless(FILE.exists(), "only the repository has the inputs")
class Lasting(unittest.TestCase):
    @classmethod
    def setUpClass(cls):
        cls.rows = [Row.of(it) for it in FILE.read_text().splitlines() if not it.startswith("#")]
        cls.accepted = [it for it in cls.rows if not it.status]
        rows = [data for it in cls.rows for data in (it.data, None)]
        cls.column = Column.of([cls.rows[0].data, None, *65 * [b"\2"], *rows, cls.rows[0].data])[67:-1]
        # Of the column, whose every second row is null.
        cls.statuses = [it for row in cls.rows for it in (row.status, Status.NULL_ROW)]
        cls.sums = [*zip(*(sums for row in cls.rows for sums in (row.sums, NONE)))]

    def test_one(self):
        self.assertGreater(len(self.accepted), 500)
        for it in self.rows:
            self.assertEqual(answer_of(wkb.check, it.data), it.answer, it.data.hex())
            is_whole = not it.status and it.answer.size == len(it.data)
            self.assertIs(wkb.well_formed(it.data), is_whole, it.data.hex())
            for call in (wkb.bounds, wkb.write, wkb.parts) if it.status else ():
                self.assertEqual(answer_of(call, it.data), it.answer, it.data.hex())

    def test_accepted(self):
        for it in self.accepted:
            written = [wkb.write(it.data, *options) for options in OPTIONS]
            parts = wkb.parts(it.data)
            sums = [*map(summed, written), summed(packed(wkb.bounds(it.data))), summed(parts._memory)]
            self.assertEqual(sums, it.sums[:10], it.data.hex())
            self.assertTrue(all(wkb.same(it.data, data) for data in written), it.data.hex())
            numbers = [number for part in parts if part.kind <= Kind.LINE_STRING
                       for point in wkb.coordinates(it.data, part) for number in point[:2]]
            found = Column.of([it.data]).coordinates().coordinates
            self.assertEqual(flat(array.array("d", numbers)), flat(found) if len(found) else "")
            own = Column.of([it.data]).facts()
            self.assertEqual((own.types, own.srids), ([(it.answer.kind, it.answer.dimension)], {it.answer.srid}))
            self.assertEqual(summed(packed(own.box)), it.sums[8], it.data.hex())

    def test_column(self):
        statuses, found = self.column.found()
        self.assertEqual((list(statuses), list(self.column.check())), (self.statuses, self.statuses))
        for it, entry in zip(self.rows, found[::2]):
            self.assertTrue(repr(entry) == repr(it.answer) or it.status, it.data.hex())
        faults = {2 * i: it.answer for i, it in enumerate(self.rows) if it.status}
        self.assertEqual(self.column.faults(), faults)
        facts, count = self.column.facts(), len(self.rows)
        self.assertEqual((facts.rows, facts.accepted, facts.nulls), (2 * count, count - len(faults), count))
        self.assertEqual((facts.refused, facts.srids), (len(faults), {it.answer.srid for it in self.accepted}))
        types = sorted({(it.answer.dimension, it.answer.kind) for it in self.accepted})
        self.assertEqual(facts.types, [(kind, dimension) for dimension, kind in types])
        ranges = [zip(*ranges) for ranges in zip(*(wkb.bounds(it.data) for it in self.accepted))]
        self.assertEqual([*facts.box], [(min(least), max(greatest), sum(counts)) for least, greatest, counts in ranges])
        for options, sums in zip(OPTIONS, self.sums):
            self.assertEqual([data and summed(data) for data in self.column.write(*options).rows], [*sums])
        self.assertEqual([summed(packed(it)) for it in self.column.bounds().boxes], [*self.sums[8]])
        _, offsets, parts = self.column.parts()
        sums = [summed(parts._memory[64 * a : 64 * b]) for a, b in zip(offsets, offsets[1:])]
        self.assertEqual(sums, [*self.sums[9]])

    def test_rows_of_levels(self):
        """The rows of each kind come back from the levels of all where the others are null."""
        for dimension in Dimension:
            _, rows, singles, rings, numbers = self.column.coordinates(dimension)
            for kind in list(Kind)[1:7]:
                own = [getattr(it.answer, "kind", 0) == kind and it.answer.dimension == dimension for it in self.rows]
                bits = sum(it << 2 * i + 67 for i, it in enumerate(own)).to_bytes(len(own) // 4 + 10, "little")
                made = column_from_coordinates(kind, numbers, rings, singles, rows, dimension=dimension, validity=bits,
                                               validity_offset=67)
                # Whatever NaNs an empty point has, those of one are written.
                found = [row and summed(wkb.write(row)) for row in list(made.rows)[::2]]
                self.assertEqual(found, [it.sums[4] if its else None for it, its in zip(self.rows, own)])
