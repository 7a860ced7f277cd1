# SPDX-License-Identifier: MIT OR Apache-2.0
"""The calls for columns of geometries."""
import array
import ctypes
import operator
import re
import struct
from typing import Any, Dict, Iterable, Iterator, List, Optional, Tuple, Union

from ._arrow import ArrowArray, ArrowStream, chunks_of_arrow, pieces_of_arrow
from ._buffers import (
    Buffer, Inputs, Numbers, check_bits, flat, has_numpy, new_numbers, new_offsets, size_of_offsets, view_of,
)
from ._calls import fault_of
from ._enums import Dimension, Form, Kind, Order, Status, is_refusal, make_options
from ._errors import Refused, expect_same
from ._library import (
    COLLECT, COLUMN_BOUNDS, COLUMN_CHECK, COLUMN_COORDINATES, COLUMN_FOUND, COLUMN_PARTS, COLUMN_WRITE, Call,
    address_of, status_text, wkb_column, wkb_coordinates, wkb_options,
)
from ._records import STRUCTS, Box, Fault, Found, Part, Table, every, record_in
from ._results import ColumnBounds, ColumnCoordinates, ColumnEncodings, ColumnFound, ColumnParts, Facts, box_of_all
from ._rows import Pieces, object_of, pieces_of

# Which statuses of a column are refusals.
REFUSALS = re.compile(rb"[\x20-\xff]")
# An encoding may be four bytes longer than its row: an SRID.
SRID_SIZE = 4
# What a collection has before its members, at most.
FRONT_SIZE = 13


class Column:
    """Rows of bytes as Arrow has them, in an array of type binary or large binary, or a slice of one.

    `data` has the bytes of all rows. Row i has those from offsets[i] up to offsets[i + 1], for signed 32-bit or 64-bit
    offsets, or unsigned 64-bit ones. Where the offsets are raw bytes, `offset_size` says how many bytes one has, 4 or
    8. `validity` is the validity bitmap, least significant bit first, 0 for null; None if no row is null.
    `first` and `rows` pick some rows, counted in offsets and in bits alike; without `rows`, all from `first` on.

    Each of the three is any object with the buffer protocol. The column keeps the objects, and holds their buffers
    during calls only. No row stops a call: each row has a `Status` in the result. The results are numpy arrays where
    numpy is installed, else arrays of the module `array`.
    """

    def __init__(
        self,
        data: Buffer,
        offsets: Buffer,
        validity: Optional[Buffer] = None,
        *,
        first: int = 0,
        rows: Optional[int] = None,
        offset_size: Optional[int] = None,
    ):
        self._data, self._offsets, self._validity = data, offsets, validity
        self._offset_size, held = size_of_offsets(offsets, offset_size)
        self._first, held_rows = operator.index(first), max(held - 1, 0)
        self._rows = max(held_rows - self._first, 0) if rows is None else operator.index(rows)
        if self._first < 0 or self._rows < 0:
            raise ValueError(f"first={first} and rows={rows} can't be negative")
        if self._first + self._rows > held_rows:
            raise ValueError(f"{held} offsets have {held_rows} rows: not {self._rows} from row {self._first} on")
        self._owner: Any = None
        self._metadata: Optional[bytes] = None
        check_bits(validity)
        with Inputs() as inputs:
            self._shown(inputs)
            inputs.bits(validity, self._first + self._rows)

    @classmethod
    def of(cls, rows: Iterable[Optional[Buffer]]) -> "Column":
        """Return a column of rows that are objects of their own, with a null row for None. The bytes are copied.

        The rows are those of a list, or of a column of pandas, whose missing values are null too. A column of geopandas
        is written by its own `to_wkb`, without SRIDs.
        """
        return cls._of_pieces(pieces_of(rows))

    @classmethod
    def from_arrow(cls, array: ArrowArray, name: Optional[str] = None) -> "Column":
        """Return a column of an Arrow array of type binary, large binary or binary view, or of a slice of one.

        The array is any object with the method `__arrow_c_array__`, such as an array of pyarrow. Of a batch of records
        `name` picks the column. Nothing is copied but views: the array's memory lives as long as the column.

        Raises `TypeError` for an array of another type, and `ValueError` where Arrow's structs can't be right: counts
        that don't fit together, a buffer that is missing, a view that points out of its buffer. So it does where views
        share bytes, and copies of all rows would be more than 16 times as long as the array. The structs don't say how
        long buffers are: they are taken to be as long as lengths, offsets and counts need, and pointers to be right.
        """
        return cls._of_pieces(pieces_of_arrow(array, name))

    @classmethod
    def chunks_from_arrow(cls, stream: ArrowStream, name: Optional[str] = None) -> Iterator["Column"]:
        """Return a column for each chunk of an Arrow column in chunks, or of a table, one after another.

        The stream is any object with the method `__arrow_c_stream__`, such as a chunked array of pyarrow; of a table or
        another stream of records `name` picks the column. Each chunk is an array as `from_arrow` takes it, and is asked
        for when its column is. Raise what `from_arrow` raises, and `OSError` where the stream fails.
        """
        return map(cls._of_pieces, chunks_of_arrow(stream, name))

    @classmethod
    def _of_pieces(cls, it: Pieces) -> "Column":
        column = cls(it.data, it.offsets, it.validity, first=it.first, rows=it.rows, offset_size=it.offset_size)
        column._owner, column._metadata = it.owner, it.metadata
        return column

    def __getstate__(self) -> Dict[str, Any]:
        """Return what is pickled: copies of what the rows have, behind up to seven rows without bytes, since a byte of
        validity has the bits of eight.
        """
        before, end = self._first % 8, self._first + self._rows
        with Inputs() as inputs:
            data, offsets = self._shown(inputs)
            least = min(max(min(offsets), 0), data.nbytes)  # where one is negative all stay as they are
            own = bytes(data[least : max(max(offsets), least)])
            lowered = array.array(offsets.format, before * [0] + [it - least for it in offsets]).tobytes()
            state = dict(self.__dict__, _owner=None, _data=own, _offsets=lowered, _first=before)
            if self._validity is not None:
                bits = flat(inputs.view(self._validity))
                state["_validity"] = bytes(bits[self._first // 8 : (end + 7) // 8])
        return state

    def __len__(self) -> int:
        return self._rows

    def __repr__(self) -> str:
        return f"<column of {self._rows} rows>"

    def __getitem__(self, rows: slice) -> "Column":
        """Return a column of some rows, one after another, over the memory of this one.

        Whether a row has bad offsets depends on those of the rows before it: of a slice, of the rows in it alone.
        """
        if not isinstance(rows, slice):
            raise TypeError("a column has no objects for its rows: column[i : i + 1] is a column of one, and "
                            "column.write().rows has the encodings of all as bytes")
        first, end, step = rows.indices(self._rows)
        if step != 1:
            raise ValueError(f"the rows of a slice are one after another, and not every {step}")
        column = Column.__new__(Column)
        column.__dict__.update(self.__dict__, _first=self._first + first, _rows=max(end - first, 0))
        return column

    def split(self, count: int) -> List["Column"]:
        """Return so many slices, one after another, of about as many rows each.

        Each may be read by a thread of its own: `list(pool.map(Column.check, column.split(4)))`. They run side by side
        where the memory is read-only, as `help` of the package says.
        """
        if count < 1:
            raise ValueError(f"a column is split into one or more, and not into {count}")
        ends = [self._rows * i // count for i in range(count + 1)]
        return [self[first:end] for first, end in zip(ends, ends[1:])]

    @property
    def metadata(self) -> Optional[str]:
        """What GeoArrow's types say of the rows, as JSON: `{"crs": .., "edges": ..}`. None if nothing is said.

        It comes with an array of such a type, or with the CRS of a column of geopandas, may be set, and goes out with
        the results that have types of GeoArrow.
        """
        return None if self._metadata is None else self._metadata.decode(errors="replace")

    @metadata.setter
    def metadata(self, text: Optional[str]) -> None:
        if not isinstance(text, (str, type(None))):
            raise TypeError(f"metadata is JSON text, as json.dumps makes it, and not a {type(text).__name__}")
        if text is not None:
            object_of(text)
        self._metadata = None if text is None else text.encode()

    def _shown(self, inputs: Inputs) -> Tuple[memoryview, memoryview]:
        """Return the bytes and the offsets of the rows, while their buffers are held. They may have got shorter since.
        """
        size, end = self._offset_size, self._first + self._rows
        offsets = inputs.hold(inputs.view(self._offsets).cast("B"))
        if end and offsets.nbytes // size < end + 1:
            raise ValueError(f"{offsets.nbytes // size} offsets are left, too few for {end} rows")
        places = inputs.hold(offsets[self._first * size : (end + 1) * size] if end else memoryview(bytes(size)))
        data = inputs.hold(flat(inputs.view(self._data)))
        return data, inputs.hold(places.cast("i" if size == 4 else "q"))

    def _place(self, inputs: Inputs) -> wkb_column:
        """Return the column as the library takes it, while its buffers are held."""
        data, offsets = self._shown(inputs)
        bits = inputs.bits(self._validity, self._first + self._rows)
        return wkb_column(address_of(data), data.nbytes, address_of(offsets), self._offset_size, bits, self._first,
                          self._rows)

    def _call(self, call: Call, *more: Any) -> Any:
        """Make a call over the column."""
        with Inputs() as inputs:
            column = self._place(inputs)
            return inputs.choose(call)(ctypes.byref(column), *more)

    def _of_each(self, call: Call, record: Any) -> Tuple[Numbers, Table[Any]]:
        """Return what a call writes for each row: a status and a record."""
        statuses, table = new_numbers("u1", self._rows), new_numbers("u1", self._rows * STRUCTS[record].size)
        self._call(call, table, statuses)
        return statuses, Table(record, table)

    def _room(self) -> int:
        """Return how many bytes the rows have at most."""
        with Inputs() as inputs:
            data, offsets = self._shown(inputs)
            return min(max(offsets[-1] - offsets[0], 0), data.nbytes)

    def check(self) -> Numbers:
        """Return the status of each row."""
        statuses = new_numbers("u1", self._rows)
        self._call(COLUMN_CHECK, statuses)
        return statuses

    def faults(self) -> Dict[int, Fault]:
        """Return why rows are rejected, by their indices, with bytes counted from the first of the row.

        A row that is OK, null, or has bad offsets is not in it.
        """
        statuses = bytes(view_of(self.check()))
        with Inputs() as inputs:
            data, offsets = self._shown(inputs)
            rows = [it.start() for it in REFUSALS.finditer(statuses)]
            return {i: fault_of(data[offsets[i] : offsets[i + 1]]) for i in rows}

    def bounds(self) -> ColumnBounds:
        """Return the bounds of each row."""
        return ColumnBounds._made(*self._of_each(COLUMN_BOUNDS, Box), _metadata=self._metadata)

    def found(self) -> ColumnFound:
        """Return what is at the start of each row: kind, dimension, SRID, byte order, size and counts."""
        return ColumnFound(*self._of_each(COLUMN_FOUND, Found))

    def facts(self) -> Facts:
        """Return what the rows have together: types and SRIDs that occur, the bounds of all, and how many are there."""
        statuses, found = self.found()
        held = bytes(view_of(statuses))
        # Words 5 and 6 of a struct are the SRID and whether there is one, and kind and dimension. Of a row that is null
        # or rejected all of these are zeros, and no geometry is a ring.
        words = memoryview(found._memory).cast("B").cast("Q")
        rows = [struct.unpack("=4I", struct.pack("=2Q", *it)) for it in {*zip(words[5::8], words[6::8])}]
        types = sorted({(dimension, kind) for _, _, kind, dimension in rows if kind})
        srids = {srid if has_srid else None for srid, has_srid, kind, _ in rows if kind}
        refused = len(REFUSALS.findall(held))
        return Facts(len(held), held.count(Status.OK), held.count(Status.NULL_ROW), refused,
                     [(Kind(kind), Dimension(dimension)) for dimension, kind in types], srids,
                     box_of_all(self.bounds().boxes))

    def parts(self) -> ColumnParts:
        """Return the parts of each row in preorder."""
        statuses, offsets = new_numbers("u1", self._rows), new_offsets(self._rows)
        ends = view_of(offsets)[1:], statuses
        count = self._call(COLUMN_PARTS, None, 0, *ends)
        table = new_numbers("u1", count * STRUCTS[Part].size)
        expect_same(self._call(COLUMN_PARTS, table, count, *ends) == count)
        return ColumnParts(statuses, offsets, Table(Part, table))

    def write(
        self, order: Order = Order.LITTLE, form: Optional[Form] = None, srid: Optional[int] = None
    ) -> ColumnEncodings:
        """Return the one encoding of each row in this order and form, as `wkb.write` has it."""
        options = make_options(order, form, srid)
        statuses, offsets = new_numbers("u1", self._rows), new_offsets(self._rows)
        ends = view_of(offsets)[1:], statuses
        needed, room = self._room() + SRID_SIZE * self._rows, -1
        while room < needed:
            room = needed
            data = new_numbers("u1", room)
            needed = self._call(COLUMN_WRITE, ctypes.byref(wkb_options(*options)), data, room, *ends)
        held = statuses, offsets, data[: offsets[-1]]
        return ColumnEncodings._made(*held, _form=int(options[1]), _metadata=self._metadata)

    def coordinates(self, dimension: Dimension = Dimension.XY) -> ColumnCoordinates:
        """Return the coordinates of all rows in this dimension, with a NaN for each number that a geometry lacks."""
        dimension = Dimension(dimension)
        statuses, row_offsets = new_numbers("u1", self._rows), new_offsets(self._rows)
        row_ends = address_of(view_of(row_offsets)[1:])
        out = wkb_coordinates(row_ends=row_ends)
        self._call(COLUMN_COORDINATES, dimension, ctypes.byref(out), statuses)
        counts = out.coordinates, out.rings, out.singles
        words = new_numbers("f8", counts[0] * dimension.width)
        rings, singles = new_offsets(counts[1]), new_offsets(counts[2])
        ring_ends, single_ends = (address_of(view_of(it)[1:]) for it in (rings, singles))
        out = wkb_coordinates(address_of(words), len(words), ring_ends, counts[1], single_ends, counts[2], row_ends)
        self._call(COLUMN_COORDINATES, dimension, ctypes.byref(out), statuses)
        expect_same((out.coordinates, out.rings, out.singles) == counts)
        if has_numpy:
            words = words.reshape(-1, dimension.width)
        kinds = {*every(self.found().found, "kind").tolist()} - {0}
        known = {"_kind": Kind(kinds.pop()) if len(kinds) == 1 else None, "_dimension": dimension}
        return ColumnCoordinates._made(statuses, row_offsets, singles, rings, words, **known, _metadata=self._metadata)


def collect(
    column: Union[Column, Iterable[Optional[Buffer]]], kind: Kind, dimension: Dimension = Dimension.XY,
    order: Order = Order.LITTLE, form: Optional[Form] = None, srid: Optional[int] = None,
) -> bytes:
    """The one encoding of the geometry of this kind and dimension whose members are all rows, in this order and form.

    In the place of a column it takes what `Column.of` takes, such as a list of bytes.

    The kind is MULTI_POINT, MULTI_LINE_STRING, MULTI_POLYGON or GEOMETRY_COLLECTION, which takes rows of any kind and
    dimension. The byte orders and SRIDs of rows don't matter. The form and the SRID are as `wkb.write` has them.

    Raises `Refused` for the first row that can't be a member, with its index as `row`: its status is NULL_ROW,
    BAD_OFFSETS or a refusal, whose fault is counted from the start of the row.
    """
    kind, dimension, options = Kind(kind), Dimension(dimension), make_options(order, form, srid)
    if kind < Kind.MULTI_POINT:
        raise ValueError(f"a {kind.name} has no geometries as members")
    if not isinstance(column, Column):
        column = Column.of(column)
    fault, size, row = ctypes.create_string_buffer(STRUCTS[Fault].size), ctypes.c_size_t(), ctypes.c_size_t()
    status, size.value = Status.NO_ROOM, column._room() + FRONT_SIZE
    while status == Status.NO_ROOM:
        data = new_numbers("u1", size.value)
        results = data, size.value, ctypes.byref(size), fault, ctypes.byref(row)
        status = column._call(COLLECT, kind, dimension, ctypes.byref(wkb_options(*options)), *results)
    if status == Status.OK:
        return bytes(view_of(data)[: size.value])
    text = status_text(status)
    if status < Status.NULL_ROW:
        raise ValueError(text)
    told = record_in(Fault, fault) if is_refusal(status) else Fault(0, 0, 0, 0, 0, Status(status))
    raise Refused(told, 1, text, "", row.value)
