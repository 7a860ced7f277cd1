# SPDX-License-Identifier: MIT OR Apache-2.0
"""What the calls for columns return, and its ways out: rows of bytes, and arrays of Arrow."""
import functools
import io
import itertools
import math
import operator
import struct
from typing import (
    Any, Iterable, Iterator, List, NamedTuple, Optional, Sequence, Set, Tuple, Type, TypeVar, Union, overload,
)

from ._buffers import Numbers, flat, many, numbers_of, view_of
from ._enums import Dimension, Form, Kind
from ._export import LISTS, NARROW, Node, coordinates_of, exported, leaf, metadata_of, narrow, of_rows, through, wanted
from ._records import STRUCTS, Box, Found, Part, Range, Table, every

# Rows become bytes so many at a time.
SOME = 4096
Self = TypeVar("Self", bound="_Result")


class _Result:
    """What results share: beside their arrays they know something of their rows, and two are compared as a whole."""

    _metadata: Optional[bytes] = None

    @classmethod
    def _made(cls: Type[Self], *arrays: Any, **known: Any) -> Self:
        """Return a result of these arrays, of whose rows this is known."""
        it = cls(*arrays)
        it.__dict__.update(known)
        return it

    def _replace(self: Self, **changes: Any) -> Self:
        """Return a result with other arrays in the place of some."""
        it: Self = super()._replace(**changes)  # type: ignore[misc]
        it.__dict__.update(self.__dict__)
        return it

    def __eq__(self, other: object) -> bool:
        ours: Any = self
        theirs: Any = other
        return type(ours) is type(theirs) and all(
            a == b if isinstance(a, Table) else bytes(view_of(a)) == bytes(view_of(b)) for a, b in zip(ours, theirs)
        )

    def __ne__(self, other: object) -> bool:
        return not self == other

    __hash__ = None  # type: ignore[assignment]


# The arrays of each result.
_Bounds = NamedTuple("_Bounds", [("statuses", Numbers), ("boxes", Table[Box])])
_Found = NamedTuple("_Found", [("statuses", Numbers), ("found", Table[Found])])
_Parts = NamedTuple("_Parts", [("statuses", Numbers), ("offsets", Numbers), ("parts", Table[Part])])
_Encodings = NamedTuple("_Encodings", [("statuses", Numbers), ("offsets", Numbers), ("data", Numbers)])
_Coordinates = NamedTuple("_Coordinates", [
    ("statuses", Numbers), ("row_offsets", Numbers), ("single_offsets", Numbers), ("ring_offsets", Numbers),
    ("coordinates", Numbers),
])


class ColumnBounds(_Result, _Bounds):  # type: ignore[misc]
    """The bounds of each row; those of a row that is rejected have no numbers.

    Arrow's packages take this object as an array of type geoarrow.box: records of xmin, ymin, xmax and ymax, also of
    zmin, mmin, zmax and mmax where a row has a z or an m. A row that is null or rejected is null, and one without
    coordinates has infinity as its least numbers, and minus infinity as its greatest ones.

    :ivar statuses: a `Status` for each row
    :ivar boxes: a table with a `Box` for each row
    """

    def __arrow_c_array__(self, requested_schema: Any = None) -> Tuple[Any, Any]:
        """Return the boxes as an array of Arrow."""
        metadata = metadata_of("geoarrow.box", self._metadata)
        axes = [axis for axis in "xyzm" if axis in "xy" or many.sum(every(self.boxes, axis, "count"))]
        ends = [leaf(axis + end, view_of(numbers_of("f8", every(self.boxes, axis, name))))
                for end, name in (("min", "least"), ("max", "greatest")) for axis in axes]
        return exported(of_rows(self.statuses, b"+s", metadata, children=tuple(ends)))


class ColumnFound(_Result, _Found):  # type: ignore[misc]
    """What is at the start of each row. Of a row that is null or rejected all numbers are 0.

    :ivar statuses: a `Status` for each row
    :ivar found: a table with a `Found` for each row; `numpy.asarray` makes it a structured array
    """


class Facts(NamedTuple):
    """What the rows of a column have together.

    :ivar rows: how many there are
    :ivar accepted: how many of them are geometries
    :ivar nulls: how many are null
    :ivar refused: how many are rejected for their bytes; the rest has bad offsets
    :ivar types: the kinds that occur, each with its dimension
    :ivar srids: the SRIDs that occur; None for rows without one
    :ivar box: the bounds of all rows
    """

    rows: int
    accepted: int
    nulls: int
    refused: int
    types: List[Tuple[Kind, Dimension]]
    srids: Set[Optional[int]]
    box: Box

    @classmethod
    def joined(cls, several: Iterable["Facts"]) -> "Facts":
        """Return the facts of all rows of several columns, from those of each: of threads, files or chunks."""
        held = list(several)
        types = sorted({it for facts in held for it in facts.types}, key=lambda it: (it[1], it[0]))
        srids = {it for facts in held for it in facts.srids}
        names = "rows", "accepted", "nulls", "refused"
        rows, accepted, nulls, refused = (sum(getattr(it, name) for it in held) for name in names)
        packed = b"".join(STRUCTS[Box].pack(*(number for part in it.box for number in part)) for it in held)
        return cls(rows, accepted, nulls, refused, types, srids, box_of_all(Table(Box, packed)))


def box_of_all(boxes: Table[Box]) -> Box:
    """Return the box around all of these."""
    return Box(*(_range_of_all(boxes, axis) for axis in "xyzm"))


def _range_of_all(boxes: Table[Box], axis: str) -> Range:
    """Return the range of all numbers of an axis; -0 is below +0."""
    count = int(many.sum(every(boxes, axis, "count")))
    if not count:
        return Range(math.inf, -math.inf, 0)
    least, greatest = every(boxes, axis, "least"), every(boxes, axis, "greatest")
    first, last = float(many.min(least)), float(many.max(greatest))
    # The bits of +0 are 0, and of -0 the sign alone.
    if first == 0 and -(2**63) in numbers_of("i8", memoryview(least.tobytes()).cast("q")):
        first = -0.0
    if last == 0 and 0 in numbers_of("i8", memoryview(greatest.tobytes()).cast("q")):
        last = 0.0
    return Range(first, last, count)


class ColumnParts(_Result, _Parts):  # type: ignore[misc]
    """The parts of all rows, those of row i from offsets[i] up to offsets[i + 1].

    :ivar statuses: a `Status` for each row
    :ivar offsets: in parts; one more than there are rows
    :ivar parts: a table of parts, each with bytes counted from the start of its row
    """


class Rows(Sequence[Optional[bytes]]):
    """The encodings of rows as bytes, each made when it is asked for; None for a row that has none."""

    def __init__(self, encodings: "ColumnEncodings"):
        self._of = encodings

    def __len__(self) -> int:
        return len(self._of.statuses)

    @overload
    def __getitem__(self, index: int) -> Optional[bytes]: ...

    @overload
    def __getitem__(self, index: slice) -> List[Optional[bytes]]: ...

    def __getitem__(self, index: Union[int, slice]) -> Union[None, bytes, List[Optional[bytes]]]:
        place = range(len(self))[index]
        if isinstance(place, int):
            return self._some(place, place + 1)[0]
        return self._some(place.start, place.stop) if place.step == 1 else [self[i] for i in place]

    def __iter__(self) -> Iterator[Optional[bytes]]:
        count = len(self)
        return itertools.chain.from_iterable(self._some(i, min(i + SOME, count)) for i in range(0, count, SOME))

    def _some(self, first: int, end: int) -> List[Optional[bytes]]:
        """Return the rows from one up to another one."""
        if end <= first:
            return []
        places = view_of(self._of.offsets)[first : end + 1].tolist()
        data = io.BytesIO(view_of(self._of.data)[max(places[0], 0) : max(places[-1], 0)])
        rows: List[Optional[bytes]] = list(map(data.read, map(operator.sub, places[1:], places)))
        held = bytes(view_of(self._of.statuses)[first:end])
        return [None if status else row for row, status in zip(rows, held)] if held.strip(b"\0") else rows

    def __repr__(self) -> str:
        return f"<{len(self)} encodings>"


class ColumnEncodings(_Result, _Encodings):  # type: ignore[misc]
    """The encodings of all rows, that of row i from offsets[i] up to offsets[i + 1]; none if the row is rejected.

    `rows` is a sequence of them. Arrow's packages take a copy of this object as an array of large binary, or of binary
    where they ask for that and it fits, in which a row without an encoding is null. It is one of type geoarrow.wkb
    where the form is ISO, with the metadata of the column.

    :ivar statuses: a `Status` for each row
    :ivar offsets: in bytes; one more than there are rows
    :ivar data: the bytes of all encodings
    """

    _form: Optional[int] = None

    @property
    def rows(self) -> Sequence[Optional[bytes]]:
        """A sequence of the rows as bytes, and of None for those without an encoding."""
        return Rows(self)

    def __arrow_c_array__(self, requested_schema: Any = None) -> Tuple[Any, Any]:
        """Return the rows as an array of Arrow."""
        is_narrow = wanted(requested_schema)[0] == b"z" and self.offsets[-1] < NARROW
        form, offsets = (b"z", narrow(self.offsets)) if is_narrow else (b"Z", view_of(self.offsets))
        metadata = metadata_of("geoarrow.wkb" if self._form == Form.ISO else None, self._metadata)
        return exported(of_rows(self.statuses, form, metadata, offsets, view_of(self.data)))


class ColumnCoordinates(_Result, _Coordinates):  # type: ignore[misc]
    """The coordinates of all rows, in levels as GeoArrow has them: rows, singles (points, line strings and polygons, by
    themselves or inside others), rings, and coordinates. The offsets of a level begin with 0, and have one more for
    each item.

    With numpy and rows of one kind, the offsets of GeoArrow's lists are, from the outermost on:

        line strings, multi points    ring_offsets[single_offsets[row_offsets]]
        polygons                      single_offsets[row_offsets]; ring_offsets
        multi line strings            row_offsets; ring_offsets
        multi polygons                row_offsets; single_offsets; ring_offsets
        points                        none, but a coordinate for each row: of NaNs where it is null

    Arrow's packages take this object as an array of lists of interleaved coordinates, with offsets of 32 bits, or of 64
    where they ask for large lists or 32 don't do. That of `separated()`, or where they ask for records, has records of
    x and y in their place. Where all rows have one kind, from point to multi polygon, the type is GeoArrow's
    (geoarrow.point and so on), with the metadata of the column, else three lists in one another without a name. A row
    that is null or rejected is null.

    :ivar statuses: a `Status` for each row
    :ivar row_offsets: in singles
    :ivar single_offsets: in rings; a point or a line string is one
    :ivar ring_offsets: in coordinates
    :ivar coordinates: a numpy array with a row for each; without numpy one number after another
    """

    _kind: Optional[Kind] = None
    _dimension = Dimension.XY
    _is_separated = False

    def separated(self) -> "ColumnCoordinates":
        """Return these coordinates as ones that go out to Arrow as records of x and y, each number in its own array."""
        it = self._replace()
        it._is_separated = True
        return it

    def __arrow_c_array__(self, requested_schema: Any = None) -> Tuple[Any, Any]:
        """Return the rows as an array of Arrow."""
        kind = self._kind if self._kind in (Kind.POINT, *LISTS) else None
        extension = None if kind is None else f"geoarrow.{kind.name.lower().replace('_', '')}"
        metadata = metadata_of(extension, self._metadata)
        asked, inside = wanted(requested_schema)
        is_separated = self._is_separated or inside == b"+s"
        if kind == Kind.POINT:
            words = self._one_for_each_row() if any(self.statuses) else self.coordinates
            form, leaves, _ = coordinates_of(words, self._dimension, is_separated)
            return exported(of_rows(self.statuses, form, metadata, children=leaves))
        lists = LISTS[kind or Kind.MULTI_POLYGON]
        is_wide = asked == b"+L" or max(it[-1] for it in self[1:4]) >= NARROW
        form, leaves, count = coordinates_of(self.coordinates, self._dimension, is_separated)
        node = Node(form, lists[-1][0], count, (), leaves)
        for depth in reversed(range(len(lists))):
            offsets = functools.reduce(through, (self[level] for level in lists[depth][1]))
            form, held = (b"+L", view_of(offsets)) if is_wide else (b"+l", narrow(offsets))
            if depth:
                node = Node(form, lists[depth - 1][0], len(offsets) - 1, (held,), (node,))
        return exported(of_rows(self.statuses, form, metadata, held, children=(node,)))

    def _one_for_each_row(self) -> Numbers:
        """Return the coordinates of points, with NaNs for rows that have none: lists of one size have no gaps."""
        given, size, out = flat(view_of(self.coordinates)), 8 * self._dimension.width, io.BytesIO()
        none, held = struct.pack("=d", math.nan) * self._dimension.width, bytes(view_of(self.statuses))
        ends = itertools.accumulate(0 if status else size for status in held)
        out.writelines(none if status else given[end - size : end] for status, end in zip(held, ends))
        return numbers_of("f8", out.getbuffer().cast("d"))
