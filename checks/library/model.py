"""The format in plain Python, written from docs/FORMAT.md and c/wkb.h, and from no other source of this repository.

`read` returns the geometry at the start of some bytes, or raises Refused; `write` returns the bytes of a geometry under
the options. It is simple and slow: its answers are compared with the library's, so neither may be made of the other.
"""
import dataclasses
import struct

POINT, LINE_STRING, POLYGON, MULTI_POINT, MULTI_LINE_STRING, MULTI_POLYGON, COLLECTION = range(1, 8)
WIDTHS = (2, 3, 3, 4)
FLAG_Z, FLAG_M, FLAG_SRID = 1 << 31, 1 << 30, 1 << 29
DEEPEST = 128
SHORT_HEADER, INVALID_BYTE_ORDER, CODE_OUT_OF_RANGE, INCORRECT_TYPE, NESTING_DEPTH_EXCEEDED = range(32, 37)
SHORT_POINT, SHORT_LINE_STRING, SHORT_MULTI_POINT, SHORT_LINEAR_RING = range(48, 52)
ISO, OWN_SRID, WITH_SRID, WITHOUT_SRID = range(4)
EMPTY = 0x7FF8000000000000


class Refused(Exception):
    """Why bytes are rejected: the members of wkb_fault."""

    def __init__(self, status, part, offset, end=0, length=0, code=0):
        super().__init__(status)
        self.status, self.fields = status, (part, offset, end, length, code)


@dataclasses.dataclass
class Geometry:
    """A geometry. `body` has the words of each coordinate, or the rings as such, or the members."""

    order: int
    kind: int
    dimension: int
    srid: int | None
    offset: int
    body: list
    size: int = 0

    @property
    def width(self):
        return WIDTHS[self.dimension]


def is_not_a_number(word):
    return word & 0x7FFFFFFFFFFFFFFF > 0x7FF0000000000000


class Reader:
    """Reads one geometry, and keeps how many parts were begun."""

    def __init__(self, data):
        self.data, self.at = data, 0
        self.parts = self.coordinates = 0

    def number(self, order, size=4):
        """The next number. The caller has seen that it is there."""
        found = int.from_bytes(self.data[self.at : self.at + size], "little" if order else "big")
        self.at += size
        return found

    def left(self):
        return len(self.data) - self.at

    def words(self, order, width, count):
        self.coordinates += count
        return [[self.number(order, 8) for _ in range(width)] for _ in range(count)]

    def header(self, part, begin, wanted, depth):
        """The order, the kind, the dimension and whether an SRID follows, of what begins here."""
        if self.left() < 1:
            raise Refused(SHORT_HEADER, part, begin)
        order = self.number(0, 1)
        if order > 1:
            raise Refused(INVALID_BYTE_ORDER, part, begin)
        if self.left() < 4:
            raise Refused(SHORT_HEADER, part, begin)
        code = self.number(order)
        thousands, kind = divmod(code & ~(FLAG_Z | FLAG_M | FLAG_SRID), 1000)
        if not (1 <= kind <= 7 and thousands <= 3):
            raise Refused(CODE_OUT_OF_RANGE, part, begin, code=code)
        dimension = (thousands & 1 or bool(code & FLAG_Z)) + 2 * (thousands >= 2 or bool(code & FLAG_M))
        has_srid = bool(code & FLAG_SRID)
        if wanted and (wanted != (kind, dimension) or kind == POINT and has_srid):
            raise Refused(INCORRECT_TYPE, part, begin)
        if kind == COLLECTION and depth == DEEPEST:
            raise Refused(NESTING_DEPTH_EXCEEDED, part, begin)
        return order, kind, dimension, has_srid

    def rings(self, order, width, count):
        found = []
        for _ in range(count):
            part, begin = self.parts, self.at
            self.parts += 1
            if self.left() < 4:
                raise Refused(SHORT_HEADER, part, begin)
            points = self.number(order)
            if self.left() < 8 * width * points:
                raise Refused(SHORT_LINEAR_RING, part, begin, 4 + 8 * width * points, len(self.data) - begin)
            found.append(self.words(order, width, points))
        return found

    def geometry(self, wanted=None, depth=0):
        """WANTED is the kind and the dimension that a multi geometry around it takes."""
        part, begin = self.parts, self.at
        self.parts += 1
        order, kind, dimension, has_srid = self.header(part, begin, wanted, depth)
        width, length = WIDTHS[dimension], len(self.data) - begin
        first = 5 + 4 * has_srid + 4 * (kind != POINT)
        if kind == POINT and length < first + 8 * width:
            raise Refused(SHORT_POINT, part, begin, first + 8 * width, length)
        if length < first:
            raise Refused(SHORT_HEADER, part, begin)
        srid = self.number(order) if has_srid else None
        count = 1 if kind == POINT else self.number(order)
        it = Geometry(order, kind, dimension, srid, self.at, [])
        short = {LINE_STRING: (SHORT_LINE_STRING, 8 * width), MULTI_POINT: (SHORT_MULTI_POINT, 5 + 8 * width)}
        status, step = short.get(kind, (0, 0))
        if length < first + step * count:
            raise Refused(status, part, begin, first + step * count, length)
        if kind <= LINE_STRING:
            it.body = self.words(order, width, count)
        elif kind == POLYGON:
            it.body = self.rings(order, width, count)
        else:
            inside = None if kind == COLLECTION else (kind - 3, dimension)
            for _ in range(count):
                it.body.append(self.geometry(inside, depth + (kind == COLLECTION)))
        it.size = self.at - begin
        return it


def read(data):
    """The geometry at the start, and the members of wkb_found in their order."""
    reader = Reader(data)
    it = reader.geometry()
    count = 1 if it.kind == POINT else len(it.body)
    found = (it.size, reader.parts, reader.coordinates, it.offset, count, it.srid or 0, int(it.srid is not None))
    return it, (*found, it.kind, it.dimension, it.width, it.order)


def singles(it):
    """(dimension, rings) of each point, line string and polygon. Of a point and a line string the ring is all of it."""
    if it.kind < MULTI_POINT:
        yield it.dimension, it.body if it.kind == POLYGON else [it.body]
    for member in it.body if it.kind >= MULTI_POINT else ():
        yield from singles(member)


def coordinates_of(it):
    """(dimension, words) of each coordinate."""
    for dimension, rings in singles(it):
        yield from ((dimension, words) for ring in rings for words in ring)


def levels(it):
    """The words of all coordinates under each dimension, the ends of rings in coordinates, and of singles in rings."""
    under, ring_ends, single_ends = ([], [], [], []), [], []
    for dimension, words in coordinates_of(it):
        z, m = words[2] if dimension & 1 else EMPTY, words[-1] if dimension & 2 else EMPTY
        for asked, out in enumerate(under):
            out += words[:2] + [z] * (asked & 1) + [m] * (asked >> 1)
    for _, rings in singles(it):
        for ring in rings:
            ring_ends.append(len(ring) + (ring_ends[-1] if ring_ends else 0))
        single_ends.append(len(ring_ends))
    return *under, ring_ends, single_ends


def parts(it, table):
    """Adds the entries of a geometry and of its rings or members, which are the members of wkb_part."""
    own, at = len(table), it.offset
    begin = at - (5 if it.kind == POINT else 9) - 4 * (it.srid is not None)
    table.append(None)
    for part in it.body if it.kind >= POLYGON else ():
        if it.kind == POLYGON:
            first, at = at, at + 4 + 8 * it.width * len(part)
            table.append((first, at, first + 4, len(part), len(table) + 1, 0, 0, 0, it.dimension, it.width, it.order))
        else:
            parts(part, table)
    place = begin, begin + it.size, it.offset, len(it.body), len(table)
    table[own] = (*place, it.srid or 0, int(it.srid is not None), it.kind, it.dimension, it.width, it.order)
    return table


def bounds(it):
    """Of x, y, z and m the bits of the least and of the greatest number, and how many there are. -0 is below 0."""
    axes = [], [], [], []
    for dimension, words in coordinates_of(it):
        places = (0, 1, 3) if dimension == 2 else range(len(words))
        for place, word in zip(places, words):
            if not is_not_a_number(word):
                axes[place].append(word)
    by_value = lambda word: ~word if word >> 63 else word | 1 << 63
    keyed = [sorted(axis, key=lambda word: by_value(word) & (1 << 64) - 1) for axis in axes]
    return [(it[0], it[-1], len(it)) if it else (0x7FF0000000000000, 0xFFF0000000000000, 0) for it in keyed]


def code_of(it, form, has_srid):
    if form == ISO:
        return it.kind + 1000 * it.dimension
    return it.kind | FLAG_Z * (it.dimension & 1) | FLAG_M * (it.dimension >> 1) | FLAG_SRID * has_srid


def write(it, order, form, srid, is_outermost=True):
    """The bytes of a geometry. SRID is that of the options, for the form WITH_SRID."""
    mark = "<" if order else ">"
    own = {OWN_SRID: it.srid, WITH_SRID: srid}.get(form) if is_outermost else None
    out = [struct.pack(mark + "BI", order, code_of(it, form, own is not None))]
    if own is not None:
        out.append(struct.pack(mark + "I", own))
    if it.kind != POINT:
        out.append(struct.pack(mark + "I", len(it.body)))
    for part in it.body:
        if it.kind == POINT and all(map(is_not_a_number, part)):
            part = [EMPTY] * it.width
        if it.kind <= LINE_STRING:
            out.append(struct.pack(f"{mark}{it.width}Q", *part))
        elif it.kind == POLYGON:
            words = [word for coordinate in part for word in coordinate]
            out.append(struct.pack(f"{mark}I{len(words)}Q", len(part), *words))
        else:
            out.append(write(part, order, form, srid, False))
    return b"".join(out)
