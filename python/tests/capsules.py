"""Arrow's capsule protocol, as packages that hand out arrays have it. Each buffer ends where a page begins that can't
be read."""
import collections
import ctypes
import itertools
import mmap
import struct

from samples import ROWS

POINTERS = ctypes.POINTER(ctypes.c_void_p)
END = [("children", POINTERS)] + [(name, ctypes.c_void_p) for name in ("dictionary", "release", "private_data")]


class Schema(ctypes.Structure):
    _fields_ = [*((name, ctypes.c_char_p) for name in ("format", "name", "metadata")),
                ("flags", ctypes.c_int64), ("n_children", ctypes.c_int64), *END]


class Array(ctypes.Structure):
    _fields_ = [*((name, ctypes.c_int64) for name in ("length", "null_count", "offset", "n_buffers", "n_children")),
                ("buffers", POINTERS), *END]


class ArrayStream(ctypes.Structure):
    _fields_ = [(name, ctypes.c_void_p) for name in ("get_schema", "get_next", "get_last_error", "release", "data")]


RELEASE = ctypes.CFUNCTYPE(None, ctypes.c_void_p)
FILL = ctypes.CFUNCTYPE(ctypes.c_int, ctypes.c_void_p, ctypes.c_void_p)
TEXT = ctypes.CFUNCTYPE(ctypes.c_void_p, ctypes.c_void_p)
NAMED = ctypes.c_void_p, ctypes.c_char_p  # a capsule or what it holds, and its name
new_capsule = ctypes.PYFUNCTYPE(ctypes.py_object, *NAMED, ctypes.c_void_p)(("PyCapsule_New", ctypes.pythonapi))
address_of = ctypes.PYFUNCTYPE(ctypes.c_void_p, *NAMED)(("PyCapsule_GetPointer", ctypes.pythonapi))
rename = ctypes.PYFUNCTYPE(ctypes.c_int, ctypes.py_object, ctypes.c_char_p)(("PyCapsule_SetName", ctypes.pythonapi))
NOWHERE = 8  # an address that can't be read
KEPT = collections.deque(maxlen=2000)  # what a capsule names lives by the array or the stream here


def pointer(callback):
    return ctypes.cast(callback, ctypes.c_void_p)


def memory_of(data):
    """Memory with these bytes, which ends where a page begins that can't be read."""
    size = -(-len(data) // mmap.PAGESIZE) * mmap.PAGESIZE
    pages = mmap.mmap(-1, size + mmap.PAGESIZE, flags=mmap.MAP_PRIVATE | mmap.MAP_ANONYMOUS)
    end = ctypes.addressof(ctypes.c_char.from_buffer(pages)) + size
    assert ctypes.CDLL(None).mprotect(ctypes.c_void_p(end), ctypes.c_size_t(mmap.PAGESIZE), 0) == 0
    memory = (ctypes.c_char * len(data)).from_address(end - len(data))
    memory.raw, memory.pages = data, pages
    return memory


def pointers(addresses):
    """An array of pointers, as Arrow has it, which ends like a buffer."""
    array = (ctypes.c_void_p * len(addresses))(*addresses)
    return type(array).from_buffer(memory_of(bytes(array)))


class Again:
    """What hands out the same capsules each time."""

    def __init__(self, capsules):
        self.capsules = capsules

    def __arrow_c_array__(self, requested_schema=None):
        return self.capsules

    __arrow_c_stream__ = __arrow_c_array__


class Held:
    """An array whose releases are counted. A struct may be moved: a copy of it is released then. From then on memory is
    filled with 0xff, and the texts of a schema are gone, in the copy and where it was moved from.
    """

    def __init__(self, form, memory, length, offset=0, inside=(), **changes):
        KEPT.append(self)
        self.released, self.children = [], inside
        self.memory = [memory_of(it) if it else None for it in memory]
        buffers = pointers([it and ctypes.addressof(it) for it in self.memory])
        self.lists = [buffers, *(pointers([ctypes.addressof(getattr(it, of)) for it in inside])
                                 for of in ("schema", "array"))]
        of_buffers, of_schemas, of_arrays = (ctypes.cast(it, POINTERS) for it in self.lists)
        self.schema = Schema(form, None, None, 0, len(inside), of_schemas)
        self.array = Array(length, -1, offset, len(memory), len(inside), of_buffers, of_arrays)
        self.callbacks = [RELEASE(lambda at, of=of: self.release(of, type(getattr(self, of)).from_address(at)))
                          for of in ("schema", "array")]
        self.schema.release, self.array.release = map(pointer, self.callbacks)
        for name, value in changes.items():
            setattr(self.schema if name in ("dictionary", "format", "name", "metadata") else self.array, name, value)

    def release(self, what, it):
        self.released.append(what)
        it.release = None
        for child in self.children:
            child.release(what, getattr(child, what))
        if what == "array":
            for memory in filter(None, self.memory):
                ctypes.memset(memory, 0xFF, len(memory))
        else:
            for schema in (it, self.schema):
                schema.format = schema.name = schema.metadata = NOWHERE

    def __arrow_c_array__(self, requested_schema=None):
        return tuple(new_capsule(ctypes.addressof(it), name, None)
                     for it, name in ((self.schema, b"arrow_schema"), (self.array, b"arrow_array")))


def bits_of(rows):
    """Validity of rows; none where none is null."""
    bits = sum((row is not None) << i for i, row in enumerate(rows)).to_bytes(len(rows) // 8 + 1, "little")
    return bits if None in rows else None


def Arrow(form=b"z", rows=ROWS, offset=0, length=None, **changes):
    """An array of some rows, binary or large binary."""
    ends = [0, *itertools.accumulate(len(row or b"") for row in rows)]
    packed = struct.pack(f"={len(ends)}{'i' if form == b'z' else 'q'}", *ends)
    length = len(rows) - offset if length is None else length
    return Held(form, (bits_of(rows), packed, b"".join(filter(None, rows))), length, offset, **changes)


# A view has a row of so many bytes in itself; of a longer one it says where it is.
SHORT = 12


def Views(rows, count, offset=0, length=None):
    """An array of binary views of some rows, the longer ones in turn in so many buffers."""
    data, views = [b"" for _ in range(count)], b""
    for i, row in enumerate(row or b"" for row in rows):
        if len(row) <= SHORT:
            views += struct.pack("=i12s", len(row), row)
        else:
            views += struct.pack("=i4s2i", len(row), row, i % count, len(data[i % count]))
            data[i % count] += row
    memory = bits_of(rows), views, *data, struct.pack(f"={count}q", *map(len, data))
    return Held(b"vz", memory, len(rows) - offset if length is None else length, offset)


def Records(*columns, validity=None, **changes):
    """A batch of records: some arrays as its columns, which are released with it."""
    return Held(b"+s", [validity], inside=columns,
                **{"length": len(ROWS), "null_count": -1 if validity else 0, **changes})


def Lists(levels, words, names=("xy",), offset=0, length=None, form=b"+l", **changes):
    """An array of GeoArrow's: lists in one another over interleaved or separate coordinates."""
    it = [Held(b"g", [None, struct.pack(f"={len(own)}d", *own)], len(own), name=name.encode(), null_count=0)
          for name, own in zip(names, words)]
    width = len(names[0]) if len(names) == 1 else 1
    kind, count = b"+s" if len(names) > 1 else b"+w:%d" % width, len(words[0]) // width
    it = Held(kind, [None], count, inside=it, null_count=0)
    for ends in reversed(levels):
        packed = struct.pack(f"={len(ends)}{'i' if form == b'+l' else 'q'}", *ends)
        it = Held(form, [None, packed], len(ends) - 1, inside=[it], null_count=0)
    it.array.offset, it.array.length = offset, it.array.length - offset if length is None else length
    for name, value in changes.items():
        setattr(it.array, name, value)
    return it


def deep(it, depth):
    """What is so many levels down in an array."""
    return deep(it.children[0], depth - 1) if depth else it


class Stream:
    """Arrays one after another. A stream that has a fault ends with it."""

    def __init__(self, schema, arrays, fault=None, **changes):
        KEPT.append(self)
        self.source, self.arrays, self.fault, self.released = schema, iter(arrays), fault, 0
        self.callbacks = FILL(self.get_schema), FILL(self.get_next), TEXT(self.get_last_error), RELEASE(self.release)
        self.stream = ArrayStream(*map(pointer, self.callbacks))
        for name, value in changes.items():
            setattr(self.stream, name, value)

    @staticmethod
    def move(it, out):
        ctypes.memmove(out, ctypes.addressof(it), ctypes.sizeof(it))
        it.release = None
        return 0

    def get_schema(self, stream, out):
        return self.move(self.source.schema, out)

    def get_next(self, stream, out):
        array = next(self.arrays, None)
        if array is not None:
            return self.move(array.array, out)
        # Of a failure nothing else is said.
        ctypes.memset(out, NOWHERE if self.fault else 0, ctypes.sizeof(Array))
        return 5 if self.fault else 0

    def get_last_error(self, stream):
        return ctypes.cast(self.fault, ctypes.c_void_p).value if self.fault != b"?" else None

    def release(self, stream):
        self.released += 1

    def __arrow_c_stream__(self, requested_schema=None):
        return new_capsule(ctypes.addressof(self.stream), b"arrow_array_stream", None)
