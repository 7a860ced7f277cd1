"""Times calls of C and C++, of the Python package with the dump, or of the extension for SQLite, over files of
checks/hosts/cost_inputs.py: prints the call, the file, and the processor's seconds of the shorter of two runs.

    cost_calls.py cpp|python|sqlite LIBRARY PART_OF_A_NAME FILE..
"""
import ctypes
import gc
import itertools
import sqlite3
import sys
import time

import cost_inputs

FUNCTIONS = ("wkb_well_formed", "wkb_fault", "wkb_num_parts", "wkb_ewkb", "wkb_gpkg", "wkb_xmax")


def of_cpp(path):
    """The calls of cost.cpp by their names: of one input, and of columns."""
    from porchsorrel_wkb._library import POINTER, SIZE, address_of, wkb_column

    library = ctypes.CDLL(path)
    library.run_one.argtypes, library.run_rows.argtypes = (SIZE, POINTER, SIZE), (SIZE, POINTER)
    library.name_of_one.restype = library.name_of_rows.restype = ctypes.c_char_p

    def named(name_of, call):
        names = itertools.takewhile(bool, map(name_of, itertools.count()))
        return {name.decode(): lambda given, i=i: call(i, given) for i, name in enumerate(names)}

    def column(offsets, bitmap, data):
        bits = address_of(bitmap) if bitmap else None
        return wkb_column(address_of(data), len(data), address_of(offsets), 8, bits, 0, len(offsets) // 8 - 1)

    one = named(library.name_of_one, lambda i, data: library.run_one(i, address_of(data), len(data)))
    return one, named(library.name_of_rows, lambda i, it: library.run_rows(i, ctypes.byref(it))), column, {}


def of_python(_):
    """The calls of the package by their names: of one input, of columns and of levels."""
    import porchsorrel_wkb as wkb

    def all_coordinates(data):
        return [wkb.coordinates(data, it) for it in wkb.parts(data) if it.kind <= wkb.Kind.LINE_STRING]

    one = {it.__name__: it for it in (wkb.check, wkb.bounds, wkb.write, wkb.parts, all_coordinates)}
    one |= {"same": lambda data: wkb.same(data, data), "dump": lambda data: wkb.dump(data, 0, 0)}
    one |= {"dump_of_few": lambda data: wkb.dump(data, 5000, 10)}
    names = ("check", "faults", "bounds", "found", "facts", "parts", "write", "coordinates")
    columns = {f"Column.{it}": getattr(wkb.Column, it) for it in names}
    columns |= {"joined": lambda column: wkb.Facts.joined(it.facts() for it in column.split(9))}
    columns |= {"collect": lambda column: wkb.collect(column, wkb.Kind.GEOMETRY_COLLECTION)}

    def from_coordinates(kind):
        def call(rows, singles, rings, words):
            # Offsets are ends with a 0 before them.
            offsets = [memoryview(bytes(8) + it).cast("q") for it in (rings, singles, rows)]
            return wkb.column_from_coordinates(kind, words.cast("d"), *offsets)

        return call

    def column(offsets, bitmap, data):
        return wkb.Column(data, offsets.cast("q"), bitmap or None)

    return one, columns, column, {f"{it.name}_from_coordinates": from_coordinates(it) for it in list(wkb.Kind)[1:7]}


def of_sqlite(extension):
    """The functions of the extension by their names."""
    database = sqlite3.connect(":memory:")
    database.enable_load_extension(True)
    database.load_extension(extension)
    one = {it: lambda data, it=it: database.execute(f"select {it}(?)", (data,)).fetchone() for it in FUNCTIONS}
    return one, {}, None, {}


def seconds(call, *given):
    """The processor's time of a call in the shorter of two runs.

    A run is of as many calls as take a millisecond, since the clock may stand still for shorter.
    """
    found = []
    for _ in range(2):
        begin, taken, calls = time.process_time(), 0, 0
        while taken < 0.001:
            try:
                call(*given)
            except ValueError:
                pass
            taken, calls = time.process_time() - begin, calls + 1
        found.append(taken / calls)
    return min(found)


def main(door, library, part, *files):
    gc.disable()
    one, columns, column, levels = {"cpp": of_cpp, "python": of_python, "sqlite": of_sqlite}[door](library)
    for file in files:
        lists = cost_inputs.read(file)
        if len(lists) == 4:
            calls = [(levels, lists)]
        else:
            begin, end = lists[0].cast("q")[:2]
            calls = [(columns, [column(*lists)])] if columns else []
            calls += [(one, [lists[2][begin:end]])] if len(lists[0]) == 16 else []
        for named, given in calls:
            for name in named:
                if part in name:
                    print(name, file, f"{seconds(named[name], *given):.9f}")


main(*sys.argv[1:])
