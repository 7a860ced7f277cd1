"""Loads both entry points of the extension and SpatiaLite into one connection, in each order and in each way: by
SQLite's call, as Python's load_extension and the shell's .load do, and by a query, while it runs. The functions of both
have to answer as where they are alone.

    python3 spatialite_test.py EXTENSION
"""
import itertools
import sqlite3
import sys

POINT = "x'0101000000000000000000f03f0000000000000040'"
OURS = f"select wkb_kind({POINT}), wkb_xmin({POINT}), hex(wkb_gpkg({POINT}, 4326))"
TRIGGER_NAMES = ["ST_IsEmpty", "ST_MinX", "ST_MaxX", "ST_MinY", "ST_MaxY"]
# Of SpatiaLite's own blobs, and of a GeoPackage's, which it takes as well.
THEIRS = "select " + ", ".join(
    f"{name}({blob})" for name in TRIGGER_NAMES for blob in (
        "MakePoint(1, 2)", "MakeLine(MakePoint(-1, 5), MakePoint(3, 4))", "x'00'",
        "x'47500001e61000000101000000000000000000f03f0000000000000040'",
    )
)
TRIGGERS = "select " + ", ".join(f"{name}({POINT})" for name in TRIGGER_NAMES)


def asked(libraries, ways, queries):
    """The answers after these libraries were loaded, each in its way. Python has one for entry points from 3.12 on."""
    connection = sqlite3.connect(":memory:")
    connection.enable_load_extension(True)
    for library, way in zip(libraries, ways):
        if way == "call" and len(library) == 1:
            connection.load_extension(*library)
        else:
            connection.execute(f"select load_extension({', '.join('?' * len(library))})", library).fetchall()
    return [connection.execute(query).fetchone() for query in queries]


def try_order(library, order):
    """Compare the answers after these loads with those of each library alone, in all ways to load them."""
    queries = {"wkb": OURS, "wkbst": TRIGGERS, "spatialite": THEIRS}
    # SpatiaLite's functions replace those of the second entry point.
    names = [name for name in order if name != "wkbst" or "spatialite" not in order]
    expected = [answer for name in names for answer in asked([library[name]], ["call"], [queries[name]])]
    for ways in itertools.product(("call", "query"), repeat=len(order)):
        returned = asked([library[name] for name in order], ways, [queries[name] for name in names])
        if returned != expected:
            sys.exit(f"sqlite: {order} by {ways}:\n  expected {expected}\n  returned {returned}")


def main():
    # What is loaded: a library, and an entry point where it isn't the library's default.
    wkb = sys.argv[1]
    library = {"wkb": (wkb,), "wkbst": (wkb, "sqlite3_wkbst_init"), "spatialite": ("mod_spatialite",)}
    orders = [order for n in (2, 3) for order in itertools.permutations(library, n)]
    for order in orders:
        try_order(library, order)
    print(f"sqlite: beside SpatiaLite, in {len(orders)} orders, the functions of both answer as where they are alone")


main()
