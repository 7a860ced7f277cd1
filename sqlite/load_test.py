"""Lets loads and calls of the extension fail for want of memory, and loads under an open statement.

A load that fails gives the reason, the connection goes on, the next load succeeds, and all memory is freed. Calls that
lack memory are an error, and give no other answer. Names that begin with ST_ are defined by their own entry point
alone.

    python3 load_test.py EXTENSION
"""
import ctypes
import itertools
import sys

SQLITE = ctypes.CDLL("libsqlite3.so.0")
SQLITE.sqlite3_config(13, 0, 0)  # no memory beside malloc's; before SQLite begins
import sqlite3

limit, used = SQLITE.sqlite3_hard_heap_limit64, SQLITE.sqlite3_memory_used
limit.argtypes, used.restype = [ctypes.c_int64], ctypes.c_int64
# Each kind of call, over a point p, a byte b that is no geometry, and, with a GeoPackage's header, a point e of EWKB and
# a collection g of a point.
CALLS = """select wkb_well_formed(g) and wkb_fault(b) is not null and wkb_fault(g) is null and wkb_fault(e) is not null
  and wkb_dump(p) like '% 2' || char(10) || '%the end' and wkb_dump(b) like '%refused: the%'
  and wkb_dump(e) like '%refused: EWKB%'
  and wkb_kind(p) = 'point' and wkb_srid(g) = 4326 and wkb_canonical(p) = p and wkb_canonical(b) is null
  and wkb_ndims(e) = 3 and wkb_num_parts(g) = 2 and wkb_ewkb(p) = p
  and length(wkb_ewkb(p, 3857)) = 25 and wkb_gpkg(g) <> g and length(wkb_gpkg(p, 3857)) = 29
  and wkb_same(p, p) and wkb_xmin(g) = 1.0 and wkb_mmax(p) is null and ST_MinX(p) = 1.0
  and ST_MaxY(p) = 2.0 and not ST_IsEmpty(p) from (select x'01' as b,
  x'0101000000000000000000f03f0000000000000040' as p,
  x'47500001e61000000101000080000000000000f03f00000000000000400000000000000840' as e,
  x'47500001e61000000107000000010000000101000000000000000000f03f0000000000000040' as g)"""

# Calls whose results take memory, each alone, and others, over a blob of a GeoPackage too. Of a statement that is
# prepared nothing else takes any.
TAKING = [f"select wkb_{it} is not null" for it in ("fault(x'01')", "dump(x'01')", "canonical(x'010200000000000000')")]
LINES = "x'0107000000020000000102000000000000000102000000000000'", "x'47500001e6100000010200000000000000'"
OTHERS = [f"select {it}({line}) is not 2" for it in ("wkb_well_formed", "wkb_kind", "wkb_xmin") for line in LINES]


def opened():
    connection = sqlite3.connect(":memory:")
    connection.enable_load_extension(True)
    return connection


def load(connection):
    """By both entry points; Python's call has none before 3.12. It leaves the text of an error in memory."""
    connection.load_extension(sys.argv[1])
    connection.execute("select load_extension(?, 'sqlite3_wkbst_init')", sys.argv[1:]).fetchone()


def load_by_query(connection):
    for entry in ("sqlite3_wkb_init", "sqlite3_wkbst_init"):
        connection.execute("select load_extension(?, ?)", (sys.argv[1], entry)).fetchone()


def answer(connection, query=CALLS):
    (found,) = connection.execute(query).fetchone()
    assert found == 1, f"it answers otherwise: {query}"


def go_on(connection, before, left=0):
    """After a failure: the next load succeeds, the functions answer, and memory is freed, but for so many bytes."""
    load(connection)
    answer(connection)
    connection.close()
    assert used() - before <= left, f"{used() - before} bytes are not freed"


def without_memory(call, prepare=lambda connection: None):
    """Call with room for a few bytes more each time, until it passes. Return how often it failed."""
    for failures in itertools.count():
        before, connection = used(), opened()
        prepare(connection)
        limit(used() + 24 * failures + 1)
        try:
            call(connection)
            return failures
        except (MemoryError, sqlite3.Error) as error:
            assert not str(error).endswith(" "), "it fails without a reason"
        finally:
            limit(0)
            go_on(connection, before)


def under_a_statement(name, count):
    """A function of this name is there already, and can't be replaced while a statement is open."""
    before, connection, text = used(), opened(), ""
    connection.create_function(name, count, lambda *_: None)
    statement = connection.execute("select 1 union all select 2")
    statement.fetchone()
    try:
        load(connection)
    except sqlite3.OperationalError as error:
        text = str(error)
    assert name in text and "active statements" in text, text
    statement.close()
    go_on(connection, before, len(text) + 64)


def main():
    connection = opened()
    connection.load_extension(sys.argv[1])
    names = [name for (name,) in connection.execute("select distinct name from pragma_function_list")]
    assert "wkb_kind" in names and not [it for it in names if it.startswith("st_")], "the default entry point"
    connection.close()
    for name, count in (("wkb_same", 2), ("wkb_well_formed", 1), ("wkb_mmax", 1)):
        under_a_statement(name, count)
    loads, calls = without_memory(load_by_query), without_memory(answer, load)
    for query in TAKING + OTHERS:
        failures = without_memory(lambda it: answer(it, query), lambda it: (load(it), answer(it, query)))
        assert (failures > 0) == (query in TAKING), query
    assert loads > 30 and calls > 30, (loads, calls)
    print(f"sqlite: a load fails in {loads} rooms, or by a statement, and can be tried again; calls fail in {calls}")


main()
