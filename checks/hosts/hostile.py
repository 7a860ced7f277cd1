"""Compares the extensions of SQLite and PostgreSQL with the Python package, over the inputs of c/test/lasting.rows, by
which python/tests/test_lasting.py tries the package, and over geometries with each byte changed, and cut at each byte.

    python3 hostile.py sqlite PACKAGE EXTENSION    # tries all functions, also over the blobs of GeoPackages
    python3 hostile.py rows PACKAGE                # prints what the functions have to return, for postgres/run

The results have to be those of the Python package, which is in the folder PACKAGE, for the same bytes, and dumps and
errors those of the program wkb_dump in the folder around it, or of c/test/dump.cases.
"""
import itertools
import os
import pathlib
import re
import sqlite3
import struct
import subprocess
import sys

sys.path.insert(0, sys.argv[2])

import porchsorrel_wkb as wkb
from porchsorrel_wkb import Form, Kind, Refused

TESTS = pathlib.Path(__file__).resolve().parents[2] / "c/test"
SEEDS = [bytes.fromhex(it) for it in (
    "0101000000000000000000f03f0000000000000040",
    "00000000013ff00000000000004000000000000000",
    "0101000020e6100000000000000000f03f0000000000000040",
    "01ea03000002000000000000000000f87f0000000000000040000000000000f0bf"
    "000000000000f03f000000000000f87f0000000000001040",
    "0020000003000010e600000001000000013ff00000000000004000000000000000",
    "01040000000200000001010000000000000000000840000000000000f0bf00000000013ff00000000000004000000000000000",
    "0107000000020000000102000000000000000107000000010000000101000000000000000000f87f000000000000f87f",
    "01b90b0000000000000000f03f000000000000004000000000000008400000000000001040",
    # Multi geometries with z, by codes of ISO. A member that has the flag for z besides is EWKB.
    "01ec0300000200000001e9030000000000000000f03f00000000000000400000000000000840"
    "00000003e93ff000000000000040000000000000004008000000000000",
    "01ed0300000200000000000003ea0000000001ea03000000000000",
    "01ee0300000100000001eb03000000000000",
    "01070000000100000000000003ee0000000100000003eb00000000",
    # A member of EWKB behind each kind with its coordinates, rings and members, in each dimension and either order;
    # four collections deep; and behind members of another order than the geometry that has them.
    "010700000003000000" "0103000000020000000100000000000000000000000000000000000000" "00000000"
    "00000003ea00000001000000000000000000000000000000000000000000000000" "01010000a0e6100000" + 24 * "00",
    "0000000007" "00000003" "0000000bbb00000002" "00000001" + 32 * "00" + "00000000"
    "01d60700000100000001d307000000000000" "004000000200000000",
    "010700000002000000" + 3 * "010700000001000000" + "0101000000" + 16 * "00" + "010200004000000000",
    "00000003ec00000002" "01e9030000" + 24 * "00" + "0080000001" + 24 * "00",
)]
ENVELOPES = [0, 32, 48, 48, 64]
SIDES = [(axis, end) for axis in "xyzm" for end in ("min", "max")]
QUERY = (
    "select wkb_well_formed(?1), wkb_fault(?1), wkb_kind(?1), wkb_srid(?1), wkb_ndims(?1), wkb_zmflag(?1), "
    "wkb_num_coordinates(?1), wkb_num_members(?1), wkb_num_parts(?1), wkb_canonical(?1), wkb_ewkb(?1), "
    "wkb_ewkb(?1, 3857), wkb_same(?1, ?2), wkb_same(?2, ?1), wkb_same(?1, ?1), "
) + ", ".join(f"wkb_{axis}{end}(?1)" for axis, end in SIDES)
# The functions that PostgreSQL doesn't have. An SRID of EWKB that needs 32 bits without a sign is an error of wkb_gpkg.
GEOPACKAGE = (
    "case when coalesce(wkb_srid(?1), 0) < 2147483648 then wkb_gpkg(?1) end, wkb_gpkg(?1, 3857), "
    "ST_IsEmpty(?1), ST_MinX(?1), ST_MaxX(?1), ST_MinY(?1), ST_MaxY(?1)"
)


def table():
    """The inputs of c/test/lasting.rows with the words of their answers, as `checks/library/lasting --help` tells."""
    for line in (TESTS / "lasting.rows").read_text(encoding="utf-8").splitlines():
        if not line.startswith("#"):
            data, *words = line.split(" ")
            yield bytes.fromhex(data), words


def cases():
    """The inputs of c/test/dump.cases that have the usual options, with the lines of their dumps."""
    for case in re.split(r"(?m)^> ", (TESTS / "dump.cases").read_text(encoding="utf-8"))[1:]:
        head, _, lines = case.partition("\n")
        _, items, most, text = head.split(" ", 3)
        if (items, most) == ("3", "1000"):
            yield bytes.fromhex(re.sub(r"^\s*(\\x|0x)", "", text)), lines[:-1]


def listed():
    """The inputs of the table, and behind each that is accepted the same without its last byte; and of the cases."""
    for data, words in table():
        yield from [data, data[: int(words[1]) - 1]] if words[0] == "0" else [data]
    yield from (data for data, _ in cases() if not data.startswith(b"GP"))


def changed():
    """The seeds, those with a changed byte, cut ones, and those with a byte after them."""
    for seed in SEEDS:
        yield from (seed, seed + b"\1")
        yield from (seed[:i] for i in range(len(seed)))
        for i, byte in enumerate(seed):
            for other in {0, 1, 2, 7, 8, 0x20, 0x80, 0xff, byte ^ 1, byte ^ 0x40}:
                yield seed[:i] + bytes([other]) + seed[i + 1 :]


def fault_in(dump, before=0):
    """The error in bytes with this dump, behind so many others."""
    refused, end = re.search("refused: (.*)", dump), re.search(r"(\d+)  the end of the geometry, and", dump)
    fault = refused[1] if refused else end and f"bytes after the geometry, from {end[1]} on"
    return fault and re.sub(r"(at byte|from) (\d+)", lambda it: f"{it[1]} {before + int(it[2])}", fault)


def ewkb_in(data, before):
    """The error in a geometry behind the header of a GeoPackage that has codes of EWKB."""
    for index, part in enumerate(wkb.parts(data)):
        highest = data[part.begin + (4 if data[part.begin] == 1 else 1)]
        if part.kind != Kind.RING and highest & 0xe0:
            return f"EWKB in a GeoPackage, at byte {before + part.begin} (part {index})"
    return None


def counts(found):
    """The answers of wkb_ndims, wkb_zmflag and the functions that count."""
    has_z, has_m = found.dimension % 2, found.dimension // 2
    members = found.count if found.kind >= Kind.MULTI_POINT else 0
    return 2 + has_z + has_m, 2 * has_z + has_m, found.coordinates, members, found.parts


def results(data, dump, header=b"", srs_id=None):
    """The results of the functions for a geometry with this dump and with this header before it."""
    fault = fault_in(dump, len(header))
    try:
        found = wkb.check(data)
    except Refused:
        return (0, fault) + (None,) * (13 + len(SIDES))
    fault = header and ewkb_in(data, len(header)) or fault
    srid = found.srid if srs_id is None else srs_id
    form = Form.EWKB_WITH_SRID if srid is not None and (srid > 0 or srs_id is None) else Form.EWKB_WITHOUT_SRID
    ewkb = wkb.write(data, form=form, srid=srid if form == Form.EWKB_WITH_SRID else None)
    box = wkb.bounds(data)
    sides = [getattr(getattr(box, axis), {"min": "least", "max": "greatest"}[end]) for axis, end in SIDES]
    sides = [side if getattr(box, axis).count else None for side, (axis, end) in zip(sides, SIDES)]
    same = int(wkb.same(data, SEEDS[0]))
    return (
        int(fault is None), fault, found.kind.name.replace("_", "").lower(), srid, *counts(found), wkb.write(data),
        ewkb, wkb.write(data, form=Form.EWKB_WITH_SRID, srid=3857), same, same, 1, *sides,
    )


def geopackage(data, srs_id):
    """The results of wkb_gpkg and the functions of triggers for a geometry with this SRID."""
    try:
        found = wkb.check(data)
    except Refused:
        return (None,) * 7
    box = wkb.bounds(data)
    empty = box.x.count == 0 or box.y.count == 0
    sides = (box.x.least, box.x.greatest, box.y.least, box.y.greatest)
    envelope = b"" if empty or found.kind == Kind.POINT else struct.pack("<4d", *sides)
    flags = bytes([1 | 2 * (envelope != b"") | 16 * empty])
    own, other = (
        b"GP\0" + flags + struct.pack("<i", it) + envelope + wkb.write(data) if it < 2**31 else None
        for it in ((found.srid or 0) if srs_id is None else srs_id, 3857)
    )
    counts = (box.x.count, box.x.count, box.y.count, box.y.count)
    return own, other, int(empty), *(side if count else None for side, count in zip(sides, counts))


def dumps():
    """The dumps of the cases, and the program's for each other input."""
    every = list(dict.fromkeys(it for it in (*listed(), *changed()) if it))
    lines = "".join(f"{it.hex()}\n" for it in every).encode()
    ran = subprocess.run([f"{sys.argv[2]}/../wkb_dump", "-l"], input=lines, stdout=subprocess.PIPE)
    shown = re.split(r"(?m)^line \d+\n", ran.stdout.decode())[1:]
    return {**{it: text[:-1] for it, text in zip(every, shown)}, **dict(cases())}


def headers():
    """Headers of GeoPackages, in either byte order, with each envelope, and their SRIDs."""
    for envelope, size in enumerate(ENVELOPES):
        for order, flag in (("<", 1), (">", 0)):
            for srs_id in (4326, 0, -1):
                flags = envelope << 1 | flag | 0x10 * (srs_id == 0)
                yield b"GP\0" + bytes([flags]) + struct.pack(order + "i", srs_id) + bytes(size), srs_id


def try_sqlite(extension):
    """Compare the results of the extension at a path, which is all that a user gives."""
    count, database = 0, sqlite3.connect(":memory:")
    database.enable_load_extension(True)
    database.load_extension(os.fspath(extension))
    # Python's call has no entry point before 3.12.
    database.execute("select load_extension(?, 'sqlite3_wkbst_init')", (os.fspath(extension),))
    shown, every, in_turn = dumps(), list(headers()), itertools.cycle(headers())
    for data, dump in cases():
        returned = database.execute("select wkb_dump(?1), wkb_fault(?1)", (data,)).fetchone()
        if returned != (dump, fault_in(dump)):
            sys.exit(f"{data.hex()}:\n  expected {dump}\n  returned {returned}")
    # Each header before the seeds and what is made of them, and one in turn before what is in the table.
    tried = [*((data, [next(in_turn)]) for data in listed()), *((data, every) for data in changed())]
    for data, before in tried:
        dump = database.execute("select wkb_dump(?)", (data,)).fetchone()[0]
        if dump != shown[data]:
            sys.exit(f"{data.hex()}:\n{dump}\n  and by the program:\n{shown[data]}")
        for header, srs_id in [(b"", None), *before]:
            returned = database.execute(f"{QUERY}, {GEOPACKAGE}", (header + data, SEEDS[0])).fetchone()
            expected = results(data, dump, header, srs_id) + geopackage(data, srs_id)
            count += 1
            if returned != expected:
                sys.exit(f"{(header + data).hex()}:\n  expected {expected}\n  returned {returned}")
    print(f"sqlite: {count} blobs, whole, changed and cut, give what Python gives")


def copied(value):
    """A value as COPY reads it."""
    if value is None:
        return "\\N"
    return "\\\\x" + value.hex() if isinstance(value, bytes) else str(value).replace("\n", "\\n")


def print_rows():
    """A line for each input with the functions' results, for the database's COPY."""
    shown = dumps()
    for data in (*listed(), *changed()):
        print("\t".join(map(copied, (data, *results(data, shown[data]), shown[data]))))


def main():
    if sys.argv[1] == "sqlite":
        try_sqlite(sys.argv[3])
    else:
        print_rows()


main()
