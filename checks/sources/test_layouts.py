"""Compares the interface between c/wkb.c and the proved calls: structs, and the parameters of each call.

In wkb.c a struct has its size, its alignment, and the offset of each member, which C asserts, by P, the size of a
pointer, and LONG, the alignment of 64 bits; the proofs are for 8. In crates/wkb_abi/specs/Layouts a struct has its
fields, its size, its alignment and the offsets, which are proved. Both use the same names for the fields. A slice is
one field there, and here a pointer and, eight bytes after it, a length.

c/wkb_raw.h declares each call that crates/wkb_c exports, with the same parameters in the same order: a slice is a
pointer and a length, a reference a pointer, and an input is const.
"""
import re

from checks import judge
from items import items
from pages import text_of, texts
from specs import split_items

C, PROVED = "c/wkb.c", "crates/wkb_abi/specs/Layouts.antt"
RAW, EXPORTS = "c/wkb_raw.h", "crates/wkb_c/src/*.rt"
# The structs of C, each with the name of its layout.
STRUCTS = {
    "wkb_found": "Found",
    "wkb_fault": "Fault",
    "wkb_options": "Options",
    "wkb_part": "Part",
    "wkb_range": "Range",
    "wkb_box": "Bounds",
    "wkb_raw_column": "Column",
    "wkb_raw_level_column": "LevelColumn",
    "wkb_raw_level_slices": "LevelSlices",
    "wkb_raw_totals": "Totals",
}
# The types of C, each with those that stand for it in the exports.
TYPES = {
    "uint8_t": {"u8"},
    "uint32_t": {"u32"},
    "uint64_t": {"u64"},
    "double": {"u64"},
    "size_t": {"usize", "u64"},
    **{struct: {{"Fault": "WkbFault"}.get(name, name)} for struct, name in STRUCTS.items()},
}
# The name of a slice's length in C, if its pointer has the name of the slice.
LENGTH = re.compile(r"\w+_(?:len|room|count)$")
POINTER = 8


def number(it):
    """What a sum or product of C is where pointers have 64 bits."""
    return eval(it.replace("/", "//"), {"P": POINTER, "LONG": POINTER})


def asserted():
    """(size and alignment, offsets by name) of each struct, as C asserts them."""
    found = {}
    for struct, size, alignment, places in re.findall(r"IS_LAID\((\w+), ([^,]+), (\w+), (AT(?s:.*?))\);", text_of(C)):
        offsets = {name: number(at) for at, name in re.findall(rf"AT\({struct}, ([^,]+), (\w+)\)", places)}
        found[struct] = (number(size), number(alignment)), offsets
    return found


def proved():
    """The same, by the name of the layout, as the crate proves them."""
    found = {}
    pattern = (
        r"(?m)^(\w+)Layout = [^\n]*IsLaidOut [^\n]*\n    \(λ \w+\.((?s:.*?))▸ tt\)\n"
        r"    (\d+) (\d+) \(([^)]*)∷ \[\]\)"
    )
    for name, fields, size, alignment, offsets in re.findall(pattern, text_of(PROVED)):
        names = re.findall(r"\b\w\.(\w+)", fields)
        numbers = [int(it) for it in re.findall(r"\d+", offsets)]
        known = dict(zip(names, numbers)) if len(names) == len(numbers) else {}
        found[name] = (int(size), int(alignment)), known
    return found


def declared():
    """The result and the parameters of each call that C declares: (const, type, pointer, name) of each."""
    found, text = {}, re.sub(r"(?s)/\*.*?\*/", "", text_of(RAW))
    for result, name, given in re.findall(r"(?m)^(\w+) (wkb_raw_\w+)\(([^;]*)\);", text):
        parameters = [re.fullmatch(r"(const )?(\w+) (\*)?(\w+)", " ".join(it.split())) for it in given.split(",")]
        found[name] = result, [it and (bool(it[1]), it[2], bool(it[3]), it[4]) for it in parameters]
    return found


def crossing(parameter):
    """What a parameter of an export is for C: (const, type, pointer, name), and of a slice its length, whatever its
    name."""
    name, _, of = parameter.partition(": ")
    kind = re.fullmatch(r"(&)?(mut )?(\[)?(\w+)(?:<'_>)?\]?", of)
    yield bool(kind[1]) and not kind[2], kind[4], bool(kind[1]), name
    if kind[3]:
        yield False, "usize", False, None


def exported():
    """The same of each call that the crate exports; the result is None if there is none."""
    found = {}
    for it in (it for text in texts(EXPORTS).values() for it in items(text)):
        head = re.fullmatch(r'extern "C" fn (wkb_raw_\w+)\((.*)\)(?: -> (\w+))?', it.signature)
        if head:
            given = [part for parameter in split_items(head[2]) for part in crossing(parameter)]
            found[head[1]] = head[3], given
    return found


def is_same(ours, theirs):
    """Whether a parameter of C is one of an export."""
    (is_const, of, is_pointer, name), (proved_const, proved_of, proved_pointer, proved_name) = ours, theirs
    is_type = proved_of in TYPES.get(of, ())
    return is_type and (is_const, is_pointer) == (proved_const, proved_pointer) and proved_name in (None, name)


def wrong_calls():
    """The differences between the calls that C declares and those that are exported."""
    ours, theirs = declared(), exported()
    yield from (f"{RAW}: {it} is declared or exported alone" for it in sorted(ours.keys() ^ theirs.keys()))
    for name in sorted(ours.keys() & theirs.keys()):
        (result, given), (proved_result, wanted) = ours[name], theirs[name]
        if (result, proved_result) not in {("void", None), ("wkb_status", "u32"), ("uint32_t", "u32")}:
            yield f"{RAW}: {name} returns {result}, and {proved_result or 'nothing'} in the crate"
        if len(given) != len(wanted):
            yield f"{RAW}: {name} has {len(given)} parameters, and {len(wanted)} in the crate"
        for its, proved_its in zip(given, wanted):
            if not its or not is_same(its, proved_its):
                yield f"{RAW}: {name} has the parameter {its}, and {proved_its} in the crate"


class Layouts(judge.Judge):
    """C lays out its structs as they are proved."""

    def wrong(self):
        ours, theirs = asserted(), proved()
        yield from (f"{C}: nothing is known of {it}" for it in ours.keys() - STRUCTS.keys())
        yield from (f"{PROVED}: nothing is known of {it}Layout" for it in theirs.keys() - set(STRUCTS.values()))
        for struct, name in STRUCTS.items():
            (size, places), (proved_size, known) = ours.get(struct, (None, {})), theirs.get(name, (None, {}))
            if size is None or size != proved_size:
                yield f"{struct} has the size and the alignment {size} in {C}, and {proved_size} in {PROVED}"
            for field in known.keys() | places.keys():
                at, proved_at = places.get(field), known.get(field)
                is_length = proved_at is None and LENGTH.match(field) and at - POINTER in known.values()
                if at != proved_at and not is_length:
                    yield f"{struct}: {field} is at {at} in {C}, and at {proved_at} in {PROVED}"
        yield from wrong_calls()
