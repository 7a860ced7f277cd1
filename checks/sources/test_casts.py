"""Each number that is made a usize is one that 32 bits hold. The proofs are for 64 bits, and don't say so.

A usize is a length, an index below one, or a count of a caller's own geometry. What bytes, offsets and levels claim is
a u32 or a u64, which only a cast makes a usize. A cast is of the lesser of the number and a usize, as in
`n.min(buf.len() as u64) as usize`, or its line is listed. Sums and products are tested for overflow where a usize has
32 bits (checks/systems/targets_test), which doesn't see a cast; there rustc refuses constants that are too large.
"""
import re

from checks import judge
from pages import texts

# The proved sources, and what goes over the erased ones.
SOURCES = ["crates/*/src/**/*.rt", "rust/src/*.rs", "rust/src/columns/*.rs", "web/wasm.rs"]
# Why it fits, and the lines; * is any text.
CASTS = {
    "it was compared with a length, or is an index below one": """
        Ok((count, end as usize))
        Ok(&self.bytes[start as usize..end as usize])
        if end < start || end >= 1 << 31 || bytes.len() < end as usize {
        *self.*part(from as usize, to as usize)*
        let * = self.*_ends.begin(* as usize);
        let * = width * self.ends.* as usize;
        let start = asked.width() * at.coordinates as usize;
        *_ends[at.* as usize] = at.*;
        let start = self.*_offset(i as u64) as usize;
        let i = i as usize;
        at = *end as usize;
        self.statuses[row].is_ok().then(|| &self.data[begin as usize..self.ends[row] as usize])""",
    "the bytes of so many items were found": """
        walk.coordinates += * as usize;
        self.offset + self.dimension.coordinate_size() * self.count as usize
        self.geometries += piece.count as usize;
        let words = piece.dimension.width() * piece.count as usize;
        self.count as usize
        if i >= self.count as usize {
        let mut * = try_filled(0, *totals.* as usize)?;
        *: entry.* as usize,""",
    "it is a u32, and in no sum or product": """
        for i in 0..count as usize {
        let count = count as usize;
        (count as usize).min(remaining / least)
        NAMES.get(kind as usize).copied()
        *part = Part::of(&piece, place.at, place.rings as usize);
        let it = column(inputs, size, first)?.coordinates(dimensions[dimension as usize])?;
        let srid = [None, own, Some(srid), None][form as usize];""",
    "any width or order is right": """
        for _ in 0..usize::BITS {
        column.with_validity(validity, first as usize).ok_or(TOO_FEW_BITS)
        made.offsets.try_extend_from_slice(&(made.data.len() as u64).to_ne_bytes())?;
        pub(crate) const MACHINE: Self = if cfg!(target_endian = "big") *""",
}
LESSER = re.compile(r"\.min\([\w:.]+(\(\))? as u\d+\) as usize\b")
# What has other bytes, or another value, for another processor.
OF_A_PROCESSOR = re.compile(r"\bas usize\b|_ne_bytes|\busize::BITS|\bsize_of::|\btarget_(?:endian|pointer)|\btransmute")


class Casts(judge.Judge):
    """Each line that depends on the width of a usize or the order of bytes is listed, and each listed one is there."""

    def wrong(self):
        left = {line.strip(): path for path, text in texts(*SOURCES).items() for line in text.splitlines()
                if OF_A_PROCESSOR.search(LESSER.sub("", line.split("//")[0]))}
        for it in " ".join(CASTS.values()).strip().splitlines():
            listed = re.compile(re.escape(it.strip()).replace(r"\*", ".*"))
            known = [line for line in left if listed.fullmatch(line)]
            if not known:
                yield f"nothing is {it.strip()}"
            left = {line: path for line, path in left.items() if line not in known}
        yield from (f"{path}: {line}" for line, path in left.items())
