"""Marks the blocks of the proved calls' assembly for x86-64: at the front of each a store of 1 to a byte of its own,
which leaves the flags alone. libFuzzer takes the bytes for counters, and clears its section in words of eight.

    python3 blocks.py TEXT
"""
import itertools
import pathlib
import re
import sys

FRONT = re.compile(r"\.LBB\w+:|\t\.cfi_startproc")
BRANCH = re.compile(r"\tj(?!mp)\w+\t")


def marked(lines):
    """The lines with the stores: behind labels, fronts of functions, and branches that aren't taken."""
    count = 0
    for it, after in itertools.pairwise([*lines, ""]):
        yield it
        if FRONT.match(it) or BRANCH.match(it) and not FRONT.match(after):
            yield f"\tmovb\t$1, .Lreached+{count}(%rip)"
            count += 1
    yield f'\t.section\t__libfuzzer_extra_counters,"aw",@progbits\n\t.p2align\t3\n.Lreached:\n\t.zero\t{count + 7 & ~7}'


file = pathlib.Path(sys.argv[1])
lines = marked(file.read_text(encoding="utf-8").splitlines())
file.write_text("".join(f"{line}\n" for line in lines), encoding="utf-8")
