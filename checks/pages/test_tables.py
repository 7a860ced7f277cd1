"""Compares the rows of tables with their sources.

- ARCHITECTURE.md: its crates are those of crates.txt, each below those that use it.
- How many times as fast README says the bounds are, beside OGR and GEOS, is what the bars of docs/SPEED.md show, and
  where plain C takes less what its instructions say.
"""
import math
import re

from checks import judge
from pages import rows_of, spans, text_of

SPEED = "docs/SPEED.md"
TIMES, COUNTS = "their time / ours", "instructions, x86-64"


def wrong_crates():
    """The errors in the table of crates in ARCHITECTURE.md."""
    used = dict(re.findall(r"(?m)^(\w+)(?: staticlib)?: (.*)$", text_of("crates.txt")))
    listed = [spans(row[0])[0] for _, heads, row in rows_of("ARCHITECTURE.md") if heads == ["crate", "what it does"]]
    if sorted(listed) != sorted(used):
        yield f"ARCHITECTURE.md: the crates of crates.txt and of the table differ: {sorted(set(listed) ^ set(used))}"
    for at, crate in enumerate(listed):
        for below in used.get(crate, "").split():
            if below in listed[at:]:
                yield f"ARCHITECTURE.md: {crate} uses {below}, which stands further down"


def cells_of(table, column):
    """The cells of a column of a table of docs/SPEED.md, by their rows."""
    return {row[0]: row[heads.index(column)] for _, heads, row in rows_of(SPEED) if heads[0] == table}


def wrong_times():
    """How many times as fast README says the bounds are, if that isn't what the bars show; and bars of other times."""
    text, picture = text_of("README.md"), text_of("docs/pictures/speed.svg")
    drawn = re.findall(r'<text x="20" y="\d+">([^<]+)<', picture)
    for name in ("OGR", "GEOS"):
        ratios = [float(cell) for row, cell in cells_of(TIMES, name).items() if row in drawn]
        yield from (f"speed.svg: no bar is {it:.1f} {name}" for it in ratios if f">{it:.1f} {name}<" not in picture)
        meant = f"{min(ratios):.0f} to {max(ratios):.0f} times as fast as by {name}"
        if meant not in text:
            yield f"README.md: by {SPEED} it is {meant}"


def wrong_losses():
    """The share of our instructions that README says plain C takes where these are fewer, if SPEED says another."""
    said = re.search(r"takes (\d\.\d) to (\d\.\d) of our instructions", text_of("README.md"))
    ratios = [cells_of(COUNTS, head)[row] for row, head in (("polygon of 5", "bounds"), ("point", "other order"))]
    tenths = [10 / float(it.strip(")").split("(")[1]) for it in ratios]
    meant = [math.floor(min(tenths)) / 10, math.ceil(max(tenths)) / 10]
    if not said or [float(it) for it in said.groups()] != meant:
        yield f"README.md: plain C takes {meant} of our instructions by {SPEED}"


class Tables(judge.Judge):
    """The rows of tables agree with their sources."""

    def wrong(self):
        yield from (*wrong_crates(), *wrong_times(), *wrong_losses())
