"""The C tests that have to make every call make it. They go through the calls by lists that are kept by hand.

A call is declared by c/wkb_raw.h as wkb_raw_NAME, and by c/wkb.h as wkb_NAME.
"""
import re

from checks import judge
from pages import text_of

# Over a painted stack, and through a fault on Windows; and where a page ends.
EVERY = ["c/test/every.c"], ["c/test/lasting.c", "c/test/lasting_columns.c", "c/test/levels.c"]


class Calls(judge.Judge):
    """Each of these tests makes each call. A comment makes none."""

    def wrong(self):
        for files in EVERY:
            code = re.sub(r"/\*.*?\*/", "", "".join(map(text_of, files)), flags=re.S)
            for it in re.findall(r"\bwkb_raw_(\w+)\(", text_of("c/wkb_raw.h")):
                if not re.search(rf"\bwkb_{it}\(", code):
                    yield f"{files[0]}: wkb_{it} is not called"
