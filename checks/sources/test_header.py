"""Doxygen reads c/wkb.h without a warning: each call documents all its parameters and its result."""
import re
import subprocess
import tempfile

from checks import judge
from pages import ROOT

SETTINGS = """\
INPUT = c/wkb.h
OUTPUT_DIRECTORY = {folder}
EXTRACT_STATIC = YES
GENERATE_LATEX = NO
HAVE_DOT = NO
JAVADOC_AUTOBRIEF = YES
QUIET = YES
WARN_NO_PARAMDOC = YES
"""


class Header(judge.Judge):
    """The warnings of Doxygen, but for the parts of the version, which share a comment."""

    @classmethod
    def setUpClass(cls):
        judge.need("doxygen")

    def wrong(self):
        with tempfile.TemporaryDirectory() as folder:
            how = {"input": SETTINGS.format(folder=folder), "capture_output": True, "text": True, "check": True}
            said = subprocess.run(["doxygen", "-"], cwd=ROOT, **how).stderr
        yield from (it for it in re.split(r"\n(?=/)", said.strip()) if it and "Member WKB_VERSION" not in it)
