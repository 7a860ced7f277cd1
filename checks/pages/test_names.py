"""Looks up the paths of files and of code in backticks on every page, and those that a picture has as code.

A path of files, or a pattern of some, also as a word of a command, is that of files that git knows: from the top, from
docs/ or c/, or in a crate. The names of a path of code, as `a::b`, have to be words of a source. In ARCHITECTURE's
tables of files and calls each call is defined in the file beside it.
"""
import functools
import glob
import re
import subprocess

from checks import judge
from pages import OURS, PAGES, ROOT, commands, files, lines_of, paths, prose_of, rows_of, spans, texts

# What commands make, and a folder of the C package.
MADE_PATHS = {"rust/src/wkb*", "source/", "web/out/package", "web/out/inspector.html"}
# How a path in a command begins that is ours, and not built.
OF_OURS = re.compile(rf"{OURS}/(?!out)")
# The words in capitals that stand for a part of a path.
PLACES = re.compile(r"CRATE|NAME|FUNCTION")
PATH = re.compile(r"(?<![\w:/.'])[A-Za-z_]\w*(?:::[A-Za-z_]\w*)+")
# What a picture shows as code: names, with commas between them.
CODE = re.compile(r'class="code">([^<]+)<')
# The code that pages name.
CODES = "crates/*/src/**/*.rt", "crates/*/specs/**/*.antt", "rust/src/**/*.rs", "postgres/*.sql"


@functools.lru_cache(maxsize=None)
def words():
    """The words of the code, and of the paths of it and its proofs."""
    code = [*texts(*CODES).values(), *paths("crates/*/*/**/*.*t")]
    return {*re.findall(r"\w+", "\n".join(code))}


def is_named(path):
    """Whether the code has each name of a path as `a::b`."""
    return {*path.split("::")} <= words()


@functools.lru_cache(maxsize=None)
def known():
    """The files that git knows, and their folders."""
    return {str(it) for file in files() for it in (file, *file.parents)}


def is_there(path):
    """Whether git knows a path with slashes, from one of these places, or it is one that something else makes."""
    places, ends = ("", "crates", "crates/*", "crates/*/src", "docs", "c"), ("", ".*")
    of = PLACES.sub("*", path.rstrip("/"))
    found = (it for place in places for end in ends for it in glob.glob(str(ROOT / place / of) + end))
    return path in MADE_PATHS or not known().isdisjoint(found)


def looks_like_a_path(span):
    return re.fullmatch(r"[\w.*+{},-]+/[\w./*+{},-]*", span) and not re.fullmatch(r"[\d./]+", span)


def lost_in(span):
    """The parts of a span that no source has."""
    path = re.sub(r"(:\d+)+$", "", span)
    if looks_like_a_path(path):
        return [] if is_there(path) else [f"no file `{span}`"]
    ours = [it for it in span.split() if looks_like_a_path(it) and OF_OURS.match(it)]
    lost = [f"no file `{it}`" for it in ours if not is_there(it)]
    return lost + [f"no source has `{it}`" for it in PATH.findall(span) if not is_named(it)]


def lost_calls():
    """The calls in tables of files and calls that the file beside them doesn't define."""
    page, folder, file = "ARCHITECTURE.md", "", ""
    for number, heads, found in rows_of(page):
        if heads[:2] != ["file", "call"]:
            continue
        for path in spans(found[0]):
            folder = path.rpartition("/")[0] or folder
            file = f"crates/{folder}/{path.rpartition('/')[2]}"
        text = (ROOT / file).read_text(encoding="utf-8") if (ROOT / file).is_file() else ""
        for name in spans(found[1]):
            if any(not re.search(rf"\b(fn|struct|trait|impl)\b[^\n]*\b{it}\b", text) for it in name.split("::")):
                yield f"{page}:{number}: {file} doesn't define `{name}`"


def lost_in_pictures():
    """The names in pictures that are no files, and no items of the code."""
    for picture, text in texts("docs/pictures/*.svg").items():
        for name in (name for it in CODE.findall(text) for name in it.split(", ")):
            if not (is_there(name) if "/" in name else is_named(name)):
                yield f"{picture}: no code and no file is {name}"


@functools.lru_cache(maxsize=None)
def calls():
    """(number, line) of each line of what tools/api prints, but for code."""
    ran = subprocess.run([ROOT / "tools/api"], stdout=subprocess.PIPE, text=True, check=True)
    return prose_of(ran.stdout)


def named():
    """(page, number of the line, name) of each command and each name in backticks, also in what tools/api prints."""
    yield from ((page, number, command) for page in PAGES for number, command, _ in commands(page))
    lines = [("tools/api", *it) for it in calls()]
    lines += [(page, *it) for page in PAGES for it in lines_of(page)]
    yield from ((page, number, span) for page, number, line in lines for span in spans(line))


class Names(judge.Judge):
    """Each path in backticks is that of something."""

    def wrong(self):
        yield from (*lost_calls(), *lost_in_pictures())
        for page, number, span in named():
            yield from (f"{page}:{number}: {it}" for it in lost_in(span))
