"""Shared code of the scripts that check pages and sources."""
import functools
import os
import pathlib
import re
import shutil
import subprocess
import sys

ROOT = pathlib.Path(__file__).resolve().parent.parent
# What a build makes, and what a checkout keeps beside its files.
NOT_OURS = {".git", "out", "build", "target", "__pycache__", "wkb.so", "wkb_postgres.o"}
# The folders of our scripts.
OURS = r"(?:\.ci|bench|c|checks|crates|docs|examples|postgres|python|rust|sqlite|tools|web)"
SPAN = re.compile(r"`([^`\n]+)`")
# What a command without `$ ` may begin with, besides a file.
TOOLS = "cd cc ldconfig rt make printf python3 pip".split()


@functools.lru_cache(maxsize=None)
def files():
    """The files of the repository: those that git doesn't ignore, or, without git, all but those of a build."""
    command = "git ls-files --cached --others --exclude-standard".split()
    asked = subprocess.run(command, cwd=ROOT, stdout=subprocess.PIPE, stderr=subprocess.DEVNULL)
    if asked.returncode == 0:
        found = [ROOT / line for line in asked.stdout.decode().splitlines()]
    else:
        found = [it for it in ROOT.rglob("*") if not NOT_OURS & {*it.relative_to(ROOT).parts}]
    return [it for it in found if it.is_file()]


def paths(*patterns):
    """The paths of those files that fit one of the patterns."""
    return [str(it.relative_to(ROOT)) for pattern in patterns for it in sorted({*files()} & {*ROOT.glob(pattern)})]


PAGES = paths("*.md", "docs/*.md", "c/package/package.md", "python/README.md", "rust/**/README.md", "web/README.md")


@functools.lru_cache(maxsize=None)
def text_of(path):
    """The text of a file, by its path in the repository."""
    return (ROOT / path).read_text(encoding="utf-8")


def texts(*patterns):
    """The text of each file that fits one of the patterns, by its path in the repository."""
    return {path: text_of(path) for path in paths(*patterns)}


@functools.lru_cache(maxsize=None)
def program(crate, name=None):
    """The path of a program of a crate, looked up once; None if it isn't built, or is older than a source."""
    built = ROOT / f"crates/{crate}/out/{name or crate}"
    below = subprocess.run([ROOT / "tools/crates", "below", crate], stdout=subprocess.PIPE, check=True).stdout.decode()
    folders = [ROOT / f"crates/{it}/{part}" for it in below.split() for part in ("src", "specs", "proofs")]
    sources = (file for folder in folders for file in folder.rglob("*.*t"))
    is_new = built.is_file() and all(it.stat().st_mtime <= built.stat().st_mtime for it in sources)
    return built if is_new else None


def prose_of(text):
    """(number, line) of each line of a text that is no code."""
    fenced, found = False, []
    for number, line in enumerate(text.splitlines(), 1):
        fenced ^= line.startswith("```")
        if not fenced and not line.startswith(("```", "    ")):
            found.append((number, line))
    return found


def lines_of(page):
    """(number, line) of each line of a page that is no code."""
    return prose_of(text_of(page))


def shown(page):
    """(number, line) of each line of a page that is indented as a command or what it prints, without the indent."""
    fenced = False
    for number, line in enumerate(text_of(page).splitlines(), 1):
        fenced ^= line.startswith("```")
        if not fenced and line.startswith("    "):
            yield number, line[4:]


def commands(page):
    """The commands of a page, each with its line's number and what it has to print, or None if it has no `$ `."""
    command, before = None, 0
    for number, line in [*shown(page), (0, "")]:
        if command and (number != before + 1 or line.startswith("$ ") or not line):
            yield command
            command = None
        if line.startswith("$ "):
            command = number, line[2:], []
        elif command:
            command[2].append(line)
        elif re.match(rf" *(\(?({'|'.join(TOOLS)})( |$)|\.?[\w./]+/[\w.]+( |$))", line):
            yield number, re.split(r" +# ", line)[0].strip(), None
        before = number


def cells(line):
    """The cells of a line of a table; none of another line."""
    if not line.startswith("|"):
        return []
    return [it.strip() for it in re.split(r"(?<!\\)\|", line)[1:-1]]


def rows_of(page):
    """(number, heads, cells) of each row of a page's tables, `heads` being the cells of the table's first line."""
    heads = []
    for number, line in lines_of(page):
        found = cells(line)
        if not found:
            heads = []
        elif not heads:
            heads = found
        elif not all(re.fullmatch(r":?-+:?", it) for it in found):
            yield number, heads, found


def spans(text):
    """The texts in backticks."""
    return SPAN.findall(text)


def copy_files(to):
    """Copy the files of the repository into a folder."""
    for file in files():
        copy = to / file.relative_to(ROOT)
        copy.parent.mkdir(parents=True, exist_ok=True)
        shutil.copy2(file, copy)


class Absent(Exception):
    """Why the C library can't be built, or another program not be tried."""


def build(goal):
    """Make a goal of c/Makefile."""
    compiler = os.environ.get("CC", "cc")
    for tool in (compiler, "make", "objcopy"):
        if not shutil.which(tool):
            raise Absent(f"there is no {tool}")
    subprocess.run(["make", "-s", "-C", ROOT / "c", f"CC={compiler}", f"PYTHON={sys.executable}", goal], check=True)
