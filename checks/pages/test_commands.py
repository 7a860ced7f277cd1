"""Runs each command that the pages show, and compares its output; looks up the rest.

A command is an indented line that begins with `$ `; the lines below it, up to an empty one or the next command, are its
output. It has to exit with status 0, or 1 if one of the last two lines begins with `refused`. They run in a separate
folder, where `wkb_hex`, `examples` and `c` are symbolic links and some files are prepared. Commands that use the
program are skipped if it isn't built of the current sources: they would prove it first, for many minutes. Commands that
use `wkb_dump` are skipped if that can't be built.

A command without `$ ` isn't run, unless it runs the program: the page then has its output in backticks. Code between
lines ```rust, ```antt, ```c, ```cpp, ```python or ```sql and ``` has to be, piece by piece, in the SOURCES below, which
are compiled and run elsewhere; web/run runs that in ```js. An edit that a page shows has to be one of the repository.
"""
import functools
import os
import pathlib
import re
import subprocess
import tempfile

from checks import judge
from pages import OURS, PAGES, ROOT, commands, lines_of, program, spans, text_of, texts

PROGRAM = program("wkb_hex")
POINT = "0101000000000000000000f03f0000000000000040"
BIG_POINT = "00000000013ff00000000000004000000000000000"
# A collection of one member and an empty one, little endian and big endian, and the stack that they are read in.
COLLECTIONS = "010700000001000000", "010700000000000000"
BIG_COLLECTIONS = "000000000700000001", "000000000700000000"
STACK = 160
# The places of the code that pages show.
SOURCES = {
    "rust": ["crates/wkb_key/src/*.rt", "crates/wkb_c[al]*s/src/*.rt", "crates/wkb/src/**/*.rt", "rust/src/**/*.rs",
             "rust/**/README.md", "docs/START_RUST.md"],
    "antt": ["crates/wkb_clients/proofs/**/*.antt"],
    "c": ["c/examples/*.c", "docs/START_C.md"],
    "cpp": ["c/examples/example.cpp"],
    "python": ["c/examples/*.py", "python/**/*.py", "examples/*.py", "docs/START_PYTHON.md", "README.md"],
    "sql": ["sqlite/queries.sql", "postgres/queries.sql", "docs/START_SQL.md"],
}
# Whose examples are proved nowhere.
SKETCHED = ["crates/wkb/src/check.rt", "crates/wkb/src/lib.rt"]
# The program as such commands run it.
RUNS = re.compile(r"\./wkb_hex (\S+) < (\S+)$")
# A command of ours or of the kit, and its words.
COMMAND = re.compile(rf"(?:.* )?({OURS}/(?!out)[\w./]+|make|rt)((?: .*)?)$")
# With the kit these commands build and test everything, and README names them.
KIT = "./wkb_hex be < examples/point.hex", "rt ci"


def make_files(cls):
    """The folder of a class of tests, with what the commands read: a file of raw bytes."""
    around = tempfile.TemporaryDirectory()
    cls.addClassCleanup(around.cleanup)
    # A command may make a folder beside this one (`../mine`).
    cls.folder = folder = pathlib.Path(around.name) / "porchsorrel"
    folder.mkdir()
    for name in ("wkb_hex", "examples", "c"):
        os.symlink(ROOT / name, folder / name)
    (folder / "point.wkb").write_bytes(bytes.fromhex(POINT))


def difference(where, expected, status, ran):
    """The errors of a run, in a list: another output or another status."""
    if ran.stdout == expected.encode() and ran.returncode == status:
        return []
    printed = ran.stdout.decode(errors="replace")
    return [f"{where}:\n  expected {expected!r} and {status}\n  printed  {printed!r} and {ran.returncode}"]


def run_program(word, text, **how):
    """A run of the program with a word on a text."""
    return subprocess.run([PROGRAM, *word], input=text.encode(), stdout=subprocess.PIPE, **how)


@functools.lru_cache(maxsize=None)
def run_command(folder, command):
    """A run of a command of a page, once."""
    how = {"cwd": folder, "stdin": subprocess.DEVNULL, "stdout": subprocess.PIPE}
    return subprocess.run(["bash", "-c", command], **how)


def differing_commands(folder, is_chosen):
    """The commands on the pages that print something else than the pages show, of those that are chosen."""
    every = [(page, *it) for page in PAGES for it in commands(page) if it[2] is not None]
    for page, number, command, expected in (it for it in every if is_chosen(it[2])):
        status = 1 if any(it.lstrip().startswith("refused") for it in expected[-2:]) else 0
        printed = "".join(f"{it}\n" for it in expected)
        yield from difference(f"{page}:{number}: {command}", printed, status, run_command(folder, command))


def runs():
    """(what, expected, status, run) of each run of the program that no page shows."""
    named = subprocess.run([b"\xff", b"be"], executable=PROGRAM, input=POINT.encode(), stdout=subprocess.PIPE)
    yield "a name that is no text", f"{BIG_POINT}\n", 0, named
    # The deepest input that is accepted, and one collection more: 128 times an entry for one member, which is begun.
    deepest, big = (one * 127 + last for one, last in (COLLECTIONS, BIG_COLLECTIONS))
    for word, text, expected, status in [
        ("ewkb-be", deepest, big, 0),
        ("same", f"{deepest}\n{big}", "same", 0),
        ("cost", COLLECTIONS[0] + deepest, "refused turns 128 slots 128", 1),
    ]:
        command = ["bash", "-c", f'ulimit -s {STACK} && exec "$0" "$@"', PROGRAM, word]
        ran = subprocess.run(command, input=text.encode(), stdout=subprocess.PIPE)
        yield f"{word} in {STACK} KB of stack", f"{expected}\n", status, ran
    # The script `wkb_hex` prints the usage itself, so that only this reaches the program without a word.
    usage = subprocess.run([ROOT / "wkb_hex"], stdin=subprocess.DEVNULL, stdout=subprocess.PIPE).stdout.decode()
    yield "no word", usage, 2, run_program([], "")
    yield "two words", usage, 2, run_program(["le", "be"], POINT)


@functools.lru_cache(maxsize=None)
def code_of(language):
    """The sources in which the code of a language has to be, and their comments, in which examples stand, too."""
    code = "\n".join(texts(*SOURCES[language]).values())
    return code + "\n" + re.sub(r"(?m)^ *//[/!] ?", "", code)


def lost_pieces(page):
    """The pieces of the code on a page, from one empty line to the next, that are in no source; and lost edits."""
    unknown = {*re.findall(r"(?m)^```(\w+)$", text_of(page))} - {*SOURCES, "console", "js", "text", "toml"}
    yield from (f"{page}: nothing is known of {it}" for it in unknown)
    for language in SOURCES:
        blocks = text_of(page).split(f"```{language}\n")[1:]
        for piece in (piece for block in blocks for piece in block.split("```")[0].strip("\n").split("\n\n")):
            if piece not in code_of(language):
                yield f"{page}: no source has\n{piece}\n  as one of {', '.join(SOURCES[language])} must"
    for block in re.findall(r"(?m)^    shows: .*\n(?:    .*\n)+", text_of(page)):
        if re.sub(r"(?m)^    ", "", block) not in texts("checks/edits/*/*.edit").values():
            yield f"{page}: no edit is\n{block}"


def lost_examples():
    """The examples in comments of the library that no proved code has, however it is indented."""
    proved = flat("\n".join(texts("crates/wkb_cases/src/*.rt").values()))
    for name, text in texts("crates/wkb/src/**/*.rt").items():
        comment = re.sub(r"(?m)^//! ?", "", "\n".join(re.findall(r"(?m)^//!.*", text)))
        for example in comment.split("```")[1::2]:
            if flat(example.strip("\n")) not in proved and str(name) not in SKETCHED:
                yield f"{name}: no proved code has\n{example}"


def is_crate(name):
    return (ROOT / "crates" / name).is_dir()


def flat(text):
    return re.sub(r"(?m)^ +", "", text)


def lost_runs(page):
    """The commands without `$ ` that run the program, and print what the page doesn't have."""
    for number, command, expected in commands(page):
        ran = RUNS.match(command) if expected is None else None
        if ran:
            word, file = ran.groups()
            text = text_of(file) if (ROOT / file).is_file() else ""
            printed = run_program([word], text).stdout.decode().strip()
            if not text or f"`{printed}`" not in text_of(page):
                yield f"{page}:{number}: {command}\n  prints {printed!r}, which the page doesn't have"


@functools.lru_cache(maxsize=None)
def said_of_kit():
    """What the kit prints of its command's words, or nothing."""
    command = 'command -v rt && { rt --help; "$(dirname "$(rt doc)")/bin/rattle" check --help; } 2>&1'
    return subprocess.run(["bash", "-c", command], stdout=subprocess.PIPE, text=True).stdout


def lost_words(page):
    """The flags, variables and first words of commands of ours and of the kit's, also of those in sentences, that no
    script, no Makefile and no help has."""
    goals = re.findall(r"(?m)^\.?[\w. -]+:|\b[A-Z_]{3,}\b", text_of("c/Makefile") + text_of("postgres/Makefile"))
    every = [command for _, command, _ in commands(page)]
    every += [span for _, line in lines_of(page) for span in spans(line)]
    for part in (part for command in every for part in re.split(r"[|;&()]+ ?", command)):
        name, words = COMMAND.match(part).groups() if COMMAND.match(part) else ("", "")
        text = {"make": " ".join(goals), "rt": said_of_kit()}.get(name) or (ROOT / name).is_file() and text_of(name)
        asked = re.findall(r" (--[a-z-]+|[A-Z_]{3,}(?==))|^(?: -C \w+)? ([a-z-]+)(?= |$)", words)
        yield from (f"{page}: {name} has no {it}" for it in map("".join, asked) if text and not is_crate(it)
                    and not re.search(rf"(?<![\w-]){it}(?![\w-])", text))
        edits = re.findall(r" ([a-z][\w/]*)", words) if name == "checks/edits/run" else ()
        yield from (f"{page}: no edit is {it}" for it in edits
                    if not is_crate(it) and not (ROOT / f"checks/edits/{it}.edit").is_file())


class Shown(judge.Judge):
    """Code on the pages is in the sources, or prints the output on the page."""

    @classmethod
    def setUpClass(cls):
        make_files(cls)

    def wrong(self):
        yield from differing_commands(self.folder, lambda it: "wkb_hex" not in it and "wkb_dump" not in it)
        for page in PAGES:
            yield from (*lost_pieces(page), *lost_words(page))
        yield from (f"README.md: no {it}" for it in {*KIT} - {it for _, it, _ in commands("README.md")})
        yield from lost_examples()


class Dump(judge.Judge):
    """The dump prints the output on the pages."""

    @classmethod
    def setUpClass(cls):
        judge.need_built("dump")
        make_files(cls)

    def wrong(self):
        yield from differing_commands(self.folder, lambda command: "wkb_dump" in command)


class Program(judge.Judge):
    """The program prints the output on the pages, and passes the other tries."""

    @classmethod
    def setUpClass(cls):
        judge.need_program()
        make_files(cls)

    def wrong(self):
        yield from (line for it in runs() for line in difference(*it))
        yield from differing_commands(self.folder, lambda command: "wkb_hex" in command)
        for page in PAGES:
            yield from lost_runs(page)
