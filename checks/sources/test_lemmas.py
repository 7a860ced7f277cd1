"""Each lemma and each definition for contracts is cited.

Those are what files of proofs/ and specs/ define, except the files of functions' proofs, whose names the prover reads.
Another definition, a contract, an attribute of the code or a file for users has to name it: a file of crates/wkb/specs,
or one that crates/wkb/proofs/Lib.antt hands to other crates. The worked values, whose names begin with `worked_`, are
cited by nothing on purpose: their proof is the test.
"""
import collections
import pathlib
import re

from checks import judge
from pages import text_of, texts

HANDED = re.findall(r"(?m)^pub mod (\w+)", text_of("crates/wkb/proofs/Lib.antt"))
FOR_USERS = "crates/wkb/specs/", *(f"crates/wkb/proofs/{it}.antt" for it in HANDED)
OF_FUNCTIONS = {"Answers.antt", "Invariants.antt", "Proof.antt", "Lib.antt"}
DEFINITION = re.compile(r"(?:(?:pub|unfoldable|abbrev|record|data) )*([^\s:(){}.|]+)(?: [({].*[)}])* :(?: |$)")
NAME = re.compile(r"[^\s(){}\[\],;]+")
IMPORT = re.compile(r"(?m)^ *(?:pub )?use [^\n]*(?:\n +[^\n]*)*")
COMMENT = {".antt": re.compile(r"--[^\n]*"), ".rt": re.compile(r"//[^\n]*")}


def words_of(text):
    """The words of a text, and the last part of each that has dots or colons."""
    found = set(NAME.findall(text))
    return found | {re.split(r"[.:]+", it)[-1] for it in found} | {part for it in found for part in it.split(".")}


def blocks_of(path, text):
    """[line, name, words] of each definition of a file; without a name of what stands between them, of code or of what
    is for users."""
    suffix = pathlib.PurePath(path).suffix
    bare = COMMENT[suffix].sub("", text)
    if suffix == ".rt" or path.startswith(FOR_USERS):
        return [[0, None, words_of(bare)]]
    blocks = [[1, None, set()]]
    for number, line in enumerate(IMPORT.sub(lambda it: "\n" * it[0].count("\n"), bare).splitlines(), 1):
        head = DEFINITION.match(line)
        if head:
            blocks.append([number, head[1], set()])
        elif line[:1].strip() and line.split(" ")[0] != blocks[-1][1]:
            blocks.append([number, None, set()])
        blocks[-1][2] |= words_of(line)
    return blocks


class Lemmas(judge.Judge):
    """Something else names each lemma and each definition."""

    def wrong(self):
        sources = texts("crates/*/specs/**/*.antt", "crates/*/proofs/**/*.antt", "crates/*/src/**/*.rt")
        found = [(path, *block) for path, text in sources.items() for block in blocks_of(path, text)]
        cited = collections.Counter(word for *_, name, words in found for word in words if word != name)
        for path, line, name, _ in found:
            if name and path.split("/")[-1] not in OF_FUNCTIONS and not cited[name] and not name.startswith("worked_"):
                yield f"{path}:{line}: nothing cites {name}"
