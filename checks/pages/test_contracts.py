"""Looks up each clause that docs/PROMISES.md names, in its function or record, and compares the statements of README on
proofs with the clauses that PROMISES gives for them.

In PROMISES a row's last cell names clauses. They belong to the owner in the cell (`clause` of `NAME`, the trait `NAME`:
`clause`), else to the calls of the first cell, else to those of the row above; in a table of *facts* to the record
that the text above names last. A test that the page names with its crate has to be one of that crate. On the
other pages a clause that is said to be `of` a call or a record has to be one of its.

README's paragraph "Proved of the sources" has the proved statements, between semicolons, up to its first full stop.
Each of them has a row in the table of PROMISES that begins with "README says", with the crate, the function or record,
and its clauses: a statement without such a row is an error.
"""
import collections
import re

from checks import judge
from items import BLOCKS, Paths, type_of
from pages import PAGES, ROOT, rows_of, spans, text_of, texts
from specs import declaration

PROMISES = "docs/PROMISES.md"
README = "README.md"
# What stands in the place of a clause's name where a function has one clause, without a name, and of a lemma.
UNNAMED, LEMMA = "its only clause", "the lemma"
NAMED = r"`[\w:<>]+`"
# A law of std and our lemmas, which PROMISES names beside our clauses.
LEMMAS = {"respects_eq", *re.findall(r"(\w+)[,}]", text_of("crates/wkb/specs/Known.antt"))}
DEFINITION = re.compile(r"(?m)^ *pub (?:record|data) (\w+)")
FIELD = re.compile(r"(?m)^\s+(\w+)\s*:")


class Clauses:
    """The clauses of functions, traits and types, and the fields of records, by crate and name."""

    def __init__(self):
        self.labels = collections.defaultdict(lambda: collections.defaultdict(set))
        # (crate, name) of each function that has a clause without a name.
        self.unnamed = set()
        code = Paths()
        for crate in code.crates:
            for item in (it for module in code.crate(crate).modules.values() for it in module):
                self.read(crate, item)
        for path, text in texts("crates/*/specs/**/*.antt").items():
            for name in DEFINITION.findall(text):
                self.labels[path.split("/")[1]][name].update(FIELD.findall("\n".join(declaration(text, name))))

    def read(self, crate, item):
        """Keep the labels of an item's clauses, and of those in it. Return them."""
        found = {label for _, label, _ in item.clauses if label}
        if item.kind == "ghost":
            return {item.name}
        if item.kind == "fn" and ("ensures", None) in [it[:2] for it in item.clauses]:
            self.unnamed.add((crate, item.name))
        if item.kind in BLOCKS:
            found.update(*(self.read(crate, it) for it in item.inside))
        if item.kind in ("fn", *BLOCKS):
            self.labels[crate][type_of(item) if item.kind == "impl" else item.name] |= found
        return found

    def of(self, name, crates=()):
        """The labels of a function, a trait, a type or a record of these crates, or of any."""
        name = re.split("::", re.sub(r"<.*>", "", name))[-1]
        return set().union(*(self.labels[it].get(name, ()) for it in crates or list(self.labels)))

    def within(self, crates):
        """The labels of all that these crates have."""
        return set().union(*(labels for it in crates for labels in self.labels[it].values()))

    def is_name(self, name):
        """Whether something that may have clauses has this name."""
        return any(name.split("::")[-1] in labels for labels in self.labels.values())


def said_of(part):
    """(owners, labels) of a part of a cell: its labels, and what the part itself says they are of, or None."""
    match = re.search(rf"((?:{NAMED}(?:, | and )?)+) of (?:each )?(.*)", part)
    if match:
        return spans(match[2]), spans(match[1])
    if re.match(r"the trait `\w+`: ", part):
        return spans(part)[:1], spans(part)[1:]
    is_other = re.search(r"\b(laws?|functions?|impl)\b", part)
    return None, [] if is_other else [it for it in spans(part) if re.fullmatch(r"\w+", it)]


def owners_of(text, clauses, crates):
    """The calls that a text is about: those it begins with, or else the first that it names."""
    begins = re.match(rf"(?:{NAMED}(?:, | and )?)+", text)
    named = spans(begins[0]) if begins else spans(text)
    return [it for it in named if clauses.of(it, () if "::" in it else crates)][: None if begins else 1]


def lost_in_row(clauses, crates, first, last, above):
    """The labels in a row's last cell that their stated owners don't have, each with those."""
    parts, texts = last.split("; "), first.split("; ")
    for at, part in enumerate(parts):
        named, labels = said_of(part)
        about = owners_of(texts[at], clauses, crates) if len(parts) == len(texts) > 1 else []
        owners = [it for it in named if clauses.is_name(it)] if named is not None else about or above
        own = set().union(*map(clauses.of, owners)) if owners else clauses.within(crates)
        for label in labels:
            if label not in own | LEMMAS and not (named is None and clauses.is_name(label)):
                yield owners, label


def lost_promises(clauses):
    """The clauses in the tables of PROMISES that their stated owners don't have."""
    text = text_of(PROMISES).splitlines()
    end = text.index("## Only tested")
    owners, crates, before = [], [], 0
    for number, heads, found in rows_of(PROMISES):
        if number > end:
            return
        if number != before + 1:
            heading = next(text[at] for at in range(number - 1, -1, -1) if text[at].startswith("## "))
            owners, crates = [], [it for it in spans(heading) if (ROOT / "crates" / it).is_dir()]
        before = number
        if heads[0] != "README says":
            owners = owners_of(found[0], clauses, crates) or owners
            if heads[1] == "fact":
                owners = re.findall(r"the record `(\w+)`", "\n".join(text[:number]))[-1:]
            for of, label in lost_in_row(clauses, crates, found[0], found[-1], owners):
                yield f"{PROMISES}:{number}: {', '.join(of) or 'the crate'} has no clause `{label}`"


def lost_in_sentences(clauses):
    """The clauses that other pages say to be of a call or a record which has others."""
    for page in PAGES:
        text = " ".join(text_of(page).split()) if page != PROMISES else ""
        for names, owner in re.findall(r"((?:`\w+`(?:, | and ))*`\w+`) of `(\w+)`", text):
            own = clauses.of(owner, ())
            lost = [it for it in spans(names) if own and it not in own and not clauses.is_name(it)]
            yield from (f"{page}: `{owner}` has no clause `{it}`" for it in lost)


def lost_tests():
    """The tests that the page names with a crate that has no such test."""
    text = " ".join(text_of(PROMISES).split())
    named = [(it[1], it[2]) for it in re.finditer(r"\(`(wkb_\w+)`: ([^;)]*)", text)]
    named += [(it[2], it[1]) for it in re.finditer(r"tests? ((?:`\w+`(?:, | and )?)+) of `(wkb_\w+)`", text)]
    for crate, names in named:
        # The clients have no tests: their modules are proved.
        code = "".join(f"mod {it}\n{code}" for it, code in texts(f"crates/{crate}/src/**/*.rt").items())
        for name in spans(names):
            pattern = rf"#\[test\]\s+fn {name}\(" if crate == "wkb_tests" else rf"mod \S+/{name}\.rt\n"
            if "/" not in name and not re.search(pattern, code):
                yield f"{PROMISES}: {crate} has no test `{name}`"


def lost_calls():
    """The calls for C that head no row."""
    calls = re.findall(r'extern "C" fn (wkb_raw_\w+)', "".join(texts("crates/wkb_c/src/**/*.rt").values()))
    begins = [re.match(rf"(?:{NAMED}(?:, | and )?)*", row[0])[0] for _, _, row in rows_of(PROMISES)]
    heads = {name for it in begins for name in spans(it)}
    yield from (f"{PROMISES}: no row begins with `{it}`" for it in sorted({*calls} - heads))


def said_in_readme():
    """Each statement of README's paragraph of what is proved, without its links."""
    found = re.search(r"\*\*Proved of the sources[^*]*\*\*(?s:(.*?))\n(?:-|\n)", text_of(README))
    plain = re.sub(r"\[([^]]*)\]\([^)]*\)", r"\1", " ".join(found[1].split())) if found else ""
    yield from plain.split(". ")[0].split("; ") if plain else ()


def given_clauses():
    """(statement, crate, name, clauses) of each row of PROMISES' table of what README says. A first cell that is empty
    continues the row above."""
    statement = ""
    for _, heads, found in rows_of(PROMISES):
        if heads[0] == "README says":
            statement = found[0] or statement
            yield statement, *(found[at].strip("`") for at in (1, 2)), found[3]


def lost_statements(clauses, statements, given):
    """The errors: a statement has no clause, a clause is of no contract, or a row is of no statement."""
    for it in statements:
        if it not in [row[0] for row in given]:
            yield f"{README}: `{it}` has no clause in {PROMISES}"
    for statement, crate, name, cell in given:
        if statement not in statements:
            yield f"{PROMISES}: README doesn't say `{statement}`"
        labels = set(spans(cell))
        has_labels = bool(labels) and labels <= clauses.labels[crate].get(name, set())
        is_named = name in LEMMAS if cell == LEMMA else cell == UNNAMED and (crate, name) in clauses.unnamed
        if not (has_labels or is_named):
            yield f"{PROMISES}: `{name}` of {crate} has no such clause: {cell or 'none is named'}"


def wrong_statements(clauses):
    """The errors in README's proved statements."""
    statements, given = [*said_in_readme()], [*given_clauses()]
    if not statements or not given:
        return [f"{README if given else PROMISES} doesn't have what README says is proved"]
    return lost_statements(clauses, statements, given)


class Contracts(judge.Judge):
    """The clauses on the pages are those of the contracts."""

    def wrong(self):
        clauses = Clauses()
        for it in (lost_promises, lost_in_sentences, wrong_statements):
            yield from it(clauses)
        yield from (*lost_tests(), *lost_calls())
