"""Which definitions, code, worked examples, edits and tests belong to each section of the documents.

A file, a function, a type, an example and a test belong to the sections that their comments cite (citations.py), and a
test in tests/test_faults.py to those that its docstring cites. An edit belongs to what it changes: the function, table or
definition around its first `old:` text.
"""

import ast
import re
from pathlib import Path
from typing import NamedTuple

from citations import COMMENT, DOCUMENTS, FUNCTION, Section, Source, cited, sections
from repository import ROOT, crates, edited, edits

KINDS = ("definition", "code", "laws", "worked example", "tests", "edits")
# The kinds that each section of a document must have at least one of.
OF_RULES = ("definition", "code", "worked example", "tests", "edits")
OF_OTHERS = ("definition", "code", "tests", "edits")
OWED = dict(zip(DOCUMENTS, (OF_RULES, *[OF_OTHERS] * 5)))
# The kinds that a section lacks, and where they are instead.
WITHOUT = {
    Section("docs/MECHANICS.md", "A battle that fits"): {
        "worked example": "python/gen1/tests/test_guesses.py: test_what_is_known_and_what_is_guessed",
        "tests": "python/gen1/tests/test_guesses.py, js/test/worked.mjs, tests/c/hostile_players.c",
    },
    Section("docs/MECHANICS.md", "Random teams"): {
        "worked example": "js/test/worked.mjs: random teams, and the sample teams",
        "tests": "tests/calls/test_teams.py: test_random_teams",
    },
    Section("docs/PROGRAM.md", "The program battle_tool"): {
        "definition": "none: clap reads the words, and the contract of `tool` says which statuses there are"
    },
    Section("include/gen1.h", "random teams"): {"tests": "tests/calls/test_teams.py, tests/c/hostile_texts.c"},
    Section("include/gen1.h", "searching"): {"definition": "crates/gen1_engine/specs/Update.antt: reseeded"},
    Section("include/gen1.h", "watching"): {
        "definition": "crates/gen1_spectator/specs/Plain.antt: view_of, reading_of"
    },
}
DEFINITION = re.compile(r"(?:unfoldable |abbrev |opaque )*pub (\S+) : ")
OPERATION = re.compile(
    r"\s*pub(?:\((?:crate|super)\))? (?:const |extern \"C\" )?(?:fn|struct|enum|trait|type) (\w+)|fn (main)\("
)
FIELD = re.compile(r"    pub(?:\((?:crate|super)\))? (\w+): ")
LEMMA = re.compile(r"([A-Za-z_][\w-]*) : ")
FOR_TESTS = re.compile(r"#\[cfg\(test\)\]\s*(?:pub(?:\([a-z]+\))? )?mod (\w+);")
MODULE = re.compile(r"(?m)^(?:pub )?mod (\w+);")
DECLARED = re.compile(r"(?m)^\w+ (gen1_\w+)\(")
CALLED = re.compile(r"\b(gen1_\w+)\(")


class Item(NamedTuple):
    """One thing that belongs to a section: its kind, its file, its line from 1 (0: the whole file), its name and its text."""

    kind: str
    file: Path
    line: int
    name: str
    text: str


class Rules:
    """The items of each section, and what is wrong with the edits."""

    def __init__(self):
        self.found = {section: [] for document in DOCUMENTS for section in sections(document)}
        self.reached, self.faults, self.unmapped_edits = set(), [], []

    def add(self, names, item):
        for name in dict.fromkeys(names):
            self.found[name].append(item)
        if names and item.kind in ("code", "laws"):
            self.reached.add(item.file)

    def of_kind(self, section, kind):
        return [item for item in self.found[section] if item.kind == kind]

    def definitions(self, crate):
        for file in sorted((crate / "specs").glob("*.antt")):
            source = Source(file)
            whole = [*source.head]
            for at, line in enumerate(source.lines):
                if COMMENT.fullmatch(line):
                    whole += source.block(at)
                elif found := DEFINITION.match(line):
                    self.add(source.block(at), Item("definition", file, at + 1, found[1], source.paragraph(at)))
            self.add(whole, Item("definition", file, 0, "", ""))

    def operations(self, crate):
        for file in of_code(crate):
            source, kind = Source(file), "laws" if file.stem == "laws" else "code"
            for at, line in enumerate(source.lines):
                if found := OPERATION.match(line):
                    self.add(source.own(at), Item(kind, file, at + 1, found[1] or found[2], source.documented(at)))
                elif found := FIELD.match(line):
                    names = source.sections_of(source.comment_above(at))
                    self.add(names, Item(kind, file, at + 1, found[1], source.documented(at)))

    def tests(self):
        """Tests of the crates: those within them, and those that play the plain sources."""
        crates_tests = (ROOT / "crates").glob("*/src/**/*.rt")
        for file in sorted([*crates_tests, *(ROOT / "rust" / "gen1-tests" / "tests").rglob("*.rs")]):
            source = Source(file)
            for at, line in enumerate(source.lines):
                if line.strip() == "#[test]":
                    name = next(found[1] for below in source.lines[at + 1 :] if (found := FUNCTION.match(below)))
                    self.add(source.own(at), Item("tests", file, at + 2, name, source.documented(at)))

    def program_tests(self):
        """Tests that play battle_tool."""
        file = ROOT / "tests" / "test_faults.py"
        for it in ast.parse(file.read_text()).body:
            if isinstance(it, ast.FunctionDef) and it.name.startswith("test_"):
                told = " ".join((ast.get_docstring(it) or "").split())
                self.add(cited(told), Item("tests", file, it.lineno, it.name, told))

    def examples(self):
        for file in sorted((ROOT / "crates").glob("*/proofs/Worked*.antt")):
            source = Source(file)
            for at, line in enumerate(source.lines):
                if found := LEMMA.match(line):
                    self.add(source.block(at), Item("worked example", file, at + 1, found[1], source.paragraph(at)))

    def edits(self, name, folder):
        crate = ROOT / "crates" / name
        for edit in edits(name, folder):
            if edited(crate, edit) is None:
                self.faults.append(
                    f"{edit}: it cannot be applied: its file is not there, or an old text is not once in it"
                )
                continue
            file = re.search(r"(?m)^file: (.*)$", edit.text)[1]
            source = Source(crate / file)
            at = source.place_of(re.search(r"(?m)^old: (.*)$", edit.text)[1])
            names = source.block(at) if file.endswith(".antt") else source.own(source.item_around(at))
            self.add(names, Item("edits", edit.place, 0, edit.name, edit.text))
            self.unmapped_edits += [] if names else [edit]

    def calls(self):
        """The examples of other languages, which test the calls of the C library that they make."""
        _, *parts = re.split(r"(?m)^/\* ---- (.*) ---- \*/$", (ROOT / "include/gen1.h").read_text())
        for name, text in zip(parts[::2], parts[1::2]):
            declared = DECLARED.findall(text)
            for file in sorted((ROOT / "examples").glob("*/*.*")):
                for call in sorted(set(CALLED.findall(file.read_text())).intersection(declared)):
                    self.add([Section("include/gen1.h", name)], Item("tests", file, 0, call, ""))


def of_code(crate):
    """The files of a crate that are not compiled for tests alone."""
    files = sorted((crate / "src").rglob("*.rt"))
    for_tests = [
        (file.parent if file.stem in ("lib", "main") else file.with_suffix("")) / name
        for file in files
        for name in FOR_TESTS.findall(file.read_text())
    ]
    return [file for file in files if not any(file.with_suffix("").is_relative_to(it) for it in for_tests)]


def engine_crates():
    """The crates whose files a section must reach: the engine and the program."""
    return [ROOT / "crates" / name for name in crates() if name.startswith(("gen1_", "battle_"))]


def collected():
    """The rules of the repository."""
    rules = Rules()
    rules.tests()
    rules.program_tests()
    for name in crates():
        for folder in ("must-fail", "planted"):
            rules.edits(name, folder)
    for crate in engine_crates():
        rules.definitions(crate)
        rules.operations(crate)
    rules.examples()
    rules.calls()
    return rules


def unreached(rules):
    """Code that no section reaches, and kinds that a section lacks."""
    for crate in engine_crates():
        for file in of_code(crate):
            if file not in rules.reached and any(map(FUNCTION.match, file.read_text().splitlines())):
                yield f"{file.relative_to(ROOT)}: no section reaches it: neither its head nor the comment of a public item cites one"
    for section in rules.found:
        for kind in OWED[section.document]:
            if not rules.of_kind(section, kind) and kind not in WITHOUT.get(section, {}):
                yield f'{section.document}, "{section.name}": it has no {kind}'


def without_a_line():
    """Files whose first line does not say what they are, and roots that do not name each of their modules."""
    for file in sorted(
        it for glob in ("src/**/*.rt", "specs/*.antt", "proofs/*.antt") for it in (ROOT / "crates").glob(f"*/{glob}")
    ):
        text = file.read_text()
        if not text.startswith("//! " if file.suffix == ".rt" else "-- "):
            yield f"{file.relative_to(ROOT)}: its first line does not say what it is"
        for name in MODULE.findall(text) if file.name == "lib.rt" else ():
            if f"//! - `{name}`: " not in text:
                yield f"{file.relative_to(ROOT)}: its head does not say what `{name}` is for"
