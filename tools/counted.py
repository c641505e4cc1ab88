"""The table of numbers in docs/TESTING.md, counted in the repository."""

import re
import sys

from battles import CASES, TRACES, cases, loads, recorded, traces
from definitions.coverage import Coverage
from definitions.mutants import mutants_of
from repository import ROOT, crates, edits, indented, named_bodies

DOCUMENT = ROOT / "docs" / "TESTING.md"
BEGIN, END = "<!-- numbers: tools/gen -->\n", "<!-- end of the numbers -->\n"
LEMMA = re.compile(r"(?m)^battle_\d+ : ")


def counted():
    """Each row of the table: what is counted, and how many there are."""
    battles = [battle for name in TRACES for battle in traces(recorded(f"{name}.jsonl"))]
    yield "recorded runs of the program", sum(len(cases(recorded(f"{name}.jsonl"))) for name in CASES)
    yield "recorded battles with every update", len(battles)
    yield "recorded updates", sum(len(battle["updates"]) for battle in battles)
    yield "recorded byte strings to load", len(loads(recorded("loads.txt")))
    coverage = Coverage([])
    same = indented(ROOT / "tests" / "definitions" / "same_meaning.txt")
    yield "recorded battles that are lemmas", sum(
        len(LEMMA.findall(file.read_text()))
        for file in (ROOT / "crates" / "test_support" / "proofs").glob("Battles*.antt")
    )
    yield "worked examples", len(coverage.lemmas)
    yield "definitions that the step uses", len(coverage.definitions)
    yield "branches of these definitions", len(coverage.own_branches())
    yield "mutants of these definitions", len(mutants_of(coverage.definitions))
    yield "mutants that mean the same, each with its reason", len(same)
    yield "wrong bodies that every gate tries", sum(len(edits(name)) for name in crates())
    yield "named wrong bodies, tried by some of these", len(named_bodies())
    yield "planted wrong bodies", sum(len(edits(name, "planted")) for name in crates())
    tests = [*(ROOT / "crates").glob("*/src/**/*.rt"), *(ROOT / "rust" / "gen1-tests" / "tests").rglob("*.rs")]
    yield "tests of the crates", sum(file.read_text().count("#[test]") for file in tests)


def table(rows):
    return "| What | How many |\n|---|---:|\n" + "".join(f"| {what} | {count:,} |\n" for what, count in rows)


def generated():
    """The document with the table in it."""
    text = DOCUMENT.read_text()
    if text.count(BEGIN) != 1 or text.count(END) != 1:
        sys.exit(f"docs/TESTING.md: it must have one line {BEGIN.strip()} and after it one line {END.strip()}")
    before, rest = text.split(BEGIN)
    return {DOCUMENT: before + BEGIN + table(counted()) + END + rest.split(END)[1]}
