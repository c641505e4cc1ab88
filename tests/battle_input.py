"""Recorded battles as the examples of C, Rust and Python read them: numbers in a row."""

from repository import ROOT
from tables import table

TABLES = (ROOT / "docs" / "TABLES.md").read_text()


def numbers_of(heading):
    """The number of each name in a table of docs/TABLES.md."""
    return {row[1]: int(row[0]) for row in table(TABLES, heading)}


SPECIES, MOVES = numbers_of("Species"), numbers_of("Moves")


def as_numbers(asked):
    """The input of an example for a battle of tests/battles."""
    words = [asked.get("rules", 0), asked.get("limit", 1000), *asked["seed"]]
    for side in ("one", "two"):
        words.append(len(asked[side]))
        for it in asked[side]:
            moves = [word for name, ups in it["moves"] for word in (MOVES[name], ups)]
            words += [SPECIES[it["species"]], it["level"], *it["dvs"], *it["exp"], *moves, *[0] * (8 - len(moves))]
    words += [number for each in asked.get("choices", asked.get("submissions")) for number in each]
    return " ".join(map(str, words))
