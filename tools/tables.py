"""The lists of crates/gen1_tables, from the tables of docs/TABLES.md.

A list is between its first line and its last one in a file. All other lines of the file stay as they are.
"""

import re
import sys
from pathlib import Path

ROOT = Path(__file__).resolve().parent.parent
CRATE = ROOT / "crates" / "gen1_tables"


def table(document, heading):
    """The rows of the table under a heading, each a list of its cells."""
    section = re.search(rf"^#+ {heading}\n(.*?)(?=^#|\Z)", document, re.M | re.S)[1]
    lines = [line for line in section.splitlines() if line.startswith("|")]
    return [[cell.strip() for cell in line.strip("|").split("|")] for line in lines[2:]]


def numbered(rows):
    """The rows without their numbers, which must count from 1."""
    for place, (number, name, *_) in enumerate(rows, 1):
        if int(number) != place:
            sys.exit(f"docs/TABLES.md: {name} has the number {number} at place {place}")
    return [row[1:] for row in rows]


def applied(effect):
    """An effect as the specification writes it: `StatUp(Attack, 2)` is `(StatUp Attack 2)`."""
    return f"({re.sub('[(),]+ *', ' ', effect).strip()})" if "(" in effect else effect


def element_names(document):
    """The types by their numbers."""
    cells = [cell for row in table(document, "Types") for cell in row if cell]
    numbers = dict(cell.split() for cell in cells)
    return [numbers[str(number)] for number in range(len(numbers))]


def effect_names(document):
    """The effects by their numbers, from 0 on, without their parameters."""
    return [row[0].strip("`").partition("(")[0] for row in table(document, "Effects")]


def species_rows(document):
    """The types of each species as numbers, and its base HP, Attack, Defense, Speed and Special."""
    elements = element_names(document)
    return [
        (elements.index(one), elements.index(two), *map(int, stats))
        for one, two, *stats in (row[1:] for row in numbered(table(document, "Species")))
    ]


def move_rows(document):
    """The type of each move as a number, and its power, accuracy in percent, and PP."""
    elements = element_names(document)
    return [
        (elements.index(kind), *map(int, more))
        for kind, *more, _ in (row[1:] for row in numbered(table(document, "Moves")))
    ]


def factors(elements, types):
    """For each type of a move and each first type of a foe, the factors against all second types, in fifths."""
    for attacker in elements:
        for first in elements:
            row = [factors_against(types, attacker, (first, second)) for second in elements]
            yield f"{', '.join(row)}, // {attacker} against {first}"


def factors_against(types, attacker, defenders):
    """The two factors of the rows that apply, in fifths, as a number of two hexadecimal digits. A missing row has the factor 2."""
    tenths = [int(number) for kind, defender, number in types if kind == attacker and defender in defenders]
    one, two = (tenths + [10, 10])[:2]
    return f"0x{one // 5:x}{two // 5:x}"


def code_list(file, name, rows):
    """A static of the code: its file, a pattern of its first line, its last line, and its rows."""
    return CRATE / "src" / file, rf"static {name}: [^\n]* = \[", "];", rows


def spec_list(file, name, rows):
    """A list of the specification, in the same form."""
    return CRATE / "specs" / file, f"{name} =", "    []", rows


def all_lists(document):
    """Every list that is written, each with its rows."""
    types = table(document, "Type rows")
    yield code_list("types.rt", "TYPE_ROWS", [f"({', '.join(row)})," for row in types])
    yield spec_list("Types.antt", "type_rows", [f"row {' '.join(row)} ∷" for row in types])
    yield code_list("types.rt", "FACTORS", list(factors(element_names(document), types)))

    species = numbered(table(document, "Species"))
    yield code_list(
        "species.rt",
        "SPECIES_ROWS",
        [f"({first}, {second}, [{', '.join(base)}]), // {name}" for name, first, second, *base in species],
    )
    yield spec_list("Species.antt", "species_rows", [f"row {' '.join(row)} ∷  -- {name}" for name, *row in species])

    moves = numbered(table(document, "Moves"))
    yield code_list(
        "moves.rt", "MOVE_ROWS", [f"({', '.join(row)}, {int(row[2]) * 255 // 100}), // {name}" for name, *row in moves]
    )
    yield spec_list(
        "Moves.antt",
        "move_rows",
        [f"row {' '.join(row)} {applied(effect)} ∷  -- {name}" for name, *row, effect in moves],
    )

    for what, rows in ("species", species), ("move", moves):
        yield code_list("names.rt", f"{what.upper()}_NAMES", [f'"{name}",' for name, *_ in rows])
        yield spec_list("Names.antt", f"{what}_names", [f'codes "{name}" ∷' for name, *_ in rows])


def generated():
    """The text of each file with its lists as docs/TABLES.md has them."""
    document, texts = (ROOT / "docs" / "TABLES.md").read_text(), {}
    for file, first, last, rows in all_lists(document):
        body = "".join(f"    {row}\n" for row in rows)
        pattern = rf"(?P<first>^{first}\n).*?(?=^{re.escape(last)}$)"
        text = texts.get(file) or file.read_text()
        texts[file], found = re.subn(pattern, lambda old: old["first"] + body, text, flags=re.M | re.S)
        if found != 1:
            sys.exit(f"{file.relative_to(ROOT)}: {found} lists begin with {first}")
    return texts
