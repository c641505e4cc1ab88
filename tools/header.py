"""The types, species, moves and effects of include/gen1.h from docs/TABLES.md, and the details of events from docs/MECHANICS.md.

Only the lines between the two marks are generated.
"""

import sys
import textwrap

from names import constant, kind_rows
from repository import ROOT
from tables import effect_names, element_names, numbered, table

HEADER = ROOT / "include" / "gen1.h"
BEGIN = (
    '/* tools/gen writes the lines from here to "end of the tables", from docs/TABLES.md and docs/MECHANICS.md. */\n'
)
END = "/* end of the tables */\n"
WIDTH = 128
# Details of events: the comment above them, their kind, and the heading of their names in docs/MECHANICS.md, "Events".
DETAILS = (
    ("Why a member could not act: `detail` of GEN1_EVENT_CANT.", "REASON", "Reason of Cant"),
    ("What dealt damage: `detail` of GEN1_EVENT_DAMAGE.", "SOURCE", "Source of Damage"),
    (
        "What began, ended or showed: `detail` of GEN1_EVENT_START, GEN1_EVENT_END and GEN1_EVENT_ACTIVATE.",
        "VOLATILE",
        "Volatile",
    ),
)


def enum(about, kind, first, names):
    """An enum whose first constant has the number `first`: GEN1_SPECIES_MR_MIME of the kind SPECIES and "Mr. Mime"."""
    constants = [f"GEN1_{kind}_{constant(name)}" for name in names]
    if len(set(constants)) != len(constants):
        sys.exit(f"two names of {kind} are the same constant")
    constants[0] += f" = {first}"
    body = textwrap.fill(
        ", ".join(constants), WIDTH, initial_indent="    ", subsequent_indent="    ", break_long_words=False
    )
    return f"/* {about} */\nenum {{\n{body}\n}};\n"


def detail_enum(rules, about, kind, heading):
    """The enum of a column of "Events", whose numbers have no gap."""
    rows = sorted(kind_rows(rules, heading))
    first = rows[0][0]
    if [number for number, _ in rows] != list(range(first, first + len(rows))):
        sys.exit(f"docs/MECHANICS.md: the numbers of {heading} have a gap")
    return enum(about, kind, first, [name for _, name in rows])


def enums(document, rules):
    """All enums between the marks."""
    species = [name for name, *_ in numbered(table(document, "Species"))]
    moves = [name for name, *_ in numbered(table(document, "Moves"))]
    return "\n".join(
        [
            enum("Types.", "TYPE", 0, element_names(document)),
            enum("Species.", "SPECIES", 1, species),
            enum("Moves.", "MOVE", 1, moves),
            enum(
                'What moves do besides their damage: `effect` of gen1_move (docs/TABLES.md, "Effects").',
                "EFFECT",
                0,
                effect_names(document),
            ),
            *(detail_enum(rules, *detail) for detail in DETAILS),
        ]
    )


def generated():
    """The header with its enums."""
    before, marked, after = HEADER.read_text().partition(BEGIN)
    _, ended, behind = after.partition(END)
    if not marked or not ended:
        sys.exit("include/gen1.h: the marks of the tables are not there")
    documents = ((ROOT / "docs" / name).read_text() for name in ("TABLES.md", "MECHANICS.md"))
    return {HEADER: before + BEGIN + "\n" + enums(*documents) + "\n" + END + behind}
