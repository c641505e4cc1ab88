"""The enums of python/gen1 from docs/TABLES.md, docs/LAYOUT.md, docs/MECHANICS.md and include/gen1.h, and the names of the sample
teams; the types of JavaScript's names; and the members of the sample teams in crates/gen1_random.

Species, moves and types are the rows of TABLES; the conditions are the bits of LAYOUT; the kinds of statuses, stats, reasons, sources and
volatiles are the numbers of MECHANICS, "Events". All codes are enums of the header, with the comment after each as its text. The sample
teams are those of examples/teams.
"""

import json
import re
import sys
import textwrap

from repository import ROOT
from tables import element_names, move_rows, species_rows, table

OUT = ROOT / "python" / "gen1" / "src" / "gen1"
JAVASCRIPT = ROOT / "js" / "names.d.mts"
SAMPLES = ROOT / "crates" / "gen1_random" / "src" / "sample_rows.rt"
SAMPLE_ROWS = """//! The members of the sample teams. Made by tools/gen; change examples/teams, not this.

// The species and the moves of each member, by their numbers. A team has six rows.
pub(crate) static SAMPLE_ROWS: [(u8, [u8; 4]); {count}] = [
"""
ROWS = '"""The rows of species and moves. Made by tools/gen; change docs/TABLES.md, not this."""\n'

HEAD = '''"""Species, moves, types and codes by name. Made by tools/gen; change what it reads, not this."""

from enum import EnumMeta, IntEnum, IntFlag


class NamedType(EnumMeta):
    """The type of these classes: `dir` and `help` list members, not int."""

    def __dir__(cls) -> list[str]:
        known = [it for base in cls.__mro__ if isinstance(base, NamedType) for it in vars(base)]
        return [*dict.fromkeys([*cls.__members__, *(it for it in known if not it.startswith("_"))])]


class Named(IntEnum, metaclass=NamedType):
    """A number of the library with a text for people.

    `label` is the name as lines and tables print it ("Mr. Mime"), of a
    code what it says ("the level is not 1 to 100"). A format that ends in
    a number's type (`d`, `02x`) formats the number, any other the label,
    by every Python alike.
    """

    label: str

    def __new__(cls, number: int, label: str = "") -> "Named":
        made = int.__new__(cls, number)
        made._value_ = number
        made.label = label
        return made

    def __repr__(self) -> str:
        return f"{type(self).__name__}.{self.name}"

    def __str__(self) -> str:
        return self.label

    def __format__(self, spec: str) -> str:
        return format(int(self) if spec and spec[-1] in "bcdeEfFgGnoxX%" else self.label, spec)
'''

# Enums of the header: the class, its docstring, the first and the last name, the beginning of the names that the class leaves out, and
# the names that it has otherwise.
CODES = (
    ("Outcome", "How a battle stands, of `Result.outcome`.", "OUTCOME_ONGOING", "OUTCOME_FAULT_TWO", "OUTCOME_", {}),
    (
        "Request",
        "What a side is asked for the next update, of `Result.requests`.",
        "REQUEST_NOTHING",
        "REQUEST_SWITCH",
        "REQUEST_",
        {},
    ),
    (
        "NewFault",
        "Why teams or terms are refused, of `BadTeam.code`.",
        "ERROR_TEAM_EMPTY",
        "ERROR_TURN_LIMIT",
        "ERROR_",
        {"TEAM_EMPTY": "EMPTY", "TEAM_TOO_LONG": "TOO_MANY", "SPECIES": "NO_SUCH_SPECIES", "MOVE": "NO_SUCH_MOVE"},
    ),
    (
        "LoadFault",
        'The first test that bytes fail (docs/LAYOUT.md, "Loading"), of `BadBytes.code`.',
        "ERROR_LOAD_LENGTH",
        "ERROR_LOAD_REQUEST",
        "ERROR_LOAD_",
        {},
    ),
    ("Refusal", "Why an update was refused, of `Refused.code`.", "ERROR_OVER", "ERROR_NOT_OFFERED_TWO", "ERROR_", {}),
    (
        "RoomRefusal",
        "Why a room refused a choice, of `RoomRefused.code`.",
        "ERROR_STALE",
        "ERROR_NOT_OFFERED",
        "ERROR_",
        {},
    ),
    (
        "HostRefusal",
        "Why a host refused a row, of `HostRefused.code`.",
        "ERROR_STALE",
        "ERROR_NOTHING_CHOSEN",
        "ERROR_",
        {},
    ),
    (
        "HostFault",
        "The first test that bytes of a host fail, of `BadHost.code`.",
        "ERROR_HOST_NUMBER",
        "ERROR_HOST_UNUSED",
        "ERROR_HOST_",
        {},
    ),
    (
        "GuessFault",
        "Why a guess of what a player can't know does not fit.",
        "ERROR_NOT_GOING_ON",
        "ERROR_GUESS_HP",
        "ERROR_",
        {"GUESS_COUNT": "COUNT", "GUESS_MEMBER": "MEMBER", "GUESS_MOVE": "MOVE", "GUESS_HP": "HP"},
    ),
    ("RowKind", "What happens at a host, of `Row.kind`.", "ROW_SUBMIT", "ROW_FORFEIT", "ROW_", {}),
    (
        "EventKind",
        "Which event of a log, of `Event.kind`.",
        "EVENT_TURN",
        "EVENT_FAULT",
        "EVENT_",
        {"SWITCH": "SWITCHED", "MOVE": "MOVED", "ONE_HIT_KNOCK_OUT": "ONE_HIT", "TIE": "TIED"},
    ),
    ("LogFault", "Why bytes are not a log, of `BadLog.code`.", "ERROR_LOG_TAG", "ERROR_LOG_CUT", "ERROR_LOG_", {}),
    (
        "TextFault",
        "What was expected in a text of a team, of `BadText.code`.",
        "ERROR_TEXT_SPECIES",
        "ERROR_TEXT_TEAM",
        "ERROR_TEXT_",
        {},
    ),
    (
        "DamageFault",
        "Why a move deals no damage, of `NoDamage.code`.",
        "ERROR_UNUSUAL",
        "ERROR_NOBODY_OUT",
        "ERROR_",
        {"NOBODY_OUT": "NOBODY"},
    ),
    (
        "Effect",
        'What a move does besides its damage (docs/TABLES.md, "Effects"), of `MoveData.effect`.',
        "EFFECT_DAMAGE_ONLY",
        "EFFECT_STAT_DOWN",
        "EFFECT_",
        {},
    ),
    (
        "AsleepBy",
        "What put a member to sleep, of `Seen.asleep_by`.",
        "ASLEEP_BY_MOVE",
        "ASLEEP_BY_REST",
        "ASLEEP_BY_",
        {},
    ),
    ("HpForm", "How a foe's HP is reported, of `Teller` and `Host`.", "HP_EXACT", "HP_HUNDREDTHS", "HP_", {}),
    ("OddsReason", "Why a use of a move cannot hit, of `Odds.reason`.", "ODDS_FALLEN", "ODDS_HEALTH", "ODDS_", {}),
    (
        "StateField",
        "Which field of a state is wrong, of `BadState.code`.",
        "FIELD_UNNAMED",
        "FIELD_CURRENT_STAT",
        "FIELD_",
        {},
    ),
)
# Codes that a class has besides those, before them.
SHARED = {"RoomRefusal": ("ERROR_OVER",), "HostRefusal": ("ERROR_OVER",), "DamageFault": ("ERROR_SIDE", "ERROR_MOVE")}
# Classes whose labels are the names.
NAMED_ONLY = ("LoadFault", "RowKind", "StateField")
# Enums of MECHANICS, "Events": the class, its docstring, and the heading of the names.
KINDS = (
    ("Stat", "A stat with stages.", "Stat"),
    ("Reason", "Why a member could not act, of `CantEvent`.", "Reason of Cant"),
    ("Source", "What dealt damage, of `DamageEvent`.", "Source of Damage"),
    ("Volatile", "What started, ended or was activated.", "Volatile"),
)


def constant(name):
    """A name as Python writes a constant: `Mr. Mime` is MR_MIME, `LightScreen` LIGHT_SCREEN."""
    return re.sub(r"[^A-Z0-9]+", "_", re.sub(r"(?<=[a-z])(?=[A-Z])", "_", name).upper()).strip("_")


def quoted(text):
    """A text as Python writes it, in double quotes where it has none."""
    return f"'{text}'" if '"' in text else f'"{text}"'


def enum_class(name, doc, rows):
    """The class of an enum whose rows are a number, a name and a label."""
    lines = [f"    {constant(it)} = {number}, {quoted(label)}" for number, it, label in rows]
    return f"\n\nclass {name}(Named):\n{docstring(doc)}\n\n" + "\n".join(lines) + "\n"


def docstring(text):
    """The docstring of a class, whose lines `help` shows within 80 columns."""
    lines = textwrap.wrap(text, 72)
    end = "\n    " if len(lines) > 1 else ""
    return '    """' + "\n    ".join(lines) + end + '"""'


def header_enums(text):
    """Each enum of the header, as rows of a number, a name without GEN1_, and the comment after it."""
    for body in re.findall(r"\benum \{(.*?)\};", text, re.S):
        rows, number = [], -1
        for name, given, comment in re.findall(r"GEN1_(\w+)(?: = (\d+))?,?[ \t]*(?:/\* (.*?) \*/)?", body, re.S):
            number = int(given) if given else number + 1
            rows.append((number, name, re.sub(r"\s+", " ", comment)))
        yield rows


def code_classes(text):
    """The classes of the header's codes."""
    enums = list(header_enums(text))
    for name, doc, first, last, start, others in CODES:
        found = [rows for rows in enums if first in [it for _, it, _ in rows]]
        if len(found) != 1:
            sys.exit(f"include/gen1.h: {len(found)} enums with GEN1_{first}")
        names = [it for _, it, _ in found[0]]
        rows = [found[0][names.index(it)] for it in SHARED.get(name, ())] + found[0][
            names.index(first) : names.index(last) + 1
        ]
        shorter = [(number, it.removeprefix(start), label) for number, it, label in rows]
        named = [(number, others.get(it, it), "" if name in NAMED_ONLY else label) for number, it, label in shorter]
        yield enum_class(name, doc, [(number, it, label or words(it)) for number, it, label in named])


def flags(layout):
    """The class of the condition bits, which can be combined."""
    cells = [cell for row in table(layout, "Condition bits") if row[0].isdigit() for cell in row if cell]
    bits = sorted((int(bit), name) for bit, name in zip(cells[::2], cells[1::2]))
    lines = ["    NONE = 0", *(f"    {constant(name)} = {1 << bit}" for bit, name in bits)]
    doc = 'What an active is under, added up (docs/LAYOUT.md, "Condition bits").'
    return f'\n\nclass Conditions(IntFlag, metaclass=NamedType):\n    """{doc}"""\n\n' + "\n".join(lines) + "\n"


def row_lists(text):
    """The rows of species and moves, by their numbers from 1 on."""
    for name, doc, rows in (
        (
            "SPECIES_ROWS",
            "Of each species both types, and base HP, Attack, Defense, Speed, Special.",
            species_rows(text),
        ),
        ("MOVE_ROWS", "Of each move its type, power, accuracy in percent, and PP.", move_rows(text)),
    ):
        yield f"\n# {doc}\n{name} = (\n" + "".join(f"    {row},\n" for row in rows) + ")\n"


def words(name):
    """A constant's name in words."""
    return name.replace("_", " ").lower()


def kind_rows(text, heading):
    """The numbers, names and printed texts of the column with this heading in the tables of "Events"."""
    section = re.search(r"^## Events\n(.*?)(?=^## )", text, re.M | re.S)[1]
    for block in re.findall(r"(?:^\|.*\n)+", section, re.M):
        rows = [[cell.strip() for cell in re.split(r"(?<!\\)\|", line.strip("|"))] for line in block.splitlines()]
        for at, cell in enumerate(rows[0]):
            if cell == heading:
                number = max(place for place in range(at) if rows[0][place] == "Number")
                yield from ((int(row[number]), re.sub(r" *\(.*", "", row[at])) for row in rows[2:] if row[at])


def names():
    """The text of names.py."""
    tables = (ROOT / "docs" / "TABLES.md").read_text()
    rules = (ROOT / "docs" / "MECHANICS.md").read_text()
    parts = [HEAD]
    for name, doc, heading in (
        ("Species", 'A species, 1 to 151 (docs/TABLES.md, "Species").', "Species"),
        ("Move", 'A move, 1 to 165 (docs/TABLES.md, "Moves").', "Moves"),
    ):
        rows = [(int(number), it, it) for number, it, *_ in table(tables, heading)]
        parts.append(enum_class(name, doc, rows))
    parts.append(
        enum_class("Type", "A type, 0 to 14.", [(number, it, it) for number, it in enumerate(element_names(tables))])
    )
    kinds = sorted(kind_rows(rules, "Kind"))
    statuses = [(0, "None", "none"), *((number, it, it.lower()) for number, it in kinds)]
    parts.append(enum_class("Status", "What ails a member; 0 is nothing.", statuses))
    for name, doc, heading in KINDS:
        rows = [
            (number, it, re.sub(r"(?<=[a-z])(?=[A-Z])", " ", it)) for number, it in sorted(kind_rows(rules, heading))
        ]
        parts.append(enum_class(name, doc, rows))
    parts += [
        flags((ROOT / "docs" / "LAYOUT.md").read_text()),
        *code_classes((ROOT / "include" / "gen1.h").read_text()),
    ]
    parts.append(header_version())
    return "".join(parts)


def header_version():
    """The version of the header, as three numbers."""
    number = int(
        re.search(r"(?m)^#define GEN1_VERSION_NUMBER (0x[0-9a-f]+)$", (ROOT / "include" / "gen1.h").read_text())[1], 16
    )
    numbers = number >> 16, number >> 8 & 0xFF, number & 0xFF
    return f"\n\n# The version of include/gen1.h that these are made of: its major, its minor and its third number.\nHEADER_VERSION = {numbers}\n"


def sample_paths():
    return sorted((ROOT / "examples" / "teams").glob("*.txt"))


def sample_names():
    """The names of the sample teams, in Python."""
    names = "".join(f'    "{it.stem}",\n' for it in sample_paths())
    return f"# The names of the sample teams, by their numbers from 1.\nSAMPLE_TEAMS = (\n{names})\n"


def sample_rows():
    """The members of the sample teams by their numbers, in Rattle."""
    text = (ROOT / "docs" / "TABLES.md").read_text()
    species, moves = ([name for _, name, *_ in table(text, heading)] for heading in ("Species", "Moves"))
    blocks = [block.split("\n- ") for path in sample_paths() for block in path.read_text().strip().split("\n\n")[1:]]
    rows = [
        f"    ({species.index(name) + 1}, {[moves.index(it) + 1 for it in known]}), // {name}: {', '.join(known)}\n"
        for name, *known in blocks
    ]
    return SAMPLE_ROWS.format(count=len(rows)) + "".join(rows) + "];\n"


def javascript():
    """The names of species, moves and types, as types of TypeScript."""
    text = (ROOT / "docs" / "TABLES.md").read_text()
    lists = {
        kind: [name for _, name, *_ in table(text, heading)]
        for kind, heading in (("Species", "Species"), ("Move", "Moves"))
    }
    lists["Type"] = element_names(text)
    made = "// Made by tools/gen from docs/TABLES.md: the names that the library knows.\n"
    for kind, listed in lists.items():
        lines = [" | ".join(map(json.dumps, listed[at : at + 8])) for at in range(0, len(listed), 8)]
        made += f"export type {kind}Name =\n  | " + "\n  | ".join(lines) + ";\n"
    return made


def generated():
    """The text of each file."""
    rows = "".join([ROWS, *row_lists((ROOT / "docs" / "TABLES.md").read_text())])
    python = {OUT / "names.py": names(), OUT / "rows.py": rows + sample_names()}
    return {**python, JAVASCRIPT: javascript(), SAMPLES: sample_rows()}
