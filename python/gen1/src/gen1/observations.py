"""The knowledge of a side of a `BattleArray`, as a row of numbers from -1 to
1, if both sides know both teams.

The knowledge of a `Player`, who meets the foe's members as they come out, is
a row of another form: see `gen1.encodings`, whose `VERSION`, `Column` and
`Encoding` are also names of this module.

A side knows everything about its own members except the values that the game
hides: how long sleep and confusion last, and the numbers that are drawn
next. It knows the foe as a spectator of both teams does (docs/MECHANICS.md,
"Spectator's view"): species and level of each member, HP, the kind of
status, the active member, the stages, and whether a Substitute, confusion,
Light Screen and Reflect are up. No column has moves, PP or stats of the foe.
`COLUMNS` has the name of each column.
"""

from typing import Any

import numpy as np
from numpy.typing import NDArray

from gen1.encodings import VERSION as VERSION
from gen1.encodings import Column as Column
from gen1.encodings import Encoding as Encoding
from gen1.names import Conditions

Row = NDArray[np.float32]

STATUSES = ("sleep", "poison", "burn", "freeze", "paralysis")
STAGES = ("attack", "defense", "speed", "special", "accuracy", "evasion")
UP = (
    ("substitute", Conditions.SUBSTITUTE),
    ("confused", Conditions.CONFUSED),
    ("light_screen", Conditions.LIGHT_SCREEN),
    ("reflect", Conditions.REFLECT),
)
# The kind of each status byte in docs/LAYOUT.md: 1 to 7 are sleep, 8, 16, 32 and 64 the others.
_KIND = np.zeros(256, np.uint8)
_KIND[1:8], _KIND[8], _KIND[16], _KIND[32], _KIND[64] = 1, 2, 3, 4, 5


def _columns() -> tuple[str, ...]:
    names = []
    for place in range(1, 7):
        it = f"own {place}"
        names += [f"{it} species / 151", f"{it} level / 100", f"{it} hp / max_hp", f"{it} max_hp / 999", f"{it} is out"]
        names += [f"{it} {kind}" for kind in STATUSES]
        names += [f"{it} {stat} / 999" for stat in STAGES[:4]]
        names += [f"{it} move {slot} / 165" for slot in range(1, 5)]
        names += [f"{it} pp {slot} / 63" for slot in range(1, 5)]
    for place in range(1, 7):
        it = f"foe {place}"
        names += [f"{it} species / 151", f"{it} level / 100", f"{it} hp / max_hp", f"{it} is out"]
        names += [f"{it} {kind}" for kind in STATUSES]
    for it in ("own", "foe"):
        names += [f"{it} {stat} stage / 6" for stat in STAGES] + [f"{it} {name}" for name, _ in UP]
    names += ["turn / limit", "asked to move", "asked to switch", "won", "lost", "tied"]
    names += [
        "offered pass",
        *(f"offered move {slot}" for slot in range(5)),
        *(f"offered switch {place}" for place in range(1, 7)),
    ]
    return tuple(names)


# The name of each column: its value, and its divisor. Without a divisor it is 0 or 1. All columns of a place without a member are 0.
COLUMNS = _columns()


def observe(fields: Any, side: int, masks: NDArray[np.uint16]) -> Row:
    """The observations of a side, (n, `len(COLUMNS)`), from battles as
    `gen1.layout.BATTLE` and the masks of that side.
    """
    own, foe = fields["sides"][:, side - 1], fields["sides"][:, 2 - side]
    n = len(fields)
    parts = [_members(own, True), _members(foe, False), _active(own), _active(foe), _whole(fields, side)]
    parts.append((masks[:, None] >> np.arange(12, dtype=np.uint16) & 1).astype(np.float32))
    return np.concatenate([it.reshape(n, -1) for it in parts], 1, dtype=np.float32)


def _members(side: Any, own: bool) -> Row:
    """The columns of each member in turn."""
    members, out = side["members"], side["active"]["place"]
    kinds = _KIND[members["status"]][..., None] == np.arange(1, 6)
    max_hp = members["max_hp"].astype(np.float32)
    rows = [members["species"] / 151, members["level"] / 100, members["hp"] / np.maximum(max_hp, 1)]
    rows += [max_hp / 999] if own else []
    rows += [out[:, None] == np.arange(1, 7)]
    columns = [*(it[..., None] for it in rows), kinds]
    if own:
        columns += [members["stats"] / 999, members["moves"] / 165, members["pp"] / 63]
    return np.concatenate(columns, 2, dtype=np.float32)


def _active(side: Any) -> Row:
    """The stages and conditions of the active member. Before the first update there is none, and all are 0."""
    active = side["active"]
    there = (active["place"] > 0)[:, None]
    stages = (active["stages"].astype(np.float32) - 6) / 6 * there
    up = [(active["conditions"] & int(bit) > 0)[:, None] for _, bit in UP]
    return np.concatenate([stages, *up], 1, dtype=np.float32)


def _whole(fields: Any, side: int) -> Row:
    """The columns for the whole battle."""
    asked, outcome = fields["requests"][:, side - 1], fields["outcome"]
    columns = (
        fields["turn"] / fields["limit"],
        asked == 1,
        asked == 2,
        outcome == side,
        outcome == 3 - side,
        outcome == 3,
    )
    return np.stack(columns, 1, dtype=np.float32, casting="unsafe")
