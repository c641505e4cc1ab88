"""Opponents in an environment: random, by the greatest damage, or a function
of observations and masks.

Each opponent sees the knowledge of its side's player, and never the battle.
"""

from __future__ import annotations

from collections.abc import Callable
from functools import lru_cache
from typing import Any, TypeAlias

import numpy as np
from numpy.typing import ArrayLike, NDArray

from gen1._check import shown
from gen1.arrays import ACTIONS, CHOICES, COUNTS, Bytes, Masks, bits, nth_choices
from gen1.choices import Choice, not_offered
from gen1.encodings import Encoding, Rows
from gen1.errors import BadArgument, BadType, Refused
from gen1.names import Effect, Move, Refusal, Request, Type
from gen1.player_arrays import PlayerArray
from gen1.rows import SPECIES_ROWS
from gen1.tables import effectiveness, move_data

# Takes the rows of m battles, (m, columns), and the offered actions of each, (m, 12) bools, and returns an action for each, (m).
Policy: TypeAlias = Callable[[Rows, NDArray[np.bool_]], ArrayLike]
# Chooses for one side: returns the number of a choice for each battle; those of finished battles are ignored.
Chooser: TypeAlias = Callable[[PlayerArray, int, Encoding, np.random.Generator], Bytes]
OpponentLike: TypeAlias = str | Policy

# The worth of moves whose power is misleading: a share of the power, or a separate power.
SHARES = {
    Effect.EXPLODE: 0.5,
    Effect.CHARGE: 0.5,
    Effect.CHARGE_INVULNERABLE: 0.5,
    Effect.RECHARGE: 0.6,
    Effect.DREAM_EATER: 0.0,
    Effect.DOUBLE_HIT: 2.0,
    Effect.TWINEEDLE: 2.0,
    Effect.MULTI_HIT: 3.0,
}
POWERS = {Effect.FIXED_DAMAGE: 60.0, Effect.SUPER_FANG: 60.0, Effect.ONE_HIT_KNOCK_OUT: 10.0, Effect.COUNTER: 10.0}


def random_choices(players: PlayerArray, side: int, encoding: Encoding, dice: np.random.Generator) -> Bytes:
    """One of the offered choices, all equally likely."""
    masks = players.masks(side)
    return nth_choices(masks, (dice.random(len(masks)) * COUNTS[masks]).astype(np.int64))


@lru_cache(maxsize=1)
def _rows() -> tuple[NDArray[Any], ...]:
    """The type and worth of each move, with index 0 for none; base Defense and Special, and the types, of each species; the type chart."""
    kinds, worths = [0], [0.0]
    for it in Move:
        row = move_data(it)
        kinds.append(int(row.type))
        worths.append(POWERS.get(row.effect, row.power * SHARES.get(row.effect, 1.0)) * row.accuracy / 100)
    bulks = [(1, 1), *((row[4], row[6]) for row in SPECIES_ROWS)]
    types = [(-1, -1), *(row[:2] for row in SPECIES_ROWS)]
    chart = [[float(effectiveness(move, foe)) for foe in Type] for move in Type]
    return np.array(kinds), np.array(worths), np.array(bulks, float), np.array(types), np.array(chart)


def worths(players: PlayerArray, side: int) -> NDArray[Any]:
    """An estimate of how much each move of each own member hurts the foe's
    active member, (n, 6, 4), without a unit.
    """
    kinds, powers, bulks, types, chart = _rows()
    known = players.known(side)
    own, foe, battles = known["own"], known["known"]["sides"][:, 2 - side], np.arange(len(players))
    attack, special = (own["members"]["stats"][..., at].astype(float) for at in (0, 3))
    out = np.maximum(own["place"], 1).astype(np.int64) - 1
    attack[battles, out], special[battles, out] = own["stats"][:, 0], own["stats"][:, 3]
    bulk = bulks[foe["members"]["species"][battles, np.maximum(foe["place"], 1).astype(np.int64) - 1]] + 50
    moves = own["members"]["moves"]
    kind = kinds[moves]
    ratio = np.where(kind < Type.FIRE, (attack / bulk[:, :1])[..., None], (special / bulk[:, 1:])[..., None])
    first, second = (foe[name].astype(np.int64)[:, None, None] for name in ("first_type", "second_type"))
    chances = chart[kind, first] * np.where(first == second, 1, chart[kind, second])
    bonus = np.where((kind[..., None] == types[own["members"]["species"]][:, :, None]).any(-1), 1.5, 1)
    found: NDArray[Any] = powers[moves] * ratio * chances * bonus
    return found


def greedy_choices(players: PlayerArray, side: int, encoding: Encoding, dice: np.random.Generator) -> Bytes:
    """The move that hurts most, by a simple estimate; if a member must be sent
    out, the member with the move that hurts most.
    """
    worth, own = worths(players, side), players.known(side)["own"]
    score = np.zeros((len(players), ACTIONS))
    score[:, 2:6] = worth[np.arange(len(players)), np.maximum(own["place"], 1).astype(np.int64) - 1]
    forced = (own["request"] == Request.SWITCH)[:, None]
    score[:, 6:] = np.where(forced, worth.max(2), -1)
    chosen: Bytes = CHOICES[np.where(bits(players.masks(side)), score, -np.inf).argmax(1)]
    return chosen


def by_policy(policy: Policy) -> Chooser:
    """The choices of a function, which is passed the rows of the battles that
    are not over.
    """

    def choices(players: PlayerArray, side: int, encoding: Encoding, dice: np.random.Generator) -> Bytes:
        masks, chosen = players.masks(side), np.zeros(len(players), np.uint8)
        asked = masks != 0
        if asked.any():
            rows = players.observe(side, encoding, which=None if asked.all() else asked)
            actions = actions_of(policy(rows, bits(masks[asked])), len(rows), "the opponent's actions")
            chosen[asked] = CHOICES[actions]
            must_be_offered(masks, chosen, side)
        return chosen

    return choices


def opponent_of(given: OpponentLike) -> Chooser:
    """The opponent for a name or a function."""
    named: dict[object, Chooser] = {"random": random_choices, "greedy": greedy_choices}
    if isinstance(given, str):
        if given not in named:
            raise BadArgument(f"opponent must be 'random', 'greedy' or a function, not {shown(given)}")
        return named[given]
    if not callable(given):
        raise BadType(f"opponent must be 'random', 'greedy' or a function, not {shown(given)}")
    return by_policy(given)


def actions_of(given: object, count: int, name: str) -> NDArray[Any]:
    """Actions from 0 to 11, (count), as an array. Raises `BadArgument`,
    `BadType`.
    """
    try:
        actions = np.asarray(given)
    except ValueError:
        raise BadType(f"{name} must be ({count},) whole numbers, not {shown(given)}") from None
    if actions.dtype.kind not in "ui":
        raise BadType(f"{name} must be whole numbers, not {actions.dtype}")
    if actions.shape != (count,):
        raise BadArgument(f"{name} must be ({count},) numbers, not {actions.shape}")
    wrong = (actions < 0) | (actions >= ACTIONS)
    if wrong.any():
        raise BadArgument(f"{name}[{wrong.argmax()}] must be 0 to {ACTIONS - 1}, not {actions[wrong.argmax()]}")
    return actions


def must_be_offered(masks: Masks, chosen: Bytes, side: int) -> None:
    """Raises `Refused` for the first choice that is not in its mask. A mask of
    0, of a battle that is over, accepts any choice.
    """
    bit = np.searchsorted(CHOICES, chosen).astype(np.uint16)
    wrong = (masks != 0) & (masks >> bit & 1 == 0)
    if wrong.any():
        at = int(wrong.argmax())
        refuse(int(masks[at]), int(chosen[at]), side, f"battle {at}: " if len(masks) > 1 else "")


def refuse(mask: int, choice: int, side: int, where: str = "") -> None:
    """Raises `Refused` for a choice that a side is not offered."""
    offered = tuple(it for at, it in enumerate(Choice) if mask >> at & 1)
    code = Refusal.NOT_OFFERED_ONE if side == 1 else Refusal.NOT_OFFERED_TWO
    raise Refused(code, where + not_offered(side, choice, offered), side, choice, offered)
