"""The rows of species and moves, and the type chart (docs/TABLES.md)."""

from __future__ import annotations

from ctypes import byref, c_uint8
from dataclasses import dataclass
from fractions import Fraction

from gen1 import _library
from gen1._check import move as a_move
from gen1._check import species as a_species
from gen1._check import within
from gen1._structs import MoveStruct
from gen1.names import Effect, Move, Species, Type
from gen1.rows import MOVE_ROWS, SPECIES_ROWS


@dataclass(frozen=True)
class Base:
    """A species: base stats from 5 to 250, and two types. A single type is
    listed twice.
    """

    hp: int
    attack: int
    defense: int
    speed: int
    special: int
    types: tuple[Type, Type]


@dataclass(frozen=True)
class MoveData:
    """A move: its type, its power, 0 to 170, its accuracy in percent, 30 to
    100, and its PP without PP ups.

    One-hit moves, Counter, Super Fang and moves with a fixed damage have
    power 1; Night Shade, Bide and moves without damage have power 0.
    `priority` is 1 for Quick Attack, which comes before any other move, -1
    for Counter, which comes after any, and 0 for others. `high_critical`
    marks the four moves that are often critical.
    """

    type: Type
    power: int
    accuracy: int
    pp: int
    effect: Effect
    priority: int
    high_critical: bool


def base(species: Species | str | int) -> Base:
    """The base stats and types of a species. Raises `BadTeam` for an unknown
    species.
    """
    one, two, hp, attack, defense, speed, special = SPECIES_ROWS[a_species(species) - 1]
    return Base(hp, attack, defense, speed, special, (Type(one), Type(two)))


def move_data(move: Move | str | int) -> MoveData:
    """The row of a move. Raises `BadTeam` for an unknown move."""
    known, of = a_move(move), MoveStruct()
    kind, power, accuracy, pp = MOVE_ROWS[known - 1]
    _library.move_row(known, byref(of))
    return MoveData(Type(kind), power, accuracy, pp, Effect(of.effect), of.priority, of.high_critical == 1)


def effectiveness(attack: Type | int, foe: Type | int) -> Fraction:
    """The factor of the damage of a move of one type to a foe of one type: 2,
    1, 1/2 or 0.

    For a foe of two different types both factors apply, one after the
    other. Raises `BadArgument`, `BadType`.
    """
    tenths = c_uint8(0)
    _library.effectiveness(within(attack, "attack", 0, 14, Type), within(foe, "foe", 0, 14, Type), byref(tenths))
    return Fraction(tenths.value, 10)
