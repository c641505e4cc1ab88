"""The whole state of a battle, as dataclasses. `Battle.from_state` creates a
battle from a changed state.
"""

from __future__ import annotations

from ctypes import sizeof
from dataclasses import dataclass, fields, replace
from functools import cache, lru_cache
from struct import Struct
from typing import TYPE_CHECKING, Any, TypeVar

from gen1 import _library
from gen1._check import by_number, shown, within
from gen1._structs import ActiveStateStruct, MemberStateStruct, SideStateStruct, StateStruct, reader
from gen1.choices import Rules, Side, a_side
from gen1.errors import BadArgument, BadType
from gen1.names import Conditions, Move, Outcome, Request, Species, Stat, Status, Type

S = TypeVar("S", "MemberState", "ActiveState", "SideState", "State")
# How many members and active members are cached, by their bytes: most members of a state did not change since the state before.
KEPT = 1 << 12


@dataclass(frozen=True)
class MemberState:
    """The state of a member.

    `hp` is 0 to `max_hp`. `stats` are Attack, Defense, Speed and Special
    before stages and penalties, 5 to 999. `sleep` is the turns of sleep
    left, 1 to 7, or 0 if it is awake. `marked` says whether the sleep
    clause counts its sleep. `pp` has the PP of each move.
    """

    species: Species
    level: int
    status: Status
    sleep: int
    marked: bool
    moves: tuple[Move, ...]
    pp: tuple[int, ...]
    hp: int
    max_hp: int
    stats: tuple[int, ...]


@dataclass(frozen=True)
class ActiveState:
    """The active member of a side, with the state that lasts only while it is
    active.

    `place` is 1 to 6. `stats` are after stages and penalties, 1 to 999.
    `stages` are -6 to 6: Attack, Defense, Speed, Special, accuracy,
    evasion. `current_move` and `picked_move`, the moves that were used and
    picked last, are slots; 0 is none, 5 is Struggle. The others are
    `kept_accuracy`, `substitute` (HP), `confusion`, `disabled_slot`,
    `disabled_turns`, `bad_poison`, `turns` (of Bide, Thrash or trapping)
    and `energy` (of Bide). They are 0 if they don't apply; docs/LAYOUT.md,
    "Active block" has their ranges.
    """

    place: int
    types: tuple[Type, Type]
    stats: tuple[int, ...]
    stages: tuple[int, ...]
    conditions: Conditions
    current_move: int
    picked_move: int
    kept_accuracy: int
    substitute: int
    confusion: int
    disabled_slot: int
    disabled_turns: int
    bad_poison: int
    turns: int
    energy: int

    def stage(self, stat: Stat) -> int:
        """The stage of a stat, -6 to 6. Raises `BadArgument`, `BadType`."""
        return stage_in(self.stages, stat)


@dataclass(frozen=True)
class SideState:
    """The state of a side: its members in the order of their places, and the
    active member, None before the first update.
    """

    members: tuple[MemberState, ...]
    active: ActiveState | None

    if not TYPE_CHECKING:

        def __getattr__(self, name: str) -> Any:
            """A field of a state that a battle returned; its bytes are decoded on first use."""
            held = self.__dict__.get("_held")
            if held is None or name not in self.__dataclass_fields__:
                raise AttributeError(f"{type(self).__name__!r} object has no attribute {name!r}", name=name, obj=self)
            *members, active = _SIDE(held)
            self.__dict__.update(members=tuple(filter(None, map(_member, members))), active=_active(active))
            return self.__dict__[name]

    def __reduce__(self) -> tuple[Any, ...]:
        return type(self), (self.members, self.active)


@dataclass(frozen=True)
class State:
    """The whole state of a battle: both sides; turn (0 before the first
    update) and limit; the last damage, 0 to 65,535; and so on.

    `index`, 0 to 8, says which of the first nine `numbers` is drawn next;
    the tenth is never drawn. A state is never changed in place:
    `with_member`, `with_active` and `dataclasses.replace` return changed
    copies.
    """

    one: SideState
    two: SideState
    turn: int
    limit: int
    last_damage: int
    rules: Rules
    outcome: Outcome
    requests: tuple[Request, Request]
    index: int
    numbers: tuple[int, ...]

    def side(self, side: Side | int) -> SideState:
        """A side: `one` or `two`."""
        return self.one if a_side(side) == 1 else self.two

    def member(self, side: Side | int, place: int) -> MemberState:
        """The member of a side at a place, from 1. Raises `BadArgument` if
        there is none.
        """
        members = self.side(side).members
        return members[within(place, f"side {int(side)}'s place", 1, len(members)) - 1]

    def with_member(self, side: Side | int, place: int, **changes: Any) -> State:
        """A copy with other fields of the member at a place, from 1:
        `state.with_member(Side.ONE, 2, hp=30)`.

        Raises `BadArgument` for a place without a member, and `BadType` for
        a field that a `MemberState` does not have.
        """
        known, other = a_side(side), changed(self.member(side, place), changes)
        members = self.side(known).members
        return self._with_side(known, members=(*members[: place - 1], other, *members[place:]))

    def with_active(self, side: Side | int, **changes: Any) -> State:
        """A copy with other fields of the active member:
        `state.with_active(Side.ONE, substitute=88)`.

        Raises `BadArgument` before the first update, and `BadType` for a
        field that an `ActiveState` does not have.
        """
        known = a_side(side)
        active = self.side(known).active
        if active is None:
            raise BadArgument(f"side {known} has no active member: the battle is before its first update")
        return self._with_side(known, active=changed(active, changes))

    def _with_side(self, side: int, **changes: Any) -> State:
        other = replace(self.side(side), **changes)
        return replace(self, one=other) if side == 1 else replace(self, two=other)


def changed(of: S, changes: dict[str, Any]) -> S:
    """A copy with other fields. Raises `BadType` for a field that does not
    exist.
    """
    names = [it.name for it in fields(of)]
    for name in changes:
        if name not in names:
            raise BadType(f"{type(of).__name__} has no field {shown(name)}; its fields are {', '.join(names)}")
    return replace(of, **changes)


def struct_of_state(held: Any) -> StateStruct:
    """The struct gen1_state of the battle with these 384 bytes."""
    of = StateStruct()
    _library.get_state(held, of)
    return of


def state_of(held: Any) -> State:
    """The state of the battle with these 384 bytes."""
    one, two, turn, limit, last_damage, rules, outcome, first, second, index, numbers = _STATE(struct_of_state(held))
    return _made(
        State,
        {
            "one": _made(SideState, {"_held": one}),
            "two": _made(SideState, {"_held": two}),
            "turn": turn,
            "limit": limit,
            "last_damage": last_damage,
            "rules": _rules(rules),
            "outcome": _OUTCOME[outcome],
            "requests": (_REQUEST[first], _REQUEST[second]),
            "index": index,
            "numbers": tuple(numbers),
        },
    )


def stage_in(stages: tuple[int, ...], stat: object) -> int:
    """The stage of a stat, 1 to 6, among the six of an active member."""
    return stages[within(stat, "stat", 1, 6, Stat) - 1]


def stages_of(given: Any) -> tuple[int, ...]:
    """Six stages as -6 to 6, from their bytes, which are 0 to 12."""
    return tuple([it - 6 for it in given])


def _made(kind: type[S], read: dict[str, Any]) -> S:
    """The dataclass with these fields, created faster than by a call of its constructor."""
    made = object.__new__(kind)
    made.__dict__.update(read)
    return made


@lru_cache(KEPT)
def _member(held: bytes) -> MemberState | None:
    """The member with these bytes."""
    of = _MEMBER(held)
    if not of["species"]:
        return None
    moves, pp = of["moves"], of["pp"]
    of["species"], of["status"], of["marked"] = _SPECIES[of["species"]], _STATUS[of["status"]], bool(of["marked"])
    of["moves"] = tuple([_MOVE[it] for it in moves if it])
    of["pp"] = tuple([it for move, it in zip(moves, pp) if move])
    of["stats"] = _STATS(of["stats"])
    return _made(MemberState, of)


@lru_cache(KEPT)
def _active(held: bytes) -> ActiveState | None:
    """The active member with these bytes."""
    of = _ACTIVE(held)
    if not of["place"]:
        return None
    first, second = of["types"]
    of["types"], of["stats"] = (_TYPE[first], _TYPE[second]), _STATS(of["stats"])
    of["stages"], of["conditions"] = stages_of(of["stages"]), _conditions(of["conditions"])
    return _made(ActiveState, of)


_SPECIES, _MOVE, _TYPE = by_number(Species), by_number(Move), by_number(Type)
_STATUS, _OUTCOME, _REQUEST = by_number(Status), by_number(Outcome), by_number(Request)
_MEMBER, _ACTIVE, _STATS = reader(MemberStateStruct), reader(ActiveStateStruct), Struct("=4H").unpack
# The fields of gen1_state, each side as its bytes; and the members and the active member of a side, as their bytes.
_STATE = Struct(f"={2 * f'{sizeof(SideStateStruct)}s'}3H5B10s3x").unpack
_SIDE = Struct(6 * f"{sizeof(MemberStateStruct)}s" + f"{sizeof(ActiveStateStruct)}s").unpack
_conditions, _rules = cache(Conditions), cache(Rules)
