"""A side as it is shown to its own player (docs/MECHANICS.md, "What a side is
shown of itself").
"""

from __future__ import annotations

from ctypes import byref, sizeof
from dataclasses import dataclass
from functools import lru_cache
from struct import Struct
from typing import TYPE_CHECKING, Any

from gen1 import _library
from gen1._check import by_number, first_false, struct_from
from gen1._structs import OwnMemberStruct, OwnSideStruct, reader
from gen1.names import Conditions, Move, Outcome, Request, Species, Stat, Status, Type
from gen1.states import KEPT, stage_in, stages_of

if TYPE_CHECKING:
    from _typeshed import ReadableBuffer


# A side is offered at most four moves and five switches.
MOST_CHOICES = 9


@dataclass(frozen=True)
class OwnMember:
    """A member of the side. `pp` has the PP of each move. `stats` are its
    own Attack, Defense, Speed and Special, 5 to 999.

    The turns of sleep of a sleeping member are not shown.
    """

    species: Species
    level: int
    status: Status
    moves: tuple[Move, ...]
    pp: tuple[int, ...]
    hp: int
    max_hp: int
    stats: tuple[int, ...]


class OwnSide:
    """A side as it is shown to its own player after each update
    (docs/MECHANICS.md, "What a side is shown of itself").

    `Battle.own_side` returns it. Only `held` depends on the foe. Two are
    equal if all of their fields are equal. Before the first update there is
    no active member: `place` is 0, and the fields of the active member are
    zeros.

    `bytes` of an own side are the 172 bytes of a `gen1_own_side`, and
    `from_bytes` is the way back.
    """

    __slots__ = ("_held", "_members")
    _held: OwnSideStruct
    # None before the first use of `members`.
    _members: tuple[OwnMember, ...] | None

    @property
    def members(self) -> tuple[OwnMember, ...]:
        """Its members in the order of their places, decoded on first use."""
        if self._members is None:
            self._members = tuple([_own_member(it) for it in _MEMBERS(self._held)[: self._held.count]])
        return self._members

    @property
    def place(self) -> int:
        """The place of the active member, 1 to 6; 0 before the first update."""
        return int(self._held.place)

    @property
    def active(self) -> OwnMember | None:
        """The active member; None before the first update."""
        return self.members[self.place - 1] if self.place else None

    @property
    def types(self) -> tuple[Type, Type]:
        """Both types of the active member, the first twice for a member of one
        type; Normal before the first update.
        """
        return Type(self._held.types[0]), Type(self._held.types[1])

    @property
    def stages(self) -> tuple[int, ...]:
        """The stages of the active member, -6 to 6: Attack, Defense, Speed,
        Special, accuracy, evasion.
        """
        return stages_of(self._held.stages) if self.place else (0,) * 6

    @property
    def stats(self) -> tuple[int, ...]:
        """Attack, Defense, Speed and Special of the active member, with stages
        and penalties, 1 to 999.
        """
        return tuple(self._held.stats)

    @property
    def conditions(self) -> Conditions:
        """The conditions of the active member; never `Conditions.FLINCH`."""
        return Conditions(self._held.conditions)

    @property
    def disabled_slot(self) -> int:
        """The slot that Disable blocks, 1 to 4; 0 for none."""
        return int(self._held.disabled_slot)

    @property
    def held(self) -> bool:
        """Whether the foe's trapping move holds the active member."""
        return bool(self._held.held)

    @property
    def request(self) -> Request:
        """The request to the side for the next update."""
        return Request(self._held.request)

    @property
    def turn(self) -> int:
        """The turn, 1 up to the limit; 0 before the first."""
        return int(self._held.turn)

    @property
    def outcome(self) -> Outcome:
        """The outcome so far."""
        return Outcome(self._held.outcome)

    def stage(self, stat: Stat) -> int:
        """The stage of a stat, -6 to 6. Raises `BadArgument`, `BadType`."""
        return stage_in(self.stages, stat)

    @classmethod
    def from_bytes(cls, data: ReadableBuffer) -> OwnSide:
        """The side with these bytes. Raises `BadArgument` for a field that
        is out of its range, and `BadType`.
        """
        return _made(struct_from(data, OwnSideStruct, "an own side", own_fault))

    def __bytes__(self) -> bytes:
        return bytes(self._held)

    def __reduce__(self) -> tuple[Any, ...]:
        return own_side_from, (bytes(self._held),)

    def __eq__(self, other: object) -> bool:
        if not isinstance(other, OwnSide):
            return NotImplemented
        return bytes(self._held) == bytes(other._held)

    def __hash__(self) -> int:
        return hash(bytes(self._held))

    def __repr__(self) -> str:
        out = self.active
        return f"<OwnSide, turn {self.turn}, {out.species.label if out else 'nobody'} out, asked {self.request}>"


def own_fault(of: Any) -> str | None:
    """The field of an own side that does not fit the others."""
    tests: list[tuple[str, object]] = []
    for it in of.members[: of.count]:
        tests += [("species", it.species), ("level", it.level), ("hp", it.hp <= it.max_hp), ("max_hp", it.max_hp >= 11)]
        tests.append(("stats", min(it.stats) >= 5))
    return first_false(
        [
            *tests,
            ("conditions", not of.conditions & Conditions.FLINCH),
            ("stats", not of.place or min(of.stats)),
            ("count", of.count),
            ("place", of.place <= of.count),
            ("members", not any(any(bytes(it)) for it in of.members[of.count :])),
        ]
    )


def mask_fault(of: Any) -> str | None:
    """Whether the mask of a player or message has more choices than a side is ever offered."""
    return "offered" if bin(of.offered).count("1") > MOST_CHOICES else None


@lru_cache(KEPT)
def _own_member(held: bytes) -> OwnMember:
    """The member with these bytes. Most members did not change since they were last shown."""
    of = _MEMBER(held)
    pairs = [(_MOVE[move], pp) for move, pp in zip(of["moves"], of["pp"]) if move]
    return OwnMember(
        species=_SPECIES[of["species"]],
        level=of["level"],
        status=_STATUS[of["status"]],
        moves=tuple([move for move, _ in pairs]),
        pp=tuple([pp for _, pp in pairs]),
        hp=of["hp"],
        max_hp=of["max_hp"],
        stats=_STATS(of["stats"]),
    )


def own_side_of(held: Any, side: int) -> OwnSide:
    """A side of the battle with these 384 bytes, as it is shown to its own player."""
    shown = OwnSideStruct()
    _library.get_own_side(byref(held), side, byref(shown))
    return _made(shown)


def own_side_from(held: bytes) -> OwnSide:
    """The `OwnSide` with the bytes of this struct."""
    return _made(OwnSideStruct.from_buffer_copy(held))


def _made(held: OwnSideStruct) -> OwnSide:
    made = OwnSide.__new__(OwnSide)
    made._held, made._members = held, None
    return made


_SPECIES, _MOVE, _STATUS = by_number(Species), by_number(Move), by_number(Status)
_MEMBER, _STATS = reader(OwnMemberStruct), Struct("=4H").unpack
# The members of a side, as their bytes.
_MEMBERS = Struct(6 * f"{sizeof(OwnMemberStruct)}s").unpack_from
