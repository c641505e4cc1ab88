"""A spectator's knowledge of a battle, from both teams and the log alone
(docs/MECHANICS.md, "Spectator's view").
"""

from __future__ import annotations

from ctypes import byref, c_size_t
from dataclasses import dataclass
from typing import TYPE_CHECKING, Any

from gen1 import _library
from gen1._check import first_false, octets, struct_from
from gen1._structs import ShownSideStruct, SpectatorStruct
from gen1.battle import TeamLike, sides_of
from gen1.errors import BadLog, BadTeam
from gen1.names import LogFault, NewFault, Outcome, Stat, Status
from gen1.states import stage_in, stages_of

if TYPE_CHECKING:
    from _typeshed import ReadableBuffer


@dataclass(frozen=True)
class ShownMember:
    """A spectator's knowledge of a member: its HP, 0 to 999, which is the
    maximum until it first comes out, and the kind of its status.
    """

    hp: int
    status: Status


@dataclass(frozen=True)
class ShownSide:
    """A spectator's knowledge of a side: its members in the order of their
    places, and the place of the active member, 0 before the first comes
    out.

    All other fields belong to the active member. `stages` are -6 to 6:
    Attack, Defense, Speed, Special, accuracy, evasion.
    """

    members: tuple[ShownMember, ...]
    place: int
    stages: tuple[int, ...]
    substitute: bool
    confused: bool
    light_screen: bool
    reflect: bool

    def stage(self, stat: Stat) -> int:
        """The stage of a stat, -6 to 6. Raises `BadArgument`, `BadType`."""
        return stage_in(self.stages, stat)


@dataclass(frozen=True)
class ShownState:
    """A spectator's knowledge of a battle: both sides; the turn, 0 before the
    first; and the outcome.
    """

    one: ShownSide
    two: ShownSide
    turn: int
    outcome: Outcome


class Spectator:
    """A spectator of a battle, which knows both teams and is fed the log of
    each update.

    Two spectators are equal if they know the same and hold the same bytes
    of an incomplete event; a spectator has no hash. A spectator must be
    used by one thread at a time. `bytes` of a spectator are the 86 bytes of
    a `gen1_spectator`, and `from_bytes` is the way back.
    """

    __slots__ = ("_held",)

    def __init__(self, one: TeamLike, two: TeamLike) -> None:
        """Creates a spectator before a battle of two teams, with all members
        at full HP. Raises `BadTeam`, `BadType`.
        """
        teams = sides_of(one, two)
        self._held = SpectatorStruct()
        answer = _library.spectator_begin(byref(self._held), *(byref(it._struct) for it in teams))
        if answer:
            code = NewFault(answer & 0xFF)
            raise BadTeam(code.label, side=answer >> 16, member=answer >> 8 & 0xFF, code=code)

    def feed(self, log: ReadableBuffer) -> None:
        """Reads the next bytes of the battle's log, in pieces of any size. An
        event counts as soon as its last byte is read.

        Raises `BadLog` if these bytes, after the held ones, are not a log,
        and `BadType`; then the spectator is unchanged.
        """
        given = octets(log, "log")
        code = _library.spectator_feed(byref(self._held), given, len(given))
        if code:
            raise BadLog(LogFault(code), fault_place(self.held + given) - len(self.held))

    @property
    def state(self) -> ShownState:
        """What is known, as dataclasses."""
        of = self._held
        return ShownState(_shown(of.sides[0]), _shown(of.sides[1]), of.turn, Outcome(of.outcome))

    @property
    def held(self) -> bytes:
        """The bytes, at most 9, of an incomplete event."""
        return bytes(self._held.held[: self._held.held_count])

    def copy(self) -> Spectator:
        """An independent copy that knows the same."""
        made = Spectator.__new__(Spectator)
        made._held = SpectatorStruct.from_buffer_copy(self._held)
        return made

    __copy__ = copy

    def __deepcopy__(self, _: object) -> Spectator:
        return self.copy()

    @classmethod
    def from_bytes(cls, data: ReadableBuffer) -> Spectator:
        """The spectator with these bytes. Raises `BadArgument` for a field
        that is out of its range, and `BadType`.
        """
        made = cls.__new__(cls)
        made._held = struct_from(data, SpectatorStruct, "a spectator", _fault)
        return made

    def __bytes__(self) -> bytes:
        return bytes(self._held)

    def __reduce__(self) -> tuple[Any, ...]:
        return type(self).from_bytes, (bytes(self),)

    def __eq__(self, other: object) -> bool:
        if not isinstance(other, Spectator):
            return NotImplemented
        return bytes(self) == bytes(other)

    __hash__ = None  # type: ignore[assignment]

    def __repr__(self) -> str:
        return f"<Spectator, turn {self._held.turn}, {Outcome(self._held.outcome).label}>"


def _shown(of: ShownSideStruct) -> ShownSide:
    members = tuple(ShownMember(it.hp, Status(it.status)) for it in of.members[: of.count])
    up = bool(of.substitute), bool(of.confused), bool(of.light_screen), bool(of.reflect)
    return ShownSide(members, of.place, stages_of(of.stages), *up)


def fault_place(log: bytes) -> int:
    """The offset of the first event that cannot be read."""
    at, of = c_size_t(0), _library.EventStruct()
    while _library.next_event(log, len(log), byref(at), byref(of)) == 0:
        pass
    return at.value


def held_fault(of: Any) -> str | None:
    """Whether a player or spectator holds other bytes than those of an event that has come in part."""
    held, rest, reader = bytes(of.held[: of.held_count]), of.held[of.held_count :], SpectatorStruct()
    code = _library.spectator_feed(byref(reader), held, len(held))
    return "held" if code or reader.held_count != len(held) or any(rest) else None


def _fault(of: SpectatorStruct) -> str | None:
    """The field of a spectator that does not fit the others."""
    sides = [test for side in of.sides for test in _side_tests(side)]
    return first_false(sides) or held_fault(of)


def _side_tests(of: ShownSideStruct) -> list[tuple[str, object]]:
    empty = of.members[of.count :]
    return [
        ("members", not any(any(bytes(it)) for it in empty)),
        ("count", of.count),
        ("place", of.place <= of.count),
    ]
