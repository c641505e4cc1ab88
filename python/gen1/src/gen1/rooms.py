"""Rooms: battles of two players who choose independently (docs/MECHANICS.md,
"Rooms").
"""

from __future__ import annotations

from ctypes import byref
from threading import RLock
from typing import TYPE_CHECKING, Any

from gen1 import _library
from gen1._check import seed_bytes, shown, struct_from, within
from gen1._structs import HostStruct, RoomStruct
from gen1.battle import CHOICE, CHOICES, RESULTS, Battle, Result, SeedLike, Update, battle_of
from gen1.choices import Choice, Side, a_choice, a_side, not_offered
from gen1.errors import BadArgument, BadType, RoomRefused
from gen1.names import HostFault, Request, RoomRefusal

if TYPE_CHECKING:
    from _typeshed import ReadableBuffer

NUMBERS = (1 << 32) - 1
# The byte of a choice that is missing.
DUE = 255


class Room:
    """A battle of two players: it keeps the first choice of a pair until the
    other one is submitted, and then updates the battle.

    Pairs are numbered from 0. Until a pair has ended, no call reveals which
    of the offered choices a side has made. A side may forfeit. Two rooms
    are equal if their battles, numbers, logs, choices and forfeits are
    equal; a room has no hash. Several threads may use one room, for example
    the handlers of both players.

    `bytes` of a room are the 908 bytes of a `gen1_room`, and `from_bytes`
    is the way back. They have everything, also secret choices.
    """

    # Each call of the library is atomic for other threads; the lock makes methods with several calls atomic too.
    __slots__ = ("_held", "_lock")

    def __init__(self, battle: Battle) -> None:
        """Creates a room with a copy of the battle. A battle that has not
        begun is started at once. Raises `BadType`.
        """
        if not isinstance(battle, Battle):
            raise BadType(f"battle must be a Battle, not {shown(battle)}")
        self._held, self._lock = RoomStruct(), RLock()
        self._held.battle[:] = battle.bytes
        _library.room_begin(byref(self._held))

    @property
    def battle(self) -> Battle:
        """A copy of the battle. It includes information that the players must
        not see. A forfeit does not change it.
        """
        return battle_of(self._held.battle)

    @property
    def result(self) -> Result:
        """The outcome so far, and the request to each side. After a forfeit
        the other side has won, and both requests are `Request.NOTHING`.
        """
        return RESULTS[_library.room_result(byref(self._held))]

    @property
    def forfeited(self) -> Side | None:
        """The side that has forfeited; None if neither has."""
        return Side(self._held.forfeit) if self._held.forfeit else None

    @property
    def number(self) -> int:
        """The number of the current pair of choices: how many pairs have
        ended, 0 to 2 ** 32 - 1.
        """
        return int(self._held.number)

    @property
    def log(self) -> bytes:
        """The log bytes of the last pair that ended; before the first,
        those of the start, or none if the battle had already begun.

        They are for the host: they hold the foe's places and exact HP.
        Send a side the bytes that `Teller.tell` returns for them.
        """
        with self._lock:
            return bytes(self._held.log[: self._held.log_length])

    def choices(self, side: Side | int) -> tuple[Choice, ...]:
        """The choices that a side may submit for the current pair, in rising
        order.

        There are none if the battle is over, a side has forfeited, or the
        side has chosen. A side without a request counts as having chosen.
        Raises `BadArgument`, `BadType` for a value that is not a side.
        """
        room = CHOICES()
        count = _library.room_choices(byref(self._held), a_side(side), room)
        return tuple([CHOICE[it] for it in room[:count]])

    def submit(self, side: Side | int, number: int, choice: Choice | int) -> Update | None:
        """Submits a side's choice for the pair with this number, 0 to 2 ** 32
        - 1.

        Returns the update, or None if the room waits for the foe's choice.
        Raises `RoomRefused`, and then the room is unchanged; `BadArgument`
        and `BadType` for an invalid side, number or byte.
        """
        known, pair = a_side(side), within(number, "number", 0, NUMBERS)
        byte = a_choice(choice, known)
        with self._lock:
            before = self.number
            code = _library.room_submit(byref(self._held), known, pair, byte)
            if code:
                raise self._refused(RoomRefusal(code), known, pair, byte)
            return Update(self.result, self.log) if self.number != before else None

    def reseed(self, seed: SeedLike) -> None:
        """Replaces the ten numbers that the battle draws, of which the first
        is drawn next. Nothing else changes: a choice that was submitted
        stays.

        A host does so before each pair, with `os.urandom(10)`. Otherwise a
        player that has seen nine draws can predict all that follow.
        """
        numbers = _library.SeedBytes(*seed_bytes(seed))
        with self._lock:
            _library.reseed(byref(self._held.battle), numbers, 0)

    def forfeit(self, side: Side | int) -> Update:
        """Ends the current pair by a forfeit of a side: the other side wins.
        Choices that were submitted for this pair are discarded.

        Returns the update, whose log is the single event of the win.
        `number` has risen by one, and every later submission is refused
        with `RoomRefusal.OVER`. Raises `RoomRefused` if the battle is over
        or a side has forfeited, and then the room is unchanged;
        `BadArgument` and `BadType` for a value that is not a side.
        """
        known = a_side(side)
        with self._lock:
            if _library.room_forfeit(byref(self._held), known):
                raise self._refused(RoomRefusal.OVER, known, self.number, None)
            return Update(self.result, self.log)

    def copy(self) -> Room:
        """An independent copy with the same battle, number, log, choices and
        forfeit.
        """
        made = Room.__new__(Room)
        made._held, made._lock = RoomStruct.from_buffer_copy(self._held), RLock()
        return made

    __copy__ = copy

    def __deepcopy__(self, _: object) -> Room:
        return self.copy()

    @classmethod
    def from_bytes(cls, data: ReadableBuffer) -> Room:
        """The room with these bytes. Exactly those of rooms are accepted.

        Raises `BadBytes` if the battle in them is none, `BadArgument` if
        the rest is not that of a room, and `BadType`.
        """
        made = cls.__new__(cls)
        made._held, made._lock = _room_in(data), RLock()
        return made

    def __bytes__(self) -> bytes:
        return bytes(self._held)

    def __reduce__(self) -> tuple[Any, ...]:
        return type(self).from_bytes, (bytes(self),)

    def __eq__(self, other: object) -> bool:
        if not isinstance(other, Room):
            return NotImplemented
        return self._parts() == other._parts()

    __hash__ = None  # type: ignore[assignment]

    def __repr__(self) -> str:
        return f"<Room, pair {self.number}, {self.result.outcome.label}>"

    def _parts(self) -> tuple[bytes, int, bytes, bytes, int]:
        with self._lock:
            return _parts_of(self._held)

    def _refused(self, code: RoomRefusal, side: int, number: int, byte: int | None) -> RoomRefused:
        offered = self.choices(side)
        said = {
            RoomRefusal.OVER: f"{code.label}: {self.result.outcome.label}",
            RoomRefusal.STALE: f"{code.label}: {number}; the current pair is {self.number}",
            RoomRefusal.CHOSEN: f"{code.label}: side {side} can submit nothing more for pair {number}",
            RoomRefusal.NOT_OFFERED: not_offered(side, byte or 0, offered),
        }[code]
        return RoomRefused(code, said, side=side, number=number, current=self.number, choice=byte, offered=offered)


def _room_in(data: ReadableBuffer) -> RoomStruct:
    """The room with these bytes: that of a host whose tellers have reported nothing, or such a room after a forfeit."""
    held = struct_from(data, RoomStruct, "a room")
    battle, host = Battle.load(bytes(held.battle)), HostStruct(room=held)
    room, host.tellers[0].side, host.tellers[1].side = host.room, 1, 2
    room.battle[:] = battle.bytes
    if held.forfeit:
        # A forfeit discards choices, so any room before it will do.
        room.chosen[:] = [0 if it is Request.NOTHING else DUE for it in battle.result.requests]
        room.number, room.forfeit = (held.number or 1 << 32) - 1, 0
    code = _library.host_load(byref(host))
    if code:
        raise BadArgument(f"data is not a room: {HostFault(code).label}")
    if held.forfeit:
        if _library.room_forfeit(byref(room), held.forfeit) or _parts_of(room) != (battle.bytes, *_parts_of(held)[1:]):
            raise BadArgument(f"data is not a room: no forfeit of side {held.forfeit} leads there")
    return RoomStruct.from_buffer_copy(room)


def _parts_of(of: RoomStruct) -> tuple[bytes, int, bytes, bytes, int]:
    """The whole state of a room: battle, number, choices, log and forfeit."""
    return bytes(of.battle), of.number, bytes(of.chosen), bytes(of.log[: of.log_length]), of.forfeit
