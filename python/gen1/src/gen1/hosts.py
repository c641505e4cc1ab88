"""Hosts: two players and an audience, each of whom is sent what it may know
(docs/MECHANICS.md, "Hosts").
"""

from __future__ import annotations

import os
from collections.abc import Mapping
from ctypes import byref, sizeof
from dataclasses import dataclass
from struct import Struct
from threading import RLock
from typing import TYPE_CHECKING, Any, Literal, TypeAlias

from gen1 import _library
from gen1._check import a_form, octets, seed_bytes, shown, ten_bytes, truth, within
from gen1._structs import BattleBytes, HostStruct, MessageStruct, NoticeStruct, RowStruct
from gen1.battle import RESULTS, Battle, Result, SeedLike, battle_of
from gen1.choices import Choice, Side, a_choice, a_side, not_offered
from gen1.errors import BadArgument, BadHost, BadType, HostRefused
from gen1.messages import Message, Notice, message_of, notice_of, record
from gen1.names import HostFault, HostRefusal, HpForm, RowKind

if TYPE_CHECKING:
    from _typeshed import ReadableBuffer

# What a row draws from then on: new numbers of the operating system, these ten, or those that were to be drawn anyway.
Numbers: TypeAlias = SeedLike | Literal["fresh"] | None
PAIRS = (1 << 32) - 1
ROW_BYTES = 18
_PACK = Struct("<4BI10s").pack
# The kinds and the sides by their bytes.
_KINDS, _SIDES = tuple(RowKind), tuple(Side)
_JSON_FIELDS = ("kind", "side", "number", "choice", "numbers")
_JSON_KINDS = ("submit", "cancel", "expire", "draw", "forfeit")
# The fields that a kind of row has besides its side.
_USED = {
    RowKind.SUBMIT: ("number", "choice", "numbers"),
    RowKind.CANCEL: ("number",),
    RowKind.EXPIRE: ("number", "numbers"),
    RowKind.OFFER_DRAW: (),
    RowKind.FORFEIT: (),
}


@dataclass(frozen=True, slots=True)
class Row:
    """What happens at a host, as a value that can be stored.

    The classmethods make rows. `number` is the number of the pair, and
    `choice` the byte of the choice that is submitted; both are 0 in rows
    that have none. `numbers` are the ten numbers that the battle draws from
    then on, or None to draw on.

    `bytes` of a row are 18 bytes: kind, side, choice, 1 if it has numbers,
    the number of the pair with its lowest byte first, and the ten numbers.
    `from_bytes` is the way back.
    """

    kind: RowKind
    side: Side
    number: int = 0
    choice: int = 0
    numbers: bytes | None = None

    def __post_init__(self) -> None:
        used = _USED[self.kind]
        for name in ("number", "choice", "numbers"):
            if name not in used and getattr(self, name):
                raise BadArgument(f"a row of kind {self.kind.label} has no {name}, not {shown(getattr(self, name))}")

    @classmethod
    def submit(cls, side: Side | int, number: int, choice: Choice | int, numbers: Numbers = "fresh") -> Row:
        """A side submits its choice for the pair with this number.

        `numbers` is "fresh" for new ones of the operating system's source.
        Raises `BadArgument`, `BadType`.
        """
        known = a_side(side)
        return cls(RowKind.SUBMIT, Side(known), _pair(number), a_choice(choice, known), _numbers(numbers))

    @classmethod
    def cancel(cls, side: Side | int, number: int) -> Row:
        """A side takes its choice for this pair back. Raises `BadArgument`,
        `BadType`.
        """
        return cls(RowKind.CANCEL, Side(a_side(side)), _pair(number))

    @classmethod
    def expire(cls, side: Side | int, number: int, numbers: Numbers = "fresh") -> Row:
        """A side's time for this pair has run out. `numbers` are as in
        `submit`. Raises `BadArgument`, `BadType`.
        """
        return cls(RowKind.EXPIRE, Side(a_side(side)), _pair(number), numbers=_numbers(numbers))

    @classmethod
    def offer_draw(cls, side: Side | int) -> Row:
        """A side offers a draw, or accepts one. Raises `BadArgument`,
        `BadType`.
        """
        return cls(RowKind.OFFER_DRAW, Side(a_side(side)))

    @classmethod
    def forfeit(cls, side: Side | int) -> Row:
        """A side forfeits. Raises `BadArgument`, `BadType`."""
        return cls(RowKind.FORFEIT, Side(a_side(side)))

    @classmethod
    def from_bytes(cls, data: ReadableBuffer) -> Row:
        """The row with these bytes. Raises `BadArgument` for bytes that are
        those of no row, and `BadType`.
        """
        given = octets(data, "data")
        if len(given) != ROW_BYTES:
            raise BadArgument(f"data must be the {ROW_BYTES} bytes of a row, not {len(given):,}")
        kind, side, choice, has_numbers = given[:4]
        if not 1 <= kind <= len(_KINDS) or not 1 <= side <= len(_SIDES):
            raise BadArgument(
                f"data is not a row: its kind is {kind} of 1 to {len(_KINDS)}, its side {side} of 1 and {len(_SIDES)}"
            )
        number, numbers = int.from_bytes(given[4:8], "little"), given[8:] if has_numbers else None
        row = cls(_KINDS[kind - 1], _SIDES[side - 1], number, choice, numbers)
        if bytes(row) != given:
            raise BadArgument(f"data is not a row: its fourth byte says whether it has numbers: {given.hex(' ')}")
        return row

    def to_json(self) -> dict[str, Any]:
        """The object that docs/HOST.schema.json describes, for `json.dumps`:
        the same as in Rust and JavaScript. `from_json` is the way back.
        """
        numbers = None if self.numbers is None else list(self.numbers)
        kind, side = _JSON_KINDS[self.kind - 1], int(self.side)
        return {"kind": kind, "side": side, "number": self.number, "choice": self.choice, "numbers": numbers}

    @classmethod
    def from_json(cls, value: Mapping[str, Any]) -> Row:
        """The row of an object that `to_json` returned. Raises `BadArgument`,
        `BadType`.
        """
        given = record(value, "value", _JSON_FIELDS)
        kind, numbers = given["kind"], given["numbers"]
        if not isinstance(kind, str) or kind not in _JSON_KINDS:
            raise BadArgument(f"value['kind'] must be one of {', '.join(_JSON_KINDS)}, not {shown(kind)}")
        return cls(
            RowKind(_JSON_KINDS.index(kind) + 1),
            Side(a_side(given["side"])),
            _pair(given["number"]),
            within(given["choice"], "value['choice']", 0, 255),
            None if numbers is None else ten_bytes(numbers),
        )

    def __bytes__(self) -> bytes:
        has_numbers = self.numbers is not None
        return _PACK(self.kind, self.side, self.choice, has_numbers, self.number, self.numbers or b"")


class Host:
    """A battle of two players, with all that each of them and the audience are
    to be sent.

    Pairs are numbered from 0. The sender of a row (a choice, an offer, a
    forfeit) learns only whether the host took it, and whether that ended
    the pair. After each pair send `message` to both sides and `notice` to
    the audience. Nothing else of a host may be sent. Until a pair has
    ended, what a side is sent does not depend on what the other side has
    chosen, or on whether it has; this is proved of the library.

    Store the battle that the host began with, its options, and each `Row`
    that it took: `apply` of the same rows leads to the same host. `bytes`
    of a host are the 928 bytes of a `gen1_host`, and `from_bytes` is the
    way back. They have everything, also secret choices.

    Two hosts are equal if all of their bytes are equal; a host has no hash.
    Several threads may use one host.
    """

    # Each call of the library is atomic for other threads; the lock makes methods with several calls atomic too.
    __slots__ = ("_held", "_lock")

    def __init__(
        self,
        battle: Battle,
        *,
        exact_hp: bool = False,
        may_cancel: bool = False,
        late_forfeits: bool = False,
        hp_form: HpForm | None = None,
    ) -> None:
        """Creates the host of a copy of the battle. A battle that has not
        begun is started at once.

        HP of a foe is reported in the form `hp_form`. Without it, HP is
        exact with `exact_hp`, and as in the game's bar otherwise. With
        `may_cancel` a side may take its choice back while the other's is
        missing. With `late_forfeits` a side whose time has run out
        forfeits, otherwise its first choice is made. Raises `BadType`.
        """
        if not isinstance(battle, Battle):
            raise BadType(f"battle must be a Battle, not {shown(battle)}")
        exact, cancels, late = (
            truth(exact_hp, "exact_hp"),
            truth(may_cancel, "may_cancel"),
            truth(late_forfeits, "late_forfeits"),
        )
        form = a_form(hp_form, HpForm.EXACT if exact else HpForm.BAR)
        self._held, self._lock = HostStruct(), RLock()
        self._held.room.battle[:] = battle.bytes
        _library.host_begin(byref(self._held), form, cancels, late)

    @classmethod
    def from_bytes(cls, data: ReadableBuffer) -> Host:
        """The host with these bytes. Exactly those of hosts are accepted; this
        is proved of the library.

        Raises `BadBytes` if the battle in them is none, `BadHost` if
        another test fails, `BadArgument` for another number of bytes, and
        `BadType`.
        """
        given = octets(data, "data")
        if len(given) != sizeof(HostStruct):
            raise BadArgument(f"data must be the {sizeof(HostStruct)} bytes of a host, not {len(given):,}")
        made = cls.__new__(cls)
        made._held, made._lock = HostStruct.from_buffer_copy(given), RLock()
        code = _library.host_load(byref(made._held))
        if code:
            Battle.load(given[: sizeof(BattleBytes)])
            raise BadHost(HostFault(code))
        return made

    def __bytes__(self) -> bytes:
        return bytes(self._held)

    def __reduce__(self) -> tuple[Any, ...]:
        return type(self).from_bytes, (bytes(self),)

    @property
    def number(self) -> int:
        """The number of the current pair: how many have ended."""
        return int(_library.host_number(byref(self._held)))

    @property
    def hp_form(self) -> HpForm:
        """The form in which HP of a foe is reported."""
        return HpForm(self._held.tellers[0].pixels)

    @property
    def is_closed(self) -> bool:
        """Whether nothing more can happen: the battle is over, a side has
        forfeited, or both sides have agreed on a draw.
        """
        return self.result.is_over

    @property
    def result(self) -> Result:
        """The outcome, and the request to each side. It is for the host; a
        side has its own in its message.
        """
        return RESULTS[_library.host_result(byref(self._held))]

    @property
    def battle(self) -> Battle:
        """A copy of the battle as it is now. It includes both teams and the
        numbers to be drawn, so it must not be sent.
        """
        return battle_of(self._held.room.battle)

    def awaits(self, side: Side | int) -> bool:
        """Whether a side's choice for the current pair is missing. It is for
        the host: only the side itself may learn it. Raises `BadArgument`,
        `BadType`.
        """
        return bool(_library.host_awaited(byref(self._held)) & a_side(side))

    def message(self, side: Side | int) -> Message:
        """All that a side is to be sent at the beginning and after each pair.
        Raises `BadArgument`, `BadType`.
        """
        made = MessageStruct()
        _library.host_message(byref(self._held), a_side(side), byref(made))
        return message_of(made)

    def notice(self) -> Notice:
        """All that the audience is to be sent at the beginning and after each
        pair.
        """
        made = NoticeStruct()
        _library.host_notice(byref(self._held), byref(made))
        return notice_of(made)

    def submit(self, side: Side | int, number: int, choice: Choice | int, numbers: Numbers = "fresh") -> bool:
        """Submits a side's choice for the pair with this number.

        Once both choices are there, the battle is updated. It draws from
        then on ten new numbers of the operating system's source, since a
        player that has seen nine draws could predict all that follow;
        `numbers` may give others, or None to draw on.

        Returns whether the pair has ended. Raises `HostRefused`, with the
        first that applies of OVER, STALE, CHOSEN, NOT_OFFERED;
        `BadArgument`, `BadType`.
        """
        return self.apply(Row.submit(side, number, choice, numbers))

    def cancel(self, side: Side | int, number: int) -> bool:
        """Takes a side's choice for the pair with this number back, while the
        other side's is missing. Returns False.

        Raises `HostRefused`, with the first that applies of OVER,
        NO_CANCEL, STALE, NOTHING_CHOSEN; `BadArgument`, `BadType`.
        """
        return self.apply(Row.cancel(side, number))

    def expire(self, side: Side | int, number: int, numbers: Numbers = "fresh") -> bool:
        """Ends a side's time for the pair with this number: it forfeits, or
        its first choice is made, as the options say. `numbers` are as in
        `submit`.

        Returns whether the pair or the battle has ended. Raises
        `HostRefused`, with the first that applies of OVER, STALE, CHOSEN;
        `BadArgument`, `BadType`.
        """
        return self.apply(Row.expire(side, number, numbers))

    def offer_draw(self, side: Side | int) -> bool:
        """Offers a draw, which is agreed on if the other side has offered one
        for this pair. An offer ends with the pair.

        Returns whether the battle has ended. An offer doesn't end a pair,
        so report it to the other side separately: `Message.draw` has it. A
        player that received the same message twice would refuse it. Raises
        `HostRefused` with OVER, `BadArgument`, `BadType`.
        """
        return self.apply(Row.offer_draw(side))

    def forfeit(self, side: Side | int) -> bool:
        """Ends the battle by a forfeit of a side: the other side wins. Returns
        True. Raises `HostRefused` with OVER, `BadArgument`, `BadType`.
        """
        return self.apply(Row.forfeit(side))

    def apply(self, row: Row) -> bool:
        """Does what a row says, by the call of its name, and returns what that
        returns. Raises `HostRefused`, and then the host is unchanged;
        `BadType`.
        """
        if not isinstance(row, Row):
            raise BadType(f"row must be a Row, not {shown(row)}")
        made = RowStruct.from_buffer_copy(bytes(row) + bytes(2))
        with self._lock:
            before = self.number
            code = _library.host_apply(byref(self._held), byref(made))
            if code:
                raise self._refused(HostRefusal(code), row)
            return self.number != before

    def copy(self) -> Host:
        """An independent copy."""
        made = Host.__new__(Host)
        made._held, made._lock = HostStruct.from_buffer_copy(self._held), RLock()
        return made

    __copy__ = copy

    def __deepcopy__(self, _: object) -> Host:
        return self.copy()

    def __eq__(self, other: object) -> bool:
        if not isinstance(other, Host):
            return NotImplemented
        return bytes(self._held) == bytes(other._held)

    __hash__ = None  # type: ignore[assignment]

    def __repr__(self) -> str:
        return f"<Host, pair {self.number}, {self.result.outcome.label}>"

    def _refused(self, code: HostRefusal, row: Row) -> HostRefused:
        offered = self.message(row.side).choices
        said = {
            HostRefusal.OVER: f"{code.label}: {self.result.outcome.label}",
            HostRefusal.STALE: f"{code.label}: {row.number}; the current pair is {self.number}",
            HostRefusal.NOT_OFFERED: not_offered(int(row.side), row.choice, offered),
        }.get(code, f"{code.label}: {row.side.label}, pair {row.number}")
        choice = row.choice if row.kind is RowKind.SUBMIT else None
        return HostRefused(code, said, side=row.side, current=self.number, choice=choice, offered=offered)


def _pair(number: object) -> int:
    return within(number, "number", 0, PAIRS)


def _numbers(numbers: object) -> bytes | None:
    """The ten numbers of a row."""
    if numbers is None:
        return None
    return os.urandom(10) if numbers == "fresh" and isinstance(numbers, str) else seed_bytes(numbers)
