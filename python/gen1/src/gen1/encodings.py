"""The knowledge of a player as a row of numbers: the columns, and the calls
that fill rows from `gen1_player` structs.

A row is computed from a `Player` and from nothing else, so it contains only
what the side may know (docs/MECHANICS.md, "Player's view").
`print(gen1.encodings.described())` lists all columns.
"""

from __future__ import annotations

import ctypes
from collections.abc import Iterator
from ctypes import Structure, c_size_t, c_uint16, c_uint32, c_void_p, sizeof
from dataclasses import dataclass
from functools import cached_property, lru_cache
from typing import Any, TypeAlias

import numpy as np
from numpy.typing import NDArray

from gen1 import _library
from gen1._check import shown
from gen1._structs import (
    ANNOUNCED,
    OwnMemberStruct,
    OwnSideStruct,
    PlayerStruct,
    PublicSideStruct,
    PublicStruct,
    SeenStruct,
)
from gen1.choices import Choice, a_side
from gen1.errors import BadArgument, BadType
from gen1.names import Conditions, Move, Species, Status, Type
from gen1.players import Player

Rows: TypeAlias = NDArray[Any]

# The version of the columns. It changes when a column gets another name, place or meaning.
VERSION = 1
STATS = ("attack", "defense", "speed", "special")
STAGES = (*STATS, "accuracy", "evasion")
# How many options a category has, with 0 for none.
SPECIES, MOVES, STATUSES, TYPES, SLOTS = len(Species) + 1, len(Move) + 1, len(Status), len(Type), 5
PLAYER = np.dtype(PlayerStruct)


@dataclass(frozen=True)
class Column:
    """A column of a row.

    `options` is 0 for a number; else the column is a category with that
    many options, 0 to `options` - 1. `low` and `high` are the least and the
    greatest value in a row of float32, `top` is the greatest value in a row
    of uint8, where the least is 0. `says` is its meaning.
    """

    name: str
    options: int
    low: float
    high: float
    top: int
    says: str


@dataclass(frozen=True)
class _Cell:
    """A column, and how it is computed: "byte", "word" or "ratio", from an offset in `gen1_player`.

    `by` is the offset of the word to divide by. `floats` and `octets` are the values of a byte 0 to 255, or the factors of a word.
    """

    column: Column
    kind: str
    place: int
    by: int = 0
    floats: tuple[float, ...] = ()
    octets: tuple[int, ...] | tuple[float, ...] = ()


def _category(name: str, place: int, options: int, of: str) -> _Cell:
    column = Column(name, options, 0.0, float(options - 1), options - 1, f"{of}, 0 to {options - 1}")
    return _Cell(column, "byte", place, 0, tuple(map(float, range(256))), tuple(range(256)))


def _share(name: str, place: int, most: int, says: str) -> _Cell:
    """A byte from 0 to `most`: as a share of it, or as it is."""
    floats = tuple(min(it, most) / most for it in range(256))
    column = Column(f"{name} / {most}", 0, 0.0, 1.0, most, f"{says}; uint8: as it is")
    return _Cell(column, "byte", place, 0, floats, tuple(min(it, most) for it in range(256)))


def _stage(name: str, place: int) -> _Cell:
    """A stage, 0 to 12 in the struct."""
    column = Column(f"{name} stage / 6", 0, -1.0, 1.0, 12, "a stage from -6 to 6; uint8: plus 6")
    return _Cell(
        column,
        "byte",
        place,
        0,
        tuple((min(it, 12) - 6) / 6 for it in range(256)),
        tuple(min(it, 12) for it in range(256)),
    )


def _flag(name: str, place: int, says: str, *values: int) -> _Cell:
    """1 where a byte has one of these values."""
    hit = tuple(int(it in values) for it in range(256))
    return _Cell(Column(name, 0, 0.0, 1.0, 1, says), "byte", place, 0, tuple(map(float, hit)), hit)


def _bit(name: str, place: int, bit: int, says: str) -> _Cell:
    """Bit `bit` of a number in the bytes from `place` on, the lowest first."""
    return _flag(name, place + bit // 8, says, *(it for it in range(256) if it >> bit % 8 & 1))


def _stat(name: str, place: int, says: str) -> _Cell:
    return _Cell(
        Column(f"{name} / 999", 0, 0.0, 1.0, 249, f"{says}; uint8: divided by 4"), "word", place, 0, (1 / 999,), (0.25,)
    )


def _hp(name: str, place: int, of: int) -> _Cell:
    column = Column(f"{name} hp / max_hp", 0, 0.0, 1.0, 255, "the share of HP that is left; uint8: of 255, rounded up")
    return _Cell(column, "ratio", place, of)


KNOWN, OWN = PlayerStruct.known.offset, PlayerStruct.own.offset


def _public(side: int) -> int:
    """The offset of the public information about a side."""
    return KNOWN + PublicStruct.sides.offset + (side - 1) * sizeof(PublicSideStruct)


def _shown_moves(name: str, seen: int) -> Iterator[_Cell]:
    """The moves that a member was seen to prepare or to use, in this order."""
    for at in range(5):
        place = seen + SeenStruct.moves.offset + 2 * at
        yield _category(f"{name} seen move {at + 1}", place, MOVES, "a move that it was seen to prepare or to use")
        yield _share(f"{name} seen move {at + 1} uses", place + 1, 64, "how often it was seen to use it, at most 64")


def _own_member(side: int, place: int) -> Iterator[_Cell]:
    name, of = f"own {place}", OWN + OwnSideStruct.members.offset + (place - 1) * sizeof(OwnMemberStruct)
    it = OwnMemberStruct
    yield _category(f"{name} species", of + it.species.offset, SPECIES, "the number of the species")
    yield _share(f"{name} level", of + it.level.offset, 100, "the level")
    yield _category(f"{name} status", of + it.status.offset, STATUSES, "the status")
    yield _hp(name, of + it.hp.offset, of + it.max_hp.offset)
    yield _stat(f"{name} max_hp", of + it.max_hp.offset, "maximum HP")
    yield _flag(f"{name} is out", OWN + OwnSideStruct.place.offset, "whether it is active", place)
    for at, stat in enumerate(STATS):
        yield _stat(f"{name} {stat}", of + it.stats.offset + 2 * at, "its own stat")
    for at in range(4):
        yield _category(f"{name} move {at + 1}", of + it.moves.offset + at, MOVES, "the number of the move")
        yield _share(f"{name} pp {at + 1}", of + it.pp.offset + at, 63, "PP that are left")
    yield from _shown_moves(name, _public(side) + PublicSideStruct.members.offset + (place - 1) * sizeof(SeenStruct))


def _foe_member(foe: int, place: int) -> Iterator[_Cell]:
    name, of = f"foe {place}", _public(foe) + PublicSideStruct.members.offset + (place - 1) * sizeof(SeenStruct)
    yield _category(
        f"{name} species", of + SeenStruct.species.offset, SPECIES, "the number of the species; 0 until it has appeared"
    )
    yield _share(f"{name} level", of + SeenStruct.level.offset, 100, "the level")
    yield _category(f"{name} status", of + SeenStruct.status.offset, STATUSES, "the status")
    yield _hp(name, of + SeenStruct.hp.offset, of + SeenStruct.max.offset)
    yield _stat(
        f"{name} max_hp", of + SeenStruct.max.offset, "maximum HP, or 48 or 100 where HP are told in parts of it"
    )
    yield _flag(f"{name} is out", _public(foe) + PublicSideStruct.place.offset, "whether it is active", place)
    yield from _shown_moves(name, of)


def _own_active(side: int) -> Iterator[_Cell]:
    it = OwnSideStruct
    for at, stat in enumerate(STATS):
        yield _stat(
            f"own current {stat}",
            OWN + it.stats.offset + 2 * at,
            "a stat of the active member, with stages and penalties",
        )
    for at, stat in enumerate(STAGES):
        yield _stage(f"own {stat}", OWN + it.stages.offset + at)
    for at in range(2):
        yield _category(f"own type {at + 1}", OWN + it.types.offset + at, TYPES, "a type of the active member")
    for condition in Conditions:
        if condition not in (Conditions.NONE, Conditions.FLINCH):
            label = (condition.name or "").lower()
            yield _bit(
                f"own {label}",
                OWN + it.conditions.offset,
                int(condition).bit_length() - 1,
                "whether the active member is under it",
            )
    yield _category(
        "own disabled slot", OWN + it.disabled_slot.offset, SLOTS, "the slot that Disable blocks, 0 for none"
    )
    yield _flag("own held", OWN + it.held.offset, "whether the foe's trapping move holds the active member", 1)
    yield _category(
        "own last move",
        _public(side) + PublicSideStruct.last_move.offset,
        MOVES,
        "the move that the active member used or prepared last",
    )


def _foe_active(foe: int) -> Iterator[_Cell]:
    of, it = _public(foe), PublicSideStruct
    for at, name in enumerate(ANNOUNCED):
        if name == "toxic_count":
            continue
        yield _flag(f"foe {name}", of + it.announced.offset + at, "whether it is announced of the active member", 1)
    for at, stat in enumerate(STAGES):
        yield _stage(f"foe {stat}", of + it.stages.offset + at)
    for at, place in enumerate((it.first_type.offset, it.second_type.offset)):
        yield _category(f"foe type {at + 1}", of + place, TYPES, "a type of the active member")
    yield _category(
        "foe last move", of + it.last_move.offset, MOVES, "the move that the active member used or prepared last"
    )


def _whole(side: int) -> Iterator[_Cell]:
    it = OwnSideStruct
    turn = Column("turn / 1000", 0, 0.0, 9.999, 255, "the turn; uint8: as it is, at most 255")
    yield _Cell(turn, "word", OWN + it.turn.offset, 0, (1 / 1000,), (1.0,))
    yield _share("foes", PlayerStruct.foes.offset, 6, "how many members the foe has, 0 if that is unknown")
    yield _flag("asked to move", OWN + it.request.offset, "whether the side is asked to choose a move or a switch", 1)
    yield _flag("asked to switch", OWN + it.request.offset, "whether the side must send out a member", 2)
    for name, value in (("won", side), ("lost", 3 - side), ("tied", 3)):
        yield _flag(name, OWN + it.outcome.offset, "how the battle ended", value)
    for at, choice in enumerate(Choice):
        yield _bit(f"offered {choice.label}", PlayerStruct.offered.offset, at, "whether the choice is offered")


@lru_cache(maxsize=2)
def _cells(side: int) -> tuple[_Cell, ...]:
    """All columns, for the player of a side."""
    cells = [it for place in range(1, 7) for it in _own_member(side, place)]
    cells += [it for place in range(1, 7) for it in _foe_member(3 - side, place)]
    return (*cells, *_own_active(side), *_foe_active(3 - side), *_whole(side))


COLUMNS = tuple(it.column for it in _cells(1))


class _ColumnStruct(Structure):
    """column of batch.c."""

    _fields_ = [("place", c_uint16), ("to", c_uint16), ("by", c_uint16)]


class _FormStruct(Structure):
    """form of batch.c."""

    _fields_ = [
        ("columns", c_void_p),
        ("tables", c_void_p),
        ("scales", c_void_p),
        ("bytes", c_uint32),
        ("words", c_uint32),
        ("ratios", c_uint32),
        ("hot", c_uint32),
        ("width", c_uint32),
    ]


@dataclass(frozen=True)
class Encoding:
    """The form of a row: its type, "float32" or "uint8", and whether each
    category is one number, to embed, or one-hot.

    A category that is one-hot has one column for each of its options, in
    the same place.
    """

    dtype: str = "float32"
    one_hot: bool = False

    def __post_init__(self) -> None:
        if self.dtype not in ("float32", "uint8"):
            raise BadArgument(f"dtype must be 'float32' or 'uint8', not {shown(self.dtype)}")
        if not isinstance(self.one_hot, bool):
            raise BadType(f"one_hot must be True or False, not {shown(self.one_hot)}")

    def __reduce__(self) -> tuple[Any, ...]:
        return Encoding, (self.dtype, self.one_hot)

    @cached_property
    def columns(self) -> tuple[Column, ...]:
        """The columns of a row. An option of a one-hot category is named "own
        1 status = 2".
        """
        made: list[Column] = []
        for it in COLUMNS:
            if it.options and self.one_hot:
                made += [Column(f"{it.name} = {at}", 0, 0.0, 1.0, 1, it.says) for at in range(it.options)]
            else:
                made.append(it)
        return tuple(made)

    @cached_property
    def width(self) -> int:
        """The number of columns."""
        return len(self.columns)

    @cached_property
    def bounds(self) -> tuple[Rows, Rows]:
        """The least and the greatest value of each column, as two rows."""
        floats = self.dtype == "float32"
        high = [it.high if floats else it.top for it in self.columns]
        return np.array([it.low * floats for it in self.columns], self.dtype), np.array(high, self.dtype)

    @cached_property
    def _forms(self) -> tuple[_FormStruct, _FormStruct]:
        return self._form(1), self._form(2)

    def form(self, side: int) -> int:
        """The address of the struct for batch.c, for the players of a side."""
        return ctypes.addressof(self._forms[side - 1])

    def _form(self, side: int) -> _FormStruct:
        """The struct for batch.c. It keeps the arrays that it points to."""
        kinds: dict[str, list[_ColumnStruct]] = {"byte": [], "word": [], "ratio": [], "hot": []}
        lists: tuple[list[Any], list[Any]] = [], []
        to = 0
        for it in _cells(side):
            hot = bool(it.column.options) and self.one_hot
            by = it.column.options if hot else it.by
            if it.kind != "ratio" and not hot:
                values, kept = it.floats if self.dtype == "float32" else it.octets, lists[it.kind == "word"]
                by = kept.index(values) if values in kept else len(kept)
                if by == len(kept):
                    kept.append(values)
            kinds["hot" if hot else it.kind].append(_ColumnStruct(it.place, to, by))
            to += it.column.options if hot else 1
        columns = [it for kind in kinds.values() for it in kind]
        kept_alive = (
            (_ColumnStruct * len(columns))(*columns),
            np.array(lists[0], self.dtype),
            np.array(lists[1], np.float32),
        )
        counts = [len(it) for it in kinds.values()]
        made = _FormStruct(
            ctypes.addressof(kept_alive[0]), kept_alive[1].ctypes.data, kept_alive[2].ctypes.data, *counts, to
        )
        made.kept_alive = kept_alive
        return made

    def rows(self, count: int, out: Rows | None = None) -> Rows:
        """A new array for `count` rows; or `out`, if it is such an array.
        Raises `BadType` or `BadArgument` if it is not.
        """
        if out is None:
            return np.empty((count, self.width), self.dtype)
        if not isinstance(out, np.ndarray) or out.dtype != self.dtype:
            raise BadType(f"out must be an array of {self.dtype}, not {shown(getattr(out, 'dtype', out))}")
        if out.shape != (count, self.width) or not out.flags.c_contiguous or not out.flags.writeable:
            raise BadArgument(
                f"out must be ({count}, {self.width}), contiguous and writeable; its shape is {out.shape}"
            )
        return out

    def row(self, player: Player) -> Rows:
        """The row of a player, (`width`)."""
        if not isinstance(player, Player):
            raise BadType(f"player must be a Player, not {shown(player)}")
        pair = np.zeros((1, 2), PLAYER)
        side = a_side(player.side)
        pair[0, side - 1] = np.frombuffer(bytes(player._held), PLAYER)[0]
        row = np.empty(self.width, self.dtype)
        filler(self.dtype)(pair.ctypes.data, side - 1, 1, self.form(side), row.ctypes.data)
        return row


@lru_cache(maxsize=4)
def filler(dtype: str, short: bool = False) -> Any:
    """The call of batch.c that fills rows of this type; a short call keeps the
    interpreter's lock.
    """
    name = {"float32": "gen1_py_observe_floats", "uint8": "gen1_py_observe_bytes"}[dtype]
    of = _library.SHORT if short else _library.LONG
    return _library.bind(name, None, c_void_p, c_size_t, c_size_t, c_void_p, c_void_p, of=of)


def encoding_of(given: "Encoding | str") -> Encoding:
    """An encoding; "player" names the usual one."""
    if given == "player":
        return Encoding()
    if not isinstance(given, Encoding):
        raise BadType(f"observations must be 'player' or an Encoding, not {shown(given)}")
    return given


def described(encoding: Encoding = Encoding()) -> str:
    """A line for each column: its number, its name, its range as float32 and
    as uint8, and its meaning.
    """
    lines = [
        f"{at:5}  {it.name:28} {it.low:g} to {it.high:g}; 0 to {it.top}  {it.says}"
        for at, it in enumerate(encoding.columns)
    ]
    return "\n".join([f"columns of version {VERSION}: number, name, range as float32 and as uint8, meaning", *lines])
