"""The structs of include/gen1.h for ctypes, with their fields in its order; those of teams and events are in `_library`."""

from __future__ import annotations

from collections.abc import Callable
from ctypes import Array, Structure, c_int8, c_uint8, c_uint16, c_uint32, c_uint64, sizeof
from functools import lru_cache
from operator import le
from struct import Struct
from typing import Any

LOG_ROOM = 512
DAMAGES = 39

BattleBytes = c_uint8 * 384


class MoveStruct(Structure):
    """gen1_move."""

    _fields_ = [
        ("type", c_uint8),
        ("power", c_uint8),
        ("accuracy", c_uint8),
        ("pp", c_uint8),
        ("effect", c_uint8),
        ("priority", c_int8),
        ("high_critical", c_uint8),
    ]


class MemberStateStruct(Structure):
    """gen1_member_state."""

    _fields_ = [
        ("species", c_uint8),
        ("level", c_uint8),
        ("status", c_uint8),
        ("sleep", c_uint8),
        ("marked", c_uint8),
        ("moves", c_uint8 * 4),
        ("pp", c_uint8 * 4),
        ("hp", c_uint16),
        ("max_hp", c_uint16),
        ("stats", c_uint16 * 4),
    ]


class ActiveStateStruct(Structure):
    """gen1_active_state."""

    _fields_ = [
        ("conditions", c_uint32),
        ("stats", c_uint16 * 4),
        ("energy", c_uint16),
        ("place", c_uint8),
        ("types", c_uint8 * 2),
        ("stages", c_uint8 * 6),
        ("current_move", c_uint8),
        ("picked_move", c_uint8),
        ("kept_accuracy", c_uint8),
        ("substitute", c_uint8),
        ("confusion", c_uint8),
        ("disabled_slot", c_uint8),
        ("disabled_turns", c_uint8),
        ("bad_poison", c_uint8),
        ("turns", c_uint8),
    ]


class SideStateStruct(Structure):
    """gen1_side_state."""

    _fields_ = [("members", MemberStateStruct * 6), ("active", ActiveStateStruct)]


class StateStruct(Structure):
    """gen1_state."""

    _fields_ = [
        ("sides", SideStateStruct * 2),
        ("turn", c_uint16),
        ("limit", c_uint16),
        ("last_damage", c_uint16),
        ("rules", c_uint8),
        ("outcome", c_uint8),
        ("requests", c_uint8 * 2),
        ("index", c_uint8),
        ("numbers", c_uint8 * 10),
    ]


class StateFaultStruct(Structure):
    """gen1_state_fault."""

    _fields_ = [
        ("value", c_uint32),
        ("low", c_uint32),
        ("high", c_uint32),
        ("field", c_uint8),
        ("side", c_uint8),
        ("place", c_uint8),
        ("index", c_uint8),
    ]


class DamagesStruct(Structure):
    """gen1_damages."""

    _fields_ = [("numbers", c_uint16 * DAMAGES), ("count", c_uint8), ("code", c_uint8)]


class OddsStruct(Structure):
    """gen1_odds."""

    _fields_ = [
        ("usual", DamagesStruct),
        ("critical", DamagesStruct),
        ("critical_draws", c_uint16),
        ("hit_draws", c_uint16),
        ("least", c_uint16),
        ("most", c_uint16),
        ("hits", c_uint8 * 6),
        ("reason", c_uint8),
        ("charges_first", c_uint8),
    ]


class ActionOddsStruct(Structure):
    """gen1_action_odds."""

    _fields_ = [
        ("acts", c_uint64),
        ("acts_of", c_uint64),
        ("hits", c_uint64),
        ("hits_of", c_uint64),
        ("side_effect", c_uint16),
        ("holds", c_uint16),
        ("zeros", c_uint8 * 4),
    ]


class ChancesStruct(Structure):
    """gen1_chances."""

    _fields_ = [
        ("once", c_uint64),
        ("once_of", c_uint64),
        ("twice", c_uint64),
        ("twice_of", c_uint64),
        ("breaks_substitute", c_uint8),
        ("zeros", c_uint8 * 7),
    ]


class HpChangeStruct(Structure):
    """gen1_hp_change."""

    _fields_ = [("gained", c_uint16), ("lost", c_uint16)]


class BetweenStruct(Structure):
    """gen1_between."""

    _fields_ = [("after_first", HpChangeStruct), ("after_second", HpChangeStruct)]


class WideStruct(Structure):
    """gen1_wide."""

    _fields_ = [("low", c_uint64), ("high", c_uint64)]


class ThreeChancesStruct(Structure):
    """gen1_three_chances."""

    _fields_ = [
        ("once", c_uint64),
        ("once_of", c_uint64),
        ("twice", c_uint64),
        ("twice_of", c_uint64),
        ("thrice", WideStruct),
        ("thrice_of", WideStruct),
        ("breaks_substitute", c_uint8),
        ("zeros", c_uint8 * 7),
    ]


class PlayoutOptionsStruct(Structure):
    """gen1_playout_options."""

    _fields_ = [
        ("seed", c_uint64),
        ("rounds", c_uint32),
        ("depth", c_uint32),
        ("weights", c_uint8 * 166),
        ("reserved", c_uint8 * 2),
    ]


class PlayoutsStruct(Structure):
    """gen1_playouts."""

    _fields_ = [("wins_one", c_uint32), ("wins_two", c_uint32), ("ties", c_uint32), ("faults", c_uint32)]


class SuccessorStruct(Structure):
    """gen1_successor."""

    _fields_ = [("battle", BattleBytes), ("low", c_uint64), ("high", c_uint64)]


class OutcomeOptionsStruct(Structure):
    """gen1_outcome_options."""

    _fields_ = [("least", c_uint32), ("damage_classes", c_uint8), ("reserved", c_uint8 * 3)]


class OutcomeListStruct(Structure):
    """gen1_outcome_list."""

    _fields_ = [
        ("low", c_uint64),
        ("high", c_uint64),
        ("left_low", c_uint64),
        ("left_high", c_uint64),
        ("count", c_uint64),
    ]


class RoomStruct(Structure):
    """gen1_room."""

    _fields_ = [
        ("battle", BattleBytes),
        ("number", c_uint32),
        ("log_length", c_uint16),
        ("chosen", c_uint8 * 2),
        ("forfeit", c_uint8),
        ("unused", c_uint8 * 3),
        ("log", c_uint8 * LOG_ROOM),
    ]


class ShownMemberStruct(Structure):
    """gen1_shown_member."""

    _fields_ = [("hp", c_uint16), ("status", c_uint8), ("reserved", c_uint8)]


class ShownSideStruct(Structure):
    """gen1_shown_side."""

    _fields_ = [
        ("members", ShownMemberStruct * 6),
        ("count", c_uint8),
        ("place", c_uint8),
        ("stages", c_uint8 * 6),
        ("substitute", c_uint8),
        ("confused", c_uint8),
        ("light_screen", c_uint8),
        ("reflect", c_uint8),
    ]


class ToldStruct(Structure):
    """gen1_told."""

    _fields_ = [("hp", c_uint16), ("species", c_uint8), ("in_percent", c_uint8)]


class NarratorStruct(Structure):
    """gen1_narrator."""

    _fields_ = [("one", ToldStruct), ("two", ToldStruct), ("you", c_uint8), ("reserved", c_uint8)]


class SpectatorStruct(Structure):
    """gen1_spectator."""

    _fields_ = [
        ("sides", ShownSideStruct * 2),
        ("turn", c_uint16),
        ("outcome", c_uint8),
        ("held_count", c_uint8),
        ("held", c_uint8 * 10),
    ]


class SeenMoveStruct(Structure):
    """gen1_seen_move."""

    _fields_ = [("id", c_uint8), ("uses", c_uint8)]


class SeenStruct(Structure):
    """gen1_seen."""

    _fields_ = [
        ("hp", c_uint16),
        ("max", c_uint16),
        ("species", c_uint8),
        ("level", c_uint8),
        ("status", c_uint8),
        ("moves", SeenMoveStruct * 5),
        ("asleep_by", c_uint8),
        ("slept", c_uint8),
        ("unused", c_uint8),
    ]


# The conditions of gen1_announced in its order, each a flag but the counter of bad poison.
ANNOUNCED = (
    "substitute",
    "confused",
    "mist",
    "focus_energy",
    "light_screen",
    "reflect",
    "seeded",
    "toxic",
    "toxic_count",
    "disabled",
    "rage",
    "bide",
    "charging",
    "recharging",
)


class AnnouncedStruct(Structure):
    """gen1_announced."""

    _fields_ = [(name, c_uint8) for name in ANNOUNCED]


class PublicSideStruct(Structure):
    """gen1_public_side."""

    _fields_ = [
        ("members", SeenStruct * 6),
        ("announced", AnnouncedStruct),
        ("stages", c_uint8 * 6),
        ("place", c_uint8),
        ("first_type", c_uint8),
        ("second_type", c_uint8),
        ("last_move", c_uint8),
        ("invulnerable", c_uint8),
        ("unused", c_uint8),
    ]


class PublicStruct(Structure):
    """gen1_public."""

    _fields_ = [("sides", PublicSideStruct * 2), ("turn", c_uint16), ("outcome", c_uint8), ("may_hit_itself", c_uint8)]


class OwnMemberStruct(Structure):
    """gen1_own_member."""

    _fields_ = [
        ("species", c_uint8),
        ("level", c_uint8),
        ("status", c_uint8),
        ("unused", c_uint8),
        ("moves", c_uint8 * 4),
        ("pp", c_uint8 * 4),
        ("hp", c_uint16),
        ("max_hp", c_uint16),
        ("stats", c_uint16 * 4),
    ]


class OwnSideStruct(Structure):
    """gen1_own_side."""

    _fields_ = [
        ("members", OwnMemberStruct * 6),
        ("conditions", c_uint32),
        ("stats", c_uint16 * 4),
        ("turn", c_uint16),
        ("place", c_uint8),
        ("types", c_uint8 * 2),
        ("stages", c_uint8 * 6),
        ("disabled_slot", c_uint8),
        ("held", c_uint8),
        ("request", c_uint8),
        ("outcome", c_uint8),
        ("count", c_uint8),
    ]


class PlayerStruct(Structure):
    """gen1_player."""

    _fields_ = [
        ("known", PublicStruct),
        ("own", OwnSideStruct),
        ("offered", c_uint16),
        ("limit", c_uint16),
        ("side", c_uint8),
        ("foes", c_uint8),
        ("rules", c_uint8),
        ("hp_form", c_uint8),
        ("held_count", c_uint8),
        ("held", c_uint8 * 10),
        ("unused", c_uint8),
    ]


class PlayerTermsStruct(Structure):
    """gen1_player_terms."""

    _fields_ = [
        ("limit", c_uint16),
        ("rules", c_uint8),
        ("foes", c_uint8),
        ("hp_form", c_uint8),
        ("reserved", c_uint8),
    ]


class GuessFaultStruct(Structure):
    """gen1_guess_fault."""

    _fields_ = [
        ("state", StateFaultStruct),
        ("count", c_uint8),
        ("member", c_uint8),
        ("move_number", c_uint8),
        ("unused", c_uint8),
    ]


class TellerStruct(Structure):
    """gen1_teller."""

    _fields_ = [("side", c_uint8), ("pixels", c_uint8), ("places", c_uint8 * 6)]


class HostStruct(Structure):
    """gen1_host."""

    _fields_ = [
        ("room", RoomStruct),
        ("tellers", TellerStruct * 2),
        ("ending", c_uint8),
        ("draw", c_uint8),
        ("may_cancel", c_uint8),
        ("late_forfeits", c_uint8),
    ]


class RowStruct(Structure):
    """gen1_row."""

    _fields_ = [
        ("kind", c_uint8),
        ("side", c_uint8),
        ("choice", c_uint8),
        ("has_numbers", c_uint8),
        ("number", c_uint32),
        ("numbers", c_uint8 * 10),
        ("unused", c_uint8 * 2),
    ]


class MessageStruct(Structure):
    """gen1_message."""

    _fields_ = [
        ("own", OwnSideStruct),
        ("number", c_uint32),
        ("offered", c_uint16),
        ("log_length", c_uint16),
        ("draw", c_uint8),
        ("unused", c_uint8 * 3),
        ("log", c_uint8 * LOG_ROOM),
    ]


class NoticeStruct(Structure):
    """gen1_notice."""

    _fields_ = [
        ("number", c_uint32),
        ("log_length", c_uint16),
        ("outcome", c_uint8),
        ("draw", c_uint8),
        ("log", c_uint8 * LOG_ROOM),
    ]


# The highest number of each field of what crosses a network; a field that is not named may have any number.
_MOST: dict[str, dict[str, int]] = {
    "OwnMemberStruct": {
        **{"species": 151, "level": 100, "status": 5, "unused": 0, "moves": 165, "pp": 63},
        **{"hp": 999, "max_hp": 999, "stats": 999},
    },
    "OwnSideStruct": {
        **{"conditions": 0x1FFFF, "stats": 999, "turn": 9999, "place": 6, "types": 14, "stages": 12},
        **{"disabled_slot": 4, "held": 1, "request": 2, "outcome": 5, "count": 6},
    },
    "SeenMoveStruct": {"id": 165},
    "SeenStruct": {
        "hp": 999,
        "max": 999,
        "species": 151,
        "level": 100,
        "status": 5,
        "asleep_by": 3,
        "slept": 6,
        "unused": 0,
    },
    "AnnouncedStruct": dict.fromkeys(ANNOUNCED, 1) | {"toxic_count": 64},
    "PublicSideStruct": {
        **{
            "stages": 12,
            "place": 6,
            "first_type": 14,
            "second_type": 14,
            "last_move": 165,
            "invulnerable": 1,
            "unused": 0,
        },
    },
    "PublicStruct": {"turn": 9999, "outcome": 5, "may_hit_itself": 2},
    "PlayerStruct": {
        **{
            "offered": 0xFFF,
            "limit": 9999,
            "side": 2,
            "foes": 6,
            "rules": 3,
            "hp_form": 2,
            "held_count": 9,
            "unused": 0,
        },
    },
    "TellerStruct": {"side": 2, "pixels": 2, "places": 6},
    "ShownMemberStruct": {"hp": 999, "status": 5, "reserved": 0},
    "ShownSideStruct": {
        **{"count": 6, "place": 6, "stages": 12, "substitute": 1, "confused": 1, "light_screen": 1, "reflect": 1},
    },
    "SpectatorStruct": {"turn": 9999, "outcome": 5, "held_count": 9},
    "MessageStruct": {"offered": 0xFFF, "log_length": LOG_ROOM, "draw": 2, "unused": 0},
    "NoticeStruct": {"log_length": LOG_ROOM, "outcome": 5, "draw": 2},
    "RoomStruct": {"log_length": LOG_ROOM, "forfeit": 2, "unused": 0},
}


def _fields_of(kind: Any, name: str = "", most: int | None = None) -> list[tuple[str, str, int | None]]:
    """The numbers of a struct, array or number: the letter, the name and the highest of each. Those without a highest are left out."""
    if issubclass(kind, Array):
        of_item = _fields_of(kind._type_, name, most)
        return [it for _ in range(kind._length_) for it in of_item]
    if not issubclass(kind, Structure):
        return [(f"{sizeof(kind)}x" if most is None else {1: "B", 2: "H", 4: "I"}[sizeof(kind)], name, most)]
    ranges = _MOST.get(kind.__name__, {})
    return [it for name, of in kind._fields_ for it in _fields_of(of, name, ranges.get(name))]


@lru_cache(None)
def _numbers(kind: Any) -> tuple[Callable[[bytes], tuple[int, ...]], tuple[str, ...], tuple[int, ...]]:
    fields = _fields_of(kind)
    bound = [(name, most) for _, name, most in fields if most is not None]
    names, most = zip(*bound)
    return Struct("<" + "".join(letter for letter, _, _ in fields)).unpack, names, most


def first_above(kind: Any, data: bytes) -> str | None:
    """The first field of a struct with these bytes that is above its range. These structs have no padding."""
    unpack, names, most = _numbers(kind)
    numbers = unpack(data)
    if all(map(le, numbers, most)):
        return None
    return next(name for name, number, high in zip(names, numbers, most) if number > high)


def reader(kind: type[Structure]) -> Callable[[bytes], dict[str, Any]]:
    """Reads all fields of a struct at once, which is faster than one by one: numbers, and of arrays the bytes."""
    numbers: dict[Any, str] = {c_uint8: "B", c_uint16: "H", c_uint32: "I"}
    form, end = "=", 0
    names = [name for name, *_ in kind._fields_]
    for name, of, *_ in kind._fields_:
        place = getattr(kind, name)
        form += f"{place.offset - end}x{numbers.get(of) or f'{place.size}s'}"
        end = place.offset + place.size
    unpack = Struct(f"{form}{sizeof(kind) - end}x").unpack
    return lambda held: dict(zip(names, unpack(held)))
