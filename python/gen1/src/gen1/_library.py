"""The functions of libgen1 (include/gen1.h) with their types, through ctypes, and the search for the library.

A call of microseconds keeps the interpreter's lock (`PyDLL`): while other threads run Python, acquiring the lock again would take far
longer than the call. A call that may take long releases the lock (`CDLL`).
"""

import ctypes
import os
import site
import sysconfig
from ctypes import POINTER, Structure, c_bool, c_char, c_size_t, c_uint8, c_uint16, c_uint32, c_uint64
from ctypes.util import find_library
from pathlib import Path
from typing import Any

from gen1._structs import (
    DAMAGES,
    ActionOddsStruct,
    BattleBytes,
    BetweenStruct,
    ChancesStruct,
    GuessFaultStruct,
    HostStruct,
    MessageStruct,
    MoveStruct,
    NarratorStruct,
    NoticeStruct,
    OddsStruct,
    OutcomeListStruct,
    OutcomeOptionsStruct,
    OwnSideStruct,
    PlayerStruct,
    PlayerTermsStruct,
    PlayoutOptionsStruct,
    PlayoutsStruct,
    RoomStruct,
    RowStruct,
    SpectatorStruct,
    StateFaultStruct,
    StateStruct,
    SuccessorStruct,
    TellerStruct,
    ThreeChancesStruct,
)
from gen1.errors import LibraryMissing
from gen1.names import HEADER_VERSION

BATTLE_BYTES = 384
LINE_ROOM = 96
SENTENCE_ROOM = 128
WORDS_ROOM = 32
TEAM_TEXT_ROOM = 1408
TEAM_PACKED_ROOM = 832
LOG_END = 35
WORDS_CHOICE = 43
WORDS_UNKNOWN, WORDS_AMBIGUOUS = 58, 59
FEW_PLACES = (29, 30)
TOO_MANY_DRAWS = 31

SeedBytes = c_uint8 * 10


class MemberStruct(Structure):
    """gen1_member."""

    _fields_ = [
        ("species", c_uint8),
        ("level", c_uint8),
        ("dvs", c_uint8 * 4),
        ("moves", c_uint8 * 4),
        ("pp_ups", c_uint8 * 4),
        ("exp", c_uint16 * 5),
    ]


class TeamStruct(Structure):
    """gen1_team."""

    _fields_ = [("members", MemberStruct * 6), ("count", c_uint8), ("reserved", c_uint8)]


class GuessStruct(Structure):
    """gen1_guess."""

    _fields_ = [
        ("team", TeamStruct),
        ("numbers", c_uint8 * 10),
    ]


class EventStruct(Structure):
    """gen1_event."""

    _fields_ = [
        ("tag", c_uint8),
        ("side", c_uint8),
        ("species", c_uint8),
        ("move", c_uint8),
        ("target_side", c_uint8),
        ("target_species", c_uint8),
        ("place", c_uint8),
        ("level", c_uint8),
        ("status", c_uint8),
        ("detail", c_uint8),
        ("amount", c_uint8),
        ("reserved", c_uint8),
        ("hp", c_uint16),
        ("max_hp", c_uint16),
        ("turn", c_uint16),
    ]


def _found() -> str:
    """The shared library: the one that GEN1_LIBRARY names, the one in the package, or an installed one, in this order."""
    named = os.environ.get("GEN1_LIBRARY")
    if named:
        if not Path(named).is_file():
            raise LibraryMissing(f"GEN1_LIBRARY names {named}, which is not a file")
        return str(Path(named).resolve())
    carried = Path(__file__).with_name("libgen1.so")
    found = str(carried) if carried.is_file() else find_library("gen1")
    if not found:
        raise LibraryMissing(
            f"libgen1.so was not found: neither as {carried}, nor among the installed libraries; "
            "install the wheel, or set GEN1_LIBRARY to the path of a libgen1.so"
        )
    return found


def _loaded(path: str) -> tuple[ctypes.PyDLL, ctypes.CDLL]:
    try:
        return ctypes.PyDLL(path), ctypes.CDLL(path)
    except OSError as fault:
        raise LibraryMissing(f"{path} cannot be loaded: {fault}") from fault


PATH = _found()
SHORT, LONG = _loaded(PATH)


def bind(name: str, answer: Any, *takes: Any, of: ctypes.CDLL = SHORT) -> Any:
    """A function of the library with its types. Functions of `LONG` let other threads run."""
    try:
        call = getattr(of, name)
    except AttributeError:
        why = "only tools/python_wheel adds it" if name.startswith("gen1_py_") else "it is older than this package"
        raise LibraryMissing(f"{PATH} has no {name}; {why}") from None
    call.restype, call.argtypes = answer, takes
    return call


def _version() -> str:
    """The version of the library. Another major version may have other functions or structs than this package knows."""
    number = bind("gen1_version", c_uint32)()
    version = f"{number >> 16}.{number >> 8 & 0xFF}.{number & 0xFF}"
    if number >> 16 != HEADER_VERSION[0]:
        raise LibraryMissing(f"{PATH} has version {version}, but this package needs version {HEADER_VERSION[0]}")
    return version


def _build(library: ctypes.CDLL) -> str:
    """The origin of a library, as its gen1_build returns it; "unknown" if it has no such function."""
    call = getattr(library, "gen1_build", None)
    if call is None:
        return "unknown"
    call.restype, call.argtypes = ctypes.c_char_p, ()
    return (call() or b"unknown").decode("ascii", "replace")


LIBRARY_VERSION = _version()
LIBRARY_BUILD = _build(SHORT)
_BATTLE, _TEAM, _ROOM, _SPECTATOR = (
    POINTER(BattleBytes),
    POINTER(TeamStruct),
    POINTER(RoomStruct),
    POINTER(SpectatorStruct),
)
_PLAYER, _TELLER, _OWN = POINTER(PlayerStruct), POINTER(TellerStruct), POINTER(OwnSideStruct)
_SIZES, _BYTES, _TEXT, _MEMBER = POINTER(c_size_t), ctypes.c_char_p, POINTER(c_char), POINTER(MemberStruct)
species_from_name = bind("gen1_species_from_name", c_uint8, _BYTES, c_size_t)
move_from_name = bind("gen1_move_from_name", c_uint8, _BYTES, c_size_t)
new = bind("gen1_new", c_uint32, _BATTLE, _TEAM, _TEAM, SeedBytes, c_uint8, c_uint16)
load = bind("gen1_load", c_uint8, _BATTLE, _BYTES, c_size_t)
choices = bind("gen1_choices", c_uint8, _BATTLE, c_uint8, c_uint8 * 9)
update = bind("gen1_update", c_uint8, _BATTLE, c_uint8, c_uint8, ctypes.c_void_p, c_size_t, _SIZES)
update_silent = bind("gen1_update_silent", c_uint8, _BATTLE, c_uint8, c_uint8)
result = bind("gen1_result", c_uint8, _BATTLE)
next_event = bind("gen1_next_event", c_uint8, _BYTES, c_size_t, _SIZES, POINTER(EventStruct))
event_bytes = bind("gen1_event_bytes", c_uint8, POINTER(EventStruct), c_uint8 * 10, _SIZES)
next_line = bind("gen1_next_line", c_uint8, _BYTES, c_size_t, _SIZES, _TEXT, c_size_t, _SIZES)
next_sentence = bind(
    "gen1_next_sentence", c_uint8, _BYTES, c_size_t, _SIZES, POINTER(NarratorStruct), _TEXT, c_size_t, _SIZES
)
damage = bind("gen1_damage", c_uint8, _BATTLE, c_uint8, c_uint8, c_bool, c_uint16 * DAMAGES)
odds_now = bind("gen1_odds_now", c_uint8, _BATTLE, c_uint8, c_uint8, POINTER(OddsStruct))
action_odds_now = bind("gen1_action_odds_now", c_uint8, _BATTLE, c_uint8, c_uint8, POINTER(ActionOddsStruct))
knock_out = bind("gen1_knock_out", c_uint8, _BATTLE, c_uint8, c_uint8, POINTER(ChancesStruct))
knock_out_in_three = bind(
    "gen1_knock_out_in_three", c_uint8, _BATTLE, c_uint8, c_uint8, POINTER(BetweenStruct), POINTER(ThreeChancesStruct)
)
odds_between = bind("gen1_odds_between", c_uint32, _MEMBER, _MEMBER, c_uint8, POINTER(OddsStruct))
takes_hit_test = bind("gen1_takes_hit_test", c_uint8, c_uint8)
drained = bind("gen1_drained", c_uint16, c_uint8, c_uint16)
recoil = bind("gen1_recoil", c_uint16, c_uint8, c_uint16)
effectiveness = bind("gen1_effectiveness", c_uint8, c_uint8, c_uint8, POINTER(c_uint8))
move_row = bind("gen1_move_data", c_uint8, c_uint8, POINTER(MoveStruct))
member_stats = bind("gen1_member_stats", c_uint8, _MEMBER, c_uint16 * 5)
playout = bind("gen1_playout", c_uint8, _BATTLE, POINTER(PlayoutOptionsStruct), POINTER(PlayoutsStruct), of=LONG)
_LISTED = (POINTER(SuccessorStruct), c_size_t, POINTER(c_uint32), c_size_t, POINTER(OutcomeListStruct))
outcomes = bind("gen1_outcomes", c_uint8, _BATTLE, c_uint8, c_uint8, POINTER(OutcomeOptionsStruct), *_LISTED, of=LONG)
get_state = bind("gen1_get_state", None, _BATTLE, POINTER(StateStruct))
set_state = bind("gen1_set_state", c_uint8, _BATTLE, POINTER(StateStruct), POINTER(StateFaultStruct))
choice_words = bind("gen1_choice_words", c_uint8, _BATTLE, c_uint8, c_uint8, _TEXT, c_size_t, _SIZES)
choice_from_words = bind("gen1_choice_from_words", c_uint8, _BATTLE, c_uint8, _BYTES, c_size_t, POINTER(c_uint8))
random_team = bind("gen1_random_team", c_uint8, c_uint64, c_uint8, c_uint8, _TEAM)
sample_team = bind("gen1_sample_team", c_uint8, c_uint8, _TEAM)
seed_from_number = bind("gen1_seed_from_number", None, c_uint64, SeedBytes)
reseed = bind("gen1_reseed", c_uint8, _BATTLE, SeedBytes, c_uint8)
room_begin = bind("gen1_room_begin", None, _ROOM)
room_choices = bind("gen1_room_choices", c_uint8, _ROOM, c_uint8, c_uint8 * 9)
room_submit = bind("gen1_room_submit", c_uint8, _ROOM, c_uint8, c_uint32, c_uint8)
room_forfeit = bind("gen1_room_forfeit", c_uint8, _ROOM, c_uint8)
room_result = bind("gen1_room_result", c_uint8, _ROOM)
spectator_begin = bind("gen1_spectator_begin", c_uint32, _SPECTATOR, _TEAM, _TEAM)
spectator_feed = bind("gen1_spectator_feed", c_uint8, _SPECTATOR, _BYTES, c_size_t)
player_begin = bind("gen1_player_begin", c_uint32, _PLAYER, c_uint8, _TEAM, POINTER(PlayerTermsStruct))
player_feed = bind("gen1_player_feed", c_uint8, _PLAYER, _BYTES, c_size_t)
player_show = bind("gen1_player_show", None, _PLAYER, _OWN, c_uint16)
get_own_side = bind("gen1_get_own_side", c_uint8, _BATTLE, c_uint8, _OWN)
teller_begin = bind("gen1_teller_begin", c_uint8, _TELLER, c_uint8, c_uint8)
_GUESS = (POINTER(GuessStruct), POINTER(GuessFaultStruct))
battle_from_player = bind("gen1_battle_from_player", c_uint32, _BATTLE, _PLAYER, *_GUESS)
tell = bind("gen1_tell", c_uint8, _TELLER, _BYTES, c_size_t, ctypes.c_void_p, c_size_t, _SIZES)
_HOST = POINTER(HostStruct)
host_begin = bind("gen1_host_begin", None, _HOST, c_uint8, c_uint8, c_uint8)
host_load = bind("gen1_host_load", c_uint8, _HOST)
host_apply = bind("gen1_host_apply", c_uint8, _HOST, POINTER(RowStruct))
host_message = bind("gen1_host_message", c_uint8, _HOST, c_uint8, POINTER(MessageStruct))
host_notice = bind("gen1_host_notice", None, _HOST, POINTER(NoticeStruct))
host_number = bind("gen1_host_number", c_uint32, _HOST)
host_awaited = bind("gen1_host_awaited", c_uint8, _HOST)
host_result = bind("gen1_host_result", c_uint8, _HOST)


def installed(name: str) -> Path | None:
    """A file that a wheel installs outside the package, such as `bin/gen1`, in the folder where this package is; None if it is not there."""
    folders = (Path(sysconfig.get_path("data")), Path(site.getuserbase()), Path(__file__).resolve().parents[1])
    return next((folder / name for folder in folders if (folder / name).is_file()), None)
