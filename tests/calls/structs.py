"""Structs, types and recorded battles for the tests of the calls (include/gen1.h): batches, playouts and outcomes, and the plain state of a
battle, with all 384 bytes as docs/LAYOUT.md reads them."""

import ctypes
from ctypes import POINTER, Structure, c_size_t, c_uint8, c_uint16, c_uint32, c_uint64
from importlib.util import module_from_spec, spec_from_file_location

import gen1
from battle_input import MOVES, SPECIES
from battles import TRACES, cases, recorded, traces
from repository import ROOT

# The structs of the Python package, from a module that loads no library.
_spec = spec_from_file_location("gen1_structs", ROOT / "python" / "gen1" / "src" / "gen1" / "_structs.py")
_structs = module_from_spec(_spec)
_spec.loader.exec_module(_structs)

StateStruct = _structs.StateStruct
PlayoutOptionsStruct, PlayoutsStruct = _structs.PlayoutOptionsStruct, _structs.PlayoutsStruct


def declare_views(calls):
    """Declares the types of calls for names, states and choices."""
    for name in (
        "species_name",
        "move_name",
        "type_name",
        "species_from_name",
        "move_from_name",
        "species_stats",
        "move_data",
        "effectiveness",
        "error_text",
        "choice_kind",
        "choice_slot",
        "choice_words",
        "choice_from_words",
        "reseed",
        "set_state",
    ):
        getattr(calls, f"gen1_{name}").restype = c_uint8
    calls.gen1_version.restype, calls.gen1_get_state.restype, calls.gen1_build.restype = c_uint32, None, ctypes.c_char_p


def plain(value):
    """A struct as a dictionary, an array as a list."""
    if isinstance(value, Structure):
        return {name: plain(getattr(value, name)) for name, _ in value._fields_}
    return [plain(each) for each in value] if hasattr(value, "__len__") else value


def word(given, at):
    return given[at] + 256 * given[at + 1]


def words(given, at, count):
    return [word(given, at + 2 * place) for place in range(count)]


def member_read(given):
    """A member's 24 bytes (docs/LAYOUT.md, "Member")."""
    byte = given[14]
    asleep = 1 <= byte <= 7
    return {
        "species": given[0],
        "level": given[1],
        "status": 1 if asleep else {0: 0, 8: 2, 16: 3, 32: 4, 64: 5}.get(byte, 6),
        "sleep": byte if asleep else 0,
        "marked": given[23],
        "moves": list(given[15:19]),
        "pp": list(given[19:23]),
        "hp": word(given, 4),
        "max_hp": word(given, 2),
        "stats": words(given, 6, 4),
    }


def active_read(given):
    """An active block (docs/LAYOUT.md, "Active block")."""
    return {
        "conditions": word(given, 17) + 65536 * word(given, 19),
        "stats": words(given, 9, 4),
        "energy": word(given, 27),
        "place": given[0],
        "types": list(given[1:3]),
        "stages": list(given[3:9]),
        "current_move": given[29],
        "picked_move": given[30],
        "kept_accuracy": given[31],
        "substitute": given[21],
        "confusion": given[22],
        "disabled_slot": given[23],
        "disabled_turns": given[24],
        "bad_poison": given[25],
        "turns": given[26],
    }


def side_read(given):
    return {
        "members": [member_read(given[24 * place : 24 * place + 24]) for place in range(6)],
        "active": active_read(given[144:]),
    }


def state_read(given):
    """All 384 bytes."""
    return {
        "sides": [side_read(given[24:204]), side_read(given[204:384])],
        "turn": word(given, 1),
        "limit": word(given, 20),
        "last_damage": word(given, 3),
        "rules": given[19],
        "outcome": given[16],
        "requests": list(given[17:19]),
        "index": given[5],
        "numbers": list(given[6:16]),
    }


def filled(struct, given):
    """A struct with the fields of a dictionary."""
    for name, value in given.items():
        if isinstance(value, dict):
            filled(getattr(struct, name), value)
        elif isinstance(value, list):
            for place, each in enumerate(value):
                if isinstance(each, dict):
                    filled(getattr(struct, name)[place], each)
                else:
                    getattr(struct, name)[place] = each
        else:
            setattr(struct, name, value)
    return struct


def member(it):
    return gen1.member(
        SPECIES[it["species"]], it["level"], it["dvs"], it["exp"], [(MOVES[name], ups) for name, ups in it["moves"]]
    )


def team_of(asked, side):
    return gen1.team([member(it) for it in asked[side]])


def battle_of(library, asked):
    one, two = (team_of(asked, side) for side in ("one", "two"))
    return library.battle(one, two, asked["seed"], asked.get("rules", 0), asked.get("limit", 1000))


def cases_of(folder, name):
    return cases(recorded(f"{name}.jsonl", folder))


def battles_of(folder):
    """Yields the file and line of each recorded battle, and the battle with its updates."""
    for name in TRACES:
        for number, battle in enumerate(traces(recorded(f"{name}.jsonl", folder)), 1):
            yield f"{name}, line {number}", battle


def bytes_of_battles(folder):
    """Yields a name of each recorded update, and the bytes after it."""
    for name, trace in battles_of(folder):
        for at, update in enumerate(trace["updates"]):
            yield f"{name}, pair {at}", bytes.fromhex(update["bytes"])


KEPT = 7  # fills arrays and structs that a call must not change


class TextFault(Structure):
    _fields_ = [
        ("line", c_size_t),
        ("member", c_size_t),
        ("field", c_size_t),
        ("code", c_uint8),
        ("rule", c_uint8),
        ("reserved", c_uint8 * 6),
    ]


class BatchUpdate(Structure):
    _fields_ = [("one", c_uint8), ("two", c_uint8), ("result", c_uint8), ("code", c_uint8)]


class OutcomeOptions(Structure):
    _fields_ = [("least", c_uint32), ("damage_classes", c_uint8), ("reserved", c_uint8 * 3)]


class OutcomeList(Structure):
    _fields_ = [(name, c_uint64) for name in ("low", "high", "left_low", "left_high", "count")]


class Way(Structure):
    _fields_ = [
        ("battle", c_uint8 * 384),
        *((name, c_uint64) for name in ("low", "high", "whole_low", "whole_high", "log_length")),
        ("log", c_uint8 * 512),
    ]


def declare(calls):
    """Declares the types of these calls."""
    battle, size = POINTER(gen1.BattleBytes), c_size_t
    for name, answer, takes in (
        ("gen1_offered", c_uint16, [battle, c_uint8]),
        ("gen1_offered_many", c_uint8, [battle, size, c_uint8, POINTER(c_uint16), size]),
        ("gen1_update_many", c_uint8, [battle, size, POINTER(BatchUpdate), size]),
        (
            "gen1_step_random_many",
            c_uint8,
            [battle, size, battle, size, POINTER(c_uint64), size, POINTER(BatchUpdate), size, POINTER(c_size_t)],
        ),
        ("gen1_playout", c_uint8, [battle, POINTER(PlayoutOptionsStruct), POINTER(PlayoutsStruct)]),
        (
            "gen1_outcomes",
            c_uint8,
            [
                battle,
                c_uint8,
                c_uint8,
                POINTER(OutcomeOptions),
                ctypes.c_char_p,
                size,
                POINTER(c_uint32),
                size,
                POINTER(OutcomeList),
            ],
        ),
        ("gen1_walk_begin", c_uint8, [battle, c_uint8, c_uint8, c_uint8, ctypes.c_char_p]),
        ("gen1_walk_next", c_uint8, [ctypes.c_char_p, POINTER(Way)]),
        ("gen1_random_team", c_uint8, [ctypes.c_uint64, c_uint8, c_uint8, POINTER(gen1.Team)]),
        ("gen1_sample_team", c_uint8, [c_uint8, POINTER(gen1.Team)]),
        ("gen1_team_from_text", c_uint8, [ctypes.c_char_p, size, POINTER(gen1.Team), POINTER(TextFault)]),
        ("gen1_team_from_packed", c_uint8, [ctypes.c_char_p, size, POINTER(gen1.Team), POINTER(TextFault)]),
        ("gen1_team_to_text", c_uint32, [POINTER(gen1.Team), ctypes.c_char_p, size, POINTER(size)]),
        ("gen1_team_to_packed", c_uint32, [POINTER(gen1.Team), ctypes.c_char_p, size, POINTER(size)]),
    ):
        call = getattr(calls, name)
        call.restype, call.argtypes = answer, takes


def steps_of(library, folder):
    """Yields the bytes before each recorded update, and the update."""
    for name in TRACES:
        for trace in traces(recorded(f"{name}.jsonl", folder)):
            before = battle_of(library, trace["object"]).bytes
            for update in trace["updates"]:
                yield before, update
                before = bytes.fromhex(update["bytes"])


def array_of(strings):
    return (gen1.BattleBytes * len(strings)).from_buffer_copy(b"".join(strings))


def draws(state):
    """The draws of the generator that gen1.h describes."""
    while True:
        state = (state * 6364136223846793005 + 1442695040888963407) % 2**64
        yield state >> 32


def reseeded(library, given, draw):
    """A battle that draws from ten drawn numbers, from the first on."""
    # The index of the next number is byte 5, and the ten numbers follow it (docs/LAYOUT.md, "Header").
    return library.load(given[:5] + bytes([0] + [next(draw) % 256 for _ in range(10)]) + given[16:])
