"""Battles by calls of the C library alone, without the package's types, to compare with what the package does."""

import ctypes
import struct

from conftest import LIB
from gen1._structs import LOG_ROOM, OwnSideStruct, PlayerStruct, PlayerTermsStruct, TellerStruct

SIDES = (1, 2)
LINE_ROOM = 96


def raw_choices(held, side):
    room = (ctypes.c_uint8 * 9)(*[255] * 9)
    count = LIB.gen1_choices(held, side, room) & 0xFF
    assert all(it == 255 for it in room[count:])
    return list(room[:count])


def raw_update(held, one, two):
    log, length = ctypes.create_string_buffer(LOG_ROOM), ctypes.c_size_t(0)
    code = LIB.gen1_update(held, one, two, log, ctypes.c_size_t(LOG_ROOM), ctypes.byref(length)) & 0xFF
    return code, log.raw[: length.value]


def raw_lines(log):
    at, length, text, found = ctypes.c_size_t(0), ctypes.c_size_t(0), ctypes.create_string_buffer(LINE_ROOM), b""
    size, room = ctypes.c_size_t(len(log)), ctypes.c_size_t(LINE_ROOM)
    while (code := LIB.gen1_next_line(log, size, ctypes.byref(at), text, room, ctypes.byref(length)) & 0xFF) == 0:
        found += text.raw[: length.value]
    return code, found.decode()


def raw_damages(held, side, move, critical):
    """The code, and 39 damages, which are zeros where there are none."""
    numbers = (ctypes.c_uint16 * 39)()
    return LIB.gen1_damage(held, side, move, critical, numbers) & 0xFF, list(numbers)


def raw_team(team):
    """The bytes of a gen1_team."""
    rows = b"".join(
        struct.pack("<2B4B4B4B5H", it.species, it.level, *it.dvs, *_four(it.moves), *_four(it.pp_ups), *it.exp)
        for it in team
    )
    return rows.ljust(6 * 24, b"\0") + bytes([len(team), 0])


def _four(numbers):
    return [*numbers, 0, 0, 0, 0][:4]


class Alone:
    """A battle in the library alone, with a teller and a player of each side."""

    def __init__(self, teams, seed, rules, limit, pixels):
        self.battle = ctypes.create_string_buffer(384)
        given = [raw_team(it) for it in teams]
        assert LIB.gen1_new(self.battle, *given, seed, rules, limit) == 0
        self.tellers = [ctypes.create_string_buffer(ctypes.sizeof(TellerStruct)) for _ in SIDES]
        self.players = [ctypes.create_string_buffer(ctypes.sizeof(PlayerStruct)) for _ in SIDES]
        for side, teller, player in zip(SIDES, self.tellers, self.players):
            assert LIB.gen1_teller_begin(teller, side, pixels) & 0xFF == 0
            terms = PlayerTermsStruct(limit, rules, len(teams[2 - side]), pixels)
            assert LIB.gen1_player_begin(player, side, given[side - 1], ctypes.byref(terms)) == 0

    @property
    def result(self):
        """The outcome, and what is asked of both sides."""
        result = LIB.gen1_result(self.battle) & 0xFF
        return result & 7, result >> 3 & 3, result >> 5 & 3

    def update(self, one, two):
        """The code and the log of an update, which is reported to both players."""
        code, log = raw_update(self.battle, one, two)
        if code == 0:
            for side in SIDES:
                self._tell(side, log)
        return code, log

    def _tell(self, side, log):
        told, length = ctypes.create_string_buffer(LOG_ROOM), ctypes.c_size_t(0)
        own, player = ctypes.create_string_buffer(ctypes.sizeof(OwnSideStruct)), self.players[side - 1]
        words = log, ctypes.c_size_t(len(log)), told, ctypes.c_size_t(LOG_ROOM), ctypes.byref(length)
        assert LIB.gen1_tell(self.tellers[side - 1], *words) & 0xFF == 0
        assert LIB.gen1_player_feed(player, told, length) & 0xFF == 0
        assert LIB.gen1_get_own_side(self.battle, side, own) & 0xFF == 0
        LIB.gen1_player_show(player, own, LIB.gen1_offered(self.battle, side) & 0xFFFF)
