"""Battles that fit a player's knowledge, with a guess of the rest, for searches that don't cheat."""

from __future__ import annotations

from ctypes import Array, byref, c_uint8

from gen1 import _library
from gen1._check import shown
from gen1._pack import bad_state
from gen1._structs import BattleBytes, GuessFaultStruct
from gen1.errors import BadArgument, BadType, Error
from gen1.names import GuessFault, Move
from gen1.players import Player
from gen1.teams import Team


def forked(player: Player, team: Team, numbers: bytes) -> Array[c_uint8]:
    """The bytes of a battle that fits a player's knowledge. `Battle.from_player` lists the values that are filled in."""
    if not isinstance(player, Player):
        raise BadType(f"player must be a Player, not {shown(player)}")
    given = _library.GuessStruct(team._struct, _library.SeedBytes(*numbers))
    made, fault = BattleBytes(), GuessFaultStruct()
    answer = _library.battle_from_player(byref(made), byref(player._held), byref(given), byref(fault))
    if answer:
        raise _misfit(answer, fault, player, team)
    return made


def _misfit(answer: int, fault: GuessFaultStruct, player: Player, team: Team) -> Error:
    """The error for what does not fit."""
    if answer == GuessFault.NOT_GOING_ON:
        return BadArgument("player must be in a battle that has begun and is not over")
    if answer == GuessFault.COUNT:
        return BadArgument(f"team must have {fault.count} members, as many as the foe has, not {len(team)}")
    if answer == GuessFault.MOVE:
        move = Move(fault.move_number).label
        return BadArgument(f"team: member {fault.member} must know {move}, which it was seen to use")
    if answer not in (GuessFault.MEMBER, GuessFault.HP):
        return bad_state(fault.state, None)
    appeared = player.foe.members
    if answer == GuessFault.HP:
        told = appeared[fault.member - 1]
        allows = f"allows {told.hp} of {told.max_hp} HP, as the player was told"
        return BadArgument(f"team: member {fault.member} must have a maximum HP that {allows}")
    if fault.member > len(team):
        return BadArgument(f"team must have the {len(appeared)} members that have appeared, not {len(team)}")
    seen, member = appeared[fault.member - 1], team[fault.member - 1]
    wanted = f"{seen.species.label} of level {seen.level}, which appeared"
    found = f"{member.species.label} of level {member.level}"
    return BadArgument(f"team: member {fault.member} must be {wanted}, not {found}")
