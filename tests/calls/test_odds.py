"""Odds of moves, and updates that test no choice (include/gen1.h, "calculating", "playing"): with the rules of docs/MECHANICS.md,
computed here, and with each recorded update."""

import json
from copy import copy
from ctypes import byref, c_size_t, c_uint8

import gen1
from battles import TRACES, recorded, traces
from repository import ROOT
from tables import numbered, table
from structs import battle_of, cases_of, member, state_read

# The conditions that matter to a hit (docs/LAYOUT.md, "Condition bits").
INVULNERABLE, MIST, FOCUS_ENERGY = 32, 128, 256
# A recharging member, and the conditions by which a move continues: Thrash, Trapping, Rage.
RECHARGE, GOES_ON = 1024, 2 | 4 | 2048
OFTEN_CRITICAL = ("Karate Chop", "Razor Leaf", "Crabhammer", "Slash")
PERCENTS = (25, 28, 33, 40, 50, 66, 100, 150, 200, 250, 300, 350, 400)
# The odds of each 83rd move are compared for one side of one update, from another move on each time.
STEP = 83


class Rules:
    """The odds by docs/MECHANICS.md, "Critical hits" and "Hit test", and docs/TABLES.md."""

    def __init__(self):
        document = (ROOT / "docs" / "TABLES.md").read_text()
        self.speeds = [int(row[6]) for row in numbered(table(document, "Species"))]
        self.moves = [(row[0], int(row[3]) * 255 // 100, row[5]) for row in numbered(table(document, "Moves"))]

    def critical(self, user, species, move):
        bound = self.speeds[species - 1] // 2
        bound = bound // 2 if user["conditions"] & FOCUS_ENERGY else min(255, 2 * bound)
        return min(255, 4 * bound) if self.moves[move - 1][0] in OFTEN_CRITICAL else bound // 2

    def hits(self, user, foe, is_asleep, move):
        _, byte, effect = self.moves[move - 1]
        if effect == "DreamEater" and not is_asleep:
            return 0
        if effect == "NeverMisses":
            return 256
        if foe["conditions"] & INVULNERABLE or effect.startswith("StatDown(") and foe["conditions"] & MIST:
            return 0
        aimed = max(1, byte * PERCENTS[user["stages"][4]] // 100)
        return min(255, max(1, aimed * PERCENTS[12 - foe["stages"][5]] // 100))


RULES = Rules()


def damages_by(battle, side, move, critical):
    """The result of gen1_damage in the form of the damages of odds."""
    try:
        return battle.damage(side, move, critical), 39, 0
    except gen1.DamageFault as fault:
        return [0] * 39, 0, fault.args[0]


def as_tuple(damages):
    return list(damages.numbers), damages.count, damages.code


def compare_odds_of(battle, side, move, name, checks):
    """Compares the odds of a move by a side in the current state of a battle."""
    state, odds = state_read(battle.bytes), battle.odds(side, move)
    user, foe = state["sides"][side - 1], state["sides"][2 - side]
    # A move that continues, and a sleep move against a foe that recharges, have special rules (rust/gen1-tests, sampled_odds).
    if user["active"]["conditions"] & GOES_ON or foe["active"]["conditions"] & RECHARGE:
        return
    mine, other = (it["members"][it["active"]["place"] - 1] for it in (user, foe))
    usual, critical = (damages_by(battle, side, move, is_critical) for is_critical in (False, True))
    draws = 0 if usual[2] == 48 else RULES.critical(user["active"], mine["species"], move)
    hits = (
        RULES.hits(user["active"], foe["active"], other["status"] == 1, move)
        if battle.calls.gen1_takes_hit_test(move)
        else 256
    )
    got = (as_tuple(odds.usual), as_tuple(odds.critical), odds.critical_draws, odds.hit_draws)
    checks.same(f"{name}, the odds of move {move}", got, (usual, critical, draws, 0 if odds.reason else hits))


def test_odds(library, battles, checks):
    """Compares the odds of some moves after each recorded update; over all updates each move is taken."""
    first = 0
    for name in TRACES:
        for number, trace in enumerate(traces(recorded(f"{name}.jsonl", battles)), 1):
            for at, update in enumerate(trace["updates"]):
                given = bytes.fromhex(update["bytes"])
                if state_read(given)["turn"] == 0:
                    continue
                battle = library.load(given)
                for side in (1, 2):
                    for move in range(1 + first % STEP, 166, STEP):
                        compare_odds_of(battle, side, move, f"{name}, line {number}, pair {at}", checks)
                    first += 1


def test_odds_between_members(library, battles, checks):
    """Compares the odds of two members of `calc` without a battle with those in a battle of both; and numbers that are not a move."""
    for case in cases_of(battles, "calc"):
        if "error: json" in case.get("stderr", ""):
            continue
        asked = json.loads(case["input"])
        user, foe = member(asked["attacker"]), member(asked["defender"])
        for move in (1, 34, 89, 129, 163):
            odds = gen1.Odds()
            fault = library.calls.gen1_odds_between(byref(user), byref(foe), move, byref(odds))
            try:
                battle = library.battle(gen1.team([user]), gen1.team([foe]), [0] * 10)
                battle.update(0, 0)
                want = (0, bytes(battle.odds(1, move)))
            except gen1.TeamFault as why:
                side, place, code = why.args
                want = (65536 * side + 256 * place + code, bytes(gen1.Odds()))
            checks.same(f"calc, {case['name']}, between, move {move}", (fault, bytes(odds)), want)
    codes = {library.calls.gen1_odds_between(byref(user), byref(foe), move, byref(odds)) for move in (0, 166, 255)}
    checks.same("between, no move", codes, {11})


def test_updates_that_test_no_choice(library, battles, checks):
    """Compares each recorded update that is accepted, without the test of its choices."""
    for name in TRACES:
        for number, trace in enumerate(traces(recorded(f"{name}.jsonl", battles)), 1):
            battle = battle_of(library, trace["object"])
            for at, update in enumerate(trace["updates"]):
                if update["refused"] is not None:
                    continue
                log, length = (c_uint8 * gen1.LOG_ROOM)(), c_size_t(0)
                silent = copy(battle)
                silent_code = library.calls.gen1_update_offered_silent(byref(silent.held), *update["pair"])
                checks.same(
                    f"{name}, line {number}, pair {at}, untested and silent",
                    (silent_code, silent.bytes.hex()),
                    (0, update["bytes"]),
                )
                code = library.calls.gen1_update_offered(
                    byref(battle.held), *update["pair"], log, gen1.LOG_ROOM, byref(length)
                )
                got = (code, bytes(log[: length.value]).hex(), battle.bytes.hex())
                checks.same(f"{name}, line {number}, pair {at}, untested", got, (0, update["log"], update["bytes"]))
    before = battle.bytes
    calls = [(1, 0, gen1.LOG_ROOM), (0, 255, gen1.LOG_ROOM), (0, 0, 511), (0, 0, 0)]
    codes = [
        library.calls.gen1_update_offered(byref(battle.held), one, two, log, room, byref(length))
        for one, two, room in calls
    ]
    checks.same("untested, no choices and a small log", (codes, battle.bytes), ([25, 26, 27, 27], before))
