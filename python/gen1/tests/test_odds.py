"""Odds and playouts: recorded damages, the numbers of docs/MECHANICS.md, every draw tried, and single updates."""

import ctypes
import json
import math
import random
import subprocess
import sys
from fractions import Fraction

import pytest
from conftest import BIG, LIB, NO_NUMBERS, RECORDED, random_member, random_team, recorded_only
from gen1 import (
    ActionOdds,
    BadArgument,
    BadTeam,
    BadType,
    Battle,
    Chances,
    Choice,
    Conditions,
    Damages,
    DamageFault,
    Error,
    HpChange,
    Member,
    Move,
    NoDamage,
    Odds,
    OddsReason,
    Outcome,
    Playouts,
    Status,
    Team,
    ThreeChances,
    base,
    damage,
    drained,
    move_data,
    odds,
    recoil,
)
from gen1._structs import ChancesStruct, OddsStruct, PlayoutOptionsStruct, PlayoutsStruct

if RECORDED.is_dir():
    from battles import cases, recorded


def facing(one, two):
    """A battle of two members that have just been sent out."""
    battle = Battle([one], [two], bytes(10))
    battle.update_silent(Choice.PASS, Choice.PASS)
    return battle


@recorded_only
def test_recorded_damages():
    """Each recorded case of `calc` that has numbers, for members alone and in a battle."""
    count = 0
    for case in cases(recorded("calc.jsonl")):
        if case.get("status"):
            continue
        asked = json.loads(case["input"])
        pair = [Team([asked[side]])[0] for side in ("attacker", "defender")]
        told, numbers = odds(*pair, asked["move"]), tuple(map(int, case["stdout"].split()))
        assert (told.critical if asked["critical"] else told.usual) == Damages(numbers, None), case["name"]
        assert facing(*pair).odds(1, asked["move"]) == told
        count += 1
    assert count > 100


def test_chances_of_the_rules():
    """docs/MECHANICS.md, "Critical hits" and "Hit test": Persian's b, accuracies in 255ths, and hit tests without a draw."""
    persian, chansey = Member("Persian", ["Slash", "Strength"]), Member("Chansey", ["Splash"])
    assert odds(persian, chansey, "Slash").critical_chance == Fraction(255, 256)
    assert odds(persian, chansey, "Strength").critical_chance == Fraction(57, 256)
    focused = facing(Member("Persian", ["Focus Energy"]), chansey)
    focused.update_silent(Choice.MOVE_1, Choice.MOVE_1)
    assert [focused.odds(1, it).critical_chance for it in ("Slash", "Strength")] == [
        Fraction(112, 256),
        Fraction(14, 256),
    ]
    assert odds(persian, chansey, "Swift").hit_chance == 1 and odds(persian, chansey, "Swift").reason is None
    for move in ("Strength", "Hydro Pump", "Thunder", "Sing"):
        assert odds(persian, chansey, move).hit_chance == Fraction(move_data(move).accuracy * 255 // 100, 256)


def test_uses_that_cannot_hit():
    """docs/MECHANICS.md, "Types", "Hit test", "Early effects" and "Fixed damage and one-hit moves"."""
    tauros, gengar, snorlax = (Member(it, ["Splash"]) for it in ("Tauros", "Gengar", "Snorlax"))
    for user, foe, move, reason in (
        (tauros, gengar, "Strength", OddsReason.IMMUNE),
        (tauros, gengar, "Swift", OddsReason.IMMUNE),
        (tauros, snorlax, "Dream Eater", OddsReason.AWAKE),
        (tauros, snorlax, "Roar", OddsReason.ALWAYS_FAILS),
        (snorlax, tauros, "Guillotine", OddsReason.SLOWER),
        (tauros, snorlax, "Transform", OddsReason.LEFT_OUT),
        (tauros, snorlax, "Counter", OddsReason.NOTHING_TO_COUNTER),
        (tauros, gengar, "Toxic", OddsReason.OWN_TYPE),
        (tauros, snorlax, "Rest", OddsReason.HEALTH),
    ):
        found = odds(user, foe, move)
        assert (found.hit_chance, found.reason) == (0, reason), move
        assert facing(user, foe).knock_out(1, move) == Chances(Fraction(0), Fraction(0), False)
    hit = odds(tauros, snorlax, "Guillotine")
    assert (hit.hit_chance, hit.reason, hit.fixed) == (Fraction(76, 256), None, (65535, 65535))
    assert OddsReason.SLOWER.label == "a one-hit move, and the user is slower than the foe"


def test_fixed_damage_hits_and_charging():
    """docs/MECHANICS.md, "Fixed damage and one-hit moves", "Many hits" and "Charging"; Chansey has 703 HP."""
    gengar, chansey = Member("Gengar", ["Splash"], level=73), Member("Chansey", ["Splash"])
    fixed = {
        "Night Shade": (73, 73),
        "Seismic Toss": (73, 73),
        "Sonic Boom": (20, 20),
        "Dragon Rage": (40, 40),
        "Psywave": (1, 108),
        "Super Fang": (351, 351),
    }
    for move, damage_of in {**fixed, "Strength": (0, 0), "Splash": (0, 0)}.items():
        assert odds(gengar, chansey, move).fixed == damage_of, move
    # Psywave draws a number above 0 and below one and a half times the level.
    for level, damage_of, reason in ((1, (0, 0), OddsReason.FAULT), (2, (1, 2), None), (3, (1, 3), None)):
        found = odds(Member("Mew", ["Psywave"], level=level), chansey, "Psywave")
        assert (found.fixed, found.reason) == (damage_of, reason), level
    # Of the two low bits of a draw, 2 and 3 are drawn once more: 2 and 3 hits have 1/4 + 1/2 * 1/4, 4 and 5 hits 1/2 * 1/4.
    hits = {
        "Strength": (0, 8, 0, 0, 0, 0),
        "Double Kick": (0, 0, 8, 0, 0, 0),
        "Twineedle": (0, 0, 8, 0, 0, 0),
        "Fury Attack": (0, 0, 3, 3, 1, 1),
    }
    for move, eighths in hits.items():
        assert odds(gengar, chansey, move).hits == eighths, move
    charges = [
        it
        for it in ("Solar Beam", "Fly", "Dig", "Sky Attack", "Hyper Beam", "Bide")
        if odds(gengar, chansey, it).charges_first
    ]
    assert charges == ["Solar Beam", "Fly", "Dig", "Sky Attack"]


def test_drain_and_recoil():
    """docs/MECHANICS.md, "Recoil, drain and explosion": a half given; a quarter lost, with Struggle a half; each at least 1."""
    for move in ("Absorb", "Mega Drain", "Leech Life", "Dream Eater"):
        assert [drained(move, it) for it in (1, 2, 101, 65_535)] == [1, 1, 50, 32_767] and recoil(move, 100) == 0
    for move in ("Take Down", "Double-Edge", "Submission"):
        assert [recoil(move, it) for it in (1, 4, 103, 65_535)] == [1, 1, 25, 16_383] and drained(move, 100) == 0
    assert recoil("Struggle", 103) == 51 and recoil(Move.BODY_SLAM, 100) == drained(34, 100) == 0
    for call in (drained, recoil):
        for it in (-1, 65_536, *BIG[4:]):
            with pytest.raises(BadArgument) as fault:
                call("Absorb", it)
            assert str(fault.value).startswith("damage must be 0 to 65,535, not ")
        for it in NO_NUMBERS:
            with pytest.raises(BadType):
                call("Absorb", it)
        for it in (0, 166, *BIG, "Pond"):
            with pytest.raises(BadTeam):
                call(it, 1)


def strikes():
    """Body Slam of Tauros on Tauros: each damage and its chance, from the numbers 112 and 217 of docs/MECHANICS.md, "Damage formula".

    It is critical by 55 of 256 draws, hits by 255, and the factors 217 to 255 are equally likely.
    """
    found = [(0, Fraction(1, 256))]
    for whole, chance in ((112, Fraction(201, 256)), (217, Fraction(55, 256))):
        found += [(whole * factor // 255, chance * Fraction(255, 256) / 39) for factor in range(217, 256)]
    return found


def test_odds_of_an_action():
    """docs/MECHANICS.md, "Gate", "Side effects", "Going on": 193 of 256 draws pass paralysis, half of them confusion."""
    tauros, starmie = Member("Tauros", ["Body Slam"]), Member("Starmie", ["Surf"])
    sure, hit, slam, none = Fraction(1), Fraction(255, 256), Fraction(77, 256), Fraction(0)
    battle = facing(tauros, starmie)
    assert battle.action_odds(1, "Body Slam") == ActionOdds(sure, hit, slam, none)
    active = Fraction(193, 256)
    paralysed = battle.with_status(1, 1, Status.PARALYSIS)
    assert paralysed.action_odds(1, "Body Slam") == ActionOdds(active, active * hit, slam, none)
    for turns, part in ((1, sure), (2, sure / 2), (5, sure / 2)):
        conditions = paralysed.state.one.active.conditions | Conditions.CONFUSED
        confused = Battle.from_state(paralysed.state.with_active(1, conditions=conditions, confusion=turns))
        assert confused.action_odds(1, "Body Slam").acts == active * part, turns
    for status in (Status.SLEEP, Status.FREEZE):
        assert battle.with_status(1, 1, status, 3).action_odds(1, "Body Slam") == ActionOdds(none, none, slam, none)
    # A Normal type, a status and a Substitute guard a foe; Psybeam confuses behind one.
    assert facing(tauros, tauros).action_odds(1, "Body Slam").side_effect == 0
    assert battle.with_status(2, 1, Status.BURN).action_odds(1, "Body Slam").side_effect == 0
    conditions = battle.state.two.active.conditions | Conditions.SUBSTITUTE
    covered = Battle.from_state(battle.state.with_active(2, conditions=conditions, substitute=80))
    for move, open_, guarded in (
        ("Body Slam", slam, none),
        ("Psybeam", Fraction(25, 256), Fraction(25, 256)),
        ("Hyper Beam", sure, sure),
        ("Strength", none, none),
    ):
        assert [it.action_odds(1, move).side_effect for it in (battle, covered)] == [open_, guarded], move
    # Wrap holds a Ghost that it does not hurt. A move that only charges does not hit.
    wrap = facing(tauros, Member("Gengar", ["Lick"])).action_odds(1, "Wrap")
    assert wrap == ActionOdds(sure, none, none, Fraction(216, 256))
    assert battle.action_odds(1, "Solar Beam") == ActionOdds(sure, none, none, none)


def test_chances_to_knock_out():
    tauros = Member("Tauros", ["Body Slam", "Substitute"])
    for hp in (1, 95, 112, 113, 190, 217, 218, 224, 225, 300, 353):
        once = sum(chance for damage_of, chance in strikes() if damage_of >= hp)
        twice = sum(chance * other for one, chance in strikes() for two, other in strikes() if one + two >= hp)
        found = facing(tauros, tauros).with_hp(2, 1, hp).knock_out(1, "Body Slam")
        assert found == Chances(once, twice, False), hp
    # By hand: 1 of 39 usual hits deals 112, and each critical one more.
    assert facing(tauros, tauros).with_hp(2, 1, 112).knock_out(1, "Body Slam").once == Fraction(
        255 * (201 + 55 * 39), 256 * 256 * 39
    )
    shade = facing(Member("Gengar", ["Splash"]), tauros).with_hp(2, 1, 200).knock_out(1, "Night Shade")
    assert shade == Chances(Fraction(0), Fraction(255 * 255, 256 * 256), False)


def felled(hp, changes, uses):
    """The chance that a number of Body Slams of Tauros fell another: what is left after each use and its change, summed use by use."""
    standing, fallen = {hp: Fraction(1)}, Fraction(0)
    for use in range(uses):
        following = {}
        for left, chance in standing.items():
            for damage_of, part in strikes():
                rest = left - damage_of
                if rest > 0 and use < uses - 1:
                    rest = min(353, rest + changes[use].gained) - changes[use].lost
                if rest > 0:
                    following[rest] = following.get(rest, 0) + chance * part
                else:
                    fallen += chance * part
        standing = following
    return fallen


def test_chances_in_three_uses():
    tauros = Member("Tauros", ["Body Slam"])
    none, poison, toxic, recover = HpChange(), HpChange(lost=22), HpChange(lost=44), HpChange(gained=176, lost=22)
    for hp, changes in (
        (95, (none, none)),
        (353, (none, none)),
        (353, (poison, toxic)),
        (300, (recover, poison)),
        (224, (toxic, recover)),
    ):
        due = [felled(hp, changes, uses) for uses in (1, 2, 3)]
        battle = facing(tauros, tauros).with_hp(2, 1, hp)
        assert battle.knock_out_in_three(1, "Body Slam", *changes) == ThreeChances(*due, False), (hp, changes)
    found, two = battle.knock_out_in_three(1, "Fury Attack"), battle.knock_out(1, "Fury Attack")
    assert (found.once, found.twice) == (two.once, two.twice) and two.twice <= found.thrice
    # A foe that has fallen gains nothing; one that loses all HP between the uses has fallen.
    assert battle.with_hp(2, 1, 40).knock_out_in_three(1, "Sonic Boom", HpChange(lost=40)).twice == Fraction(1)
    assert battle.with_hp(2, 1, 20).knock_out_in_three(1, "Sonic Boom", HpChange(gained=300)).twice == Fraction(
        229, 256
    )


def test_chances_to_break_a_substitute():
    """A Substitute of Tauros has 353 / 4 = 88 HP, and breaks if the damage is above them; the least of Body Slam is 95."""
    tauros = Member("Tauros", ["Body Slam", "Substitute"])
    battle = facing(tauros, tauros)
    battle.update_silent(Choice.MOVE_2, Choice.MOVE_2)
    assert [battle.state.side(it).active.substitute for it in (1, 2)] == [88, 88]
    found = battle.knock_out(1, "Body Slam")
    assert (found.once, found.breaks_substitute) == (Fraction(255, 256), True)
    tougher = Battle.from_state(battle.state.with_active(2, substitute=112))
    assert tougher.knock_out(1, "Body Slam").once == Fraction(255 * 55, 256 * 256)
    # A Substitute of 221 HP breaks at 222, with three hits of 100; it loses and gains nothing between the uses.
    toughest, change = Battle.from_state(battle.state.with_active(2, substitute=221)), HpChange(gained=50, lost=222)
    assert toughest.knock_out_in_three(1, "Seismic Toss", change, change) == ThreeChances(
        Fraction(0), Fraction(0), Fraction(255, 256) ** 3, True
    )


def test_moves_that_take_no_hit_test():
    """docs/MECHANICS.md, "Hit test": moves that fail, or that affect only their user; and the four that the engine leaves out."""
    without = {
        "Whirlwind", "Roar", "Teleport", "Conversion", "Mist", "Focus Energy", "Light Screen", "Reflect", "Haze", "Recover", "Soft-Boiled",
        "Rest", "Substitute", "Splash", "Bide", "Swords Dance", "Meditate", "Sharpen", "Harden", "Withdraw", "Defense Curl", "Barrier",
        "Acid Armor", "Agility", "Growth", "Amnesia", "Minimize", "Double Team", "Metronome", "Mirror Move", "Mimic", "Transform",
    }  # fmt: skip
    tauros = Member("Tauros", ["Strength"])
    assert {it.label for it in Move if not odds(tauros, tauros, it).takes_hit_test} == without


def test_chances_by_every_draw():
    """A move is used with each byte as the deciding draw: as many are critical, and as many hit, as the odds say."""
    strong, splash = Member("Tauros", ["Thunder", "Strength"]), Member("Snorlax", ["Splash"])
    for slot, move in ((1, Move.THUNDER), (2, Move.STRENGTH)):
        missed = critical = 0
        for byte in range(256):
            # The draws are for the critical hit, the damage (255 is the highest factor) and the hit, in this order.
            for numbers in ((byte, 255, 0), (255, 255, byte)):
                battle = facing(strong, splash)
                battle.reseed([*numbers, *[0] * 7])
                told = [type(it).__name__ for it in battle.update(Choice.move(slot), Choice.MOVE_1).events]
                missed, critical = missed + ("MissEvent" in told), critical + ("CritEvent" in told)
        found = odds(strong, splash, move)
        assert found.critical_chance == Fraction(critical, 256) == Fraction(base("Tauros").speed // 2, 256)
        assert found.hit_chance == 1 - Fraction(missed, 256)


def test_moves_without_usual_damage():
    one, two = Member("Tauros", ["Splash"]), Member("Gengar", ["Splash"])
    for move in ("Splash", "Seismic Toss", "Super Fang"):
        it = odds(one, two, move)
        assert it.usual == it.critical == Damages((), DamageFault.UNUSUAL) and it.critical_chance == 0
        with pytest.raises(NoDamage) as fault:
            damage(one, two, move)
        assert fault.value.code is DamageFault.UNUSUAL and move in str(fault.value)
    assert odds(one, two, "Strength").usual == Damages((0,) * 39, None)


def test_odds_of_random_battles():
    """Odds in random battles against `damage`, and against direct calls of the library."""
    dice = random.Random(4)
    for _ in range(100):
        battle = Battle(random_team(dice), random_team(dice), dice.randbytes(10), limit=40)
        battle.update_silent(0, 0)
        while not battle.result.is_over:
            side, move, raw = dice.randint(1, 2), dice.choice(list(Move)), OddsStruct()
            before, found = battle.bytes, battle.odds(side, move)
            assert (
                LIB.gen1_odds_now(battle.bytes, side, int(move), ctypes.byref(raw)) & 0xFF == 0
                and battle.bytes == before
            )
            assert (found.critical_chance, found.hit_chance) == (
                Fraction(raw.critical_draws, 256),
                Fraction(raw.hit_draws, 256),
            )
            assert (found.reason or 0, found.fixed, found.hits) == (raw.reason, (raw.least, raw.most), tuple(raw.hits))
            ways = ChancesStruct()
            assert LIB.gen1_knock_out(battle.bytes, side, int(move), ctypes.byref(ways)) & 0xFF == 0
            chances = Fraction(ways.once, ways.once_of), Fraction(ways.twice, ways.twice_of)
            assert (
                battle.knock_out(side, move) == Chances(*chances, ways.breaks_substitute == 1)
                and battle.bytes == before
            )
            for critical, told in ((False, found.usual), (True, found.critical)):
                try:
                    assert told == Damages(battle.damage(side, move, critical), None)
                except NoDamage as fault:
                    assert told == Damages((), fault.code)
            battle.update_silent(*(dice.choice(battle.choices(it)) for it in (1, 2)))
    for _ in range(300):
        one, two, move = random_member(dice), random_member(dice), dice.choice(list(Move))
        found = odds(one, two, move)
        assert found == facing(one, two).odds(1, move) == facing(two, one).odds(2, move) and isinstance(found, Odds)


def test_odds_with_wrong_arguments(battle, team, tauros):
    before = battle.bytes
    calls = [(lambda it=it: battle.odds(it, "Pound"), BadArgument) for it in (0, 3, *BIG)]
    calls += [(lambda it=it: battle.odds(it, "Pound"), BadType) for it in NO_NUMBERS]
    calls += [(lambda it=it: battle.knock_out(it, "Pound"), BadArgument) for it in (0, 3, *BIG)]
    calls += [(lambda it=it: battle.knock_out(it, "Pound"), BadType) for it in NO_NUMBERS]
    calls += [(lambda it=it: battle.action_odds(it, "Pound"), BadArgument) for it in (0, 3, *BIG)]
    calls += [(lambda it=it: battle.action_odds(it, "Pound"), BadType) for it in NO_NUMBERS]
    calls += [(lambda it=it: battle.knock_out_in_three(it, "Pound"), BadArgument) for it in (0, 3, *BIG)]
    calls += [
        (lambda it=it: battle.knock_out_in_three(1, "Pound", HpChange(lost=it)), BadArgument)
        for it in (-1, 65_536, 2**70)
    ]
    calls += [
        (lambda it=it: battle.knock_out_in_three(1, "Pound", HpChange(), HpChange(gained=it)), BadType)
        for it in NO_NUMBERS
    ]
    calls += [
        (lambda it=it: battle.knock_out_in_three(1, "Pound", it), BadType) for it in (None, 22, (0, 22), {"lost": 22})
    ]
    for call in (
        lambda it: battle.odds(1, it),
        lambda it: battle.action_odds(1, it),
        lambda it: battle.knock_out(1, it),
        lambda it: battle.knock_out_in_three(1, it),
        lambda it: odds(tauros, tauros, it),
    ):
        calls += [(lambda call=call, it=it: call(it), BadTeam) for it in (0, 166, *BIG, "Pond", "1")]
        calls += [(lambda call=call, it=it: call(it), BadType) for it in NO_NUMBERS if it != "1"]
    for it in (None, 5, "Tauros", tauros.to_dict(), team):
        calls += [
            (lambda it=it: odds(it, tauros, "Pound"), BadType),
            (lambda it=it: odds(tauros, it, "Pound"), BadType),
        ]
    for at, (call, kind) in enumerate(calls):
        with pytest.raises(kind) as fault:
            call()
        assert isinstance(fault.value, Error) and len(str(fault.value)) > 10 and battle.bytes == before, at
    unbegun = Battle(team, team, range(10))
    for call in (unbegun.odds, unbegun.action_odds, unbegun.knock_out, unbegun.knock_out_in_three):
        with pytest.raises(NoDamage) as fault:
            call(1, "Pound")
        assert fault.value.code is DamageFault.NOBODY and "before its first update" in str(fault.value)


# Playouts


def draws(state):
    """The draws of the generator that include/gen1.h describes."""
    while True:
        state = (state * 6364136223846793005 + 1442695040888963407) % 2**64
        yield state >> 32


def leader(battle):
    """The outcome by the shares of the HP left."""
    one, two = (
        Fraction(sum(it.hp for it in side.members), sum(it.max_hp for it in side.members))
        for side in (battle.state.one, battle.state.two)
    )
    return Outcome.WIN_ONE if one > two else Outcome.WIN_TWO if two > one else Outcome.TIE


def weighted(battle, side, weights):
    """The offered choices of a side, each as often as its weight says."""
    if weights is None:
        return battle.choices(side)
    own = (battle.state.one, battle.state.two)[side - 1]

    def weight(choice):
        if not choice.is_move:
            return weights.get("switch", 1)
        used = own.members[own.active.place - 1].moves[choice.slot - 1] if choice.slot else Move.STRUGGLE
        return weights.get(used.label, weights.get("move", 1))

    copies = [choice for choice in battle.choices(side) for _ in range(weight(choice))]
    return copies or battle.choices(side)


def played_out(battle, seed, rounds, depth=math.inf, weights=None):
    """Plays the rounds of a playout update by update."""
    ends, draw = [0] * 4, draws(seed)
    for _ in range(rounds):
        it, updates = battle.copy(), 0
        it.reseed([next(draw) % 256 for _ in range(10)])
        while not it.result.is_over and updates < depth:
            it.update_silent(
                *[
                    offered[next(draw) % len(offered)]
                    for offered in (weighted(it, 1, weights), weighted(it, 2, weights))
                ]
            )
            updates += 1
        ends[min(it.result.outcome or leader(it), Outcome.FAULT_ONE) - 1] += 1
    return Playouts(*ends)


def test_playouts_update_by_update():
    dice = random.Random(5)
    for _ in range(12):
        battle, seed = Battle(random_team(dice), random_team(dice), dice.randbytes(10), limit=60), dice.getrandbits(64)
        before, raw = battle.bytes, PlayoutsStruct()
        found = battle.playout(seed, 9)
        assert (
            found == played_out(battle, seed, 9) == battle.playout(seed, 9)
            and found.rounds == 9
            and battle.bytes == before
        )
        assert (
            LIB.gen1_playout(battle.bytes, ctypes.byref(PlayoutOptionsStruct(seed, 9, 0)), ctypes.byref(raw)) & 0xFF
            == 0
        )
        assert found == Playouts(raw.wins_one, raw.wins_two, raw.ties, raw.faults)
        for depth in (1, 2, 15, 40):
            assert battle.playout(seed, 9, depth=depth) == played_out(battle, seed, 9, depth)


def test_playouts_by_weights():
    dice = random.Random(6)
    for turn in range(40):
        battle, seed = Battle(random_team(dice), random_team(dice), dice.randbytes(10), limit=60), dice.getrandbits(64)
        known = [
            move.label
            for side in (battle.state.one, battle.state.two)
            for member in side.members
            for move in member.moves
        ]
        keys = dice.sample([*known, "move", "switch", "Struggle"], dice.randrange(6))
        weights = {key: dice.choice((0, 1, 2, 7, 255)) for key in keys}
        depth = dice.choice((None, 8))
        assert battle.playout(seed, 9, depth=depth, weights=weights) == played_out(
            battle, seed, 9, depth or math.inf, weights
        ), (turn, weights)


def test_weights_that_are_all_alike(battle):
    """Weights of 1, and of 0 alone, change nothing. Weights of 0 are never chosen."""
    plain, raw = battle.playout(9, 500), PlayoutsStruct()
    for weights in (
        {},
        {"move": 1},
        {"move": 0, "switch": 0},
        {it: 1 for it in Move},
        {it.label: 0 for it in Move} | {"switch": 0},
    ):
        assert battle.playout(9, 500, weights=weights) == plain, weights
    for weight in (0, 1):
        options = PlayoutOptionsStruct(9, 500, 0, (ctypes.c_uint8 * 166)(*[weight] * 166), (ctypes.c_uint8 * 2)(7, 255))
        assert LIB.gen1_playout(battle.bytes, ctypes.byref(options), ctypes.byref(raw)) & 0xFF == 0
        assert plain == Playouts(raw.wins_one, raw.wins_two, raw.ties, raw.faults)


def test_weights_decide_what_is_chosen():
    """A side that never uses its harmless move wins, and by the share of the weights where the first choice decides."""
    duel = Battle([Member("Gengar", ["Explosion", "Splash"])], [Member("Onix", ["Splash"])], range(10))
    duel.update_silent(Choice.PASS, Choice.PASS)
    assert duel.playout(1, 200, depth=1, weights={"Explosion": 0}).ties == 200
    rounds = 4000
    for weights, share in (({}, 1 / 2), ({"Splash": 3}, 1 / 4), ({"Explosion": 9}, 9 / 10)):
        exploded = rounds - duel.playout(1, rounds, depth=1, weights=weights).ties
        assert abs(exploded - share * rounds) < 5 * math.sqrt(rounds * share * (1 - share)), weights


def test_playouts_in_slices(battle):
    """A thousand at a time by the library, each with the next seed."""
    dice, counts = random.Random(5), [0, 0, 0, 0]
    for seed, rounds in ((5, 1000), (dice.getrandbits(64), 1000), (dice.getrandbits(64), 400)):
        raw = (ctypes.c_uint32 * 4)()
        assert (
            LIB.gen1_playout(battle.bytes, ctypes.byref(PlayoutOptionsStruct(seed, rounds, 0)), ctypes.byref(raw))
            & 0xFF
            == 0
        )
        counts = [known + new for known, new in zip(counts, raw)]
    found = battle.playout(5, 2400)
    assert [found.wins_one, found.wins_two, found.ties, found.faults] == counts


def test_playouts_can_be_interrupted():
    """A call is interrupted, as by control C, long before 2 ** 32 - 1 are played. By default a shell's background process ignores that."""
    script = (
        "import signal; signal.signal(signal.SIGINT, signal.default_int_handler)\n"
        "import _thread, threading; from gen1 import *; t = Member('Tauros', ['Body Slam']); b = Battle([t], [t], range(10))\n"
        "threading.Timer(0.5, _thread.interrupt_main).start()\n"
        "try: b.playout(1, (1 << 32) - 1)\n"
        "except KeyboardInterrupt: print('interrupted')\n"
    )
    ran = subprocess.run([sys.executable, "-c", script], capture_output=True, text=True, timeout=60)
    assert ran.stdout == "interrupted\n"


def test_playouts_of_a_battle_that_is_over(team):
    battle = Battle(team, team, range(10), limit=1)
    while not battle.result.is_over:
        battle.update_silent(battle.choices(1)[0], battle.choices(2)[0])
    assert battle.result.outcome is Outcome.TIE and battle.playout(1, 1000) == Playouts(0, 0, 1000, 0)
    assert battle.playout(0, 0) == battle.playout((1 << 64) - 1, 0) == Playouts(0, 0, 0, 0)


def test_playouts_with_wrong_arguments(battle):
    before = battle.bytes
    calls = [(lambda it=it: battle.playout(it, 1), BadArgument) for it in (-1, 1 << 64, -(1 << 70))]
    calls += [(lambda it=it: battle.playout(1, it), BadArgument) for it in (-1, 1 << 32, 1 << 64)]
    calls += [(lambda it=it: battle.playout(1, 1, depth=it), BadArgument) for it in (-1, 0, 1 << 32, 1 << 64)]
    calls += [(lambda it=it: battle.playout(it, 1), BadType) for it in NO_NUMBERS]
    calls += [(lambda it=it: battle.playout(1, 1, depth=it), BadType) for it in NO_NUMBERS if it is not None]
    calls += [(lambda it=it: battle.playout(1, it), BadType) for it in NO_NUMBERS]
    calls += [
        (lambda it=it: battle.playout(1, 1, weights=it), BadType) for it in (5, "move", ["Pound"], [("Pound", 1)])
    ]
    for key in ("move", "switch", "Pound", Move.POUND, 1):
        calls += [
            (lambda key=key, it=it: battle.playout(1, 1, weights={key: it}), BadArgument) for it in (-1, 256, 1 << 64)
        ]
        calls += [(lambda key=key, it=it: battle.playout(1, 1, weights={key: it}), BadType) for it in NO_NUMBERS]
    calls += [(lambda it=it: battle.playout(1, 1, weights={it: 1}), BadTeam) for it in (0, 166, -1)]
    for at, (call, kind) in enumerate(calls):
        with pytest.raises(kind) as fault:
            call()
        assert isinstance(fault.value, Error) and " must be " in str(fault.value) and battle.bytes == before, at
    with pytest.raises(BadTeam, match="there is no 'Explosoin'; did you mean 'Explosion'"):
        battle.playout(1, 1, weights={"Explosoin": 2})
    with pytest.raises(BadArgument, match=r"weights\['switch'\] must be 0 to 255, not 300"):
        battle.playout(1, 1, weights={"switch": 300})
    with pytest.raises(AttributeError):
        battle.playout(1, 1).ties = 5
