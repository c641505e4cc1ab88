"""Exact outcomes: probabilities worked out from docs/MECHANICS.md, updates that are among them, and bad arguments."""

import random
import subprocess
import sys
from fractions import Fraction

import pytest
from conftest import BIG, NO_NUMBERS, random_team
from gen1 import (
    BadArgument,
    BadType,
    Battle,
    Chances,
    Choice,
    Conditions,
    HpChange,
    Member,
    Outcomes,
    Refusal,
    Refused,
    Stat,
    Status,
    ThreeChances,
)
from gen1 import _outcomes

FIRST = Choice.MOVE_1


def facing(one, two):
    """A battle of two members with one move each, which have just been sent out."""
    battle = Battle([Member(one[0], [one[1]])], [Member(two[0], [two[1]])], bytes(10))
    battle.update_silent(Choice.PASS, Choice.PASS)
    return battle


def chances(battle, look, one=FIRST, two=FIRST, damage_classes=0):
    """The exact probability of each value of `look`."""
    of, sums = battle.outcomes(one, two, damage_classes=damage_classes), {}
    for state, weight in zip(of.battles, of.weights):
        seen = look(state)
        sums[seen] = sums.get(seen, 0) + Fraction(weight, of.whole)
    assert sum(sums.values()) == 1
    return sums


def hp(battle, side):
    return battle.state.side(side).members[0].hp


def test_full_paralysis():
    """63 of 256 bytes keep a paralysed member from acting, and its PP as they were."""
    battle = facing(("Snorlax", "Splash"), ("Snorlax", "Splash")).with_status(1, 1, Status.PARALYSIS)
    left = chances(battle, lambda it: it.state.one.members[0].pp[0])
    assert left == {61: Fraction(63, 256), 60: Fraction(193, 256)}


def test_accuracy():
    """An accuracy of 100 % is 255 of 256, one of 30 % is 76."""
    for move, chance in (("Seismic Toss", Fraction(255, 256)), ("Horn Drill", Fraction(76, 256))):
        battle = facing(("Tauros", move), ("Snorlax", "Splash"))
        hit = chances(battle, lambda it: hp(it, 2) < hp(battle, 2))
        assert hit == {True: chance, False: 1 - chance}


def test_factors_and_critical_hits():
    """Each of the 39 factors is equally likely. Tauros has a critical hit with 55 of 256 bytes."""
    battle = facing(("Tauros", "Body Slam"), ("Snorlax", "Splash"))
    for critical, part in ((False, 201), (True, 55)):
        damages = battle.damage(1, "Body Slam", critical)
        found = chances(battle, lambda it: hp(battle, 2) - hp(it, 2))
        other = set(battle.damage(1, "Body Slam", not critical))
        for damage in set(damages) - other:
            assert found[damage] == Fraction(255 * part * damages.count(damage), 65536 * 39)


@pytest.mark.parametrize("classes", (1, 3, 8, 39))
@pytest.mark.parametrize("left", (523, 260, 250, 136, 125, 120, 60))
def test_classes_of_damage(classes, left):
    """Of each class one damage is listed, with the weight of all. Those that knock out are a class more, which is exact.

    A damage is in the class of the first of the 39 factors that makes it.
    """
    battle = facing(("Tauros", "Body Slam"), ("Snorlax", "Splash")).with_hp(2, 1, left)
    sums, losses = {"miss": Fraction(1, 256)}, {"miss": {0}}
    for critical, part in ((False, 201), (True, 55)):
        damages = battle.damage(1, "Body Slam", critical)
        for damage in damages:
            name = "out" if damage >= left else (critical, damages.index(damage) * classes // 39)
            sums[name] = sums.get(name, 0) + Fraction(255 * part, 65536 * 39)
            losses.setdefault(name, set()).add(min(damage, left))
    found = chances(battle, lambda it: left - hp(it, 2), damage_classes=classes)
    assert len(found) == len(sums)
    for name, within in losses.items():
        assert [found[loss] for loss in found if min(within) <= loss <= max(within)] == [sums[name]]
    if classes == 39:
        assert found == chances(battle, lambda it: left - hp(it, 2))


def test_classes_keep_the_chances_to_fall():
    """Random battles: with classes each outcome is one of all, and each end and each fall has its exact probability."""
    dice, listed = random.Random(12), {0: 0, 1: 0, 3: 0, 8: 0}
    for _ in range(12):
        battle = Battle(random_team(dice), random_team(dice), bytes(dice.randrange(256) for _ in range(10)))
        for _ in range(12):
            if not battle.result.is_over:
                battle.update_silent(*(dice.choice(battle.choices(side)) for side in (1, 2)))
        if battle.result.is_over:
            continue
        pair = [dice.choice(battle.choices(side)) for side in (1, 2)]
        every = {it.bytes for it in battle.outcomes(*pair).battles}
        falls = {}
        for classes in listed:
            found = battle.outcomes(*pair, damage_classes=classes)
            listed[classes] += len(found)
            assert sum(found.weights) == found.whole and {it.bytes for it in found.battles} <= every
            falls[classes] = chances(battle, has_fallen, *pair, damage_classes=classes)
        assert falls[1] == falls[3] == falls[8] == falls[0]
    assert listed[1] < listed[3] < listed[8] < listed[0]


# Thunder Wave hits with 255 of 256 bytes. The slower Slowbro, once it is paralysed, can't act with 63 of 256.
MISSES, IS_STOPPED = Fraction(1, 256), Fraction(255 * 63, 65536)


@pytest.mark.parametrize(
    ("least", "left_out"),
    (
        (0, 0),
        (MISSES, 0),
        (0.01, MISSES),
        (IS_STOPPED, MISSES),
        (IS_STOPPED + Fraction(1, 1 << 32), MISSES + IS_STOPPED),
        (1 - MISSES, 1),
        (1, 1),
    ),
)
def test_least_probability(least, left_out):
    """Outcomes that are less probable are left out, with their exact weight, and the others keep theirs."""
    battle = facing(("Tauros", "Thunder Wave"), ("Slowbro", "Amnesia"))
    found = battle.outcomes(FIRST, FIRST, least_probability=least)
    assert sum(found.weights) + found.left_out == found.whole
    assert Fraction(found.left_out, found.whole) == left_out and found.left_out_probability == pytest.approx(
        float(left_out)
    )
    every = (MISSES, IS_STOPPED, 1 - MISSES - IS_STOPPED)
    assert sorted(Fraction(it, found.whole) for it in found.weights) == [it for it in every if it >= least]
    assert len(found) == len(found.battles) == len(found.probabilities) == len(found.weights)


def test_an_update_without_draws_is_never_left_out():
    """Both use Splash."""
    found = facing(("Snorlax", "Splash"), ("Tauros", "Splash")).outcomes(FIRST, FIRST, least_probability=1.0)
    assert (len(found), found.left_out, found.left_out_probability) == (1, 0, 0.0)


def test_what_is_left_out_of_random_battles():
    """Each outcome is one of all, with at most its weight, and the greater the least probability, the more is left out."""
    dice = random.Random(13)
    for _ in range(12):
        battle = Battle(random_team(dice), random_team(dice), bytes(dice.randrange(256) for _ in range(10)))
        for _ in range(12):
            if not battle.result.is_over:
                battle.update_silent(*(dice.choice(battle.choices(side)) for side in (1, 2)))
        if battle.result.is_over:
            continue
        pair = [dice.choice(battle.choices(side)) for side in (1, 2)]
        full, before = battle.outcomes(*pair), Fraction(0)
        every = {it.bytes: Fraction(weight, full.whole) for it, weight in zip(full.battles, full.weights)}
        for least in (1e-6, 1e-4, 0.01, 0.5):
            found = battle.outcomes(*pair, least_probability=least)
            assert sum(found.weights) + found.left_out == found.whole
            assert all(
                Fraction(weight, found.whole) <= every[it.bytes] for it, weight in zip(found.battles, found.weights)
            )
            assert before <= Fraction(found.left_out, found.whole)
            before = Fraction(found.left_out, found.whole)


def has_fallen(battle):
    """How the battle has ended, and which members are down."""
    return battle.result.outcome, tuple(it.hp == 0 for side in (1, 2) for it in battle.state.side(side).members)


def test_sleep_and_confusion():
    """Sleep lasts 1 to 7 turns, which are equally likely; confusion 2 to 5. The slower foe counts one of them at once."""
    slept = chances(facing(("Tauros", "Spore"), ("Snorlax", "Splash")), lambda it: it.state.two.members[0].sleep)
    assert [slept[turns] for turns in range(1, 7)] == [Fraction(255, 256 * 7)] * 6
    confused = chances(
        facing(("Tauros", "Confuse Ray"), ("Snorlax", "Splash")), lambda it: it.state.two.active.confusion
    )
    assert [confused[turns] for turns in range(1, 5)] == [Fraction(255, 256 * 4)] * 4


def test_hits():
    """Two, three, four and five hits: 3, 3, 1 and 1 of 8."""
    battle = facing(("Tauros", "Fury Attack"), ("Chansey", "Splash"))
    found = chances(battle, lambda it: it.state.last_damage and (hp(battle, 2) - hp(it, 2)) // it.state.last_damage)
    accuracy = Fraction(216, 256)
    assert found == {0: 1 - accuracy, 2: accuracy * 3 / 8, 3: accuracy * 3 / 8, 4: accuracy / 8, 5: accuracy / 8}


def test_equal_speed():
    """Which of two equal members acts first is a toss."""
    battle = facing(("Tauros", "Seismic Toss"), ("Tauros", "Seismic Toss")).with_hp(1, 1, 50).with_hp(2, 1, 50)
    found = chances(battle, lambda it: (hp(it, 1), hp(it, 2)))
    assert found == {
        (50, 50): Fraction(1, 65536),
        (50, 0): Fraction(255 * 257, 131072),
        (0, 50): Fraction(255 * 257, 131072),
    }


def test_one_outcome():
    """An update that draws nothing has one outcome: what it leads to."""
    battle = Battle([Member("Tauros", ["Splash"])], [Member("Gengar", ["Splash"])], range(10))
    found = battle.outcomes(Choice.PASS, Choice.PASS)
    battle.update_silent(Choice.PASS, Choice.PASS)
    assert (len(found), found.weights, found.whole, found.battles) == (1, [1], 1, [battle])


NONE, POISON, TOXIC, RECOVER = HpChange(), HpChange(lost=22), HpChange(lost=44), HpChange(gained=176, lost=22)

# The user, its move and its foe; how the battle is changed; and what happens to the foe's HP between the uses.
REPEATED = {
    "usual": ("Tauros", "Strength", "Tauros", lambda it: it, NONE, NONE),
    "poisoned": ("Tauros", "Strength", "Tauros", lambda it: it, POISON, TOXIC),
    "recovering": ("Tauros", "Strength", "Tauros", lambda it: it.with_hp(2, 1, 240), RECOVER, POISON),
    "often critical": ("Kingler", "Crabhammer", "Tauros", lambda it: it.with_hp(2, 1, 260), POISON, NONE),
    "less accurate": (
        "Tauros",
        "Strength",
        "Tauros",
        lambda it: it.with_hp(2, 1, 150).with_stage(1, Stat.ACCURACY, -2),
        NONE,
        POISON,
    ),
    "burned": (
        "Tauros",
        "Strength",
        "Tauros",
        lambda it: it.with_hp(2, 1, 120).with_status(1, 1, Status.BURN),
        NONE,
        NONE,
    ),
    "no hit test": ("Jolteon", "Swift", "Tauros", lambda it: it.with_hp(2, 1, 120), NONE, POISON),
    "two hits": ("Hitmonlee", "Double Kick", "Tauros", lambda it: it.with_hp(2, 1, 353), POISON, RECOVER),
    "two to five hits": ("Jolteon", "Pin Missile", "Tauros", lambda it: it.with_hp(2, 1, 150), TOXIC, RECOVER),
    "fixed": ("Gengar", "Night Shade", "Alakazam", lambda it: it.with_hp(2, 1, 222), POISON, NONE),
    "Psywave": ("Alakazam", "Psywave", "Tauros", lambda it: it.with_hp(2, 1, 200), POISON, POISON),
    "Super Fang": ("Raticate", "Super Fang", "Tauros", lambda it: it, POISON, TOXIC),
    "one-hit": ("Tauros", "Horn Drill", "Snorlax", lambda it: it, NONE, RECOVER),
    "one-hit, too slow": ("Snorlax", "Fissure", "Tauros", lambda it: it, NONE, NONE),
    "immune": ("Tauros", "Strength", "Gengar", lambda it: it, POISON, POISON),
    "substitute": ("Tauros", "Strength", "Tauros", lambda it: covered(it, 88), POISON, RECOVER),
    "substitute, hits": ("Jolteon", "Pin Missile", "Tauros", lambda it: covered(it, 88), POISON, POISON),
    "substitute, fixed": ("Gengar", "Night Shade", "Alakazam", lambda it: covered(it, 221), TOXIC, TOXIC),
    "substitute, halved": ("Raticate", "Super Fang", "Tauros", lambda it: covered(it, 88), NONE, NONE),
}


def covered(battle, amount):
    conditions = battle.state.two.active.conditions | Conditions.SUBSTITUTE
    return Battle.from_state(battle.state.with_active(2, conditions=conditions, substitute=amount))


def in_turn(battle, changes):
    """The chances that one use, two and three fell the foe or break its Substitute: outcomes of an update for each number of HP before it."""
    has_substitute = bool(battle.state.two.active.conditions & Conditions.SUBSTITUTE)

    def left(it):
        active = it.state.two.active
        return (
            (active.substitute + 1 if active.conditions & Conditions.SUBSTITUTE else 0) if has_substitute else hp(it, 2)
        )

    def uses_from(amount):
        return chances(covered(battle, amount - 1) if has_substitute else battle.with_hp(2, 1, amount), left)

    most, standing, felled = battle.state.two.members[0].max_hp, {left(battle): Fraction(1)}, []
    for change in (*changes, NONE):
        following = {}
        for amount, chance in standing.items():
            for rest, part in (uses_from(amount) if amount else {0: Fraction(1)}).items():
                following[rest] = following.get(rest, 0) + chance * part
        felled.append(following.get(0, Fraction(0)))
        standing = {}
        for rest, chance in following.items():
            if rest and not has_substitute:
                rest = max(min(rest + change.gained, most) - change.lost, 0)
            standing[rest] = standing.get(rest, 0) + chance
    return ThreeChances(*felled, has_substitute)


@pytest.mark.parametrize("name", REPEATED)
def test_chances_to_knock_out(name):
    """The ways of gen1_odds are the outcomes of updates, for one use, two and three."""
    user, move, foe, change, first, second = REPEATED[name]
    battle = change(facing((user, move), (foe, "Splash")))
    assert battle.knock_out_in_three(1, move, first, second) == in_turn(battle, (first, second))
    at_once = in_turn(battle, (NONE, NONE)) if (first, second) != (NONE, NONE) else battle.knock_out_in_three(1, move)
    assert battle.knock_out(1, move) == Chances(at_once.once, at_once.twice, at_once.breaks_substitute)


def test_updates_are_among_the_outcomes():
    """Random battles: each update leads to one of the outcomes, apart from the numbers to draw."""
    dice = random.Random(5)
    for _ in range(4):
        battle = Battle(random_team(dice), random_team(dice), bytes(dice.randrange(256) for _ in range(10)))
        for _ in range(30):
            if battle.result.is_over:
                break
            pair = [dice.choice(battle.choices(side)) for side in (1, 2)]
            found, before = battle.outcomes(*pair), battle.bytes
            battle.update_silent(*pair)
            assert sum(found.weights) == found.whole
            assert battle.bytes[:5] + before[5:16] + battle.bytes[16:] in {it.bytes for it in found.battles}


def test_forms_of_a_list():
    """Outcomes as pairs, as numbers and as bytes are one list. The battle stays as it was."""
    battle = facing(("Tauros", "Body Slam"), ("Starmie", "Thunder"))
    before, found = battle.bytes, battle.outcomes(FIRST, FIRST)
    assert battle.bytes == before and len(found) == len(found.battles) == len(found.weights) > _outcomes.PLACES
    assert [it for it, _ in found] == found.battles and len(set(found.battles)) == len(found)
    assert bytes(found.states) == b"".join(it.bytes for it in found.battles)
    exact = [weight / found.whole for weight in found.weights]
    assert list(found.probabilities) == exact == [chance for _, chance in found] and sum(exact) == pytest.approx(1)
    assert repr(found) == f"<Outcomes, {len(found)}>" and isinstance(found, Outcomes)


def test_numpy_arrays():
    numpy = pytest.importorskip("numpy")
    found = facing(("Tauros", "Body Slam"), ("Snorlax", "Splash")).outcomes(FIRST, FIRST)
    assert found.states.dtype == numpy.uint8 and found.states.shape == (len(found), 384)
    assert found.probabilities.dtype == numpy.float64 and found.probabilities.shape == (len(found),)


def test_without_numpy():
    """The numbers don't change where numpy is not installed."""
    program = """
import sys
sys.modules["numpy"] = None
import importlib.util
found = importlib.util.find_spec
importlib.util.find_spec = lambda name, *more: None if name == "numpy" else found(name, *more)
from gen1 import Battle, Choice, Member
battle = Battle([Member("Snorlax", ["Bide"])], [Member("Snorlax", ["Bide"])], bytes(10))
battle.update_silent(Choice.PASS, Choice.PASS)
of = battle.outcomes(Choice.MOVE_1, Choice.MOVE_1)
assert of.probabilities == [0.25] * 4 and type(of.states) is bytes and len(of.states) == 4 * 384
"""
    done = subprocess.run([sys.executable, "-c", program], capture_output=True, text=True)
    assert (done.returncode, done.stderr) == (0, "")


def test_bad_choices():
    battle = facing(("Tauros", "Splash"), ("Snorlax", "Splash"))
    before = battle.bytes
    for choice, side, code in ((Choice.PASS, 1, Refusal.NOT_OFFERED_ONE), (7, 2, Refusal.NOT_OFFERED_TWO)):
        with pytest.raises(Refused) as fault:
            battle.outcomes(*((choice, FIRST) if side == 1 else (FIRST, choice)))
        assert (fault.value.code, fault.value.side) == (code, side)
    for number in BIG:
        with pytest.raises(BadArgument):
            battle.outcomes(number, FIRST)
    for thing in NO_NUMBERS:
        # Text may be a choice in words, but not this one.
        with pytest.raises(BadArgument if isinstance(thing, str) else BadType):
            battle.outcomes(FIRST, thing)
        with pytest.raises(BadType, match="damage_classes"):
            battle.outcomes(FIRST, FIRST, damage_classes=thing)
    for number in (-1, 40, 255, *BIG):
        with pytest.raises(BadArgument, match="damage_classes must be 0 to 39"):
            battle.outcomes(FIRST, FIRST, damage_classes=number)
    for thing in (None, "0.5", True, 1j, [0.5]):
        with pytest.raises(BadType, match="least_probability must be a number"):
            battle.outcomes(FIRST, FIRST, least_probability=thing)
    for number in (-1e-9, 1.0000001, -1, 2, float("nan"), float("inf"), 10**400):
        with pytest.raises(ValueError, match="least_probability must be 0 to 1, not "):
            battle.outcomes(FIRST, FIRST, least_probability=number)
    fallen = facing(("Tauros", "Horn Drill"), ("Snorlax", "Splash")).outcomes(FIRST, FIRST)
    over = next(it for it in fallen.battles if it.result.is_over)
    with pytest.raises(Refused, match="the battle is over"):
        over.outcomes(FIRST, FIRST)
    assert battle.bytes == before
