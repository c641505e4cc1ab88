"""Battles of states that were changed: values worked on paper from docs/MECHANICS.md, and every field that may be wrong."""

import dataclasses
import pickle
import random

import pytest
from conftest import BIG, NO_NUMBERS, random_team
from gen1 import (
    BadArgument,
    BadState,
    BadType,
    Battle,
    Choice,
    Conditions,
    Error,
    Member,
    Stat,
    State,
    StateField,
    Status,
)
from gen1.states import ActiveState, MemberState


def out(battle, side=1):
    """The member of a side that is out."""
    return battle.state.side(side).active


def test_a_state_and_back():
    """Each state of random battles gives the same 384 bytes, before the first update and after the last."""
    dice = random.Random(12)
    for _ in range(30):
        battle = Battle(
            random_team(dice), random_team(dice), dice.randbytes(10), dice.randint(0, 3), dice.randint(1, 40)
        )
        assert Battle.from_state(battle.state) == battle
        while not battle.result.is_over:
            battle.update_silent(*(dice.choice(battle.choices(it)) for it in (1, 2)))
            assert Battle.from_state(battle.state) == battle == battle.with_state()


def test_other_hp(battle):
    """The state has other HP and nothing else, and the battle continues with them."""
    other, before = battle.with_hp(2, 1, 30), battle.bytes
    assert other.state == battle.state.with_member(2, 1, hp=30) and other.state.member(2, 1).hp == 30
    assert other.state.one == battle.state.one and other.state.member(2, 2) == battle.state.member(2, 2)
    # Body Slam of Tauros on Tauros deals at least 95.
    assert other.knock_out(1, "Body Slam").once == battle.odds(1, "Body Slam").hit_chance and battle.bytes == before
    assert battle.with_hp(1, 2, 0).choices(1) == battle.choices(1)[:-1]


def test_other_stages_and_statuses(battle):
    """docs/MECHANICS.md, "Stats", "Stages" and "Penalties": Tauros has Attack 298, Defense 288 and Speed 318."""
    assert out(battle).stats[:3] == (298, 288, 318)
    assert out(battle.with_stage(1, Stat.SPEED, 2)).stats[2] == 636
    assert out(battle.with_stage(1, Stat.ATTACK, -6)).stats[0] == 74
    assert out(battle.with_stage(1, Stat.ATTACK, 6)).stats[0] == 999
    assert out(battle.with_stage(1, Stat.EVASION, -1)).stages == (0, 0, 0, 0, 0, -1)
    assert out(battle.with_status(1, 1, Status.BURN)).stats[0] == 149
    slow = battle.with_status(1, 1, Status.PARALYSIS)
    assert out(slow).stats[2] == 79 and out(slow.with_stage(1, Stat.SPEED, 1)).stats[2] == 119
    asleep = battle.with_status(2, 2, Status.SLEEP, 7)
    assert asleep.state.member(2, 2).sleep == 7 and asleep.state.two.active == battle.state.two.active
    assert asleep.with_status(2, 2, Status.NONE) == battle
    # Quarter of the accuracy: the byte 255 at -6 is 255 * 25 / 100 = 63.
    assert battle.with_stage(1, Stat.ACCURACY, -6).odds(1, "Body Slam").hit_chance * 256 == 63


def test_other_fields(battle):
    """The last turn ends as a tie if both are left; a last damage can be countered, twice as high."""
    last = battle.with_state(turn=7, limit=7)
    assert last.update(17, 17).result.is_over and not battle.copy().update(17, 17).result.is_over
    hit = Battle.from_state(battle.with_state(last_damage=60).state.with_active(2, picked_move=1))
    assert hit.odds(1, "Counter").fixed == (120, 120)
    confused = battle.state.with_active(1, conditions=Conditions.CONFUSED, confusion=3)
    assert out(Battle.from_state(confused)).confusion == 3
    tauros = Member("Tauros", ["Body Slam"])
    for it in (type("Noted", (Battle,), {})([tauros], [tauros], range(10)),):
        assert type(it.with_hp(1, 1, 5)) is type(it) is type(type(it).from_state(it.state))


def test_the_state_itself_is_never_changed(battle):
    state, before = battle.state, battle.state
    assert state.with_member(1, 2, hp=5) != state == before and hash(state) == hash(before)
    with pytest.raises(dataclasses.FrozenInstanceError):
        state.turn = 5
    assert pickle.loads(pickle.dumps(state)) == state


# Each: the change of the state, and the fault that `BadState` reports: code, field, side, place, index, value, low, high.
def member(**changes):
    return lambda it: it.with_member(2, 1, **changes)


def active(**changes):
    return lambda it: it.with_active(1, **changes)


def header(**changes):
    return lambda it: dataclasses.replace(it, **changes)


FIELDS = (
    (header(limit=0), StateField.LIMIT, "limit", 0, 0, None, 0, 1, 9999),
    (header(limit=70_000), StateField.LIMIT, "limit", 0, 0, None, 70_000, 1, 9999),
    (header(turn=1001), StateField.TURN, "turn", 0, 0, None, 1001, 0, 1000),
    (header(index=9), StateField.INDEX, "index", 0, 0, None, 9, 0, 8),
    (header(rules=4), StateField.RULES, "rules", 0, 0, None, 4, 0, 3),
    (header(outcome=6), StateField.OUTCOME, "outcome", 0, 0, None, 6, 0, 5),
    (header(requests=(1, 3)), StateField.REQUEST, "requests[1]", 2, 0, 1, 3, 0, 2),
    (member(species=0), StateField.SPECIES, "species", 2, 1, None, 0, 1, 151),
    (member(species=152), StateField.SPECIES, "species", 2, 1, None, 152, 1, 151),
    (member(level=101), StateField.LEVEL, "level", 2, 1, None, 101, 1, 100),
    (member(max_hp=1000), StateField.MAX_HP, "max_hp", 2, 1, None, 1000, 11, 999),
    (member(hp=354), StateField.HP, "hp", 2, 1, None, 354, 0, 353),
    (member(hp=-1), StateField.HP, "hp", 2, 1, None, -1, 0, 353),
    (member(hp=1 << 70), StateField.HP, "hp", 2, 1, None, 1 << 70, 0, 353),
    (member(stats=(298, 288, 4, 238)), StateField.OWN_STAT, "stats[2]", 2, 1, 2, 4, 5, 999),
    (member(status=6), StateField.STATUS, "status", 2, 1, None, 6, 0, 5),
    (member(status=Status.SLEEP, sleep=8), StateField.SLEEP, "sleep", 2, 1, None, 8, 1, 7),
    (member(marked=True), StateField.MARKED, "marked", 2, 1, None, True, 0, 0),
    (member(moves=(34, 165), pp=(1, 1)), StateField.MOVE, "moves[1]", 2, 1, 1, 165, 1, 164),
    (member(moves=(34, 0), pp=(1, 1)), StateField.MOVE, "moves[1]", 2, 1, 1, 0, 1, 164),
    (member(moves=(34, 34), pp=(1, 1)), StateField.MOVE, "moves[1]", 2, 1, 1, 34, 1, 164),
    (member(moves=(), pp=()), StateField.MOVE, "moves[0]", 2, 1, 0, 0, 1, 164),
    (member(pp=(64, 8, 16, 8)), StateField.PP, "pp[0]", 2, 1, 0, 64, 0, 63),
    (active(place=3), StateField.PLACE, "active.place", 1, 0, None, 3, 1, 2),
    (active(place=0), StateField.PLACE, "active.place", 1, 0, None, 0, 1, 2),
    (active(types=(0, 15)), StateField.TYPE, "active.types[1]", 1, 0, 1, 15, 0, 14),
    (active(stages=(0, 0, 7, 0, 0, 0)), StateField.STAGE, "active.stages[2]", 1, 0, 2, 7, -6, 6),
    (active(stages=(0, 0, 0, 0, -7, 0)), StateField.STAGE, "active.stages[4]", 1, 0, 4, -7, -6, 6),
    (active(stages=(1 << 70, 0, 0, 0, 0, 0)), StateField.STAGE, "active.stages[0]", 1, 0, 0, 1 << 70, -6, 6),
    (active(conditions=1 << 17), StateField.CONDITIONS, "active.conditions", 1, 0, None, 1 << 17, 0, (1 << 17) - 1),
    (active(substitute=88), StateField.SUBSTITUTE, "active.substitute", 1, 0, None, 88, 0, 0),
    (active(conditions=Conditions.CONFUSED), StateField.CONFUSION, "active.confusion", 1, 0, None, 0, 1, 5),
    (active(conditions=Conditions.DISABLED), StateField.DISABLED_SLOT, "active.disabled_slot", 1, 0, None, 0, 1, 4),
    (
        active(conditions=Conditions.DISABLED, disabled_slot=1),
        StateField.DISABLED_TURNS,
        "active.disabled_turns",
        1,
        0,
        None,
        0,
        1,
        8,
    ),
    (active(bad_poison=1), StateField.BAD_POISON, "active.bad_poison", 1, 0, None, 1, 0, 0),
    (active(turns=1), StateField.TURNS, "active.turns", 1, 0, None, 1, 0, 0),
    (active(energy=1), StateField.ENERGY, "active.energy", 1, 0, None, 1, 0, 0),
    (active(energy=65_536), StateField.ENERGY, "active.energy", 1, 0, None, 65_536, 0, 65_535),
    (active(kept_accuracy=1), StateField.KEPT_ACCURACY, "active.kept_accuracy", 1, 0, None, 1, 0, 0),
    (active(kept_accuracy=256), StateField.KEPT_ACCURACY, "active.kept_accuracy", 1, 0, None, 256, 0, 255),
    (active(current_move=6), StateField.CURRENT_MOVE, "active.current_move", 1, 0, None, 6, 0, 5),
    (active(picked_move=7), StateField.PICKED_MOVE, "active.picked_move", 1, 0, None, 7, 0, 5),
    (active(stats=(298, 288, 1000, 238)), StateField.CURRENT_STAT, "active.stats[2]", 1, 0, 2, 1000, 1, 318),
    (active(stats=(298, 287, 318, 238)), StateField.CURRENT_STAT, "active.stats[1]", 1, 0, 1, 287, 288, 288),
    (
        active(conditions=Conditions.RAGE, kept_accuracy=9),
        StateField.TIED_CONDITION,
        "active.conditions",
        1,
        0,
        11,
        1,
        0,
        0,
    ),
)


@pytest.mark.parametrize("change, code, field, side, place, index, value, low, high", FIELDS)
def test_fields_that_are_wrong(battle, change, code, field, side, place, index, value, low, high):
    before = battle.bytes
    with pytest.raises(BadState) as fault:
        Battle.from_state(change(battle.state))
    it = fault.value
    assert (it.code, it.field, it.side, it.place, it.index, it.value, it.low, it.high) == (
        code,
        field,
        side,
        place,
        index,
        value,
        low,
        high,
    )
    text = str(it)
    assert field in text and "\n" not in text and len(text) < 120 and battle.bytes == before
    assert text.startswith(f"side {side}, member {place}: " if place else f"side {side}: " if side else field)
    read = pickle.loads(pickle.dumps(it))
    assert type(read) is BadState and (str(read), vars(read)) == (text, vars(it))


def test_what_a_fault_says(battle):
    for change, said in (
        (member(hp=400), "side 2, member 1: hp must be 0 to 353, not 400"),
        (header(turn=1001), "turn must be 0 to 1,000, not 1001"),
        (member(marked=True), "side 2, member 1: marked must be False, not True"),
        (member(moves=(34, 34), pp=(1, 1)), "side 2, member 1: moves[1] is 34, which does not fit the other fields"),
        (active(stages=(0, 0, 7, 0, 0, 0)), "side 1: active.stages[2] must be -6 to 6, not 7"),
        (active(stats=(298, 287, 318, 238)), "side 1: active.stats[1] must be 288, not 287"),
        (active(energy=-1), "side 1: active.energy must be 0 to 65,535, not -1"),
        (
            active(conditions=Conditions.RAGE, kept_accuracy=9),
            "side 1: active.conditions has RAGE, which does not belong to the current move",
        ),
        (
            lambda it: dataclasses.replace(it, one=dataclasses.replace(it.one, active=None)),
            "side 1: active.place must be 1 to 2, not 0",
        ),
        (
            lambda it: dataclasses.replace(it, two=dataclasses.replace(it.two, members=())),
            "side 2, member 1: species must be 1 to 151, not 0",
        ),
    ):
        with pytest.raises(BadState) as fault:
            Battle.from_state(change(battle.state))
        assert str(fault.value) == said


def another(dice, value):
    """Another value of a field, which may be wrong."""
    numbers = (0, 1, 5, 6, 7, 9, 15, 64, 100, 152, 165, 255, 256, 511, 1000, 65_536, -1, -7, 1 << 70)
    if isinstance(value, bool):
        return not value
    if isinstance(value, tuple) and value:
        at = dice.randrange(len(value))
        return (*value[:at], dice.choice(numbers), *value[at + 1 :])
    return dice.choice(numbers)


def test_random_fields():
    """Fields that were changed at random make a battle with that state, which can be loaded, or are refused by the package."""
    dice, made, refused = random.Random(14), 0, 0
    for _ in range(30):
        battle = Battle(random_team(dice), random_team(dice), dice.randbytes(10), dice.randint(0, 3), limit=40)
        battle.update_silent(0, 0)
        while not battle.result.is_over:
            state = battle.state
            kind, held = dice.choice([(member, state.member(2, 1)), (active, state.one.active), (header, state)])
            name = dice.choice([it.name for it in dataclasses.fields(held) if it.name not in ("one", "two")])
            wanted = kind(**{name: another(dice, getattr(held, name))})(state)
            try:
                other = Battle.from_state(wanted)
                assert Battle.load(other.bytes).state == wanted
                made += 1
            except BadArgument as fault:
                assert 10 < len(str(fault)) < 150
                refused += 1
            battle.update_silent(*(dice.choice(battle.choices(it)) for it in (1, 2)))
    assert made > 100 and refused > 100


def test_calls_with_wrong_arguments(battle, team):
    """Wrong arguments of `with_hp`, `with_status`, `with_stage`, `with_state` and of the state's own methods; nothing changes."""
    before, state = battle.bytes, battle.state
    calls = []
    for call in (
        lambda it: battle.with_hp(it, 1, 5),
        lambda it: battle.with_status(it, 1, 0),
        lambda it: battle.with_stage(it, 1, 0),
        state.side,
        lambda it: state.member(it, 1),
        lambda it: state.with_active(it),
        lambda it: state.with_member(it, 1),
    ):
        calls += [(lambda call=call, it=it: call(it), BadArgument) for it in (0, 3, *BIG)]
        calls += [(lambda call=call, it=it: call(it), BadType) for it in NO_NUMBERS]
    for call in (
        lambda it: battle.with_hp(1, it, 5),
        lambda it: battle.with_status(1, it, 0),
        lambda it: state.member(1, it),
    ):
        calls += [(lambda call=call, it=it: call(it), BadArgument) for it in (0, 3, *BIG)]
        calls += [(lambda call=call, it=it: call(it), BadType) for it in NO_NUMBERS]
    for call in (
        lambda it: battle.with_hp(1, 1, it),
        lambda it: battle.with_stage(1, 1, it),
        lambda it: battle.with_status(1, 1, 1, it),
    ):
        calls += [(lambda call=call, it=it: call(it), BadState) for it in (-7, 354, *BIG[4:])]
        calls += [(lambda call=call, it=it: call(it), BadType) for it in NO_NUMBERS]
    calls += [(lambda it=it: battle.with_status(1, 1, it), BadArgument) for it in (-1, 6, *BIG)]
    calls += [(lambda it=it: battle.with_stage(1, it, 0), BadArgument) for it in (0, 7, *BIG)]
    calls += [(lambda it=it: Battle.from_state(it), BadType) for it in (None, 5, team, battle, battle.bytes, state.one)]
    calls += [(lambda: battle.with_state(tern=1), BadType), (lambda: state.with_member(1, 1, hpp=1), BadType)]
    calls += [(lambda: state.with_active(1, stage=1), BadType)]
    for at, (call, kind) in enumerate(calls):
        with pytest.raises(kind) as fault:
            call()
        assert isinstance(fault.value, Error) and 10 < len(str(fault.value)) < 330 and battle.bytes == before, at
    with pytest.raises(BadType) as fault:
        state.with_active(1, stage=1)
    assert str(fault.value).startswith(
        "ActiveState has no field 'stage' (str); its fields are place, types, stats, stages, conditions,"
    )
    with pytest.raises(BadArgument) as fault:
        Battle(team, team, range(10)).with_stage(2, Stat.SPEED, 1)
    assert str(fault.value) == "side 2 has no active member: the battle is before its first update"


def test_fields_of_a_wrong_type(battle):
    """Each field of a member and of an active member, with what is not a number or not a list."""
    state = battle.state
    for kind, change, where in ((MemberState, member, "side 2, member 1"), (ActiveState, active, "side 1: active")):
        for field in dataclasses.fields(kind):
            for wrong in (None, "1", 1.0, object()):
                with pytest.raises(BadType) as fault:
                    Battle.from_state(change(**{field.name: wrong})(state))
                assert where in str(fault.value) and field.name in str(fault.value)
    for name in (it.name for it in dataclasses.fields(State)):
        with pytest.raises(BadType):
            battle.with_state(**{name: None})
    for name, count in (("stats", 3), ("moves", 5), ("pp", 3)):
        with pytest.raises(BadArgument) as fault:
            Battle.from_state(member(**{name: (1, 2, 3, 4, 5)[:count]})(state))
        assert str(fault.value).startswith(f"side 2, member 1: {name} must ")
    for name in ("stats", "stages", "types"):
        with pytest.raises(BadArgument) as fault:
            Battle.from_state(active(**{name: (1,)})(state))
        assert str(fault.value).startswith(f"side 1: active.{name} must have ")
    for changes in (
        {"numbers": (0,) * 9},
        {"numbers": (256, *[0] * 9)},
        {"last_damage": 65_536},
        {"last_damage": -1},
        {"requests": (1,)},
    ):
        with pytest.raises(BadArgument):
            battle.with_state(**changes)
    with pytest.raises(BadArgument):
        battle.with_state(one=dataclasses.replace(state.one, members=state.one.members[:1] * 7))


def test_a_state_out_of_a_first_update(team):
    """Before it nobody is out: an active member that is given is refused."""
    battle = Battle(team, team, range(10))
    begun = battle.copy()
    begun.update(Choice.PASS, Choice.PASS)
    with pytest.raises(BadState) as fault:
        battle.with_state(one=begun.state.one)
    assert str(fault.value) == "side 1: active.place must be 0, not 1"
    assert battle.with_hp(1, 1, 5).state.member(1, 1).hp == 5
