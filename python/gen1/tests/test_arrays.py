"""Arrays of battles against single battles, and against direct calls of the library; and observations."""

import copy
import ctypes
import pickle
import random
import time

import pytest
from conftest import LIB, random_team

np = pytest.importorskip("numpy")

from gen1 import (
    BadArgument,
    BadType,
    Battle,
    BattleArray,
    Choice,
    Conditions,
    Error,
    Member,
    Move,
    Refusal,
)  # noqa: E402
from gen1.arrays import ACTIONS, CHOICES, bits  # noqa: E402
from gen1.layout import ACTIVE, BATTLE, MEMBER  # noqa: E402
from gen1.observations import COLUMNS  # noqa: E402


def random_battles(count, seed, limit=30):
    dice = random.Random(seed)
    return [
        Battle(random_team(dice), random_team(dice), dice.randbytes(10), dice.randint(0, 3), limit)
        for _ in range(count)
    ]


def test_the_array(battle):
    array = BattleArray(5, battle)
    assert array.bytes.shape == (5, 384) and array.bytes.ctypes.data % 64 == 0 and array.bytes.flags.c_contiguous
    assert len(array) == 5 and array[0] == array[-1] == battle and array == BattleArray.of([battle] * 5)
    assert (MEMBER.itemsize, ACTIVE.itemsize, BATTLE.itemsize) == (24, 36, 384)
    array[3] = Battle.load(battle.bytes)
    for copied in (array.copy(), copy.copy(array), copy.deepcopy(array), pickle.loads(pickle.dumps(array))):
        assert copied == array and copied.bytes.ctypes.data != array.bytes.ctypes.data
        copied.random_step(np.random.default_rng(1))
        assert copied != array and array[0] == battle
        copied.reset()
        assert copied == array


def test_it_is_a_sequence_of_battles(battle):
    """Python walks an object by `__iter__`, and what only has `__getitem__` until an IndexError."""
    battles = random_battles(3, 14)
    array = BattleArray.of(iter(battles))
    assert list(array) == battles == [*reversed(list(reversed(array)))] and battles[1] in array and battle not in array
    assert repr(BattleArray(1000, battle)) == "<BattleArray of 1,000, 0 over>"
    for at in (3, -4, 10**5000):
        with pytest.raises(IndexError) as fault:
            array[at]
        assert isinstance(fault.value, BadArgument) and str(fault.value).startswith("place must be -3 to 2, not ")
        with pytest.raises(IndexError):
            array[at] = battle
        assert list(array) == battles


def test_what_a_step_answers_is_the_callers(battle):
    """Arrays that were returned don't change by a later step, reset or assignment."""
    array, dice = BattleArray(20, battle), np.random.default_rng(15)
    while not array.over.all():
        array.random_step(dice)
    before = [array.step([0] * 20, [0] * 20), array.over, array.outcomes]
    kept = [it.copy() for it in before]
    array.reset()
    assert all(np.array_equal(one, two) for one, two in zip(before, kept)) and not array.over.any()
    array[3] = battle
    assert (
        list(array.results)
        == [int(battle.result.outcome) | battle.result.requests[0] << 3 | battle.result.requests[1] << 5] * 20
    )


def test_the_arrays_can_only_be_read(battle):
    """Read-only arrays, so that results always match the bytes."""
    array = BattleArray(4, battle)
    for held in (array.bytes, array.fields["turn"], array.fields["sides"]["members"]["hp"], array.results, array.codes):
        with pytest.raises(ValueError):
            held[:] = 0
    assert list(array) == [battle] * 4


def test_battles_that_are_taken():
    """Copies by their places, with results. They are independent, and `reset` restores them to what was taken."""
    battles = random_battles(4, 16)
    array = BattleArray.of(battles)
    array.random_step(np.random.default_rng(1))
    now = list(array)
    taken = array.take([2, 2, 0, -1])
    assert list(taken) == [now[2], now[2], now[0], now[3]] and list(taken.results) == list(array.results[[2, 2, 0, 3]])
    taken.reseed(np.arange(40).reshape(4, 10))
    taken.random_step(np.random.default_rng(2))
    assert taken[0] != taken[1] and list(array) == now
    taken.reset()
    assert list(taken) == [now[2], now[2], now[0], now[3]]
    for wrong, kind, said in (
        ([], BadArgument, "at least one"),
        (2, BadArgument, "(m,)"),
        (None, BadArgument, "(m,)"),
        ([[1]], BadArgument, "(m,)"),
        ([0, 4], IndexError, "places[1] must be -4 to 3, not 4"),
        ([-5], IndexError, "places[0] must be -4 to 3, not -5"),
        ([1.0], BadType, "float64"),
        ([True], BadType, "bool"),
        ([[1], [1, 2]], BadType, "places must be an array"),
    ):
        with pytest.raises(kind) as fault:
            array.take(wrong)
        assert isinstance(fault.value, Error) and said in str(fault.value) and list(array) == now


def test_what_is_wrong_is_named(battle):
    """Errors name the item of an array, and its value."""
    array = BattleArray(5, battle)
    seeds = np.zeros((5, 10), int)
    seeds[2, 3] = 256
    for call, said in (
        (lambda: array.reseed(seeds), "seeds[2, 3] must be 0 to 255, not 256"),
        (lambda: array.reset(None, seeds), "seeds[2, 3] must be 0 to 255, not 256"),
        (lambda: BattleArray(5, battle, -seeds), "seeds[2, 3] must be 0 to 255, not -256"),
        (lambda: array.step([0, 1, 2, 300, 4], [0] * 5), "ones[3] must be 0 to 255, not 300"),
        (lambda: array.step([0] * 5, [[1], [1, 2]]), "twos must be an array"),
        (lambda: array.random_step(None), "dice must be a numpy.random.Generator, not None"),
        (lambda: array.random_step(random.Random(1)), "dice must be a numpy.random.Generator"),
        (lambda: array.random_step(random.Random(1), reset=True), "dice must be a numpy.random.Generator"),
        (lambda: BattleArray.of(5), "battles must be a list, not 5 (int)"),
        (lambda: BattleArray.of([]), "battles must have at least one battle"),
        (lambda: BattleArray.of([battle, 5]), "battles[1] must be a Battle, not 5 (int)"),
        (lambda: BattleArray(5, None), "battle must be a Battle, not None"),
    ):
        with pytest.raises(Error) as fault:
            call()
        assert said in str(fault.value) and array == BattleArray(5, battle)


def test_seeds_are_those_of_new_battles(team):
    dice = np.random.default_rng(2)
    seeds = dice.integers(0, 256, (20, 10))
    array = BattleArray(20, Battle(team, team, bytes(10)), seeds)
    assert [array[at] for at in range(20)] == [Battle(team, team, bytes(it.tolist())) for it in seeds]
    array.step(np.zeros(20, int), np.zeros(20, int))
    other = dice.integers(0, 256, (20, 10))
    array.reseed(other)
    singles = [Battle(team, team, bytes(it.tolist())) for it in seeds]
    for single, seed in zip(singles, other):
        single.update(0, 0)
        single.reseed(bytes(seed.tolist()))
    assert [array[at] for at in range(20)] == singles


def test_steps_against_single_updates():
    """An array of random battles, in which one choice of five is any byte: results, codes, masks and bytes."""
    battles, dice = random_battles(200, 3), random.Random(4)
    array = BattleArray.of(battles)
    while not array.over.all():
        masks = array.masks()
        offered = [[it.choices(side) for it in battles] for side in (1, 2)]
        for side in (0, 1):
            assert [list(CHOICES[row]) for row in bits(masks)[side]] == [list(map(int, it)) for it in offered[side]]
        pairs = [
            [dice.randint(0, 255) if dice.random() < 0.2 or not it else int(dice.choice(it)) for it in both]
            for both in zip(*offered)
        ]
        ones, twos = np.array(pairs).T
        results = array.step(ones, twos)
        for at, (battle, pair) in enumerate(zip(battles, pairs)):
            held = ctypes.create_string_buffer(battle.bytes, 384)
            code = LIB.gen1_update_silent(held, *pair) & 0xFF
            battles[at] = Battle.load(held.raw)
            assert (array.codes[at], results[at]) == (code, LIB.gen1_result(held) & 0xFF)
        assert [array[at] for at in range(len(array))] == battles
        assert list(array.outcomes) == [it.result.outcome for it in battles]


def test_random_steps_take_what_is_offered():
    """Each choice that is made is offered; each that is offered is made, and about as often as the others."""
    battles = random_battles(1, 5) * 4000
    array, dice = BattleArray.of(battles), np.random.default_rng(6)
    array.step(np.zeros(4000, np.uint8), np.zeros(4000, np.uint8))
    offered = [array[0].choices(side) for side in (1, 2)]
    for it, taken in zip(offered, array.random_step(dice)):
        counts = [int((taken == choice).sum()) for choice in it]
        assert sum(counts) == 4000 and all(abs(count - 4000 / len(it)) < 300 for count in counts)
    assert not array.codes.any()


def drawn(state, count):
    """The next state of a generator that include/gen1.h describes, and a draw modulo a count."""
    state = (state * 6364136223846793005 + 1442695040888963407) % 2**64
    return state, (state >> 32) % count


@pytest.mark.parametrize("reset", [False, True])
def test_random_steps_are_those_of_single_battles(reset):
    """The draws, choices, updates and restored battles are those that single calls make of the same numbers."""
    battles = random_battles(60, 51, limit=6)
    array, starts, dice = (
        BattleArray.of(battles),
        [it.copy() for it in battles],
        [np.random.default_rng(8) for _ in range(2)],
    )
    for _ in range(40):
        taken, states = array.random_step(dice[0], reset=reset), dice[1].integers(0, 1 << 64, len(battles), np.uint64)
        for at, state in enumerate(states.tolist()):
            if reset and battles[at].result.is_over:
                numbers = bytearray()
                for _ in range(10):
                    state, number = drawn(state, 256)
                    numbers.append(number)
                battles[at] = starts[at].copy()
                battles[at].reseed(numbers)
            is_over, pair = battles[at].result.is_over, [0, 0]
            for side in () if is_over else (1, 2):
                offered = battles[at].choices(side)
                state, number = drawn(state, len(offered))
                pair[side - 1] = int(offered[number])
            if not is_over:
                battles[at].update(*pair)
            assert ([int(it[at]) for it in taken], array.codes[at]) == (pair, Refusal.OVER if is_over else 0)
        assert list(array) == battles and list(array.outcomes) == [it.result.outcome for it in battles]
    assert array.over.any() and (reset or array.over.all())


def test_battles_that_are_over_stay(team):
    array, dice = BattleArray(50, Battle(team, team, range(10), limit=3)), np.random.default_rng(7)
    for _ in range(20):
        array.random_step(dice)
    assert array.over.all() and not array.masks().any()
    before = array.copy()
    array.random_step(dice)
    assert array == before and (array.codes == Refusal.OVER).all()
    which = np.arange(50) % 2 == 0
    seeds = dice.integers(0, 256, (50, 10))
    array.reset(which, seeds)
    assert (array.outcomes[which] == 0).all() and (array.bytes[~which] == before.bytes[~which]).all()
    assert array[2] == Battle(team, team, bytes(seeds[2].tolist()), limit=3)


@pytest.mark.parametrize("wrong", [[0] * 4, [0] * 6, [[0] * 5], [256] * 5, [-1] * 5, [1 << 40] * 5, 0])
def test_choices_out_of_range(battle, wrong):
    array = BattleArray(5, battle)
    before = array.copy()
    for pair in ((wrong, [0x11] * 5), ([0x11] * 5, wrong)):
        with pytest.raises(BadArgument) as fault:
            array.step(*pair)
        assert "must be" in str(fault.value) and array == before and (array.results == before.results).all()


@pytest.mark.parametrize("wrong", [[0.0] * 5, [True] * 5, ["a"] * 5, [None] * 5, None])
def test_choices_of_a_wrong_type(battle, wrong):
    array = BattleArray(5, battle)
    with pytest.raises(BadType):
        array.step(wrong, [0x11] * 5)
    assert array == BattleArray(5, battle)


def test_choices_that_are_other_enums(battle):
    """17 is move 1, and the number of a move of the tables."""
    array = BattleArray(2, battle)
    with pytest.raises(BadType) as fault:
        array.step([Choice.MOVE_1, Move(17)], [17, 17])
    assert str(fault.value).startswith("ones[1] must be a Choice or a whole number, not Move.")
    array.step([Choice.MOVE_1, 17], [17, 17])
    assert not array.codes.any()


def test_other_arguments_that_are_wrong(battle):
    array = BattleArray(5, battle)
    calls = (
        (lambda: BattleArray(0, battle), BadArgument),
        (lambda: BattleArray(-1, battle), BadArgument),
        (lambda: BattleArray(1.5, battle), BadType),
        (lambda: BattleArray(5, battle.bytes), BadType),
        (lambda: BattleArray(5, battle, np.zeros((5, 9), int)), BadArgument),
        (lambda: BattleArray(5, battle, np.full((5, 10), 256)), BadArgument),
        (lambda: BattleArray(5, battle, np.zeros((5, 10))), BadArgument),
        (lambda: BattleArray.of([]), BadArgument),
        (lambda: BattleArray.of([None]), BadType),
        (lambda: array[5], BadArgument),
        (lambda: array[-6], BadArgument),
        (lambda: array["a"], BadType),
        (lambda: array.__setitem__(0, None), BadType),
        (lambda: array.reset([1] * 5), BadArgument),
        (lambda: array.reset([True] * 4), BadArgument),
        (lambda: array.reset(None, np.zeros((4, 10), int)), BadArgument),
        (lambda: array.observe(3), BadArgument),
        (lambda: array.observe(None), BadType),
    )
    for at, (call, kind) in enumerate(calls):
        with pytest.raises(kind):
            call()
        assert array == BattleArray(5, battle), at


def observed(seed):
    """Random battles at some update."""
    dice = random.Random(seed)
    for _ in range(60):
        battle = Battle(random_team(dice), random_team(dice), dice.randbytes(10), limit=20)
        for _ in range(dice.randint(1, 30)):
            if battle.result.is_over:
                break
            battle.update_silent(*(dice.choice(battle.choices(side)) for side in (1, 2)))
        yield battle


def test_of_the_foe_a_side_sees_what_a_spectator_knows():
    """Place, HP, kinds, stages and what is up (docs/MECHANICS.md, "Spectator's view"), and the species and levels of the team."""
    stages = ("attack", "defense", "speed", "special", "accuracy", "evasion")
    for battle in observed(8):
        for side, foe in ((1, battle.state.two), (2, battle.state.one)):
            row = dict(zip(COLUMNS, BattleArray(1, battle).observe(side)[0].tolist()))
            for place in range(1, 7):
                it, member = f"foe {place}", foe.members[place - 1] if place <= len(foe.members) else None
                ails = [row[f"{it} {kind}"] for kind in ("sleep", "poison", "burn", "freeze", "paralysis")]
                numbers = [row[f"{it} {name}"] for name in ("species / 151", "level / 100", "hp / max_hp")]
                assert row[f"{it} is out"] == (foe.active.place == place)
                if member is None:
                    assert not any(ails + numbers)
                    continue
                assert ails == [float(member.status == kind) for kind in range(1, 6)]
                assert numbers == pytest.approx([member.species / 151, member.level / 100, member.hp / member.max_hp])
            assert [round(6 * row[f"foe {stage} stage / 6"]) for stage in stages] == list(foe.active.stages)
            for name in ("substitute", "confused", "light_screen", "reflect"):
                assert row[f"foe {name}"] == bool(foe.active.conditions & Conditions[name.upper()])


def test_nothing_else_of_the_foe_can_be_seen():
    """Bytes that a side may not know are changed, and its row stays the same."""
    dice = np.random.default_rng(9)
    for battle in observed(10):
        array = BattleArray(1, battle)
        for side in (1, 2):
            row, changed = array.observe(side), array.copy()
            changed._fields["numbers"], changed._fields["index"] = dice.integers(0, 256, 10), dice.integers(0, 9)
            changed._fields["last_damage"] = dice.integers(0, 65536)
            foe = changed._fields["sides"][:, 2 - side]
            for name in ("moves", "pp", "stats", "mark"):
                foe["members"][name] = dice.integers(0, 256, foe["members"][name].shape)
            asleep = (foe["members"]["status"] > 0) & (foe["members"]["status"] < 8)
            foe["members"]["status"][asleep] = dice.integers(1, 8)
            for name in (
                "types",
                "stats",
                "substitute",
                "confusion",
                "disabled_slot",
                "disabled_turns",
                "bad_poison",
                "turns",
                "energy",
                "current_move",
                "picked_move",
                "kept_accuracy",
            ):
                foe["active"][name] = dice.integers(0, 256, foe["active"][name].shape)
            own = changed._fields["sides"][:, side - 1]
            for name in ("confusion", "disabled_turns", "turns"):
                own["active"][name] = dice.integers(0, 256)
            mask = len(COLUMNS) - ACTIONS
            assert np.array_equal(row[:, :mask], changed.observe(side)[:, :mask])


def test_the_columns(battle):
    array = BattleArray(3, battle)
    row = array.observe(1)
    assert row.shape == (3, len(COLUMNS)) and row.dtype == np.float32 and len(set(COLUMNS)) == len(COLUMNS) == 224
    named = dict(zip(COLUMNS, row[0].tolist()))
    assert named["own 1 species / 151"] == pytest.approx(128 / 151) and named["own 2 level / 100"] == pytest.approx(
        0.73
    )
    assert named["own 1 max_hp / 999"] == pytest.approx(353 / 999) and named["own 1 attack / 999"] == pytest.approx(
        298 / 999
    )
    assert named["own 1 is out"] == named["asked to move"] == named["offered move 4"] == named["offered switch 2"] == 1
    assert named["own 3 species / 151"] == named["offered pass"] == named["won"] == 0
    for battle in observed(11):
        for side in (1, 2):
            row = BattleArray(1, battle).observe(side)
            assert np.isfinite(row).all() and row.min() >= -1 and row.max() <= 1


def test_the_fields_are_what_the_library_shows():
    """`fields` of random battles at some update against `Battle.state`, which the library reads from the bytes."""
    asleep = {0: 0, 8: 2, 16: 3, 32: 4, 64: 5, **dict.fromkeys(range(1, 8), 1)}
    for battle in observed(13):
        of, state = BattleArray(1, battle).fields[0], battle.state
        names = "turn", "limit", "last_damage", "rules", "outcome", "index"
        assert [int(of[name]) for name in names] == [int(getattr(state, name)) for name in names]
        assert (tuple(of["requests"]), tuple(of["numbers"])) == (state.requests, state.numbers)
        for side, shown in zip(of["sides"], (state.one, state.two)):
            for at, it in enumerate(shown.members):
                member = side["members"][at]
                names = "species", "level", "hp", "max_hp"
                assert [int(member[name]) for name in names] == [int(getattr(it, name)) for name in names]
                assert (asleep[int(member["status"])], bool(member["mark"]), tuple(member["stats"])) == (
                    it.status,
                    it.marked,
                    it.stats,
                )
                slots = member["moves"] > 0
                assert (tuple(member["moves"][slots]), tuple(member["pp"][slots])) == (it.moves, it.pp)
            active, out = side["active"], shown.active
            for name in ("types", "stats"):
                assert tuple(active[name]) == getattr(out, name)
            assert tuple(active["stages"].astype(int) - 6) == out.stages
            for name in (
                "place",
                "conditions",
                "substitute",
                "confusion",
                "disabled_slot",
                "disabled_turns",
                "bad_poison",
                "turns",
                "energy",
                "current_move",
                "picked_move",
                "kept_accuracy",
            ):
                assert int(active[name]) == int(getattr(out, name)), name


def test_it_is_quick(battle):
    """Much faster than a loop of single updates. The speed in the README was measured on a less busy machine."""
    array, dice = BattleArray(4096, battle), np.random.default_rng(12)
    spent = steps = 0
    for _ in range(40):
        masks = array.masks()
        first = np.take(CHOICES, bits(masks).argmax(2))
        begun = time.process_time()
        array.step(first[0], first[1])
        spent, steps = spent + time.process_time() - begun, steps + int((array.codes == 0).sum())
        array.reset(array.over, dice.integers(0, 256, (4096, 10), np.uint8))
    assert steps / spent > 300_000


@pytest.mark.parametrize("threads", (1, 3))
def test_outcomes_of_many(threads):
    """They are those of each battle alone, and a refused pair has none."""
    battles = random_battles(40, 21) * 15
    array, dice = BattleArray.of(battles, threads=threads), np.random.default_rng(22)
    for _ in range(3):
        array.random_step(dice)
    ones, twos = array.copy().random_step(dice)
    ones[::7], twos[3::7] = 255, 255
    before = array.copy()
    found = array.outcomes_many(ones, twos, damage_classes=2)
    assert array == before and len(found) == len(array) and repr(found).startswith("<OutcomeArray of 600, ")
    for at, (battle, one, two, each) in enumerate(zip(array, ones, twos, found)):
        first, past = found.offsets[at : at + 2]
        if battle.result.is_over or 255 in (one, two):
            over = (
                Refusal.OVER
                if battle.result.is_over
                else Refusal.NOT_OFFERED_ONE
                if one == 255
                else Refusal.NOT_OFFERED_TWO
            )
            assert (found.codes[at], len(each), first, found.wholes[at]) == (over, 0, past, 0)
            continue
        alone = battle.outcomes(int(one), int(two), damage_classes=2)
        assert (found.codes[at], each.battles, each.weights, each.whole) == (
            0,
            alone.battles,
            alone.weights,
            alone.whole,
        )
        assert found.weights[first:past] == alone.weights and found.wholes[at] == alone.whole
        assert np.array_equal(found.states[first:past], alone.states)
        assert np.allclose(found.probabilities[first:past], alone.probabilities, rtol=1e-14, atol=0)
    with pytest.raises(IndexError):
        found[600]


def test_what_is_left_out_of_many_outcomes():
    """Thunder Wave misses with 1 of 256 bytes, and a refused pair has nothing to leave out."""
    battle = Battle([Member("Tauros", ["Thunder Wave"])], [Member("Slowbro", ["Amnesia"])], bytes(10))
    battle.update_silent(0, 0)
    array = BattleArray.of([battle, battle, battle])
    found = array.outcomes_many([0x11, 0xFF, 0x11], [0x11] * 3, least_probability=0.01)
    assert found.offsets.tolist() == [0, 2, 2, 4] and found.left_out_probabilities.tolist() == [1 / 256, 0.0, 1 / 256]
    alone = battle.outcomes(0x11, 0x11, least_probability=0.01)
    assert (found[2].weights, found[2].left_out, found.left_out) == (
        alone.weights,
        alone.left_out,
        [alone.left_out, 0, alone.left_out],
    )
    assert found.probabilities.sum() == pytest.approx(2 * 255 / 256)


def test_many_outcomes_of_one_battle():
    """More outcomes than there is space for at first."""
    several = Battle([Member("Cloyster", ["Spike Cannon"])], [Member("Fearow", ["Fury Attack"])], bytes(10))
    several.update_silent(0, 0)
    array = BattleArray.of([several, several])
    found, alone = array.outcomes_many([0x11, 0x11], [0x11, 0x11]), several.outcomes(0x11, 0x11)
    assert len(alone) > 256 and found.offsets.tolist() == [0, len(alone), 2 * len(alone)]
    assert found[1].weights == alone.weights and np.array_equal(found[0].states, alone.states)


def test_bad_choices_of_many_outcomes(battle):
    array = BattleArray(3, battle)
    with pytest.raises(BadArgument, match="ones must be"):
        array.outcomes_many([0, 0], [0, 0, 0])
    with pytest.raises(BadArgument, match=r"twos\[1\] must be 0 to 255"):
        array.outcomes_many([0, 0, 0], [0, 256, 0])
    with pytest.raises(BadType, match="ones must be whole numbers"):
        array.outcomes_many([0.5, 0, 0], [0, 0, 0])
    with pytest.raises(BadArgument, match="damage_classes must be 0 to 39"):
        array.outcomes_many([0, 0, 0], [0, 0, 0], damage_classes=40)
    with pytest.raises(BadArgument, match="least_probability must be 0 to 1"):
        array.outcomes_many([0, 0, 0], [0, 0, 0], least_probability=1.5)
