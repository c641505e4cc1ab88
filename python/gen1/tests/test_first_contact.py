"""What a new user tries first: help, names as people write them, members with few keys, and lists that do not end."""

import inspect
import itertools
import pydoc
import random
import subprocess
import sys
from functools import cached_property
from types import FunctionType

import gen1
import pytest
from conftest import random_member
from gen1 import BadArgument, BadTeam, Battle, Choice, Member, Move, Species, Team

POUND = ["Pound"]


@pytest.mark.parametrize("before", ["", "import sys; sys.modules['numpy'] = None; "])
def test_help(before):
    """`help(gen1)` works, with numpy and without it. No class of names lists what int has."""
    script = f"{before}import gen1; help(gen1)"
    done = subprocess.run(
        [sys.executable, "-c", script], capture_output=True, text=True, stdin=subprocess.DEVNULL, check=True
    )
    assert done.stderr == "" and "Help on package gen1" in done.stdout
    told = done.stdout.splitlines()
    assert "conjugate" not in done.stdout and done.stdout.count("'Hyper Beam'") == 0 and len(told) < 9000
    start = told.index("PACKAGE CONTENTS")
    assert all(len(it) <= 80 for it in told[:start])
    for name in ("Member", "Battle", "State", "Room", "Player", "BattleArray", "BattleEnv", "Error"):
        assert any(name in it for it in told[:start])


def test_docstrings_fit_a_terminal():
    """`help` shows each line of them within 80 columns: it indents those of a class or a function by 8, and those of a method by 12."""
    pytest.importorskip("numpy")
    for name, it in ((name, getattr(gen1, name)) for name in gen1.__all__):
        docs = [(72, it)] if isinstance(it, type) or callable(it) else []
        if isinstance(it, type) and it.__module__.startswith("gen1."):
            methods = [value for key, value in vars(it).items() if not key.startswith("_") or key == "__init__"]
            docs += [
                (68, value)
                for value in methods
                if isinstance(value, (FunctionType, property, classmethod, cached_property))
            ]
        for most, value in docs:
            told = inspect.getdoc(value) or ""
            assert all(len(line) <= most for line in told.splitlines()), (name, told)


def test_help_of_the_classes_of_names():
    """The members, and nothing of int."""
    for kind in (Species, Choice, gen1.Rules, gen1.Conditions):
        assert not {"bit_length", "real", "conjugate"} & set(dir(kind)) and set(kind.__members__) <= set(dir(kind))
        assert len(dir(kind)) == len(set(dir(kind))) and "bit_length" not in pydoc.render_doc(kind)
    assert "MOVE_0" in Choice.__doc__ and "recharge" in Choice.__doc__


@pytest.mark.parametrize(
    "name, species",
    [
        ("Nidoran♀", 29),
        ("Nidoran♂", 32),
        ("Nidoran-F", 29),
        ("nidoran m", 32),
        ("Farfetch'd", 83),
        ("Farfetch\u2019d", 83),
        ("farfetchd", 83),
        ("tauros", 128),
        ("TAUROS", 128),
        ("Mr. Mime", 122),
        ("mr mime", 122),
    ],
)
def test_names_of_species(name, species):
    """As in a text of a team (docs/TEAM_TEXT.md, "Names"): letters and digits count, and their case does not."""
    assert gen1.base(name) == gen1.base(species)
    assert Member(name, POUND).species == species == Team.from_text(f"{name}\n- Pound\n")[0].species
    assert Member.from_dict({"species": name, "moves": POUND}).species == species


@pytest.mark.parametrize(
    "name, move",
    [
        ("body slam", 34),
        ("BodySlam", 34),
        ("soft boiled", 135),
        ("Vise Grip", 11),
        ("hi jump kick", 136),
        ("double-edge", 38),
    ],
)
def test_names_of_moves(battle, name, move):
    assert Member("Mew", [name]).moves == (move,) and gen1.move_data(name) == gen1.move_data(move)
    if move == 34:
        assert battle.damage(1, name) == battle.damage(1, Move.BODY_SLAM) and battle.odds(1, name).usual


@pytest.mark.parametrize(
    "name, meant",
    [
        ("Taurus", "Tauros"),
        ("PIKACHUU", "Pikachu"),
        ("nidoran", "Nidoran-F"),
        ("charzard", "Charizard"),
        ("Missingno", None),
        ("", None),
        ("é" * 99, None),
    ],
)
def test_names_that_are_nearly_right(name, meant):
    """The suggestions of the Rust crate: the first name that differs in the fewest letters, of at most a third."""
    with pytest.raises(BadTeam) as fault:
        Member(name, POUND)
    text = str(fault.value)
    assert text.startswith("species: there is no ")
    assert text.endswith(f"; did you mean {meant!r}?" if meant else "'" if len(name) < 50 else "...")


def test_dicts_with_few_keys():
    """The same as `Member` with the same arguments."""
    given = {"species": "Tauros", "moves": ["Body Slam", ["Hyper Beam", 0], (63 + 26, 1)]}
    wanted = Member("Tauros", ["Body Slam", "Hyper Beam", "Earthquake"], pp_ups=[3, 0, 1])
    assert Member.from_dict(given) == wanted == Team([given])[0]
    assert Member.from_dict(given | {"level": 50}) == Member("Tauros", wanted.moves, 50, pp_ups=[3, 0, 1])
    assert Battle([given], [given], range(10)) == Battle([wanted], [wanted], range(10))


@pytest.mark.parametrize(
    "key, said",
    [
        ("levl", "did you mean 'level'?"),
        ("DVs", "did you mean 'dvs'?"),
        ("lvl", "a member has species, "),
        (5, "a member has"),
    ],
)
def test_keys_that_are_wrong(key, said):
    """A key that would be ignored is refused: a member with `lvl` would have level 100."""
    with pytest.raises(BadTeam) as fault:
        Team([{"species": "Tauros", "moves": POUND, key: 50}])
    assert (
        fault.value.member == 1
        and str(fault.value).startswith(f"member 1: unknown key {key!r}; ")
        and said in str(fault.value)
    )


def test_a_member_shows_itself_in_short():
    assert repr(Member(128, [34])) == "Member('Tauros', ['Body Slam'])"
    assert repr(Member("Tauros", POUND, 50, pp_ups=[1])) == "Member('Tauros', ['Pound'], level=50, pp_ups=(1,))"
    dice = random.Random(3)
    for member in [random_member(dice) for _ in range(100)]:
        assert eval(repr(member), {"Member": Member}) == member


class Counted:
    """An iterable without an end, which counts how many items were taken."""

    def __init__(self, item):
        self.item, self.taken = item, 0

    def __iter__(self):
        while True:
            self.taken += 1
            yield self.item


class Long:
    """A list that says that it is very long."""

    def __init__(self, length):
        self.length = length

    def __len__(self):
        return self.length

    def __iter__(self):
        return itertools.repeat(0)


def test_lists_without_an_end(battle, team):
    """They are refused as soon as there is one item too many."""
    member = team[0]
    calls = (
        (10, 3, lambda it: Battle(team, team, it)),
        (10, 3, lambda it: battle.reseed(it)),
        (6, member, Team),
        (6, member, lambda it: Battle(team, it, range(10))),
        (4, "Pound", lambda it: Member("Tauros", it)),
        (4, 15, lambda it: Member("Tauros", POUND, dvs=it)),
        (5, 15, lambda it: Member("Tauros", POUND, exp=it)),
        (1, 3, lambda it: Member("Tauros", POUND, pp_ups=it)),
        (4, "Pound", lambda it: Member.from_dict({"species": "Tauros", "moves": it})),
        (12, 17, lambda it: gen1.Player(1, team).show(battle.own_side(1), it)),
        (10, 3, lambda it: battle.with_state(numbers=it)),
        (6, battle.state.one.members[0], lambda it: Battle.from_state(battle.state._with_side(1, members=it))),
    )
    for most, item, call in calls:
        given = Counted(item)
        with pytest.raises(BadArgument) as fault:
            call(given)
        assert given.taken == most + 1 and ("more than" in str(fault.value) or "at most" in str(fault.value))
    with pytest.raises(BadArgument, match="^seed must be 10 bytes, not 1000000000000$"):
        Battle(team, team, Long(10**12))


def test_arrays_to_read_stay_so(battle):
    """They show the battles, and cannot be made writable."""
    pytest.importorskip("numpy")
    array = gen1.BattleArray(3, battle)
    array.step([17, 18, 17], [17, 17, 18])
    for it in (array.bytes, array.fields, array.fields["sides"]["members"]["hp"], array.results, array.codes):
        with pytest.raises(ValueError):
            it.flags.writeable = True
        with pytest.raises(ValueError):
            it[0] = it[1]
    assert [bytes(it) for it in array.bytes] == [it.bytes for it in array]


def test_messages_say_each_thing_once(team):
    """The field, what it must be, and what it is."""
    for call, said in (
        (lambda: Member("Tauros", POUND, level=101), "level must be 1 to 100, not 101"),
        (lambda: Member("Tauros", POUND, dvs=[16, 0, 0, 0]), "dvs must be 0 to 15 each, not [16, 0, 0, 0]"),
        (lambda: Member("Tauros", []), "moves must be one to four, not []"),
        (lambda: Member("Tauros", ["Pound", "pound"]), "moves must be different, not [Pound, Pound]"),
        (
            lambda: Member("Tauros", ["Mimic"]),
            "moves must be without Mimic, Metronome, Mirror Move and Transform, not [Mimic]",
        ),
        (lambda: Team([]), "a team has 1 to 6 members, not 0"),
        (lambda: Battle(team, [], range(10)), "side 2: a team has 1 to 6 members, not 0"),
    ):
        with pytest.raises(BadTeam) as fault:
            call()
        assert str(fault.value) == said


def test_move_0_is_explained():
    """A member that must recharge has no slot to choose, and the refusal says so."""
    slow, fast = Member("Snorlax", ["Splash"]), Member("Tauros", ["Hyper Beam"])
    for seed in range(50):
        battle = Battle([fast], [slow], [seed] * 10)
        battle.update(0, 0)
        battle.update(Choice.MOVE_1, Choice.MOVE_1)
        if battle.choices(1) == (Choice.MOVE_0,):
            break
    with pytest.raises(gen1.Refused) as fault:
        battle.update(Choice.MOVE_1, Choice.MOVE_1)
    assert str(fault.value) == "side 1's choice is not offered: move 1; it can choose move 0 (no slot can be chosen)"
