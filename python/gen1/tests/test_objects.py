"""Objects: how they are compared, hashed, copied, pickled and shown, and their attributes. Events and states that are read when they are used
have the same values as when all are read at once, at any time, in any order."""

import array
import copy
import ctypes
import dataclasses
import os
import pickle
import random
import shutil
import subprocess
import sys
from collections.abc import Iterable
from functools import cached_property

import gen1
import pytest
from conftest import ROOT, random_team
from gen1 import (
    BadArgument,
    BadLog,
    BadType,
    Battle,
    Choice,
    EventKind,
    Member,
    Move,
    Outcome,
    Request,
    Result,
    Rules,
    Side,
    Species,
    State,
    Team,
    Update,
)
from gen1._library import _build as build_of
from gen1.names import LogFault


def test_choices_and_their_bytes():
    assert [int(it) for it in Choice] == [0, 16, 17, 18, 19, 20, 33, 34, 35, 36, 37, 38]
    for slot in range(5):
        assert Choice.move(slot) == 0x10 + slot and Choice.move(slot).is_move and not Choice.move(slot).is_switch
        assert Choice.move(slot).slot == slot
    for place in range(1, 7):
        assert (
            Choice.switch(place) == 0x20 + place
            and Choice.switch(place).is_switch
            and Choice.switch(place).slot == place
        )
    assert not Choice.PASS.is_move and not Choice.PASS.is_switch and Choice.PASS.slot == 0
    assert str(Choice.MOVE_2) == "move 2"


def test_formats_of_names():
    """A formatted name is the label, or the number if the format is that of a number, in every version of Python."""
    move, side = Move.BODY_SLAM, Side.ONE
    assert (f"{move}", f"{move:>10}", f"{move:s}", f"{move!s}") == ("Body Slam", " Body Slam", "Body Slam", "Body Slam")
    assert (f"{move:d}", f"{move:03d}", f"{move:#04x}", f"{side:b}", "%d" % move) == ("34", "034", "0x22", "1", "34")


def test_sides():
    assert Side.ONE.foe is Side.TWO and Side.TWO.foe is Side.ONE


def test_enums_are_pickled_and_kept():
    for kind in (Species, Move, Choice, Outcome, Request, EventKind, Side):
        for it in kind:
            assert pickle.loads(pickle.dumps(it)) is it and kind(int(it)) is it and it.label


def test_the_first_update(team):
    battle = Battle.new(team, team, bytes(10), Rules.SLEEP_CLAUSE | Rules.FREEZE_CLAUSE, 500)
    assert battle.result == Result(Outcome.ONGOING, (Request.NOTHING, Request.NOTHING)) and not battle.result.is_over
    assert battle.choices(Side.ONE) == battle.choices(2) == (Choice.PASS,)
    update = battle.update(Choice.PASS, Choice.PASS)
    assert isinstance(update, Update) and update.result.requests == (Request.MOVE, Request.MOVE)
    assert [type(it).__name__ for it in update.events] == ["SwitchEvent", "SwitchEvent", "TurnEvent"]
    assert update.lines == gen1.lines(update.log) and update.events == gen1.events(update.log)
    assert update.events[0].health.hp == update.events[0].health.max_hp == 353
    assert (battle.bytes[19], battle.bytes[20] + 256 * battle.bytes[21]) == (3, 500)
    assert (battle.state.rules, battle.state.limit) == (3, 500)


def test_battles_as_keys(battle):
    same, other = battle.copy(), battle.copy()
    other.update(17, 17)
    assert {battle, same, other} == {battle, other} and battle != "a battle" and battle != battle.bytes
    assert {battle: 1}[same] == 1


def test_a_battle_shows_itself(battle):
    assert repr(battle) == "<Battle, ongoing, asked move and move>"


class Noted(Battle):
    """A battle of a caller's own class."""


def test_a_copy_is_of_the_same_class(team):
    one = Noted(team, team, range(10))
    for it in (one.copy(), copy.copy(one), copy.deepcopy(one), pickle.loads(pickle.dumps(one)), Noted.load(one.bytes)):
        assert type(it) is Noted and it == one and it is not one


def test_bytes_out_of_whatever_holds_them(battle):
    held = battle.bytes
    for it in (bytearray(held), memoryview(held), array.array("B", held), (ctypes.c_uint8 * 384)(*held)):
        assert Battle.load(it) == battle
    assert gen1.lines(array.array("B", [0x1A, 1])) == gen1.lines(b"\x1a\x01")
    with pytest.raises(gen1.BadType) as fault:
        Battle.load(array.array("H", held))
    assert "items of 2 bytes" in str(fault.value)


def test_members_and_teams(tauros, team):
    assert Member("Tauros", ["Pound"]) == Member(Species.TAUROS, [Move.POUND]) == Member(128, [1], 100)
    assert tauros.pp_ups == (3, 3, 3, 3) and dataclasses.replace(tauros, level=50).level == 50
    with pytest.raises(gen1.BadTeam):
        dataclasses.replace(tauros, level=101)
    assert len(team) == 2 and team[1].species is Species.GENGAR and hash(Team(team.members)) == hash(team)
    assert pickle.loads(pickle.dumps(team)) == team and pickle.loads(pickle.dumps(tauros)) == tauros
    assert [it.species.label for it in team] == ["Tauros", "Gengar"]


def test_a_team_is_a_sequence_of_members(team):
    assert isinstance(team, Iterable) and Team(team) == team == Team(list(team)) and tuple(team) == team.members
    assert team[-1] is team[1] and team[:1] == team.members[:1] and team[5:] == () and team[0] in team
    for at in (2, -3, 10**5000):
        with pytest.raises(IndexError) as fault:
            team[at]
        assert isinstance(fault.value, gen1.BadArgument) and str(fault.value).startswith("place must be -2 to 1, not ")
    with pytest.raises(gen1.BadType):
        team["Tauros"]
    shorter = dataclasses.replace(team, members=team[:1])
    assert shorter == Team(team[:1]) and Battle(shorter, shorter, range(10))


def test_random_teams_to_dicts_and_back():
    dice = random.Random(1)
    for _ in range(300):
        team = random_team(dice)
        assert Team.from_dicts(team.to_dicts()) == team == eval(repr(team), vars(gen1) | vars(gen1.names))


def without_numpy(script):
    """The output of a script in a Python without numpy."""
    words = [sys.executable, "-c", f"import sys; sys.modules['numpy'] = None\n{script}"]
    return subprocess.run(words, capture_output=True, text=True, check=True).stdout


def test_without_numpy():
    """Everything can be imported; classes that need numpy say so when they are used, and everything else works."""
    told = without_numpy(
        "import gen1\n"
        "from gen1 import *\n"
        "print([hasattr(gen1, name) for name in gen1.__all__].count(False), hasattr(gen1, 'BatleArray'), 'BattleEnv' in dir(gen1))\n"
        "tauros = Member('Tauros', ['Pound'])\n"
        "battle = Battle([tauros], [tauros], range(10))\n"
        "class Mine(BattleEnv): pass\n"
        "others = Encoding, PlayerArray, VectorEnv, TwoPlayerVectorEnv\n"
        "for call in (lambda: BattleArray(5, battle), lambda: BattleArray.of([battle]), BattleEnv, TwoPlayerEnv, Mine, *others):\n"
        "    try:\n"
        "        call()\n"
        "    except ImportError as fault:\n"
        "        print(isinstance(fault, Error), fault.name, fault)\n"
    ).splitlines()
    names = (
        "BattleArray",
        "BattleArray",
        "BattleEnv",
        "TwoPlayerEnv",
        "Mine",
        "Encoding",
        "PlayerArray",
        "VectorEnv",
        "TwoPlayerVectorEnv",
    )
    assert told[0] == "0 False True" and len(told) == 1 + len(names)
    for name, line in zip(names, told[1:]):
        assert line == f"True numpy {name} needs numpy: install numpy, or gen1 with its extra arrays: gen1[arrays]"


def test_the_classes_of_events_are_exported():
    from gen1 import _events
    from gen1.events import DamageEvent  # the name of the module in 1.0.0

    assert gen1.DamageEvent is DamageEvent and callable(gen1.events)
    kinds = {it for it in vars(_events).values() if isinstance(it, type) and it.__module__ == "gen1._events"}
    assert len(kinds) == 32 and all(getattr(gen1, it.__name__) is it and it.__name__ in gen1.__all__ for it in kinds)


def test_the_version_of_the_library(tmp_path):
    """It is that of the repository; a library of another major version, or without a version, is refused."""
    assert gen1.library_version == (ROOT / "VERSION").read_text().strip()
    if not shutil.which("cc"):
        pytest.skip("there is no cc")
    for number, said in (
        (0x020000, "has version 2.0.0, but this package needs version 1"),
        (None, "has no gen1_version"),
    ):
        library = tmp_path / f"{number}.so"
        source = "int other;" if number is None else f"unsigned gen1_version(void) {{ return {number}; }}"
        subprocess.run(["cc", "-shared", "-fPIC", "-x", "c", "-", "-o", library], input=source, text=True, check=True)
        done = subprocess.run(
            [sys.executable, "-c", "import gen1"],
            capture_output=True,
            text=True,
            env={**os.environ, "GEN1_LIBRARY": library},
        )
        assert done.returncode == 1 and "LibraryMissing" in done.stderr and said in done.stderr


def test_the_build_of_the_library(tmp_path):
    """The library itself says what it was built from; one without gen1_build is unknown."""
    assert gen1.library_build.partition(",")[0] in ("proved", "plain", "unknown")
    if not shutil.which("cc"):
        pytest.skip("there is no cc")
    sources = {"unknown": "int other;", "proved, logic 1": 'const char *gen1_build(void) { return "proved, logic 1"; }'}
    for number, (wanted, source) in enumerate(sources.items()):
        library = tmp_path / f"{number}.so"
        subprocess.run(["cc", "-shared", "-fPIC", "-x", "c", "-", "-o", library], input=source, text=True, check=True)
        assert build_of(ctypes.CDLL(str(library))) == wanted


def test_everything_that_is_exported_is_there():
    for name in gen1.__all__:
        assert getattr(gen1, name).__doc__, name


def test_all_that_is_public_says_what_it_is():
    """Each class, and each method and property of it, has a docstring."""
    for kind in (it for it in vars(gen1).values() if isinstance(it, type) and it.__module__.startswith("gen1.")):
        for name, it in vars(kind).items():
            told = it.__func__ if isinstance(it, classmethod) else it
            if not name.startswith("_") and (callable(told) or isinstance(told, (property, cached_property))):
                assert told.__doc__, f"{kind.__name__}.{name}"


def test_reseed_changes_the_numbers_and_nothing_else(battle, team):
    """The bytes of docs/LAYOUT.md, "Header": the index and the ten numbers."""
    other = battle.copy()
    other.reseed(range(20, 30), 3)
    assert other.bytes[5:16] == bytes([3, *range(20, 30)])
    assert other.bytes[:5] + other.bytes[16:] == battle.bytes[:5] + battle.bytes[16:]
    assert Battle.load(other.bytes) == other and (battle.place(1), battle.place(2)) == (1, 1)
    one, two = Battle(team, team, range(10)), Battle(team, team, bytes(10))
    two.reseed(range(10))
    assert one == two and one.place(Side.ONE) == 0


TAUROS = Member("Tauros", ["Pound"])


def test_seeds():
    """A number as a seed determines ten, by the generator of playouts (include/gen1.h, "many battles"); None takes fresh ones."""
    for number in (0, 7, (1 << 53) - 1, (1 << 64) - 1):
        state, drawn = number, []
        for _ in range(10):
            state = (state * 6364136223846793005 + 1442695040888963407) % (1 << 64)
            drawn.append(state >> 32 & 255)
        assert Battle([TAUROS], [TAUROS], number) == Battle([TAUROS], [TAUROS], drawn)
    assert Battle([TAUROS], [TAUROS]) != Battle([TAUROS], [TAUROS]) != Battle([TAUROS], [TAUROS], None)
    for wrong in (-1, 1 << 64):
        with pytest.raises(BadArgument, match="seed must be 0 to 18,446,744,073,709,551,615, not "):
            Battle([TAUROS], [TAUROS], wrong)
    for value in (1.5, True, "1234567890", object(), Move.POUND):
        with pytest.raises(BadType):
            Battle([TAUROS], [TAUROS], value)


def battles(count=3):
    """Random battles, with the log of each update."""
    dice = random.Random(5)
    for _ in range(count):
        battle = Battle(random_team(dice), random_team(dice), dice.randbytes(10), limit=30)
        while not battle.result.is_over:
            yield battle, battle.update(*(dice.choice(battle.choices(side)) for side in (1, 2)))


def test_choices_in_words(team):
    """A name is that of the only offered choice that has it. Numbers need not be offered."""
    team = [*team, Member("Starmie", ["Surf"]), Member("Starmie", ["Psychic"])]
    battle = Battle(team, team, seed=7)
    assert battle.choice_from_words(1, "pass") is Choice.PASS
    battle.update("pass", "pass")
    for words, choice in (
        ("Body Slam", Choice.MOVE_1),
        ("move body-slam", Choice.MOVE_1),
        ("move 2 HYPER BEAM", Choice.MOVE_2),
        ("move 0", Choice.MOVE_0),
        ("switch gengar", Choice.SWITCH_2),
        ("switch 3", Choice.SWITCH_3),
        ("Switch 4 Starmie", Choice.SWITCH_4),
    ):
        assert battle.choice_from_words(Side.TWO, words) is choice
    offered = (
        "side 1 can choose move 1 Body Slam, move 2 Hyper Beam, move 3 Earthquake, move 4 Blizzard, switch 2 Gengar"
    )
    before = battle.copy()
    for words, said in (
        (
            "Bodi Slam",
            "'Bodi Slam' is neither a choice, such as 'move 1' or 'switch 2', nor the name of one; "
            f"did you mean 'Body Slam'?; {offered}",
        ),
        ("Surf", f"'Surf' is not offered; {offered}"),
        ("move 2 Body Slam", f"'move 2 Body Slam' is not offered; {offered}"),
        ("switch Starmie", f"'switch Starmie' names two or more choices; {offered}"),
        ("", f"'' is neither a choice, such as 'move 1' or 'switch 2', nor the name of one; {offered}"),
    ):
        with pytest.raises(gen1.Refused if "is not offered" in said else gen1.BadArgument) as fault:
            battle.update(words, "pass")
        assert str(fault.value).startswith(said) and battle == before
    by_number = battle.copy()
    by_number.update(Choice.MOVE_1, Choice.SWITCH_2)
    assert battle.update_silent("Body Slam", "switch Gengar") and battle == by_number
    assert len(before.outcomes("Body Slam", "switch Gengar")) == len(before.outcomes(0x11, 0x22))
    with pytest.raises(gen1.BadType):
        battle.choice_from_words(1, b"pass")


def test_events_are_those_of_the_log():
    """They are read when they are first used, and then kept."""
    for _, update in battles():
        assert "events" not in vars(update)
        told = update.events
        assert type(told) is tuple and told is update.events and told == gen1.events(update.log)


def test_events_that_are_kept_are_those_that_the_library_reads():
    """A log is read from the events that came before where it can be, and from the library where it cannot: with the same result."""
    read = sys.modules["gen1._events"]
    for _, update in battles():
        told, lines = gen1.events(update.log), update.lines
        assert (told, lines) == (gen1.events(update.log), update.lines)
        read._event.cache_clear()
        read._line.cache_clear()
        assert (told, lines) == (gen1.events(update.log), update.lines)


def test_a_log_that_is_wrong_after_events_that_are_kept(battle):
    """The fault and its place are the same each time."""
    log = battle.update(Choice.MOVE_1, Choice.MOVE_1).log
    for wrong, code in (
        (b"\x00" + log, LogFault.TAG),
        (b"\x0d\x01\x80\x00" + log, LogFault.FIELD),
        (log[:3], LogFault.CUT),
    ):
        for read in (gen1.events, gen1.lines) * 2:
            with pytest.raises(BadLog) as found:
                read(log + wrong)
            assert (found.value.code, found.value.at) == (code, len(log))


def test_a_state_that_is_read_after_an_update(battle):
    """It is that of the time when it was asked for."""
    before, kept = battle.state, battle.copy()
    for _ in range(3):
        battle.update(battle.choices(1)[0], battle.choices(2)[0])
    assert battle.state.turn > 1 and before.turn == 1 and before == kept.state != battle.state
    assert before.one.members[0].hp == before.one.members[0].max_hp


def test_states_in_any_order_of_use():
    """Whichever field is used first, all have the same values; and copies are whole."""
    dice = random.Random(9)
    for battle, _ in battles(1):
        whole = dataclasses.asdict(battle.state)
        names = [it.name for it in dataclasses.fields(State)]
        state = battle.state
        assert {name: dataclasses.asdict(state)[name] for name in dice.sample(names, len(names))} == whole
        assert hash(battle.state) == hash(battle.state) and repr(battle.state) == repr(state)
        copies = (copy.copy, copy.deepcopy, dataclasses.replace, lambda it: pickle.loads(pickle.dumps(it)))
        for again in [copied(battle.state) for copied in copies]:
            assert type(again) is State and again == battle.state and "_held" not in vars(again)
        assert Battle.from_state(battle.state).state == battle.state or battle.result.is_over


def test_a_state_is_frozen(battle):
    state = battle.state
    for it, name in (
        (state, "turn"),
        (state.one, "members"),
        (state.one.active, "place"),
        (state.one.members[0], "hp"),
    ):
        with pytest.raises(dataclasses.FrozenInstanceError):
            setattr(it, name, 1)
        with pytest.raises(AttributeError, match="has no attribute 'hitpoints'"):
            it.hitpoints
        assert not hasattr(it, "_other") and not hasattr(it, "__array__")
    assert state == battle.state
    made = State(*(getattr(state, it.name) for it in dataclasses.fields(State)))
    assert made == state and not hasattr(made, "hitpoints")
