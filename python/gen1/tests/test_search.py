"""gen1.search: results that are known without it, what it may not know, and bad arguments."""

import os
import random
import subprocess
import sys

import pytest
from gen1 import BadArgument, BadTeam, BadType, Battle, Choice, Member, Move, Player, Team, Teller, sample_teams
from gen1 import search
from gen1.errors import LibraryMissing
from gen1.search import SearchFailed


def is_there():
    try:
        search.level_nodes(1)
    except LibraryMissing:
        return False
    return True


there = pytest.mark.skipif(not is_there(), reason="libgen1_extras.so is missing: no cargo")
SAMPLES = [list(it.members) for it in sample_teams().values()]


def duel(one, two):
    """A battle that has begun, and its player of side 1."""
    battle, teller, player = Battle(one, two, seed=range(10)), Teller(1), Player(1, one, foes=len(two))
    teller.report(battle, battle.update(Choice.PASS, Choice.PASS).log, player)
    return battle, player


@pytest.fixture
def gengar():
    """A player of one member, which Explosion would lose."""
    two = [Member("Starmie", ["Surf"]), Member("Snorlax", ["Rest"])]
    return duel([Member("Gengar", ["Explosion", "Thunderbolt"])], two)[1]


@there
def test_a_choice_that_loses_is_not_made(gengar):
    thought = search.think(gengar, level=2)
    assert thought.choices[0].words == "Thunderbolt" and thought.best is Choice.MOVE_2
    assert thought.nodes == search.level_nodes(2) == 600
    assert sum(it.probability for it in thought.choices) == pytest.approx(1)
    assert thought.choices[0].line[0][0] == "Thunderbolt"


@there
def test_the_same_seed_gives_the_same_thought(gengar):
    thoughts = [search.think(gengar, nodes=600, seed=7, threads=threads) for threads in (1, 3, 1)]
    assert thoughts[0] == thoughts[1] == thoughts[2] != search.think(gengar, nodes=600, seed=8)
    assert search.think(gengar, nodes=10**9, seconds=0.05).nodes < 10**9


@there
def test_teams_are_a_prior(gengar):
    harmless = [[Member("Starmie", ["Harden"]), Member("Magikarp", ["Splash"], level=5)]]
    deadly = [[Member("Starmie", ["Surf", "Psychic", "Blizzard"]), Member("Tauros", ["Earthquake"])]]
    kept, lost = (search.think(gengar, level=2, teams=teams).value for teams in (harmless, deadly))
    assert kept > lost + 0.2
    assert search.think(gengar, level=1, teams=harmless + deadly, weights=[1, 3]).nodes == 200


def pairs_of_battles(dice):
    """Two battles that differ only in what side 2 does not show: its last three members, and the last move of each of the others."""
    own, foe, other = (dice.choice(SAMPLES) for _ in range(3))
    shown = [Member(it.species, [*it.moves[:3], Move.SPLASH]) for it in foe[:3]]
    return own, [Team(foe), Team([*shown, *other[3:]])]


def shown_choices(battle):
    """The choices of side 2 that show nothing else."""
    hidden = (Choice.MOVE_4, Choice.SWITCH_4, Choice.SWITCH_5, Choice.SWITCH_6)
    return [it for it in battle.choices(2) if it not in hidden]


@there
def test_nothing_that_a_player_does_not_know_matters():
    """Two battles whose players know the same give the same thoughts, at 200 positions."""
    dice, positions = random.Random(5), 0
    while positions < 200:
        own, foes = pairs_of_battles(dice)
        battles = [Battle(own, foe, seed=range(10)) for foe in foes]
        tellers, players = [Teller(1) for _ in foes], [Player(1, own, foes=len(foe)) for foe in foes]
        chosen = (Choice.PASS, Choice.PASS)
        for _ in range(20):
            for battle, teller, player in zip(battles, tellers, players):
                teller.report(battle, battle.update(*chosen).log, player)
            theirs = shown_choices(battles[0])
            if battles[0].result.is_over or not theirs:
                break
            assert players[0] == players[1] and battles[0].bytes != battles[1].bytes
            thoughts = [search.think(it, nodes=60, seed=positions, trees=2, guesses=4) for it in players]
            assert thoughts[0] == thoughts[1]
            positions += 1
            chosen = (dice.choice(battles[0].choices(1)), dice.choice(theirs))


@there
def test_last_hits_that_may_miss():
    """Each hits with 255 of 256 bytes and then wins: v = 1 / (1 + 1/256)."""
    battle, _ = duel([Member("Starmie", ["Surf"])], [Member("Snorlax", ["Body Slam"])])
    battle = battle.with_hp(1, 1, 1).with_hp(2, 1, 1)
    solved = search.solve(battle, endless=True)
    assert solved.stopped == "solved" and solved.low <= 256 / 257 <= solved.high < solved.low + 1e-5
    assert [it.words for it in solved.plays[0]] == ["Surf"] and solved.plays[1][0].probability == pytest.approx(1)
    hurried = search.solve(battle, tolerance=0.0, sweeps=1)
    assert hurried.stopped == "sweeps" and hurried.low <= 256 / 257 <= hurried.high


@there
def test_bad_arguments(gengar, battle):
    for wrong in (0, 6, 2.5, "3", True, None):
        with pytest.raises((BadArgument, BadType)):
            search.think(gengar, level=wrong)
    for name in ("nodes", "trees", "guesses", "threads"):
        with pytest.raises(BadArgument, match=name):
            search.think(gengar, **{name: 0})
    for name, wrong in (("seed", -1), ("seconds", 0.0)):
        with pytest.raises(BadArgument, match=name):
            search.think(gengar, **{name: wrong})
    with pytest.raises(BadType, match="player must be a Player"):
        search.think(battle)
    with pytest.raises(BadArgument, match="teams"):
        search.think(gengar, teams=[])
    with pytest.raises(BadArgument, match="weights"):
        search.think(gengar, teams=SAMPLES[:2], weights=[1])
    with pytest.raises(BadArgument, match=r"weights\[1\] must be a number above 0"):
        search.think(gengar, teams=SAMPLES[:2], weights=[1, 0])
    with pytest.raises(BadTeam):
        search.think(gengar, teams=[[Member("Tauros", ["Mimic"])]])
    with pytest.raises(SearchFailed, match="no choice"):
        search.think(Player(1, SAMPLES[0]))
    with pytest.raises(BadType, match="battle must be a Battle"):
        search.solve(gengar)
    for name, wrong in (("tolerance", 2.0), ("classes", 40), ("least", -0.1), ("memory", 0), ("sweeps", 0)):
        with pytest.raises(BadArgument, match=name):
            search.solve(battle, **{name: wrong})


def test_a_missing_library_is_named(tmp_path):
    """The error says how to build it."""
    words = "from gen1 import search; search.level_nodes(1)"
    env = {**os.environ, "GEN1_EXTRAS_LIBRARY": str(tmp_path / "none.so")}
    done = subprocess.run([sys.executable, "-c", words], env=env, capture_output=True, text=True)
    assert "LibraryMissing" in done.stderr and "tools/python_wheel" in done.stderr, done.stderr


@there
def test_a_league_has_the_table_of_its_lines():
    lines = [search.league_battle("greedy", "random", number, seed=3) for number in range(6)]
    assert lines[4] == search.league_battle("greedy", "random", 4, seed=3)
    assert [line.rpartition("\t")[0] for line in lines] == [f"samples:3\tgreedy\trandom\t{it}" for it in range(6)]
    won = sum(float(line.rpartition("\t")[2]) for line in lines) / 6
    table = search.league_table(["greedy", "random"], reversed(lines), seed=3)
    assert (
        f"| `greedy` | `random` | 6 | {won:.1%} | ".replace("%", " %") in table and "| `greedy` | 0 | 0 to 0 |" in table
    )
    assert " 6 |" not in search.league_table(["greedy", "random"], lines, seed=4)
    assert search.league_battle("greedy", "random", 0, teams="drawn").startswith("drawn:1\t")


@there
def test_a_wrong_name_or_line_of_a_league():
    with pytest.raises(SearchFailed, match="level:6: a bot is random, greedy, "):
        search.league_battle("level:6", "random", 0)
    with pytest.raises(SearchFailed, match="line 1 is not a result"):
        search.league_table(["greedy", "random"], ["samples:1\tgreedy"])
    for words, fault in (
        ({"teams": "mine"}, BadArgument),
        ({"seed": 1 << 31}, BadArgument),
        ({"number": -1}, BadArgument),
        ({"one": 7}, BadType),
        ({"one": "greedy\n"}, BadType),
    ):
        with pytest.raises(fault):
            search.league_battle(**{"one": "greedy", "two": "random", "number": 0} | words)
