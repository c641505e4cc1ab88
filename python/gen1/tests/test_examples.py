"""The small programs of examples/python: the tables of their README, values that are known without them, and wrong arguments."""

import os
import random
import re
import runpy
import subprocess
import sys
from fractions import Fraction

import pytest
from conftest import ROOT
from gen1 import Battle, Choice, Member, Player, Side, Status, Teller, sample_teams

EXAMPLES = ROOT / "examples" / "python"


def run(name, *words, **more):
    return subprocess.run([sys.executable, EXAMPLES / name, *map(str, words)], capture_output=True, text=True, **more)


def loaded(name):
    """What a program defines."""
    return runpy.run_path(str(EXAMPLES / name / "__main__.py"))


@pytest.mark.parametrize("name", ["duel", "expectimax"])
def test_the_table(name):
    """The program prints what its README shows."""
    section = re.search(rf"(?ms)^### {name}:(.*?)(?=^##|\Z)", (EXAMPLES.parent / "README.md").read_text())[1]
    done = run(name)
    assert done.returncode == 0 and done.stdout == re.search(r"(?s)```text\n(.*?)```", section)[1]


@pytest.mark.parametrize(
    ("name", "words", "message"),
    [
        ("duel", ["--tolerance", "0"], "--tolerance must be above 0"),
        ("duel", ["--level", "0"], "level must be 1 to 100, not 0"),
        ("duel", ["--species", "Tauro"], "did you mean 'Tauros'?"),
        ("expectimax", ["--depth", "0"], "must be 1 or more"),
        ("monte_carlo", ["--battles", "0"], "must be 1 or more"),
        ("policy_gradient", ["--rounds", "0"], "error: "),
        ("policy_gradient", ["--battles", "x"], "error: "),
        ("policy_gradient", ["--tested", "0"], "error: "),
        ("policy_gradient", ["--seed", "-1"], "error: "),
    ],
)
def test_wrong_arguments(name, words, message):
    """An error names what is wrong, without a traceback."""
    wrong = run(name, *words)
    assert wrong.returncode != 0 and message in wrong.stderr and "Traceback" not in wrong.stderr


@pytest.fixture(scope="module")
def duel():
    return loaded("duel")


@pytest.fixture(scope="module")
def plays(duel):
    """How each position of the duel with two moves is played."""
    member = Member("Tauros", ["Body Slam", "Hyper Beam"], level=5)
    return duel["values"](*duel["games"](duel["start"](member)), 1e-12)


@pytest.mark.parametrize(
    ("table", "value", "one", "two"),
    [
        ([[1, 0], [0, 1]], 0.5, [0.5, 0.5], [0.5, 0.5]),
        ([[0.75, 0], [0.25, 0.5]], 0.375, [0.25, 0.75], [0.5, 0.5]),
        ([[0.5, 0.75], [0.25, 0]], 0.5, [1, 0], [1, 0]),
        ([[0.5, 0, 1], [1, 0.5, 0], [0, 1, 0.5]], 0.5, [1 / 3] * 3, [1 / 3] * 3),
        ([[0.25], [0.5]], 0.5, [0, 1], [1]),
    ],
)
def test_games_of_a_duel(duel, table, value, one, two):
    """Matching pennies, a mixed best play, a choice that is always better, rock, paper, scissors, and a side with one choice."""
    play = duel["solved"](table)
    assert play.value == pytest.approx(value)
    assert play.one == pytest.approx(one) and play.two == pytest.approx(two)


def test_symmetry_of_a_duel(plays):
    """If the sides swap their members, they swap how often they win."""
    for (one, two), play in plays.items():
        assert play.value == pytest.approx(1 - plays[two, one].value, abs=1e-9)


def test_the_last_hit_of_a_duel(duel, plays):
    """While the foe recharges, a hit wins: 255 of 256 bytes. After a miss both are as before."""
    fighter = duel["Fighter"]
    value = plays[fighter(1), fighter(1, recharges=True)].value
    assert value == pytest.approx(255 / 256 + 1 / 256 / 2, abs=1e-9)


def test_a_frozen_member_of_a_duel(duel):
    """Ice thaws only by fire, so the side that faces a frozen member wins."""
    member = Member("Jynx", ["Blizzard", "Pound"], level=2)
    tauros = Member("Tauros", ["Blizzard", "Body Slam"], level=3)
    for each in (member, tauros):
        plays = duel["values"](*duel["games"](duel["start"](each)), 1e-9)
        frozen = [
            play.value
            for (one, two), play in plays.items()
            if one.status is not Status.FREEZE and two.status is Status.FREEZE
        ]
        assert all(value == pytest.approx(1, abs=1e-6) for value in frozen)
        assert bool(frozen) == (each is tauros)  # Ice types aren't frozen


def test_values_of_expectimax():
    """Two members that knock each other out with 255 of 256 bytes. Alakazam is faster; with equal HP nobody is ahead."""
    example = loaded("expectimax")
    battle = Battle([Member("Alakazam", ["Seismic Toss"])], [Member("Snorlax", ["Seismic Toss"])], bytes(10))
    battle.update(Choice.PASS, Choice.PASS)
    battle, miss = battle.with_hp(1, 1, 50).with_hp(2, 1, 50), Fraction(1, 256)
    for depth in (1, 2, 3):
        goes_on = miss ** (2 * depth)
        wins = (1 - miss) * sum(miss ** (2 * turn) for turn in range(depth))
        assert example["value"](battle, depth) == pytest.approx(float(wins + goes_on / 2), abs=1e-15)


def test_the_second_update_shows_the_recharging():
    """Recover is worth more against Hyper Beam, after which Tauros recharges, once two updates are looked ahead."""
    example = loaded("expectimax")
    battle, pair = example["endgame"](140, 165), (Choice.MOVE_2, Choice.MOVE_2)
    assert example["mean"](battle, *pair, 2) > 2 * example["mean"](battle, *pair, 1)


def test_guesses_fit_what_the_player_knows():
    """At each turn of random battles: the guess has all that was shown, and the battle of it offers the same choices."""
    example, dice = loaded("monte_carlo"), random.Random(4)
    teams = list(sample_teams().values())
    for _ in range(6):
        one = dice.choice(teams)
        battle = Battle(one, dice.choice(teams), dice.randbytes(10))
        player, teller = Player(Side.ONE, one, foes=6), Teller(Side.ONE)
        update = battle.update(Choice.PASS, Choice.PASS)
        while not update.result.is_over:
            teller.report(battle, update.log, player)
            team = example["guess"](player, dice)
            assert len(team) == 6 == len({it.species for it in team})
            for seen, member in zip(player.foe.members, team):
                assert member.species is seen.species and {it.move for it in seen.moves} - {165} <= set(member.moves)
            fork = Battle.from_player(player, team, dice.randbytes(10))
            assert fork.choices(Side.ONE) == player.choices and fork.own_side(Side.ONE) == player.own
            update = battle.update(*(dice.choice(battle.choices(side)) for side in Side))


def test_monte_carlo_wins():
    """A small table; both bots win against random choices."""
    head, *rows = run("monte_carlo", "--battles", "2", "--guesses", "4").stdout.splitlines()
    assert head.split() == "won of 2 against random against cheating".split()
    assert [it.split()[0] for it in rows] == ["fair", "cheating"] and all(float(it.split()[1]) >= 1 for it in rows)


def test_a_policy_learns_to_beat_random():
    """Half of its battles are won before, and far more than nine of ten after a third of the usual rounds."""
    pytest.importorskip("numpy")
    done = run("policy_gradient", "--rounds", 50, "--battles", 256, "--tested", 600)
    assert done.returncode == 0, done.stderr
    before, after = (int(it) for it in re.findall(r"(\d+) of 600", done.stdout))
    assert 240 < before < 360 and after > 0.93 * 600


def test_a_policy_is_the_same_for_the_same_arguments():
    pytest.importorskip("numpy")
    words = ("policy_gradient", "--rounds", 4, "--battles", 16, "--tested", 40, "--seed")
    one, two, three = (run(*words, seed).stdout for seed in (7, 7, 8))
    assert one == two != three and one.count(" of 40 ") == 2


def test_a_policy_without_the_package():
    assert "--rounds" in run("policy_gradient", "--help").stdout
    apart = {key: it for key, it in os.environ.items() if key not in ("PYTHONPATH", "GEN1_LIBRARY")}
    done = run("policy_gradient", "--rounds", "1", env=apart, cwd="/")
    if "gen1 is not installed" not in done.stderr:
        pytest.skip("the package is installed")
    assert done.returncode == 1 and "Traceback" not in done.stderr
