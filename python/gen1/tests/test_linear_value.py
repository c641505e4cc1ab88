"""examples/python/linear_value: it learns to beat random choices from what a side knows, and the same arguments give the same curve."""

import csv
import os
import subprocess
import sys
from xml.etree import ElementTree

import pytest
from conftest import ROOT
from gen1 import Battle, BattleArray, Choice, Member

np = pytest.importorskip("numpy")

from gen1.layout import BATTLE  # noqa: E402

LINEAR_VALUE = ROOT / "examples" / "python" / "linear_value"
pytestmark = pytest.mark.skipif(not LINEAR_VALUE.is_dir(), reason="examples/python/linear_value is not here")
SHORT = ("--rounds", "8", "--battles", "32", "--every", "8", "--tested", "400", "--rate", "0.1", "--seed", "1")
SHORTER = ("--rounds", "2", "--battles", "8", "--every", "1", "--tested", "40")


@pytest.fixture(scope="module")
def parts():
    """The example's modules."""
    sys.path.insert(0, str(LINEAR_VALUE))
    try:
        import curve
        import value

        yield value, curve
    finally:
        sys.path.remove(str(LINEAR_VALUE))


def run(*words, **more):
    return subprocess.run([sys.executable, str(LINEAR_VALUE), *map(str, words)], capture_output=True, text=True, **more)


@pytest.fixture(scope="module")
def short(tmp_path_factory):
    """The folder of a short training, and what it printed."""
    out = tmp_path_factory.mktemp("short")
    done = run(*SHORT, "--out", out)
    assert done.returncode == 0, done.stderr
    return out, done.stdout


def test_it_learns_to_beat_random(short, parts):
    """It wins more than four battles of five, and far more than before it learned, at a confidence of 99.9 %."""
    first, last = list(csv.DictReader(open(short[0] / "curve.csv")))
    before, after = (int(row["won"]) for row in (first, last))
    assert parts[1].interval(after, 400, 3.29)[0] > 0.8
    assert parts[1].interval(before, 400, 3.29)[1] < parts[1].interval(after, 400, 3.29)[0]
    assert (first["battles"], last["battles"]) == ("0", "256")


def test_the_same_words_give_the_same_curve(tmp_path):
    """Another seed gives another curve."""
    folders = [tmp_path / name for name in ("one", "two", "three")]
    for out, seed in zip(folders, (7, 7, 8)):
        assert run(*SHORTER, "--seed", seed, "--out", out).returncode == 0
    one, two, three = ([(out / name).read_bytes() for name in ("curve.csv", "weights.csv")] for out in folders)
    assert one == two and one[1] != three[1]


def test_there_is_a_picture(short, parts, tmp_path):
    assert any((short[0] / name).is_file() for name in ("curve.png", "curve.svg"))
    points = [parts[1].point(at, at, 100, won, 0) for at, won in ((0, 50), (10, 80), (30, 100))]
    svg = ElementTree.parse(parts[1].draw(points, tmp_path, False))
    line = svg.find(".//{*}polyline").attrib["points"].split()
    assert line == ["48.0,180.0", "229.3,100.8", "592.0,48.0"]


def test_intervals(parts):
    """Wilson's 95 % interval of 8 of 10 is 0.490 to 0.943, and of 0 of 10 0 to 0.278."""
    assert [round(it, 3) for it in parts[1].interval(8, 10)] == [0.490, 0.943]
    assert [round(it, 3) for it in parts[1].interval(0, 10)] == [0.0, 0.278]


def test_features_show_what_a_side_knows_alone(parts):
    """Moves, PP and stats of the foe, and how long a sleep lasts, change no feature; HP of either side does."""
    value = parts[0]
    others = [Member(it.species, ["Tackle"], exp=(65535, 0, 0, 0, 0)) for it in value.TEAM]
    seen = []
    for team in (value.TEAM, others):
        battle = Battle(value.TEAM, team, seed=range(10))
        battle.update_silent(Choice.PASS, Choice.PASS)
        seen.append(value.features(BattleArray(1, battle).observe(1)))
    assert (seen[0] == seen[1]).all()
    held = BattleArray(1, value.start()).bytes.copy()
    member = held.view(BATTLE)[0, 0]["sides"][1]["members"][0]
    member["status"] = 3
    asleep = value.features(BattleArray(1, Battle.load(held)).observe(1))
    member["status"] = 5
    assert (value.features(BattleArray(1, Battle.load(held)).observe(1)) == asleep).all()
    member["hp"] -= 1
    assert (value.features(BattleArray(1, Battle.load(held)).observe(1)) != asleep).any()


def test_what_is_over_has_its_worth(parts):
    value = parts[0]
    dice = np.random.default_rng(3)
    array = value.battles(50, dice)
    while not array.over.all():
        array.random_step(dice)
    weights = dice.normal(size=len(value.NAMES))
    of_one = np.where(array.outcomes == 1, 1, np.where(array.outcomes == 2, -1, 0))
    decided = of_one != 0
    assert decided.any() and (value.values(weights, array.observe(1))[decided] == of_one[decided]).all()
    assert (value.values(weights, array.observe(2))[decided] == -of_one[decided]).all()


def test_choosing_leaves_the_battle_alone_and_does_not_know_its_dice(parts):
    value = parts[0]
    weights = np.random.default_rng(5).normal(size=len(value.NAMES)) / 10
    array = value.battles(40, np.random.default_rng(4))
    before = array.bytes.copy()
    chosen = value.best_choices(weights, array, 1, np.random.default_rng(6))
    assert (array.bytes == before).all()
    array.reseed(np.random.default_rng(7).integers(0, 256, (40, 10), np.uint8))
    assert (value.best_choices(weights, array, 1, np.random.default_rng(6)) == chosen).all()
    array.step(chosen, value.random_choices(array, 2, np.random.default_rng(8)))
    assert (array.codes == 0).all()


def test_help_and_wrong_words():
    assert "--rounds" in run("--help").stdout
    for words in (["--rounds", "0"], ["--battles", "x"], ["--tested", "1"], ["--seed", "-1"]):
        done = run(*words)
        assert done.returncode == 2 and "error: " in done.stderr and "Traceback" not in done.stderr
    apart = {key: it for key, it in os.environ.items() if key not in ("PYTHONPATH", "GEN1_LIBRARY")}
    done = run("--rounds", "1", env=apart, cwd="/")
    if "gen1 is not installed" not in done.stderr:
        pytest.skip("the package is installed")
    assert done.returncode == 1 and "Traceback" not in done.stderr
