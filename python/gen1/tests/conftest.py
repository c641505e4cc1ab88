"""Shared by the tests: the repository's recorded battles, the library itself, wrong arguments, and random teams."""

import ctypes
import random
import sys
from decimal import Decimal
from pathlib import Path

import pytest
from gen1 import Battle, Choice, Member, Move, Species, Team
from gen1._library import PATH

ROOT = Path(__file__).resolve().parents[3]
RECORDED = ROOT / "tests" / "battles"
LEFT_OUT = {Move.MIMIC, Move.METRONOME, Move.MIRROR_MOVE, Move.TRANSFORM, Move.STRUGGLE}
ALL_SPECIES, MOVES = list(Species), [it for it in Move if it not in LEFT_OUT]
sys.path.insert(0, str(ROOT / "tools"))

# The library itself, without the types that the package gives its calls.
LIB = ctypes.CDLL(PATH)
# Values that are not whole numbers, and whole numbers that are not bytes.
NO_NUMBERS = (None, 1.0, "1", b"\x01", True, False, [1], Decimal(1), object())
BIG = (-1, 256, 257, 300, 65536, 1 << 32, 1 << 33, 1 << 64, -(1 << 70))

recorded_only = pytest.mark.skipif(not RECORDED.is_dir(), reason="the recorded battles are missing")


@pytest.fixture
def tauros():
    return Member("Tauros", ["Body Slam", "Hyper Beam", "Earthquake", "Blizzard"])


@pytest.fixture
def team(tauros):
    return Team([tauros, Member("Gengar", ["Hypnosis", "Night Shade"], level=73)])


@pytest.fixture
def battle(team):
    """A battle after its first update."""
    made = Battle(team, team, seed=range(10))
    made.update(Choice.PASS, Choice.PASS)
    return made


def random_member(dice: random.Random) -> Member:
    moves = dice.sample(MOVES, dice.randint(1, 4))
    return Member(
        dice.choice(ALL_SPECIES),
        moves,
        level=dice.randint(1, 100),
        dvs=[dice.randint(0, 15) for _ in range(4)],
        exp=[dice.choice((0, 65535, dice.randint(0, 65535))) for _ in range(5)],
        pp_ups=[dice.randint(0, 3) for _ in moves],
    )


def random_team(dice: random.Random) -> Team:
    return Team([random_member(dice) for _ in range(dice.randint(1, 6))])
