"""The cost of each call in Python. bench/calls runs it, and names the rows.

    python3 bench/calls.py TEAM_ONE TEAM_TWO

It needs python/gen1/src on PYTHONPATH, and the path of the C library in GEN1_LIBRARY.
"""
import sys
import time
from pathlib import Path

import numpy as np
from gen1 import Battle, BattleArray, Side, Team
from gen1.arrays import COUNTS, nth_choices

SEED = [1, 36, 255, 7, 31, 100, 179, 254, 127, 10]
BATCH, STEPS, BEFORE = 1024, 60, 20


def chosen(battle, side, update):
    """The choice of a side in an update: that at (7 * update + side) modulo the number offered."""
    choices = battle.choices(side)
    return choices[(7 * update + int(side)) % len(choices)]


def time_of(row, call):
    """Prints the nanoseconds of a call: the least of five runs of 50 ms or more."""
    least = float("inf")
    for _ in range(5):
        begun, calls, spent = time.perf_counter(), 0, 0.0
        while spent < 0.05:
            for _ in range(100):
                call()
            calls, spent = calls + 100, time.perf_counter() - begun
        least = min(least, spent / calls)
    print(f"{row}\t{least * 1e9:.1f}")


def by_parts(battles, dice):
    """A step of a batch in parts: the masks of both sides, a choice of each battle and side, and the updates."""
    masks = battles.masks()
    battles.step(*nth_choices(masks, COUNTS.take(masks) * dice.integers(0, 1 << 16, masks.shape, np.uint16) >> 16))


def time_of_steps(row, start, step):
    """Prints the nanoseconds of a step of each battle: the least of five runs of sixty steps."""
    battles, dice, least = BattleArray(BATCH, start), np.random.default_rng(1), float("inf")
    for _ in range(5):
        battles.reset()
        begun = time.perf_counter()
        for _ in range(STEPS):
            step(battles, dice)
        least = min(least, time.perf_counter() - begun)
    print(f"{row}\t{least * 1e9 / (BATCH * STEPS):.1f}")


def main():
    one, two = (Team.from_text(Path(path).read_text()) for path in sys.argv[1:])
    start = Battle(one, two, seed=SEED)
    middle = start.copy()
    for update in range(BEFORE):
        middle.update(chosen(middle, Side.ONE, update), chosen(middle, Side.TWO, update))
    pair = [chosen(middle, side, BEFORE) for side in Side]
    time_of("new", lambda: Battle(one, two, seed=SEED))
    time_of("choices", lambda: middle.choices(Side.ONE))
    time_of("copy", middle.copy)
    time_of("update", lambda: middle.copy().update(*pair))
    time_of("events", lambda: list(middle.copy().update(*pair).events))
    time_of("state", lambda: middle.state.turn)
    time_of_steps("batch", start, by_parts)
    time_of_steps("random", start, BattleArray.random_step)


main()
