"""Plays random battles through the package and by the C library alone, and compares each update. Then plays on for many steps, and tests
that the memory stays as it is: python3 tests/fuzz.py [BATTLES] [STEPS] [SEED].

It needs numpy, src on PYTHONPATH, and the library of tools/python_wheel --library-only, which GEN1_LIBRARY names.
"""

import argparse
import pickle
import random
import resource
import sys
from pathlib import Path

import gen1
import numpy as np
from alone import Alone, raw_choices, raw_damages, raw_lines
from conftest import random_team
from gen1 import Battle, BattleArray, Move, NoDamage, Player, Refused, Side, Teller, VectorEnv, log_bytes
from gen1.arrays import CHOICES
from gen1.names import Refusal
from gen1.player_arrays import PlayerArray

GROUP, MEGABYTE = 50, 2**20
# The action of each choice.
BITS = np.zeros(256, np.int64)
BITS[CHOICES] = range(len(CHOICES))
# A copy of a battle by each way to make one.
COPIES = (
    Battle.copy,
    lambda it: Battle.load(it.bytes),
    lambda it: Battle.from_state(it.state),
    lambda it: Battle.from_state(pickle.loads(pickle.dumps(it.state))),
    lambda it: pickle.loads(pickle.dumps(it)),
)


class Both:
    """A battle in the package and one in the library alone, each with its tellers and players."""

    def __init__(self, teams, seed, rules, limit, pixels):
        self.battle, self.alone = Battle(*teams, seed, rules, limit), Alone(teams, seed, rules, limit, pixels)
        self.tellers = [Teller(side, pixels) for side in Side]
        self.players = [Player(side, teams[side - 1], len(teams[2 - side])) for side in Side]

    @property
    def is_over(self):
        return self.alone.result[0] != 0

    def step(self, dice):
        """Makes an update by random choices, which it returns; before it, at times, one by any bytes."""
        offered = [raw_choices(self.alone.battle, side) for side in Side]
        assert [list(self.battle.choices(side)) for side in Side] == offered, "other choices"
        pair = [dice.choice(it) for it in offered]
        if dice.random() < 0.05:
            wild = [dice.choice((chosen, dice.randrange(256))) for chosen in pair]
            if any(one not in of for one, of in zip(wild, offered)):
                self._refused(*wild)
        if dice.random() < 0.1:
            self.battle = dice.choice(COPIES)(self.battle)
            self.players, self.tellers = (
                [pickle.loads(pickle.dumps(it)) for it in of] for of in (self.players, self.tellers)
            )
            self._hit(dice)
        self._update(*pair, dice)
        return pair

    def _refused(self, one, two):
        code, _ = self.alone.update(one, two)
        try:
            self.battle.update(one, two)
        except Refused as fault:
            assert fault.code == code != 0 and self.battle.bytes == self.alone.battle.raw, "another refusal"
        else:
            raise AssertionError("no refusal")

    def _update(self, one, two, dice):
        update, (code, log) = self.battle.update(one, two), self.alone.update(one, two)
        lines = update.lines
        assert (code, log) == (0, update.log), "another log"
        assert raw_lines(log) == (35, "".join(f"{it}\n" for it in lines)), "other lines"
        assert len(update.events) == len(lines) and (
            dice.random() < 0.9 or log_bytes(update.events) == log
        ), "other events"
        assert self.battle.bytes == self.alone.battle.raw, "other bytes"
        assert (update.result.outcome, *update.result.requests) == self.alone.result, "another result"
        for teller, player in zip(self.tellers, self.players):
            teller.report(self.battle, log, player)
        assert [bytes(it._held) for it in self.players] == [it.raw for it in self.alone.players], "another player"
        assert [bytes(it._held) for it in self.tellers] == [it.raw for it in self.alone.tellers], "another teller"

    def _hit(self, dice):
        given = dice.choice(list(Side)), dice.choice(list(Move)), dice.random() < 0.5
        try:
            got = 0, list(self.battle.damage(*given))
        except NoDamage as fault:
            got = int(fault.code), [0] * 39
        assert got == raw_damages(self.alone.battle, *given), "another damage"


class Group:
    """Battles of random teams, all of which are also in arrays and in an environment."""

    def __init__(self, dice, count):
        self.dice, self.count, self.drawn = dice, count, []
        self.pairs, self.ended = np.zeros((2, count), np.uint8), np.zeros(count, bool)
        terms = {"rules": dice.randint(0, 3), "limit": dice.choice((dice.randint(1, 40), 200))}
        self.env = VectorEnv(count, self._team, self._team, self._second, **terms)
        self.env.reset(seed=dice.getrandbits(32))
        teams = list(zip(self.drawn[-2 * count :: 2], self.drawn[1 - 2 * count :: 2]))
        seeds = [it.tobytes() for it in self.env.battles.fields["numbers"]]
        self.pixels = dice.random() < 0.5
        self.battles = [Both(pair, seed, *terms.values(), self.pixels) for pair, seed in zip(teams, seeds)]
        self.array = BattleArray.of(it.battle for it in self.battles)
        self.players = PlayerArray(count, *teams[0], **terms, pixels=self.pixels)
        for at, (pair, seed) in enumerate(zip(teams, seeds)):
            self.players.begin(at, *pair, seed)
            self.battles[at].step(dice)
        self.array.step(*self.pairs)

    def play(self):
        """Plays the battles to their ends. Returns how many updates that were."""
        updates, going = len(self.battles), np.array([not it.is_over for it in self.battles])
        while going.any():
            updates += int(going.sum())
            self._step(going)
            going = np.array([not it.is_over for it in self.battles])
        return updates

    def _team(self, dice):
        """A team of any members, or of the package's own; for battles after the first one always the same."""
        if len(self.drawn) == 2 * self.count + 2:
            return self.drawn[-1]
        ways = random_team, gen1.random_team, lambda dice: gen1.random_team(dice, legal=False, count=dice.randint(1, 6))
        self.drawn.append(self.dice.choice(ways)(self.dice))
        return self.drawn[-1]

    def _second(self, _, masks):
        """The actions of side 2 in the environment: those that were drawn, and any where another battle has begun."""
        drawn = np.where(self.going, BITS[self.pairs[1]], -1)[~self.ended]
        return np.where(drawn < 0, masks.argmax(1), drawn)

    def _step(self, going):
        """Updates the battles that continue, each by itself and all in the arrays, and compares them."""
        self.going, self.pairs[:] = going, 0
        for at in np.flatnonzero(going).tolist():
            self.pairs[:, at] = self.battles[at].step(self.dice)
        self.array.step(*self.pairs)
        self.players.step(*self.pairs)
        rows, _, self.ended, *_ = self.env.step(np.where(going, BITS[self.pairs[0]], self.env.action_masks().argmax(1)))
        self._compare([self.battles[at].alone for at in np.flatnonzero(going).tolist()])
        assert (self.env.battles.bytes[going] == self.array.bytes[going]).all(), "other bytes in the environment"
        assert not self.pixels or (rows[going] == self.players.observe(1)[going]).all(), "other rows"

    def _compare(self, alone):
        """Compares the arrays with the battles that were just updated."""
        array, players, going = self.array, self.players, self.going
        assert array.bytes[going].tobytes() == b"".join(it.battle.raw for it in alone), "other bytes in an array"
        assert (array.codes == np.where(going, 0, int(Refusal.OVER))).all(), "other codes"
        assert [(it & 7, it >> 3 & 3, it >> 5) for it in array.results[going].tolist()] == [
            it.result for it in alone
        ], "other results"
        assert players.battles == array and all(
            (players.masks(side) == mask).all() for side, mask in zip(Side, array.masks())
        ), "other masks"
        told = b"".join(player.raw for it in alone for player in it.players)
        assert players._players.view(np.uint8)[going].tobytes() == told, "other players in an array"


def played(battles, seed):
    """Plays random battles and compares them. Returns how many updates that were."""
    dice = random.Random(seed)
    return sum(Group(dice, min(GROUP, battles - first)).play() for first in range(0, battles, GROUP))


def stepped(count, seed):
    """Updates and copies of one battle after the other; of each 64th update all events, lines and the state."""
    dice = random.Random(seed)
    fresh = Battle(random_team(dice), random_team(dice), dice.randbytes(10))
    battle = fresh.copy()
    for step in range(count):
        if battle.result.is_over:
            battle = fresh.copy()
            battle.reseed(dice.randbytes(10))
        update = battle.update(*(dice.choice(battle.choices(side)) for side in Side))
        if step % 64 == 0:
            assert (
                len(update.events) == len(update.lines)
                and Battle.from_state(pickle.loads(pickle.dumps(battle.state))) == battle
            )


def stepped_in_arrays(count, seed):
    """As many steps in an array, in one that uses two threads, and in an environment."""
    dice, n = random.Random(seed), 1024
    teams = random_team(dice), random_team(dice)
    start = Battle(*teams, dice.randbytes(10))
    arrays = [BattleArray(n, start, threads=threads) for threads in (1, 2)]
    env, numbers = VectorEnv(n, *teams, opponent="random"), [np.random.default_rng(seed) for _ in arrays]
    _, infos = env.reset(seed=seed)
    for _ in range(-(-count // n)):
        for array, of in zip(arrays, numbers):
            array.random_step(of)
            if array.over.any():
                array.reset(array.over, of.integers(0, 256, (n, 10), np.uint8))
        *_, infos = env.step(infos["action_mask"].argmax(1))
    assert arrays[0] == arrays[1], "other bytes with two threads"


def resident():
    """The memory of this process that is resident, in MB."""
    return int(Path("/proc/self/statm").read_text().split()[1]) * resource.getpagesize() / MEGABYTE


def grown(steps, seed):
    """Makes many steps. Returns how many MB the process grew by, after it had made some before."""
    for call in (stepped, stepped_in_arrays):
        call(5000, seed)
    before = resident()
    for call in (stepped, stepped_in_arrays):
        call(steps, seed)
    return resident() - before


def main():
    parser = argparse.ArgumentParser(description=__doc__, formatter_class=argparse.RawDescriptionHelpFormatter)
    for name, number in (("battles", 150), ("steps", 50_000), ("seed", 1)):
        parser.add_argument(name, metavar=name.upper(), type=int, nargs="?", default=number)
    asked = parser.parse_args()
    print(f"{asked.battles} battles with {played(asked.battles, asked.seed)} updates: no difference", flush=True)
    more = grown(asked.steps, asked.seed)
    print(f"{asked.steps} steps of a battle, of two arrays and of an environment: the memory grew by {more:.1f} MB")
    sys.exit(more > 16)


if __name__ == "__main__":
    main()
