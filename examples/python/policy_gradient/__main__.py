#!/usr/bin/env python3
"""Trains a policy by its gradient on a vector environment, and tests how often it beats an opponent that chooses at random.

    python3 examples/python/policy_gradient

The policy is linear: each action has a weight for each feature, and the softmax over the offered actions gives their chances. It plays
many battles at once (`gen1.VectorEnv`), and makes actions likelier that did better than a linear estimate of the value predicted (an
actor and a critic, with generalized advantage estimation). The same arguments give the same numbers, on the same machine with the same
numpy.
"""

import argparse
import os
import sys
import time

# One core, so that sums do not depend on the number of cores.
os.environ.setdefault("OPENBLAS_NUM_THREADS", "1")
try:
    import numpy as np
except ImportError:
    sys.exit(
        f"policy_gradient: {sys.executable} has no numpy (tools/setup python installs Debian's, for /usr/bin/python3)"
    )
try:
    from gen1 import Encoding, Error, Member, VectorEnv
except ImportError:
    sys.exit("policy_gradient: gen1 is not installed; see README.md")

# Both sides have this team. Another team needs its own training.
TEAM = (
    Member("Starmie", ["Surf", "Thunderbolt", "Thunder Wave", "Recover"]),
    Member("Snorlax", ["Body Slam", "Reflect", "Rest", "Ice Beam"]),
    Member("Tauros", ["Body Slam", "Hyper Beam", "Blizzard", "Earthquake"]),
)
PLACES = range(1, len(TEAM) + 1)
ACTIONS = 12
# How many steps are played between two changes of the weights.
HORIZON = 32
# The discount of a reward per step, and of an advantage per further step ahead.
DISCOUNT, AHEAD = 0.99, 0.95
# The weight of the entropy at first, and the rate of learning; both fall to 0.
ENTROPY, RATE = 0.005, 0.06

NAMES = [it.name for it in Encoding().columns]
SPECIES = np.array([int(it.species) for it in TEAM])


def columns(name):
    """The numbers of a column of each member: "own hp / max_hp" is of own 1, own 2 and own 3."""
    side, of = name.split(" ", 1)
    return [NAMES.index(f"{side} {place} {of}") for place in range(1, len(TEAM) + 1)]


OWN_OUT, OWN_HP, OWN_STATUS = columns("own is out"), columns("own hp / max_hp"), columns("own status")
FOE_OUT, FOE_HP, FOE_STATUS, FOE_SPECIES = (
    columns("foe is out"),
    columns("foe hp / max_hp"),
    columns("foe status"),
    columns("foe species"),
)
FLAGS = [NAMES.index(it) for it in ("own recharge", "foe recharging", "own reflect", "foe reflect")]


def features(rows):
    """The features of the policy, (n, count): the active members with the HP and status of both; all HP, and some conditions."""
    own = rows[:, OWN_OUT]
    foe = (rows[:, FOE_OUT, None] * (rows[:, FOE_SPECIES, None] == SPECIES)).sum(1)
    pair = (own[:, :, None] * foe[:, None, :]).reshape(len(rows), -1)
    hp = [(rows[:, at] * rows[:, out]).sum(1) for at, out in ((OWN_HP, OWN_OUT), (FOE_HP, FOE_OUT))]
    ail = [((rows[:, at] > 0) * rows[:, out]).sum(1) for at, out in ((OWN_STATUS, OWN_OUT), (FOE_STATUS, FOE_OUT))]
    each = np.stack([np.ones(len(rows)), *hp, *ail], 1)
    met = (pair[:, :, None] * each[:, None, :]).reshape(len(rows), -1)
    return np.concatenate([met, rows[:, OWN_HP], rows[:, FOE_HP], rows[:, OWN_HP] > 0, rows[:, FLAGS]], 1)


def chances(weights, seen, masks):
    """The chance of each action, (n, 12): 0 for one that is not offered. Those of a battle that is over are equal, and ignored."""
    worth = np.where(masks, seen @ weights, -1e9)
    worth = np.exp(worth - worth.max(1, keepdims=True))
    return worth / worth.sum(1, keepdims=True)


def drawn(chance, dice):
    """An action of each row, by its chances."""
    return (chance.cumsum(1) > dice.random((len(chance), 1))).argmax(1)


class Adam:
    """Adam's steps for an array of weights."""

    def __init__(self, shape):
        self.count, self.mean, self.square = 0, np.zeros(shape), np.zeros(shape)

    def step(self, gradient):
        self.count += 1
        self.mean += 0.1 * (gradient - self.mean)
        self.square += 0.001 * (gradient**2 - self.square)
        return RATE * self.mean / (1 - 0.9**self.count) / (np.sqrt(self.square / (1 - 0.999**self.count)) + 1e-8)


class Learner:
    """A policy and a value function of a player's knowledge, which learn from the battles of a vector environment."""

    def __init__(self, battles, seed):
        self.env, self.dice = VectorEnv(battles, TEAM, TEAM, "random", limit=300), np.random.default_rng(seed)
        rows, infos = self.env.reset(seed=seed)
        self.seen, self.masks = features(rows), infos["action_mask"]
        count = self.seen.shape[1]
        self.policy, self.value = np.zeros((count, ACTIONS)), np.zeros(count)
        self.steps = Adam(self.policy.shape), Adam(self.value.shape)

    def play(self):
        """Plays `HORIZON` steps; yields for each the observation, the actions, their chances, which count, the rewards, and the ends."""
        for _ in range(HORIZON):
            seen, masks = self.seen, self.masks
            chance = chances(self.policy, seen, masks)
            actions = drawn(chance, self.dice)
            rows, rewards, ends, _, infos = self.env.step(actions)
            self.seen, self.masks = features(rows), infos["action_mask"]
            # The step after an end starts a new battle, so its action does not count.
            yield seen, actions, chance, masks.any(1), rewards, ends

    def learn(self, left):
        """Plays, and updates the weights of the policy and of the value. `left`, 1 to 0, is the share of the rounds left."""
        played = list(self.play())
        values = [it[0] @ self.value for it in played] + [self.seen @ self.value]
        gain, policy, value = np.zeros(len(self.seen)), np.zeros_like(self.policy), np.zeros_like(self.value)
        for at in reversed(range(HORIZON)):
            seen, actions, chance, counts, rewards, ends = played[at]
            later = DISCOUNT * (1 - ends)
            surprise = rewards + later * values[at + 1] - values[at]
            gain = np.where(counts, surprise + AHEAD * later * gain, 0)
            chosen = np.eye(ACTIONS)[actions] - chance
            # The gradient of the entropy keeps actions from becoming certain too soon.
            logs = np.log(np.maximum(chance, 1e-12))
            spread = -chance * (logs - (chance * logs).sum(1, keepdims=True))
            policy += seen.T @ ((gain[:, None] * chosen + ENTROPY * left * spread) * counts[:, None])
            value += seen.T @ gain
        count = sum(it[3].sum() for it in played)
        self.policy += left * self.steps[0].step(policy / count)
        self.value += left * self.steps[1].step(value / count)
        return int(count)


def tested(policy, battles, seed):
    """How many of a number of new battles are won with actions by their chances."""
    env, won, left = (
        VectorEnv(battles, TEAM, TEAM, "random", limit=300, autoreset="disabled"),
        0,
        np.ones(battles, bool),
    )
    rows, infos = env.reset(seed=seed)
    dice = np.random.default_rng(seed)
    while left.any():
        actions = drawn(chances(policy, features(rows), infos["action_mask"]), dice)
        rows, rewards, ends, _, infos = env.step(actions)
        won += int((rewards[left] > 0).sum())
        left &= ~ends
        if ends.any():
            rows, infos = env.reset(options={"reset_mask": ends})
    return won


def main():
    parser = argparse.ArgumentParser(
        prog="policy_gradient", description=__doc__, formatter_class=argparse.RawDescriptionHelpFormatter
    )
    parser.add_argument("--rounds", type=int, default=150, metavar="N", help="changes of the weights (%(default)s)")
    parser.add_argument("--battles", type=int, default=256, metavar="N", help="battles at once (%(default)s)")
    parser.add_argument("--tested", type=int, default=1000, metavar="N", help="battles of a test (%(default)s)")
    parser.add_argument(
        "--seed", type=int, default=1, metavar="N", help="another seed gives other numbers (%(default)s)"
    )
    asked = parser.parse_args()
    for name in ("rounds", "battles", "tested", "seed"):
        if getattr(asked, name) < (name != "seed"):
            parser.error(f"--{name} must be {int(name != 'seed')} or more")
    try:
        learner, steps = Learner(asked.battles, asked.seed), 0
        print("     steps    won of tested")
        for done in range(asked.rounds + 1):
            if done % 50 == 0 or done == asked.rounds:
                won = tested(learner.policy, asked.tested, asked.seed + 1)
                print(f"{steps:10,} {won:6} of {asked.tested}  {won / asked.tested:6.1%}", flush=True)
            if done < asked.rounds:
                steps += learner.learn(1 - done / asked.rounds)
    except Error as fault:
        sys.exit(f"policy_gradient: {fault}")
    except KeyboardInterrupt:
        return 130
    print(f"{time.process_time():.0f} s of one processor", file=sys.stderr)
    return 0


if __name__ == "__main__":
    sys.exit(main())
