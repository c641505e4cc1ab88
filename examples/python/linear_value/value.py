"""A linear value function for one side of a battle, from that side's knowledge: features, choices and learning."""

import numpy as np
from gen1 import Battle, BattleArray, Choice, Member
from gen1.arrays import CHOICES, bits
from gen1.observations import COLUMNS, STAGES, STATUSES, UP

# Both sides have this team. Another team needs its own training.
TEAM = (
    Member("Starmie", ["Surf", "Thunderbolt", "Thunder Wave", "Recover"]),
    Member("Snorlax", ["Body Slam", "Reflect", "Rest", "Ice Beam"]),
    Member("Tauros", ["Body Slam", "Hyper Beam", "Blizzard", "Earthquake"]),
)
LIMIT = 300
# The number of forks for each choice.
FORKS = 2


def columns(side):
    """The columns of `observe` that are used unchanged as features, for the own side ("own") or the foe's."""
    for place in range(1, len(TEAM) + 1):
        yield f"{side} {place} hp / max_hp"
        for status in STATUSES:
            yield f"{side} {place} {status}"
    for stage in STAGES:
        yield f"{side} {stage} stage / 6"
    for name, _ in UP:
        yield f"{side} {name}"


NAMES = [*columns("own"), *columns("foe")]
AT = np.array([COLUMNS.index(name) for name in NAMES])
HP = np.array(
    [COLUMNS.index(f"{side} {place} hp / max_hp") for side in ("own", "foe") for place in range(1, len(TEAM) + 1)]
)
WON, LOST = COLUMNS.index("won"), COLUMNS.index("lost")
NAMES += [f"{COLUMNS[at].removesuffix(' hp / max_hp')} can fight" for at in HP] + ["always"]


def features(seen):
    """The features of observations, (n, `len(NAMES)`)."""
    can_fight = seen[:, HP] > 0
    return np.concatenate([seen[:, AT], can_fight, np.ones((len(seen), 1))], 1, dtype=np.float64)


def values(weights, seen):
    """The values of battles for the side that sees them, (n): 1 for won, -1 for lost, and between them for a battle that is not over."""
    going_on = np.clip(features(seen) @ weights, -1, 1)
    over = seen[:, WON] + seen[:, LOST] > 0
    return np.where(over, seen[:, WON] - seen[:, LOST], going_on)


def start():
    """A battle after its first update, with the sleep clause and the freeze clause."""
    battle = Battle(TEAM, TEAM, seed=range(10), rules=3, limit=LIMIT)
    battle.update_silent(Choice.PASS, Choice.PASS)
    return battle


def battles(count, dice):
    """`count` battles after their first update, each with its own numbers to draw."""
    return BattleArray(count, start(), dice.integers(0, 256, (count, 10), np.uint8))


def at_random(offered, dice):
    """The index of a random true item in each row, all equally likely; 0 in a row without one."""
    return np.where(offered, dice.random(offered.shape), 0).argmax(1)


def random_choices(array, side, dice):
    """A random choice of a side in each battle, all equally likely."""
    return CHOICES[at_random(bits(array.masks())[side - 1], dice)]


def best_choices(weights, array, side, dice):
    """For each battle the choice of a side with the highest value, on average over some forks.

    A fork is a copy of the battle with other numbers to draw, in which the foe chooses at random. Its value is computed from the side's
    observation afterwards. Among equal choices one is chosen at random.
    """
    offered = bits(array.masks())[side - 1]
    battle, choice = (np.repeat(it, FORKS) for it in offered.nonzero())
    judged = np.full(offered.shape, -np.inf)
    if len(battle):
        forks = array.take(battle)
        forks.reseed(dice.integers(0, 256, (len(battle), 10), np.uint8))
        mine, theirs = CHOICES[choice], random_choices(forks, 3 - side, dice)
        forks.step(*((mine, theirs) if side == 1 else (theirs, mine)))
        worth = values(weights, forks.observe(side)).reshape(-1, FORKS).mean(1)
        judged[battle[::FORKS], choice[::FORKS]] = worth + 1e-9 * dice.random(len(worth))
    return CHOICES[judged.argmax(1)]


def learn(weights, count, dice, rate, chance):
    """Plays `count` battles of the value against itself, learns from each step by TD(0), and returns the number of steps.

    The value of an observation is moved toward the value of the observation one step later. With probability `chance` a choice is random.
    """
    array, steps = battles(count, dice), 0
    seen = [array.observe(side) for side in (1, 2)]
    while not array.over.all():
        going_on = ~array.over
        pair = []
        for side in (1, 2):
            by_chance = dice.random(count) < chance
            pair.append(
                np.where(by_chance, random_choices(array, side, dice), best_choices(weights, array, side, dice))
            )
        array.step(*pair)
        then = [array.observe(side) for side in (1, 2)]
        before, behind = (np.concatenate([it[going_on] for it in both]) for both in (seen, then))
        known = features(before)
        missed = values(weights, behind) - known @ weights
        weights += rate * (missed @ known) / len(before)
        seen, steps = then, steps + len(before)
    return steps


def against_random(weights, count, dice):
    """How many of `count` battles the value wins against random choices, as side 1 in the first half, and how many are ties."""
    array, is_one = battles(count, dice), np.arange(count) < count // 2
    while not array.over.all():
        best = [best_choices(weights, array, side, dice) for side in (1, 2)]
        other = [random_choices(array, side, dice) for side in (1, 2)]
        array.step(np.where(is_one, best[0], other[0]), np.where(is_one, other[1], best[1]))
    won = np.where(is_one, array.outcomes == 1, array.outcomes == 2)
    return int(won.sum()), int((array.outcomes == 3).sum())
