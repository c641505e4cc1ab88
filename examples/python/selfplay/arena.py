"""The work of a worker: players, and jobs of battles between two of them. The results do not depend on the machine.

It is one file that needs only gen1 and numpy, so that it can be sent to a worker on another machine (with the same numpy).
"""

import hashlib
import random
from dataclasses import dataclass

import numpy as np
from gen1 import Battle, BattleArray, Choice, Member, NoDamage, Side, Team
from gen1.search import league_battle

TEAMS = (
    Team(
        [
            Member("Starmie", ["Surf", "Thunderbolt", "Thunder Wave", "Recover"]),
            Member("Snorlax", ["Body Slam", "Reflect", "Rest", "Ice Beam"]),
            Member("Tauros", ["Body Slam", "Hyper Beam", "Blizzard", "Earthquake"]),
        ]
    ),
    Team(
        [
            Member("Gengar", ["Hypnosis", "Thunderbolt", "Night Shade", "Explosion"]),
            Member("Chansey", ["Ice Beam", "Thunder Wave", "Soft-Boiled", "Seismic Toss"]),
            Member("Rhydon", ["Earthquake", "Rock Slide", "Body Slam", "Substitute"]),
        ]
    ),
    Team(
        [
            Member("Jolteon", ["Thunderbolt", "Thunder Wave", "Double Kick", "Pin Missile"]),
            Member("Exeggutor", ["Sleep Powder", "Psychic", "Mega Drain", "Explosion"]),
            Member("Cloyster", ["Blizzard", "Clamp", "Explosion", "Rest"]),
        ]
    ),
)
ROUNDS = 16
LIMIT = 200


def random_player(battle, side, team, dice):
    """A random choice, all equally likely."""
    return dice.choice(battle.choices(side))


def greedy_player(battle, side, team, dice):
    """The move with the highest average damage if it hits; a random choice if no move deals damage."""
    known, offered = team[max(battle.place(side), 1) - 1].moves, battle.choices(side)
    dealt = {it: average(battle, side, known[it.slot - 1]) for it in offered if it.is_move and it.slot}
    best = max(dealt, key=dealt.get, default=None)
    return best if best is not None and dealt[best] else dice.choice(offered)


def average(battle, side, move):
    try:
        return sum(battle.damage(side, move))
    except NoDamage:
        return 0


def playout_player(battle, side, team, dice):
    """The choice with the most wins minus losses in random battles.

    These are copies with their own numbers to draw, all played at once. The player knows both teams, but not what the battle will draw.
    """
    offered = battle.choices(side)
    if len(offered) == 1:
        return offered[0]
    drawn, count = np.random.default_rng(dice.getrandbits(64)), ROUNDS * len(offered)
    copies = BattleArray(count, battle, drawn.integers(0, 256, (count, 10), np.uint8))
    mine, theirs = np.repeat(offered, ROUNDS), drawn.choice(battle.choices(3 - side), count)
    copies.step(*((mine, theirs) if side == 1 else (theirs, mine)))
    while not copies.over.all():
        copies.random_step(drawn)
    ends = copies.outcomes.reshape(len(offered), ROUNDS)
    return offered[int(((ends == side).sum(1) - (ends == 3 - side).sum(1)).argmax())]


PLAYERS = {"random": random_player, "greedy": greedy_player, "playouts": playout_player}


@dataclass(frozen=True)
class Job:
    """Battles of two players: the number of the pair, their names, the first battle, the number of battles, the seed, and the teams of a league."""

    pair: int
    names: tuple
    first: int
    count: int
    seed: int
    league: str = ""

    @property
    def numbers(self):
        return range(self.first, self.first + self.count)


@dataclass(frozen=True)
class Record:
    """A battle: its pair and number, which player was side 1 (0 or 1 of the pair's names), the teams, the seed, and how it ended."""

    pair: int
    number: int
    first_player: int
    teams: tuple
    seed: bytes
    outcome: int
    turns: int
    updates: int
    log: bytes


def drawn(job, number, what, count):
    """Random bytes for a battle that depend only on the seed, the pair, the battle's number and their purpose."""
    text = f"{job.seed} {job.pair} {number} {what}"
    return hashlib.blake2b(text.encode(), digest_size=count).digest()


def play_job(job):
    """Plays a job, and returns the records of its battles, or their lines in a league. They are the same each time and on each machine."""
    if job.league:
        return [league_battle(*job.names, number, teams=job.league, seed=job.seed) for number in job.numbers]
    return [play_battle(job, number) for number in job.numbers]


def play_battle(job, number):
    """Plays a battle. Battles 2n and 2n + 1 have the same teams, with the players swapped."""
    first = number % 2
    names = (job.names[first], job.names[1 - first])
    teams = tuple(it % len(TEAMS) for it in drawn(job, number // 2, "teams", 2))
    dice = [random.Random(drawn(job, number, f"player {side}", 16)) for side in (1, 2)]
    seed = drawn(job, number, "battle", 10)
    battle = Battle(TEAMS[teams[0]], TEAMS[teams[1]], seed, limit=LIMIT)
    log, updates, result = [battle.update(Choice.PASS, Choice.PASS).log], 1, battle.result
    while not result.is_over:
        pair = [PLAYERS[names[side - 1]](battle, Side(side), TEAMS[teams[side - 1]], dice[side - 1]) for side in (1, 2)]
        update = battle.update(*pair)
        log.append(update.log)
        updates, result = updates + 1, update.result
    return Record(job.pair, number, first, teams, seed, int(result.outcome), battle.state.turn, updates, b"".join(log))
