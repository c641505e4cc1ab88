"""A bot against random choices: it tries each of its choices on copies with other numbers to draw, and plays these to their end.

    python3 examples/python/notebooks/bot.py

A notebook as a script: many editors can run the cells below (# %%) one by one.
"""

# %% Two teams
import random

from gen1 import Battle, Choice, Member, Outcome, Side

dice = random.Random(1)
team = [
    Member("Starmie", ["Surf", "Thunderbolt", "Thunder Wave", "Recover"]),
    Member("Snorlax", ["Body Slam", "Reflect", "Rest", "Ice Beam"]),
    Member("Tauros", ["Body Slam", "Hyper Beam", "Blizzard", "Earthquake"]),
]


# %% The bot
def ends_well(battle, choice):
    """Whether side 1 wins a copy of the battle in which it makes this choice, and then both sides choose at random: 0 or 1.

    A copy draws the same numbers as the battle, which a player does not know, so the copy is reseeded.
    """
    copy = battle.copy()
    copy.reseed(dice.randbytes(10))
    copy.update_silent(choice, dice.choice(copy.choices(Side.TWO)))
    return copy.playout(dice.getrandbits(64), 1).wins_one


def bot(battle, rounds=8):
    """The choice of side 1 that wins most playouts."""
    return max(battle.choices(Side.ONE), key=lambda it: sum(ends_well(battle, it) for _ in range(rounds)))


# %% Twenty battles
wins = 0
for _ in range(20):
    battle = Battle(team, team, dice.randbytes(10))
    result = battle.update_silent(Choice.PASS, Choice.PASS)
    while not result.is_over:
        result = battle.update_silent(bot(battle), dice.choice(battle.choices(Side.TWO)))
    wins += result.outcome is Outcome.WIN_ONE
print(f"the bot won {wins} of 20")
assert wins >= 15
