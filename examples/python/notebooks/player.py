"""A bot that plays on a player's knowledge: it takes the move with the highest mean damage, against random choices.

    python3 examples/python/notebooks/player.py

A notebook as a script: many editors can run the cells below (# %%) one by one.
"""

# %% Two teams
import random
from fractions import Fraction

from gen1 import Battle, Member, Outcome, Player, Side, Teller, odds

dice = random.Random(1)
team = [
    Member("Starmie", ["Surf", "Thunderbolt", "Psychic", "Recover"]),
    Member("Snorlax", ["Body Slam", "Earthquake", "Rest", "Ice Beam"]),
    Member("Tauros", ["Body Slam", "Strength", "Blizzard", "Earthquake"]),
]


# %% The bot
def mean_damage(user, foe, move):
    """The mean damage of one hit of a move, 0 if it misses, between members that have just been sent out."""
    found = odds(user, foe, move)
    if not found.usual.numbers:
        return Fraction(sum(found.fixed), 2) * found.hit_chance
    usual, critical = (Fraction(sum(it.numbers), 39) for it in (found.usual, found.critical))
    return found.hit_chance * (usual + found.critical_chance * (critical - usual))


def bot(player):
    """The move with the highest mean damage, or any choice. The foe's stats are hidden, so it assumes the usual ones."""
    moves = [it for it in player.choices if it.is_move and it.slot]
    if not moves:
        return dice.choice(player.choices)
    user, foe = team[player.own.place - 1], player.foe.active
    guess = Member(foe.species, ["Pound"], level=foe.level)
    return max(moves, key=lambda it: mean_damage(user, guess, user.moves[it.slot - 1]))


# %% A hundred battles: the bot gets a player, and never the battle
wins = 0
for _ in range(100):
    battle = Battle(team, team, dice.randbytes(10))
    teller, player = Teller(Side.ONE), Player(Side.ONE, team)
    teller.report(battle, b"", player)
    while player.choices:
        update = battle.update(bot(player), dice.choice(battle.choices(Side.TWO)))
        teller.report(battle, update.log, player)
    wins += player.outcome is Outcome.WIN_ONE
print(f"the bot won {wins} of 100")
assert wins >= 80
