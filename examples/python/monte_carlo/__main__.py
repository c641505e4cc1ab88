"""A bot that searches without cheating: it guesses what it does not know, and plays battles from its guesses.

    python3 examples/python/monte_carlo [--battles N] [--guesses N] [--seed N]

Three players are compared, with sample teams that are drawn for each battle:

    fair        has a player's view (gen1.Player). For each guess of the foe's team it makes a battle that fits
                (Battle.from_player), and plays it from each of its choices, with random choices to the end.
    cheating    plays copies of the battle itself, which include what the foe has not shown.
    random      takes any choice.

The table shows how many battles the player of the row won against the player of the column; a tie counts as half. The players swap sides
for half of the battles.
"""

import argparse
import random
import sys
from collections.abc import Callable

import gen1
from gen1 import Battle, Choice, Host, Member, Move, Outcome, Player, Side, Team

# A bot chooses from a player's view, with dice and a number of guesses to make.
Bot = Callable[[Player, random.Random, int], Choice]


def guess(player: Player, dice: random.Random) -> Team:
    """A team that the foe may have: the members and moves that it has shown, completed from the sample sets."""
    seen = player.foe.members
    team = [member_like(it, dice) for it in seen]
    names = {it.species for it in team}
    others = [it for it in gen1.sample_sets() if it.species not in names]
    while len(team) < (player.foes or 6):
        team.append(dice.choice(others))
        others = [it for it in others if it.species != team[-1].species]
    return Team(team)


def member_like(seen: gen1.Seen, dice: random.Random) -> Member:
    """A sample set with the moves that a member was seen to use, or else these moves and others of its sets."""
    used = [it.move for it in seen.moves if it.move is not Move.STRUGGLE]
    sets = list(gen1.sample_sets(seen.species))
    fitting = [it for it in sets if set(used) <= set(it.moves)]
    if fitting:
        moves = dice.choice(fitting).moves
    else:
        more = [move for it in sets for move in it.moves] or [Move.BODY_SLAM, Move.REST]
        moves = tuple(dict.fromkeys([*used, *more]))[:4]
    # With all DVs and all experience, as the sample sets. Another maximum HP would be refused where HP is exact.
    return Member(seen.species, moves, level=seen.level)


def best(starts: list[Battle], side: Side, offered: tuple[Choice, ...], dice: random.Random) -> Choice:
    """The choice with which a side wins most playouts of these battles."""
    won = dict.fromkeys(offered, 0.0)
    for start in starts:
        for choice in offered:
            fork = start.copy()
            theirs = dice.choice(fork.choices(side.foe))
            pair = (choice, theirs) if side is Side.ONE else (theirs, choice)
            fork.update_silent(*pair)
            ends = fork.playout(dice.getrandbits(64), 1)
            won[choice] += (ends.wins_one if side is Side.ONE else ends.wins_two) + ends.ties / 2
    return max(offered, key=lambda it: won[it])


def fair(player: Player, dice: random.Random, guesses: int) -> Choice:
    """Searches battles that fit what the player knows."""
    starts = [Battle.from_player(player, guess(player, dice), dice.randbytes(10)) for _ in range(guesses)]
    return best(starts, player.side, player.choices, dice)


def cheating(host: Host) -> Bot:
    """A bot that searches copies of the host's battle, with other numbers to draw."""

    def bot(player: Player, dice: random.Random, guesses: int) -> Choice:
        starts = [host.battle for _ in range(guesses)]
        for it in starts:
            it.reseed(dice.randbytes(10))
        return best(starts, player.side, player.choices, dice)

    return bot


def at_random(player: Player, dice: random.Random, guesses: int) -> Choice:
    """Any choice."""
    return dice.choice(player.choices)


def play(names: tuple[str, str], dice: random.Random, guesses: int) -> Outcome:
    """One battle between two bots. Each gets its own player's view; only the cheating bot also gets the host."""
    teams = list(gen1.sample_teams().values())
    sides = dice.choice(teams), dice.choice(teams)
    host = Host(Battle(*sides, dice.randbytes(10)), exact_hp=True)
    known = {"fair": fair, "cheating": cheating(host), "random": at_random}
    bots = [known[it] for it in names]
    players = [Player(side, team, foes=6, hp_form=host.hp_form) for side, team in zip(Side, sides)]
    while True:
        for player in players:
            player.receive(host.message(player.side))
        if host.is_closed:
            return host.result.outcome
        number = host.number
        for bot, player in zip(bots, players):
            if host.number == number and host.awaits(player.side):
                host.submit(player.side, number, chosen(bot, player, dice, guesses), None)


def chosen(bot: Bot, player: Player, dice: random.Random, guesses: int) -> Choice:
    """The bot's choice, or the only choice that is offered."""
    return player.choices[0] if len(player.choices) == 1 else bot(player, dice, guesses)


def wins(one: str, two: str, battles: int, dice: random.Random, guesses: int) -> float:
    """How many battles the first bot wins. The bots swap sides in every other battle."""
    total = 0.0
    for at in range(battles):
        pair = (one, two) if at % 2 == 0 else (two, one)
        outcome, mine = play(pair, dice, guesses), (Outcome.WIN_ONE, Outcome.WIN_TWO)[at % 2]
        total += 1 if outcome is mine else 0.5 if outcome is Outcome.TIE else 0
    return total


def main() -> int:
    """Plays the battles, and prints the table."""
    parser = argparse.ArgumentParser(description=__doc__, formatter_class=argparse.RawDescriptionHelpFormatter)
    for name, default, said in (
        ("--battles", 20, "battles of each pair of players"),
        ("--guesses", 12, "guesses of a bot for each choice"),
        ("--seed", 1, "a number that gives the same battles again"),
    ):
        parser.add_argument(name, type=int, default=default, metavar="N", help=f"{said} (default: %(default)s)")
    asked = parser.parse_args()
    if asked.battles < 1 or asked.guesses < 1:
        parser.error("--battles and --guesses must be 1 or more")
    dice = random.Random(asked.seed)
    print(f"won of {asked.battles}    against random    against cheating", flush=True)
    for name, foes in (("fair", ("random", "cheating")), ("cheating", ("random",))):
        cells = [f"{wins(name, foe, asked.battles, dice, asked.guesses):g}" for foe in foes]
        print(f"{name:12} {cells[0]:>13} {cells[1] if len(cells) > 1 else '-':>19}", flush=True)
    return 0


if __name__ == "__main__":
    sys.exit(main())
