"""The best choice in an endgame of one against one, by all outcomes of the next turns.

    python3 examples/python/expectimax [--depth N] [--hp ONE TWO]

Side 1 has Alakazam, side 2 Tauros. For each pair of choices the program takes the mean over all battles that the update can lead to
(Battle.outcomes). Side 1 takes the choice whose worst mean, over the foe's choices, is the best.
"""

import argparse
import sys

from gen1 import Battle, Choice, Member, Outcome, Side

ENDS = {Outcome.WIN_ONE: 1.0, Outcome.WIN_TWO: 0.0}
# The value for side 1 of each choice of side 1 and each of side 2.
Table = dict[Choice, dict[Choice, float]]


def value(battle: Battle, depth: int) -> float:
    """The value of a battle for side 1: 1 for a win, 0 for a loss, and its share of the HP where the search ends."""
    if battle.result.is_over:
        return ENDS.get(battle.result.outcome, 0.5)
    if depth == 0:
        one, two = (battle.state.side(side).members[0].hp for side in Side)
        return one / (one + two)
    return max(worst(row) for row in table(battle, depth).values())


def worst(row: dict[Choice, float]) -> float:
    """The value of a choice of side 1 against the foe's best reply."""
    return min(row.values())


def table(battle: Battle, depth: int) -> Table:
    """The mean value after each pair of choices."""
    ones, twos = (battle.choices(side) for side in Side)
    return {one: {two: mean(battle, one, two, depth) for two in twos} for one in ones}


def mean(battle: Battle, one: Choice, two: Choice, depth: int) -> float:
    """The mean value over all outcomes of an update."""
    return sum(chance * value(after, depth - 1) for after, chance in battle.outcomes(one, two))


def endgame(hp_one: int, hp_two: int) -> Battle:
    """Alakazam, which is faster, against Tauros, with these HP."""
    battle = Battle(
        [Member("Alakazam", ["Psychic", "Recover", "Thunder Wave"])],
        [Member("Tauros", ["Body Slam", "Hyper Beam"])],
        seed=bytes(10),
    )
    battle.update(Choice.PASS, Choice.PASS)
    return battle.with_hp(Side.ONE, 1, hp_one).with_hp(Side.TWO, 1, hp_two)


def main() -> int:
    """Prints the table, and the best choice."""
    parser = argparse.ArgumentParser(description=__doc__, formatter_class=argparse.RawDescriptionHelpFormatter)
    parser.add_argument(
        "--depth", type=int, default=2, metavar="N", help="how many updates to look ahead (default: %(default)s)"
    )
    parser.add_argument(
        "--hp", type=int, nargs=2, default=(140, 165), metavar=("ONE", "TWO"), help="the HP of both (default: 140 165)"
    )
    asked = parser.parse_args()
    if asked.depth < 1:
        parser.error("--depth must be 1 or more")
    battle = endgame(*asked.hp)
    found = table(battle, asked.depth)
    twos = battle.choices(Side.TWO)
    print(f"{'':24}" + "".join(f"{battle.words(Side.TWO, two):>20}" for two in twos) + f"{'worst':>10}")
    for one, row in found.items():
        print(
            f"{battle.words(Side.ONE, one):24}" + "".join(f"{row[two]:20.4f}" for two in twos) + f"{worst(row):10.4f}"
        )
    print("best:", battle.words(Side.ONE, max(found, key=lambda one: worst(found[one]))))
    return 0


if __name__ == "__main__":
    sys.exit(main())
