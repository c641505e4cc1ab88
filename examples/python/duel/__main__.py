"""How often each side wins a duel if both play optimally, and how they play.

    python3 examples/python/duel [--species NAME] [--moves NAME ..] [--level N] [--tolerance X] [--plot FILE]

Both sides have the same member: a Tauros of level 5 that knows Body Slam, Hyper Beam and Blizzard. For each pair of choices in each
position all outcomes are listed (Battle.outcomes). The value of a position is the value of the matrix game of its choices: both sides
choose at the same time, and the entries are the means over these outcomes. Such a game is a small linear program. The values are computed
from each other repeatedly, until none changes by more than the tolerance. PP are assumed not to run out.
"""

import argparse
import sys
from itertools import groupby
from typing import NamedTuple

from gen1 import Battle, Choice, Conditions, Error, Member, Outcome, Side, Status

ENDS = {Outcome.WIN_ONE: 1.0, Outcome.WIN_TWO: 0.0}


class Fighter(NamedTuple):
    """A member in a position."""

    hp: int
    status: Status = Status.NONE
    sleep: int = 0
    recharges: bool = False


class Play(NamedTuple):
    """The value of a game for side 1, and how often each side makes each of its choices."""

    value: float
    one: list[float]
    two: list[float]


Position = tuple[Fighter, Fighter]
# How likely each position is after a pair of choices. A game has a list of these for each choice of side 1, by the choices of side 2.
Chances = dict[Position, float]
Game = list[list[Chances]]


def start(member: Member) -> Battle:
    """A duel of two equal members after its first update."""
    battle = Battle([member], [member], bytes(10))
    battle.update(Choice.PASS, Choice.PASS)
    return battle


def position(battle: Battle) -> Position:
    """The position: everything that the rest of the duel depends on."""

    def fighter(side: Side) -> Fighter:
        at = battle.state.side(side)
        member = at.members[0]
        return Fighter(member.hp, member.status, member.sleep, Conditions.RECHARGE in at.active.conditions)

    return fighter(Side.ONE), fighter(Side.TWO)


def with_pp(battle: Battle, before: Battle) -> Battle:
    """The battle with the PP of another."""
    state = battle.state
    for side in Side:
        state = state.with_member(side, 1, pp=before.state.side(side).members[0].pp)
    return Battle.from_state(state)


def games(first: Battle) -> tuple[dict[Position, Game], dict[Position, float]]:
    """The games of all positions that a battle can reach, and the values of the positions in which it is over."""
    found: dict[Position, Game] = {}
    ends: dict[Position, float] = {}
    left = {position(first): first}
    while left:
        here, battle = left.popitem()
        game = found[here] = []
        for one in battle.choices(Side.ONE):
            game.append([])
            for two in battle.choices(Side.TWO):
                chances: Chances = {}
                for after, chance in battle.outcomes(one, two):
                    there = position(after)
                    chances[there] = chances.get(there, 0) + chance
                    if after.result.is_over:
                        ends[there] = ENDS.get(after.result.outcome, 0.5)
                    elif there not in found and there not in left:
                        left[there] = with_pp(after, first)
                game[-1].append(chances)
    return found, ends


def solved(table: list[list[float]]) -> Play:
    """The best play of a game whose entries are between 0 and 1, by the simplex method with Bland's rule.

    The entries plus 1 make a game with a positive value. Side 2 gives its choices weights, so that no choice of side 1 is worth more than 1.
    The greatest sum of such weights is 1 / value, and the weights over their sum are side 2's best play.
    """
    rows, columns = len(table), len(table[0])
    lines = [
        [entry + 1 for entry in row] + [float(k == at) for k in range(rows)] + [1.0] for at, row in enumerate(table)
    ]
    goal = [-1.0] * columns + [0.0] * (rows + 1)
    basis = list(range(columns, columns + rows))
    while min(goal[:-1]) < -1e-12:
        enters = next(k for k, gain in enumerate(goal) if gain < -1e-12)
        leaves = min(
            (k for k in range(rows) if lines[k][enters] > 1e-12),
            key=lambda k: (lines[k][-1] / lines[k][enters], basis[k]),
        )
        basis[leaves] = enters
        lines[leaves] = pivot = [entry / lines[leaves][enters] for entry in lines[leaves]]
        lines = [line if k == leaves else minus(line, line[enters], pivot) for k, line in enumerate(lines)]
        goal = minus(goal, goal[enters], pivot)
    two = [0.0] * columns
    for line, choice in zip(lines, basis):
        if choice < columns:
            two[choice] = line[-1] / goal[-1]
    return Play(1 / goal[-1] - 1, [entry / goal[-1] for entry in goal[columns:-1]], two)


def minus(line: list[float], times: float, pivot: list[float]) -> list[float]:
    """A line minus a multiple of another."""
    return [entry - times * other for entry, other in zip(line, pivot)]


def mean(chances: Chances, worth: dict[Position, float]) -> float:
    """The mean value of positions."""
    return sum(chance * worth[it] for it, chance in chances.items())


def values(found: dict[Position, Game], ends: dict[Position, float], tolerance: float) -> dict[Position, Play]:
    """The best play of each position, and its value. HP only fall, so positions with the fewest HP come first."""
    worth = {**dict.fromkeys(found, 0.5), **ends}
    plays: dict[Position, Play] = {}
    change = 1.0
    while change > tolerance:
        change = 0.0
        for here in sorted(found, key=lambda it: it[0].hp + it[1].hp):
            plays[here] = play = solved([[mean(of, worth) for of in row] for row in found[here]])
            change = max(change, abs(play.value - worth[here]))
            worth[here] = play.value
    return plays


def by_hp(plays: dict[Position, Play]) -> dict[tuple[int, int], Play]:
    """The positions in which nothing but HP matters."""
    return {
        (one.hp, two.hp): play for (one, two), play in plays.items() if (one, two) == (Fighter(one.hp), Fighter(two.hp))
    }


def groups(plays: dict[tuple[int, int], Play]) -> list[list[int]]:
    """The HP in groups, from the highest down. All HP of a group are equivalent."""
    every = sorted({hp for pair in plays for hp in pair}, reverse=True)

    def seen(hp: int) -> list[str]:
        return [as_text(plays.get(pair)) for other in every for pair in ((hp, other), (other, hp))]

    return [list(group) for _, group in groupby(every, key=seen)]


def as_text(play: Play | None, names: list[str] | None = None) -> str:
    """How often side 1 wins, and its choices with their shares, if there is more than one."""
    if play is None:
        return "-"
    made = [(names[at] if names else str(at), share) for at, share in enumerate(play.one) if share > 1e-6]
    return f"{play.value:.4f} " + ", ".join(name if share > 1 - 1e-6 else f"{name} {share:.0%}" for name, share in made)


def table(plays: dict[tuple[int, int], Play], names: list[str]) -> list[list[str]]:
    """The rows of the table, with its head."""
    found = groups(plays)
    texts = [str(group[0]) if len(group) == 1 else f"{group[-1]} to {group[0]}" for group in found]
    return [["HP", *texts]] + [
        [text, *(as_text(plays.get((one[0], two[0])), names) for two in found)] for text, one in zip(texts, found)
    ]


def draw(plays: dict[tuple[int, int], Play], path: str) -> None:
    """Writes a picture of how often side 1 wins. It needs matplotlib."""
    import matplotlib

    matplotlib.use("Agg")
    import matplotlib.pyplot as plt

    figure, axes = plt.subplots(figsize=(6, 5), layout="constrained")
    ones, twos = zip(*plays)
    dots = axes.scatter(
        twos, ones, c=[play.value for play in plays.values()], cmap="RdBu", vmin=0, vmax=1, marker="s", s=120
    )
    axes.set(title="How often side 1 wins, if both play best", xlabel="HP of side 2", ylabel="HP of side 1")
    figure.colorbar(dots)
    figure.savefig(path, dpi=120)


def options() -> argparse.Namespace:
    """The arguments of the command line."""
    parser = argparse.ArgumentParser(description=__doc__, formatter_class=argparse.RawDescriptionHelpFormatter)
    parser.add_argument("--species", default="Tauros", metavar="NAME", help="of both members (default: %(default)s)")
    parser.add_argument(
        "--moves",
        nargs="+",
        default=["Body Slam", "Hyper Beam", "Blizzard"],
        metavar="NAME",
        help="of both, up to four",
    )
    parser.add_argument(
        "--level",
        type=int,
        default=5,
        metavar="N",
        help="of both (default: %(default)s); higher levels have more positions",
    )
    parser.add_argument(
        "--tolerance", type=float, default=1e-9, metavar="X", help="the change at which to stop (default: %(default)s)"
    )
    parser.add_argument("--plot", metavar="FILE", help="also write a picture, as PNG, SVG or PDF; needs matplotlib")
    given = parser.parse_args()
    if given.tolerance <= 0:
        parser.error("--tolerance must be above 0")
    return given


def main() -> int:
    """Prints the value of the duel, and the best play by the HP of both."""
    given = options()
    try:
        battle = start(Member(given.species, given.moves, level=given.level))
    except Error as fault:
        sys.exit(f"duel: {fault}")
    found, ends = games(battle)
    plays = values(found, ends, given.tolerance)
    print(f"{len(found)} positions; side 1 wins with probability {plays[position(battle)].value:.6f}")
    rows = table(by_hp(plays), given.moves)
    widths = [max(map(len, column)) for column in zip(*rows)]
    for row in rows:
        print("  ".join(text.ljust(width) for text, width in zip(row, widths)).rstrip())
    if given.plot:
        draw(by_hp(plays), given.plot)
    return 0


if __name__ == "__main__":
    sys.exit(main())
