"""Searches: a choice from what one side knows, bounds of a battle's value, and
battles between bots.

They are those of the crate gen1-search, whose README says how they work. Of
it nothing is proved. They need libgen1_extras.so beside libgen1.so, or
where GEN1_EXTRAS_LIBRARY says; a wheel of tools/python_wheel has it where
cargo was installed. Without it each call raises `LibraryMissing`.

>>> from gen1 import Battle, Choice, Member, Player, Teller
>>> one, two = [Member("Gengar", ["Explosion", "Thunderbolt"])], [Member("Starmie", ["Surf"]), Member("Mew", ["Rest"])]
>>> battle, teller, player = Battle(one, two, seed=range(10)), Teller(1), Player(1, one, foes=2)
>>> teller.report(battle, battle.update(0, 0).log, player)
>>> from gen1.search import think
>>> think(player, level=2).choices[0].words
'Thunderbolt'
"""

from __future__ import annotations

import ctypes
import json
from collections.abc import Iterable
from ctypes import POINTER, Structure, byref, c_double, c_size_t, c_uint8, c_uint32, c_uint64
from dataclasses import dataclass
from math import inf
from numbers import Real
from typing import Any

from gen1._check import probability, shown, truth, within
from gen1._extras import extras
from gen1._library import TeamStruct
from gen1.battle import Battle, TeamLike
from gen1.choices import Choice
from gen1.errors import BadArgument, BadType, Error
from gen1.players import Player
from gen1.teams import as_team

# The longest result has nine choices with a line each.
ROOM = 1 << 14
MOST_WORD = (1 << 64) - 1
MOST_TEAMS = 100_000


class SearchFailed(Error):
    """A search has nothing to do: no choice is offered, no guess fits what a
    player knows, or the battle is over.
    """


class _ThinkStruct(Structure):
    """ThinkForm of rust/gen1-extras-ffi."""

    _fields_ = [
        ("nodes", c_uint64),
        ("milliseconds", c_uint64),
        ("seed", c_uint64),
        ("trees", c_uint32),
        ("guesses", c_uint32),
        ("threads", c_uint32),
        ("unused", c_uint32),
        ("teams", POINTER(TeamStruct)),
        ("weights", POINTER(c_double)),
        ("count", c_size_t),
    ]


class _SolveStruct(Structure):
    """SolveForm of rust/gen1-extras-ffi."""

    _fields_ = [
        ("tolerance", c_double),
        ("least", c_double),
        ("memory", c_uint64),
        ("milliseconds", c_uint64),
        ("sweeps", c_uint32),
        ("threads", c_uint32),
        ("classes", c_uint8),
        ("endless", c_uint8),
    ]


@dataclass(frozen=True)
class Considered:
    """A choice, and what the search found about it.

    `probability` is how often to make it. `value` is how often the side
    wins after it, against the foe's play in the search, or None if it was
    not tried in the second half. `line` is how play may continue: for each
    update the choices of the side and of the foe in words, this one first.
    """

    choice: Choice
    words: str
    probability: float
    value: float | None
    line: tuple[tuple[str, str], ...]


@dataclass(frozen=True)
class Thought:
    """The result of `think`.

    `choices` are the offered ones, the most probable first. `value` is how
    often the side is estimated to win, a tie counting as half, and
    `deviation` its standard error by the sampling alone: not that of the
    guesses, nor that of the values at the leaves.
    """

    choices: tuple[Considered, ...]
    value: float
    deviation: float
    nodes: int

    @property
    def best(self) -> Choice:
        """The most probable choice."""
        return self.choices[0].choice


@dataclass(frozen=True)
class Made:
    """A choice of a side, and how often it makes it."""

    choice: Choice
    words: str
    probability: float


@dataclass(frozen=True)
class Solved:
    """The result of `solve`: side 1 wins with a probability from `low` to
    `high` if both sides play as well as can be; a tie counts as half.

    `stopped` says why the search ended: "solved", "memory", "endless" (the
    rest are battles that never end), "sweeps" or "time". `plays` are the
    choices of side 1 and of side 2.
    """

    low: float
    high: float
    stopped: str
    positions: int
    sweeps: int
    plays: tuple[tuple[Made, ...], ...]


def level_nodes(level: int) -> int:
    """How many nodes a search of a level has, 1 to 5. Raises `BadArgument`,
    `BadType`, `LibraryMissing`.
    """
    return int(extras().gen1_search_nodes(within(level, "level", 1, 5)))


def think(
    player: Player,
    *,
    level: int = 3,
    nodes: int | None = None,
    seconds: float | None = None,
    seed: int = 0,
    teams: Iterable[TeamLike] | None = None,
    weights: Iterable[float] | None = None,
    trees: int = 4,
    guesses: int = 16,
    threads: int = 1,
) -> Thought:
    """Searches for a side's best choice, from its player's view alone.

    A search has as many nodes as its level, 1 to 5 (`level_nodes`), or as
    `nodes` says. `seconds` ends it earlier; then it is not repeatable.
    Otherwise the same player, seed, nodes, trees and guesses give the same
    result, for any number of threads. `teams` are those that the foe may
    have, each as probable as its weight over the sum of all, or all alike;
    without them, the sample teams.

    Other Python threads run during the search. Raises `SearchFailed` if the
    player is offered no choice, or no guess fits what it knows;
    `BadArgument`, `BadTeam`, `BadType`, `LibraryMissing`.
    """
    if not isinstance(player, Player):
        raise BadType(f"player must be a Player, not {shown(player)}")
    count = level_nodes(level) if nodes is None else within(nodes, "nodes", 1, MOST_WORD)
    listed, each = _prior(teams, weights)
    asked = _ThinkStruct(
        nodes=count,
        milliseconds=_milliseconds(seconds),
        seed=within(seed, "seed", 0, MOST_WORD),
        trees=within(trees, "trees", 1, 1024),
        guesses=within(guesses, "guesses", 1, 4096),
        threads=within(threads, "threads", 1, 256),
        teams=listed,
        weights=each,
        count=len(each),
    )
    found = _said(extras().gen1_search_think, byref(player._held), byref(asked))
    choices = tuple(
        Considered(
            Choice(it["choice"]),
            it["words"],
            it["probability"],
            it["value"],
            tuple((own, foe) for own, foe in it["line"]),
        )
        for it in found["choices"]
    )
    return Thought(choices, found["value"], found["deviation"], found["nodes"])


def solve(
    battle: Battle,
    *,
    endless: bool = False,
    tolerance: float = 1e-6,
    memory: int = 1 << 30,
    sweeps: int = 2000,
    classes: int = 0,
    least: float = 0.0,
    seconds: float | None = None,
    threads: int = 1,
) -> Solved:
    """Bounds how often side 1 wins a battle if both sides play as well as can
    be. Draws are taken to be independent and equally likely.

    With `endless` each move keeps its PP: fewer positions. The search ends
    at an interval of the width `tolerance`, at `memory` bytes, after
    `sweeps`, or after `seconds`; what was not searched is in the interval.
    `classes` of damage, 1 to 39 for each roll, make it another game, with
    fewer positions. Draws that are less probable together than `least` are
    left out, and in the interval.

    Other Python threads run during the search. Raises `SearchFailed` for a
    battle that is over; `BadArgument`, `BadType`, `LibraryMissing`.
    """
    if not isinstance(battle, Battle):
        raise BadType(f"battle must be a Battle, not {shown(battle)}")
    asked = _SolveStruct(
        tolerance=probability(tolerance, "tolerance"),
        least=probability(least, "least"),
        memory=within(memory, "memory", 1, MOST_WORD),
        milliseconds=_milliseconds(seconds),
        sweeps=within(sweeps, "sweeps", 1, 0xFFFFFFFF),
        threads=within(threads, "threads", 1, 256),
        classes=within(classes, "classes", 0, 39),
        endless=truth(endless, "endless"),
    )
    found = _said(extras().gen1_search_solve, byref(battle._held), byref(asked))
    plays = tuple(
        tuple(Made(Choice(it["choice"]), it["words"], it["probability"]) for it in side) for side in found["plays"]
    )
    return Solved(found["low"], found["high"], found["stopped"], found["positions"], found["sweeps"], plays)


def league_battle(one: str, two: str, number: int, *, teams: str = "samples", seed: int = 1) -> str:
    """Plays a battle of two bots, and returns its line of results: the
    league, both bots, the number, and 1, 0 or 0.5, with tabs between them.

    A bot is "random", "greedy", "monte:MS", "think:MS", "nodes:N" or
    "level:N", as in `gen1 league`, which reads such lines too. Battles 2 n
    and 2 n + 1 have the same teams, and the bots swap sides. `teams` are
    "samples" or "drawn". Without MS the same arguments give the same line.
    Raises `SearchFailed` for a name of no bot; `BadArgument`, `BadType`,
    `LibraryMissing`.
    """
    names = _league(teams, seed, [one, two])
    return str(_said(extras().gen1_search_battle, names, len(names), within(number, "number", 0, MOST_WORD))["line"])


def league_table(bots: Iterable[str], lines: Iterable[str], *, teams: str = "samples", seed: int = 1) -> str:
    """The tables of `gen1 league` in Markdown, of the lines of this league and
    these bots, in any order. Raises `SearchFailed` for a line that is not one
    of `league_battle`; `BadArgument`, `BadType`, `LibraryMissing`.
    """
    text = b"\n".join([_league(teams, seed, bots), *(line.encode() for line in lines)])
    return str(_said(extras().gen1_search_table, text, len(text))["table"])


def _league(teams: str, seed: int, bots: Iterable[str]) -> bytes:
    """The first line of a text about a league."""
    if teams not in ("samples", "drawn"):
        raise BadArgument(f"teams must be 'samples' or 'drawn', not {shown(teams)}")
    names = list(bots)
    for name in names:
        if not isinstance(name, str) or not name.isprintable():
            raise BadType(f"a bot must be a name, not {shown(name)}")
    return "\t".join([f"{teams}:{within(seed, 'seed', 0, 0x7FFFFFFF)}", *names]).encode()


def _said(call: Any, *words: Any) -> dict[str, Any]:
    """The object that a call writes."""
    text = ctypes.create_string_buffer(ROOM)
    length = call(*words, text, ROOM)
    found: dict[str, Any] = json.loads(text.raw[:length])
    if "error" in found:
        raise SearchFailed(found["error"])
    return found


def _prior(teams: Iterable[TeamLike] | None, weights: Iterable[float] | None) -> tuple[Any, Any]:
    """The teams and their weights as arrays."""
    if teams is None:
        if weights is not None:
            raise BadArgument("weights are those of teams: give both, or neither")
        return (TeamStruct * 0)(), (c_double * 0)()
    made = [as_team(it) for it in teams]
    if not 1 <= len(made) <= MOST_TEAMS:
        raise BadArgument(f"teams must be 1 to {MOST_TEAMS:,} teams, not {len(made):,}")
    each = (
        [1.0] * len(made) if weights is None else [_above_zero(it, f"weights[{at}]") for at, it in enumerate(weights)]
    )
    if len(each) != len(made):
        raise BadArgument(f"weights must be {len(made):,}, one for each of the teams, not {len(each):,}")
    return (TeamStruct * len(made))(*(it._struct for it in made)), (c_double * len(each))(*each)


def _above_zero(value: object, what: str) -> float:
    if isinstance(value, bool) or not isinstance(value, Real):
        raise BadType(f"{what} must be a number, not {shown(value)}")
    number = float(value)
    if not 0 < number < inf:
        raise BadArgument(f"{what} must be a number above 0, not {shown(value)}")
    return number


def _milliseconds(seconds: float | None) -> int:
    """The milliseconds of an end by the clock; 0 for none."""
    return 0 if seconds is None else max(1, int(1000 * min(_above_zero(seconds, "seconds"), 1e9)))
