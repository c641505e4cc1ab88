"""The battles of an environment with their players. A new battle replaces one that is over."""

from collections.abc import Callable, Iterable, Mapping
from dataclasses import dataclass
from typing import Any, TypeAlias

import numpy as np
from numpy.typing import NDArray

from gen1._check import listed, shown, within
from gen1.arrays import Bytes, bits
from gen1.battle import TeamLike
from gen1.encodings import Encoding, Rows
from gen1.errors import BadArgument, BadType, Refused, ResetNeeded
from gen1.names import Refusal, Species
from gen1.player_arrays import PlayerArray, Start, start_of
from gen1.samples import sample_teams
from gen1.spaces import AutoresetMode

Truths: TypeAlias = NDArray[np.bool_]
# A team, or a function of a generator that returns the team of the next battle.
TeamSource: TypeAlias = TeamLike | Callable[[np.random.Generator], TeamLike]
# The sources of both sides; None for the default team.
TeamSources: TypeAlias = tuple[TeamSource | None, TeamSource | None]

BEFORE = "call reset() before step(): no battle has begun"
DEFAULT_TEAM = sample_teams()["starmie_lead"].members


@dataclass(frozen=True)
class Ended:
    """The battles that a step ended, (n); their outcomes, 0 for the others; and, with `SAME_STEP`, the last rows of each side."""

    which: Truths
    outcomes: Bytes
    final: dict[int, Rows]

    def rewards(self, side: int) -> NDArray[np.float64]:
        """1 for each battle that a side has won, -1 for each that it has lost, and 0 for all others, (n)."""
        rewards: NDArray[np.float64] = (self.outcomes == side).astype(np.float64) - (self.outcomes == 3 - side)
        return rewards


class Episodes:
    """`n` battles with their players, and the generator for seeds, teams and opponents."""

    def __init__(
        self,
        n: int,
        one: TeamSource | None,
        two: TeamSource | None,
        rules: int,
        limit: int,
        encoding: Encoding,
        mode: Any,
        threads: int,
    ) -> None:
        one, two = (DEFAULT_TEAM if it is None else it for it in (one, two))
        self.sources, self.terms = (one, two), (rules, limit)
        self.encoding, self.mode = encoding, mode
        self.dice, self.begun = np.random.default_rng(), False
        # The start of all battles, if their teams are always the same; and the battles that last began with other teams.
        self._start = None if callable(one) or callable(two) else self._new(self.sources, self.dice)
        first, second = self._teams(self.sources, self.dice)
        self.players = PlayerArray(n, first, second, rules=rules, limit=limit, threads=threads)
        self._other = np.zeros(n, bool)

    def __len__(self) -> int:
        return len(self.players)

    @property
    def going_on(self) -> PlayerArray:
        """The battles. Raises `ResetNeeded` before the first `begin`."""
        if not self.begun:
            raise ResetNeeded(BEFORE)
        return self.players

    def begin(self, seed: object, options: object) -> None:
        """Starts new battles. A seed also restarts the generator. Wrong arguments raise an error before anything changes."""
        if options is not None and not isinstance(options, Mapping):
            raise BadType(f"options must be a dict, not {shown(options)}")
        given = {} if options is None else options
        which = self._which(given.get("reset_mask"))
        dice = self.dice if seed is None else np.random.default_rng(_entropy(seed, len(self)))
        sources = given.get("one", self.sources[0]), given.get("two", self.sources[1])
        starts = self._starts(which, sources, dice, "one" in given or "two" in given)
        self.dice, self.begun = dice, True
        self._put(which, starts)

    def restart(self, which: Truths) -> None:
        """Starts new battles where `which` is true."""
        self._put(which, self._starts(which, self.sources, self.dice, False))

    def step(self, ones: Bytes, twos: Bytes, sides: tuple[int, ...]) -> Ended:
        """Updates the battles, and replaces those that are over as the mode says. `sides` are the sides whose last rows are needed."""
        before = self.players.over
        self.players.step(ones, twos)
        which = self.players.over & ~before
        outcomes, final = np.where(which, self.players.outcomes, 0), {}
        if self.mode is AutoresetMode.NEXT_STEP and before.any():
            self.restart(before)
        if self.mode is AutoresetMode.SAME_STEP and which.any():
            final = {side: self._last(side, which) for side in sides}
            self.restart(which)
        return Ended(which, outcomes, final)

    def rows(self, side: int) -> Rows:
        """The observations of a side, as a new array."""
        return self.players.observe(side, self.encoding)

    def masks(self, side: int) -> Truths:
        """Which actions a side is offered, (n, 12) bools."""
        return bits(self.players.masks(side))

    def may_act(self) -> None:
        """Raises `Refused` if a battle is over and is not restarted automatically."""
        over = self.players.over
        if self.mode is AutoresetMode.DISABLED and over.any():
            said = f"battle {over.argmax()} is over: reset it with reset(options={{'reset_mask': mask}}), where mask has (n) bools"
            raise Refused(Refusal.OVER, said)

    def sight(self, at: int) -> str:
        """The turn, and the active members with their HP."""
        fields = self.players._battles.fields[at]
        text = []
        for side in fields["sides"]:
            member = side["members"][side["active"]["place"] - 1]
            text.append(f"{Species(member['species'])} {member['hp']}/{member['max_hp']}")
        return f"turn {fields['turn']}: {' - '.join(text)}"

    def _which(self, mask: object) -> Truths:
        if mask is None:
            return np.ones(len(self), bool)
        if not isinstance(mask, np.ndarray) or mask.dtype != bool or mask.shape != (len(self),) or not mask.any():
            raise BadArgument(
                f"reset_mask must be an array of ({len(self)},) bools, at least one of them True, not {shown(mask)}"
            )
        return mask

    def _last(self, side: int, which: Truths) -> Rows:
        """The observations where `which` is true, and zeros elsewhere."""
        rows = np.zeros((len(self), self.encoding.width), self.encoding.dtype)
        rows[which] = self.players.observe(side, self.encoding, which=which)
        return rows

    def _teams(self, sources: tuple[Any, Any], dice: np.random.Generator) -> tuple[TeamLike, TeamLike]:
        one, two = (it(dice) if callable(it) else it for it in sources)
        return one, two

    def _starts(
        self, which: Truths, sources: tuple[Any, Any], dice: np.random.Generator, others: bool
    ) -> dict[int, Start]:
        """The starts of the battles that have none yet."""
        if self._start is None or others:
            if any(callable(it) for it in sources):
                return {at: self._new(sources, dice) for at in np.flatnonzero(which).tolist()}
            return dict.fromkeys(np.flatnonzero(which).tolist(), self._new(sources, dice))
        return dict.fromkeys(np.flatnonzero(which & self._other).tolist(), self._start)

    def _new(self, sources: tuple[Any, Any], dice: np.random.Generator) -> Start:
        one, two = self._teams(sources, dice)
        return start_of(one, two, *self.terms)

    def _put(self, which: Truths, starts: dict[int, Start]) -> None:
        for at, start in starts.items():
            self.players._put(at, start)
            self._other[at] = start is not self._start
        self.players.reset(which, self.dice.integers(0, 256, (len(self), 10), np.uint8))


def _entropy(seed: object, n: int) -> int | list[int]:
    """A seed, or a list with a seed for each battle."""
    if isinstance(seed, Iterable):
        numbers = listed(seed, "seed")
        if len(numbers) != n:
            raise BadArgument(f"seed must be a number, or a list of {n} numbers, not of {len(numbers)}")
        return [within(it, f"seed[{at}]", 0, (1 << 128) - 1) for at, it in enumerate(numbers)]
    return within(seed, "seed", 0, (1 << 128) - 1)
