"""Environments of many battles at once: one player with Gymnasium's vector
API, and two with PettingZoo's parallel API for arrays.

Neither package is needed; where gymnasium is installed, its spaces, its
`VectorEnv` and its modes are used. Actions are those of
`gen1.environments`, an observation is a row of `gen1.encodings`.
"""

from __future__ import annotations

from collections.abc import Callable, Mapping
from typing import Any

import numpy as np
from numpy.typing import ArrayLike, NDArray

from gen1 import spaces
from gen1._check import shown, within
from gen1._episodes import Ended, Episodes, TeamSource, TeamSources, Truths
from gen1.arrays import ACTIONS, CHOICES, BattleArray, Bytes
from gen1.choices import Side
from gen1.encodings import Encoding, Rows, encoding_of
from gen1.errors import BadArgument, BadType
from gen1.opponents import OpponentLike, actions_of, must_be_offered, opponent_of
from gen1.players import Player

_Discrete, _Box, _ = spaces.made()
_MultiDiscrete, _Base, _AutoresetMode = spaces.made_for_vectors()
MOST = 1 << 30
NAMES = ("one", "two")


class _Vector:
    """The common base of both vector environments."""

    metadata: dict[str, Any] = {"render_modes": ["ansi"], "name": "gen1_v1"}
    render_mode: str | None = None
    spec = None
    closed = False

    def _prepare(
        self,
        num_envs: int,
        teams: TeamSources,
        terms: tuple[int, int],
        autoreset: object,
        form: Encoding | str,
        threads: int,
    ) -> None:
        self.num_envs = within(num_envs, "num_envs", 1, MOST)
        mode, encoding = spaces.mode_of(autoreset), encoding_of(form)
        self.autoreset_mode = _AutoresetMode(mode.value)
        self.metadata = {**self.metadata, "autoreset_mode": self.autoreset_mode}
        self._episodes = Episodes(self.num_envs, *teams, *terms, encoding, mode, threads)
        low, high = encoding.bounds
        self.single_observation_space = _Box(low, high, low.shape, low.dtype.type)
        shape = (self.num_envs, encoding.width)
        self._batch_space = _Box(np.broadcast_to(low, shape), np.broadcast_to(high, shape), shape, low.dtype.type)
        self.single_action_space = _Discrete(ACTIONS)
        self._batch_actions = _MultiDiscrete(np.full(self.num_envs, ACTIONS))

    @property
    def encoding(self) -> Encoding:
        """The form of its observations; `encoding.columns` describes them."""
        return self._episodes.encoding

    @property
    def battles(self) -> BattleArray:
        """A copy of the battles. It includes information hidden from players."""
        return self._episodes.players.battles

    def player(self, at: int, side: Side | int = Side.ONE) -> Player:
        """A copy of a player of a battle."""
        return self._episodes.players.player(at, side)

    def render(self) -> tuple[str, ...]:
        """A line for each battle: its turn, and the active members."""
        return tuple(self._episodes.sight(at) for at in range(self.num_envs))

    def close(self, **_: Any) -> None:
        """Marks it as closed; there is nothing else to close."""
        self.closed = True

    def _choices(self, actions: NDArray[Any], side: int) -> Bytes:
        """The choices that actions mean. Raises `Refused` for one that is not offered, and then nothing has changed."""
        chosen: Bytes = CHOICES[actions]
        must_be_offered(self._episodes.players.masks(side), chosen, side)
        return chosen

    def _info(self, side: int, ended: Ended | None = None) -> dict[str, Any]:
        everywhere = np.ones(self.num_envs, bool)
        info: dict[str, Any] = {"action_mask": self._episodes.masks(side), "_action_mask": everywhere}
        if ended is not None and ended.final:
            nothing = {"action_mask": np.zeros((self.num_envs, ACTIONS), bool), "_action_mask": ended.which}
            for key, value in (
                ("final_obs", ended.final[side]),
                ("final_observation", ended.final[side]),
                ("final_info", nothing),
            ):
                info |= {key: value, f"_{key}": ended.which}
        return info


class VectorEnv(_Vector, _Base):  # type: ignore[misc, valid-type]
    """`num_envs` battles, n for short, in each of which the player of side 1
    meets an opponent, with the API of `gymnasium.vector.VectorEnv`.

    `opponent` is "random", "greedy" (the move that hurts most), or a
    function. Given observations, (m, columns), and action masks, (m, 12)
    bools, of the m battles that are not over, it returns their actions,
    (m). It sees what the player of side 2 knows, and never a battle.

    `one` and `two` are teams, or functions of a numpy generator, such as
    `random_team`, that return the team for each new battle; None is
    `environments.DEFAULT_TEAM`, six members. `autoreset` is one of
    Gymnasium's modes, or its name: "next_step", "same_step", "disabled"
    (`AutoresetMode`). With "same_step" the infos of a step that ended
    battles have `final_obs` (also as `final_observation`, its older name),
    `final_info`, and their masks `_final_obs` and `_final_info`.
    `observations` is "player", or an `Encoding`. `threads` is how many
    threads the library uses.

    `infos["action_mask"]`, (n, 12) bools, says which actions are offered.
    An action that is not raises `Refused`, and nothing changes. The action
    of a battle that is over is ignored. Rewards are 1 for a win, -1 for a
    loss, else 0; no episode is truncated, as a battle at the turn limit is
    a tie.
    """

    def __init__(
        self,
        num_envs: int = 1,
        one: TeamSource | None = None,
        two: TeamSource | None = None,
        opponent: OpponentLike = "random",
        *,
        rules: int = 0,
        limit: int = 1000,
        autoreset: object = "next_step",
        observations: Encoding | str = "player",
        threads: int = 1,
    ) -> None:
        self._opponent = opponent_of(opponent)
        self._prepare(num_envs, (one, two), (rules, limit), autoreset, observations, threads)
        self.observation_space, self.action_space = self._batch_space, self._batch_actions

    def reset(
        self, *, seed: int | list[int] | None = None, options: Mapping[str, Any] | None = None
    ) -> tuple[Rows, dict[str, Any]]:
        """Starts new battles, and returns the observations of side 1, (n,
        columns), and the infos.

        `options` may have teams "one" and "two" for these battles, and
        "reset_mask", (n) bools, to restart only some. A seed restarts all
        random numbers, including those of opponents that draw any. Raises
        `BadTeam`, `BadArgument`, `BadType`; then nothing has changed.
        """
        self._episodes.begin(seed, options)
        return self._episodes.rows(1), self._info(1)

    def step(self, actions: ArrayLike) -> tuple[Rows, NDArray[np.float64], Truths, Truths, dict[str, Any]]:
        """Updates each battle by an action, (n). Returns observations,
        rewards, terminations, truncations and infos.

        Raises `ResetNeeded` before the first reset, `Refused`,
        `BadArgument`, `BadType`; then no battle has changed.
        """
        episodes = self._episodes
        players = episodes.going_on
        episodes.may_act()
        ones = self._choices(actions_of(actions, self.num_envs, "actions"), 1)
        ended = episodes.step(ones, self._opponent(players, 2, episodes.encoding, episodes.dice), (1,))
        return episodes.rows(1), ended.rewards(1), ended.which, np.zeros(self.num_envs, bool), self._info(1, ended)

    def action_masks(self) -> Truths:
        """Which actions are offered, (n, 12) bools."""
        return self._episodes.masks(1)


class TwoPlayerVectorEnv(_Vector):
    """`num_envs` battles of two players, "one" and "two", with PettingZoo's
    parallel API; each value has one more axis, the first, of length n.

    Both act in each step; a side without a request takes action 0, pass.
    `agents` always has both: battles that are over are restarted as
    `autoreset` says, which is as in `VectorEnv`, and so are all other
    arguments.
    """

    metadata: dict[str, Any] = {"render_modes": ["ansi"], "name": "gen1_v1", "is_parallelizable": True}

    def __init__(
        self,
        num_envs: int = 1,
        one: TeamSource | None = None,
        two: TeamSource | None = None,
        *,
        rules: int = 0,
        limit: int = 1000,
        autoreset: object = "next_step",
        observations: Encoding | str = "player",
        threads: int = 1,
    ) -> None:
        self._prepare(num_envs, (one, two), (rules, limit), autoreset, observations, threads)
        self.possible_agents, self.agents = list(NAMES), list(NAMES)
        self.observation_spaces = dict.fromkeys(NAMES, self._batch_space)
        self.action_spaces = dict.fromkeys(NAMES, self._batch_actions)

    def observation_space(self, agent: str) -> Any:
        """The space of an agent's observations, the same object each time."""
        return self.observation_spaces[NAMES[self._side(agent) - 1]]

    def action_space(self, agent: str) -> Any:
        """The space of an agent's actions, the same object each time."""
        return self.action_spaces[NAMES[self._side(agent) - 1]]

    def reset(
        self, seed: int | list[int] | None = None, options: Mapping[str, Any] | None = None
    ) -> tuple[dict[str, Rows], dict[str, dict[str, Any]]]:
        """Starts new battles, and returns the observations and the infos of
        each agent. The arguments are those of `VectorEnv.reset`.
        """
        self._episodes.begin(seed, options)
        return self._each(self._episodes.rows), self._each(self._info)

    def step(self, actions: Mapping[str, ArrayLike]) -> tuple[dict[str, Any], ...]:
        """Updates each battle by an action of each agent, (n): observations,
        rewards, terminations, truncations and infos of the agents.
        """
        if not isinstance(actions, Mapping):
            raise BadType(f"actions must be a dict, not {shown(actions)}")
        if set(actions) != set(NAMES):
            raise BadArgument(f"actions must have the keys one and two, not {shown(list(actions))}")
        self._episodes.going_on
        self._episodes.may_act()
        one, two = (actions_of(actions[it], self.num_envs, f"the actions of {it}") for it in NAMES)
        ended = self._episodes.step(self._choices(one, 1), self._choices(two, 2), (1, 2))
        return (
            self._each(self._episodes.rows),
            self._each(ended.rewards),
            self._each(lambda side: ended.which.copy()),
            self._each(lambda side: np.zeros(self.num_envs, bool)),
            self._each(lambda side: self._info(side, ended)),
        )

    def action_masks(self, agent: str) -> Truths:
        """Which actions an agent is offered, (n, 12) bools."""
        return self._episodes.masks(self._side(agent))

    def state(self) -> Bytes:
        """The 384 bytes of each battle, (n, 384), which are its whole state."""
        return np.array(self._episodes.players._battles.bytes)

    @property
    def unwrapped(self) -> "TwoPlayerVectorEnv":
        """This environment, which does not wrap another one."""
        return self

    def _side(self, agent: str) -> int:
        if agent not in NAMES:
            raise BadArgument(f"agent must be 'one' or 'two', not {shown(agent)}")
        return 1 + NAMES.index(agent)

    def _each(self, what: Callable[[int], Any]) -> dict[str, Any]:
        return {it: what(self._side(it)) for it in NAMES}
