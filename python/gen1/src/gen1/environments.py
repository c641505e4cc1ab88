"""Environments of one battle: one player with Gymnasium's API, and two players
with PettingZoo's parallel API.

Neither package is needed. If gymnasium is installed, its spaces and its
`Env` are used, and `gymnasium.make("gen1/Battle-v1")` makes a `BattleEnv`;
if PettingZoo is, `TwoPlayerEnv` is a `ParallelEnv`. An action is a number from 0 to 11, the bit of a choice: 0
is pass, 1 to 5 are moves 0 to 4, 6 to 11 are switches to 1 to 6. An
observation is a row of `gen1.encodings`: the knowledge of the player.
`gen1.vectors` has environments of many battles at once.
"""

from __future__ import annotations

from collections.abc import Callable, Mapping
from typing import Any

import numpy as np

from gen1 import spaces
from gen1._check import shown, within
from gen1._episodes import BEFORE, Episodes, TeamSource, TeamSources, Truths
from gen1._episodes import DEFAULT_TEAM as DEFAULT_TEAM
from gen1._structs import PlayerStruct
from gen1.arrays import ACTIONS, CHOICES, COUNTS, NTH, Bytes, Masks, bits
from gen1.battle import Battle
from gen1.choices import Side
from gen1.encodings import Encoding, Rows, encoding_of, filler
from gen1.errors import BadArgument, BadType, Refused, ResetNeeded
from gen1.names import Outcome, Refusal
from gen1.opponents import Chooser, OpponentLike, opponent_of, random_choices, refuse
from gen1.player_arrays import PLAYER_BYTES, PlayerArray, player_of_play
from gen1.players import Player
from gen1.spaces import AutoresetMode

_Discrete, _Box, _Base = spaces.made()
_Parallel = spaces.made_for_pairs()
# The numbers of the choices, how many choices each mask has, and the n-th of them: as bytes, whose items are faster to read than numpy's.
_NUMBERS, _COUNTS, _NTH = CHOICES.tobytes(), COUNTS.astype(np.uint8).tobytes(), NTH.tobytes()
_ALL_MASKS: Masks = np.arange(1 << ACTIONS, dtype=np.uint16)
_BITS = bits(_ALL_MASKS)
# Where the masks of both players are among the 16-bit words of a pair of players.
_OFFERED = tuple((PlayerStruct.offered.offset + side * PLAYER_BYTES // 2) // 2 for side in range(2))
# The reward of side 1 for each `Outcome`.
_REWARDS = tuple({Outcome.WIN_ONE: 1.0, Outcome.WIN_TWO: -1.0}.get(it, 0.0) for it in Outcome)


class _Single:
    """The one battle of an environment, stepped without numpy's cost per call: an array of one battle, its addresses and its views."""

    def __init__(self, episodes: Episodes, replaces: bool) -> None:
        self.episodes, self.replaces = episodes, replaces
        players = episodes.players
        places, encoding = players._places(), episodes.encoding
        self.words = players._players.view(np.uint16).reshape(-1).data
        self.updates = players._battles._updates.reshape(-1).data
        self.play, self.played = player_of_play(True), (*places, 1)
        self.seen = [np.empty(encoding.width, encoding.dtype) for _ in range(2)]
        self.fill = filler(encoding.dtype, True)
        self.filled = [(places[1], side, 1, encoding.form(side + 1), self.seen[side].ctypes.data) for side in range(2)]

    def mask(self, side: int) -> int:
        """The mask of a side's choices; 0 if the battle is over."""
        return self.words[_OFFERED[side - 1]]

    def truths(self, side: int) -> Truths:
        """Which actions a side is offered, (12) bools."""
        truths: Truths = _BITS[self.mask(side)].copy()
        return truths

    def row(self, side: int) -> Rows:
        """The observation of a side."""
        self.fill(*self.filled[side - 1])
        return self.seen[side - 1].copy()

    def choice(self, number: int, side: int) -> int:
        """The choice that an action means, or a random one if it is not
        offered and `replaces` is true. Raises `Refused` if it is not
        offered, or if the battle is over.
        """
        mask = self.mask(side)
        if not mask >> number & 1:
            if not mask:
                raise Refused(Refusal.OVER, f"the battle is over: {Outcome(self.updates[2] & 7).label}; call reset()")
            if self.replaces:
                return self.random(mask)
            refuse(mask, _NUMBERS[number], side)
        return _NUMBERS[number]

    def random(self, mask: int) -> int:
        """One of the choices in a mask, all equally likely."""
        return _NTH[16 * mask + int(self.episodes.dice.random() * _COUNTS[mask])]

    def answer(self, chooser: Chooser) -> int:
        """The opponent's choice for side 2."""
        if chooser is random_choices:
            return self.random(self.mask(2))
        return int(chooser(self.episodes.players, 2, self.episodes.encoding, self.episodes.dice)[0])

    def update(self, one: int, two: int) -> int:
        """Updates the battle by choices that are offered, and returns its
        outcome.
        """
        self.updates[0], self.updates[1] = one, two
        self.play(*self.played)
        return self.updates[2] & 7


def _action(action: object, name: str) -> int:
    if type(action) is int and 0 <= action < ACTIONS:
        return action
    if isinstance(action, np.ndarray) and action.shape == ():
        action = action.item()
    return within(action, name, 0, ACTIONS - 1)


class _Environment:
    """The common base of both environments."""

    metadata: dict[str, Any] = {"render_modes": ["ansi"], "name": "gen1_v1"}
    render_mode: str | None = None
    _episodes: Episodes
    # The episodes' battle, from their first start on. A copy creates its own, since it has addresses.
    _single: _Single | None = None

    def _prepare(
        self,
        teams: TeamSources,
        terms: tuple[int, int],
        render_mode: str | None,
        observations: Encoding | str,
        invalid: str,
    ) -> None:
        if invalid not in ("refuse", "random"):
            raise BadArgument(f"invalid must be 'refuse' or 'random', not {shown(invalid)}")
        self._replaces = invalid == "random"
        if render_mode not in (None, "ansi"):
            raise BadArgument(f"render_mode must be None or 'ansi', not {shown(render_mode)}")
        self.render_mode, encoding = render_mode, encoding_of(observations)
        self._episodes = Episodes(1, *teams, *terms, encoding, AutoresetMode.DISABLED, 1)
        low, high = encoding.bounds
        self._space, self._actions = _Box(low, high, low.shape, low.dtype.type), _Discrete(ACTIONS)

    def _begin(self, seed: int | None, options: Mapping[str, Any] | None) -> _Single:
        self._episodes.begin(None if seed is None else within(seed, "seed", 0, (1 << 128) - 1), options)
        return self._begun()

    def _begun(self) -> _Single:
        """The battle. Raises `ResetNeeded` before the first reset."""
        if self._single is None:
            if not self._episodes.begun:
                raise ResetNeeded(BEFORE)
            self._single = _Single(self._episodes, self._replaces)
        return self._single

    def __getstate__(self) -> dict[str, Any]:
        return {**self.__dict__, "_single": None}

    @property
    def encoding(self) -> Encoding:
        """The form of its observations; `encoding.columns` describes them."""
        return self._episodes.encoding

    @property
    def battle(self) -> Battle:
        """A copy of the battle. It includes information hidden from players."""
        return self._episodes.players._battles[0]

    def player(self, side: Side | int = Side.ONE) -> Player:
        """A copy of the player of a side."""
        return self._episodes.players.player(0, side)

    def render(self) -> str | None:
        """With render mode "ansi": the turn and the active members, on one
        line.
        """
        return self._episodes.sight(0) if self.render_mode == "ansi" else None

    def close(self) -> None:
        """Does nothing, since there is nothing to close."""


class BattleEnv(_Environment, _Base):  # type: ignore[misc, valid-type]
    """One player, side 1, against an opponent on side 2, with Gymnasium's API.
    It plays the battles of a `VectorEnv` of one.

    `one` and `two` are teams, or functions of a numpy generator, such as
    `random_team`, that return the team for each new battle; None is
    `environments.DEFAULT_TEAM`, six members. `opponent` is "random",
    "greedy" or a function of observations, (1, columns), and action masks,
    (1, 12), as in `VectorEnv`; it sees what the player of side 2 knows.
    `observations` is "player", or an `Encoding`.

    The reward is 1 for a win, -1 for a loss, and 0 otherwise. At the turn
    limit the battle ends in a tie, as its rules say, so no episode is
    truncated.

    An action that is not offered raises `Refused`, before the opponent is
    asked, and changes nothing: use `action_masks()`, and pass a mask to
    `action_space.sample()`. With `invalid="random"` an offered action
    replaces it, all equally likely, for programs that ignore masks. If a
    function returns an action that is not offered, `Refused` is raised for
    side 2; the battle is unchanged.
    """

    spec = None

    def __init__(
        self,
        one: TeamSource | None = None,
        two: TeamSource | None = None,
        opponent: OpponentLike = "random",
        rules: int = 0,
        limit: int = 1000,
        render_mode: str | None = None,
        observations: Encoding | str = "player",
        invalid: str = "refuse",
    ) -> None:
        self._opponent = opponent_of(opponent)
        self._prepare((one, two), (rules, limit), render_mode, observations, invalid)
        self.observation_space, self.action_space = self._space, self._actions

    def reset(
        self, *, seed: int | None = None, options: Mapping[str, Any] | None = None
    ) -> tuple[Rows, dict[str, Any]]:
        """Starts a new battle, and returns the observation of side 1 and the
        info, as from `step`.

        `options` may have teams "one" and "two" for this battle; other keys
        are ignored, since wrappers add their own. Raises `BadTeam`,
        `BadArgument`, `BadType`, and then the battle is unchanged.
        """
        single = self._begin(seed, options)
        if _Base is not object:
            super().reset(seed=seed)
        return single.row(1), {"action_mask": single.truths(1)}

    def step(self, action: int) -> tuple[Rows, float, bool, bool, dict[str, Any]]:
        """Updates the battle with side 1's action and the opponent's. Returns
        the observation, the reward, whether it is over, False, and the
        mask.

        Raises `ResetNeeded` before the first reset, `Refused`,
        `BadArgument`, `BadType`.
        """
        single = self._single or self._begun()
        mine = single.choice(_action(action, "action"), 1)
        outcome = single.update(mine, single.answer(self._opponent))
        return single.row(1), _REWARDS[outcome], outcome != 0, False, {"action_mask": single.truths(1)}

    def action_masks(self) -> Truths:
        """Which actions are offered, as (12) bools. Raises `ResetNeeded`
        before the first reset.
        """
        return (self._single or self._begun()).truths(1)


class TwoPlayerEnv(_Environment, _Parallel):  # type: ignore[misc, valid-type]
    """Two players, "one" and "two", with PettingZoo's parallel API. If
    PettingZoo is installed, it is a `ParallelEnv`.

    Both act in each step; a side without a request takes action 0, pass.
    When the battle is over, `agents` becomes empty. The arguments are those
    of `BattleEnv`.
    """

    metadata: dict[str, Any] = {"render_modes": ["ansi"], "name": "gen1_v1", "is_parallelizable": True}

    def __init__(
        self,
        one: TeamSource | None = None,
        two: TeamSource | None = None,
        rules: int = 0,
        limit: int = 1000,
        render_mode: str | None = None,
        observations: Encoding | str = "player",
        invalid: str = "refuse",
    ) -> None:
        self._prepare((one, two), (rules, limit), render_mode, observations, invalid)
        self.possible_agents = ["one", "two"]
        self.agents: list[str] = []
        self.action_spaces = dict.fromkeys(self.possible_agents, self._actions)
        self.observation_spaces = dict.fromkeys(self.possible_agents, self._space)

    def observation_space(self, agent: str) -> Any:
        """The space of an agent's observations, the same object each time."""
        return self.observation_spaces[self.possible_agents[self._side(agent) - 1]]

    def action_space(self, agent: str) -> Any:
        """The space of an agent's actions, the same object each time."""
        return self.action_spaces[self.possible_agents[self._side(agent) - 1]]

    def reset(
        self, seed: int | None = None, options: Mapping[str, Any] | None = None
    ) -> tuple[dict[str, Rows], dict[str, dict[str, Any]]]:
        """Starts a new battle, and returns the observation and the info of
        each agent. `options` are those of `BattleEnv.reset`.
        """
        single = self._begin(seed, options)
        self.agents = list(self.possible_agents)
        return self._each(single.row), self._each(self._info)

    def step(self, actions: Mapping[str, int]) -> tuple[dict[str, Any], ...]:
        """Updates the battle with both actions. Returns observations, rewards,
        terminations, truncations and infos of the agents.

        Raises `ResetNeeded` before the first reset, `Refused`,
        `BadArgument`, `BadType`; then the battle is unchanged.
        """
        if not isinstance(actions, Mapping):
            raise BadType(f"actions must be a dict, not {shown(actions)}")
        single = self._begun()
        if not self.agents:
            return {}, {}, {}, {}, {}
        if set(actions) != set(self.agents):
            raise BadArgument(f"actions must have the keys {' and '.join(self.agents)}, not {shown(list(actions))}")
        numbers = [_action(actions[it], f"the action of {it}") for it in self.agents]
        outcome = single.update(single.choice(numbers[0], 1), single.choice(numbers[1], 2))
        reward = _REWARDS[outcome]
        told = (
            self._each(single.row),
            self._each(lambda side: reward if side == 1 else 0.0 - reward),
            self._each(lambda side: outcome != 0),
            self._each(lambda side: False),
            self._each(self._info),
        )
        self.agents = [] if outcome else self.agents
        return told

    def action_masks(self, agent: str) -> Truths:
        """Which actions an agent is offered, as (12) bools. Raises
        `ResetNeeded` before the first reset.
        """
        side = self._side(agent)
        return self._begun().truths(side)

    def state(self) -> Bytes:
        """The 384 bytes of the battle, which are its whole state."""
        return np.array(self._episodes.players._battles.bytes[0])

    @property
    def unwrapped(self) -> "TwoPlayerEnv":
        """This environment, which does not wrap another one."""
        return self

    def _side(self, agent: str) -> int:
        if agent not in self.possible_agents:
            raise BadArgument(f"agent must be 'one' or 'two', not {shown(agent)}")
        return 1 + self.possible_agents.index(agent)

    def _each(self, what: Callable[[int], Any]) -> dict[str, Any]:
        return {it: what(self._side(it)) for it in self.agents}

    def _info(self, side: int) -> dict[str, Any]:
        return {"action_mask": self._begun().truths(side)}


def register() -> None:
    """Registers `gen1/Battle-v1` with Gymnasium: `BattleEnv`, and `VectorEnv`
    for many. An installed package is registered without this call.
    """
    from gymnasium.envs.registration import register as registered  # type: ignore[import]

    registered(
        id="gen1/Battle-v1", entry_point="gen1.environments:BattleEnv", vector_entry_point="gen1.vectors:VectorEnv"
    )
