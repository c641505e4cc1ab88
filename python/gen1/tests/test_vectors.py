"""Environments of many battles: by the rules of Gymnasium's vector API and of PettingZoo's parallel API, and against single ones."""

import copy

import pytest

np = pytest.importorskip("numpy")

from gen1 import (  # noqa: E402
    BadArgument,
    BadTeam,
    BadType,
    BattleEnv,
    Encoding,
    Member,
    Refused,
    ResetNeeded,
    TwoPlayerEnv,
    TwoPlayerVectorEnv,
    VectorEnv,
)
from gen1.arrays import CHOICES  # noqa: E402
from gen1.encodings import COLUMNS  # noqa: E402
from gen1.environments import DEFAULT_TEAM  # noqa: E402
from gen1.opponents import worths  # noqa: E402
from gen1.player_arrays import PlayerArray  # noqa: E402
from gen1.spaces import AutoresetMode, mode_of  # noqa: E402

MODES = ("next_step", "same_step", "disabled")
WON, LOST = ([it.name for it in COLUMNS].index(name) for name in ("won", "lost"))


def some(mask, dice):
    """A random action of each row of a mask; 0 in a row without one."""
    return np.where(mask, dice.random(mask.shape), 0).argmax(1)


def test_the_spaces():
    for encoding in (Encoding(), Encoding("uint8"), Encoding("uint8", True)):
        env = VectorEnv(3, observations=encoding)
        assert (
            env.num_envs == 3
            and env.single_observation_space.shape == (encoding.width,)
            and env.single_action_space.n == 12
        )
        assert env.observation_space.shape == (3, encoding.width) and env.action_space.shape == (3,)
        assert env.observation_space.dtype == env.single_observation_space.dtype == encoding.dtype
        observations, infos = env.reset(seed=1)
        assert observations in env.observation_space and observations[0] in env.single_observation_space
        assert env.action_space.sample(tuple(infos["action_mask"].astype(np.int8))) in env.action_space
    env = VectorEnv(num_envs=2)
    assert not env.closed and env.close() is None and env.closed
    assert env.metadata["autoreset_mode"].value == "NextStep" and "autoreset_mode" not in VectorEnv.metadata


@pytest.mark.parametrize("mode", MODES)
@pytest.mark.parametrize("opponent", ["random", "greedy", lambda observations, masks: masks.argmax(1)])
def test_steps(mode, opponent):
    """Types and shapes of what a step returns, what follows an end in each mode, and that a seed gives the same again."""
    # Three members a side, so that many battles end.
    n, teams = 20, {"one": DEFAULT_TEAM[:3], "two": DEFAULT_TEAM[:3]}
    env = VectorEnv(n, **teams, opponent=opponent, autoreset=mode)
    again = VectorEnv(n, **teams, opponent=opponent, autoreset=mode, threads=3)
    dice = np.random.default_rng(1)
    observations, infos = env.reset(seed=7)
    assert np.array_equal(observations, again.reset(seed=7)[0])
    over, ends = np.zeros(n, bool), 0
    for _ in range(120):
        masks = infos["action_mask"]
        assert (
            masks.shape == (n, 12)
            and masks.dtype == bool
            and infos["_action_mask"].all()
            and np.array_equal(masks, env.action_masks())
        )
        actions = some(masks, dice)
        observations, rewards, terminations, truncations, infos = told = env.step(actions)
        other = again.step(actions)
        assert all(np.array_equal(one, two) for one, two in zip(told[:4], other[:4])) and env.battles == again.battles
        assert observations in env.observation_space and rewards.shape == terminations.shape == truncations.shape == (
            n,
        )
        assert rewards.dtype == np.float64 and terminations.dtype == truncations.dtype == bool and not truncations.any()
        assert not rewards[~terminations].any() and set(np.unique(rewards)) <= {-1, 0, 1}
        ends += terminations.sum()
        turns = np.array([env.player(at).turn for at in range(n)])
        if mode == "same_step":
            assert (turns[terminations] == 1).all() and not (observations[:, WON] + observations[:, LOST]).any()
            assert ("final_obs" in infos) == terminations.any()
            if terminations.any():
                for key in ("final_obs", "final_observation", "final_info"):
                    assert np.array_equal(infos[f"_{key}"], terminations)
                final = infos["final_obs"]
                assert final is infos["final_observation"] and not final[~terminations].any()
                assert np.array_equal((final[:, WON] - final[:, LOST])[terminations], rewards[terminations])
                assert not infos["final_info"]["action_mask"].any()
            continue
        shown = observations[:, WON] - observations[:, LOST]
        assert "final_obs" not in infos and np.array_equal(shown[terminations], rewards[terminations])
        assert np.array_equal(terminations, ~infos["action_mask"].any(1))
        if mode == "next_step":
            assert (turns[over] == 1).all() and not terminations[over].any() and not rewards[over].any()
        elif terminations.any():
            before = env.battles
            with pytest.raises(Refused, match=rf"^battle {terminations.argmax()} is over: reset it with reset"):
                env.step(actions)
            assert env.battles == before
            for it in (env, again):
                observations, infos = it.reset(options={"reset_mask": terminations})
            turns = np.array([env.player(at).turn for at in range(n)])
            assert (turns[terminations] == 1).all() and [env.battles[at] == before[at] for at in range(n)] == (
                ~terminations
            ).tolist()
        over = terminations
    assert ends > 20


def test_one_battle_is_that_of_a_single_environment():
    """One seed with the same actions gives the same observations, rewards and masks, for each opponent and encoding."""
    for opponent in ("random", "greedy", lambda observations, masks: masks.argmax(1)):
        for encoding in (Encoding(), Encoding("uint8", True)):
            many = VectorEnv(1, opponent=opponent, autoreset="disabled", observations=encoding)
            one, dice = BattleEnv(opponent=opponent, observations=encoding), np.random.default_rng(2)
            for seed in (3, None):
                (observations, infos), (row, info) = many.reset(seed=seed), one.reset(seed=seed)
                over = False
                while not over:
                    assert np.array_equal(observations[0], row) and np.array_equal(
                        infos["action_mask"][0], info["action_mask"]
                    )
                    actions = some(infos["action_mask"], dice)
                    observations, rewards, overs, _, infos = many.step(actions)
                    row, reward, over, _, info = one.step(actions[0])
                    assert (rewards[0], overs[0]) == (reward, over) and many.battles[0] == one.battle
                    assert many.render()[0].startswith("turn ")


def test_two_players():
    """Each value is that of `TwoPlayerEnv` with a first axis."""
    many, one, dice = TwoPlayerVectorEnv(1, autoreset="same_step"), TwoPlayerEnv(), np.random.default_rng(4)
    assert many.possible_agents == many.agents == ["one", "two"] and many.unwrapped is many
    for agent in many.agents:
        assert many.observation_space(agent) is many.observation_space(agent) and many.action_space(
            agent
        ) is many.action_space(agent)
    observations, infos = many.reset(seed=5)
    rows, _ = one.reset(seed=5)
    for _ in range(300):
        assert all(
            np.array_equal(observations[it][0], rows[it]) and observations[it] in many.observation_space(it)
            for it in many.agents
        )
        assert many.state()[0].tobytes() == one.state().tobytes()
        actions = {it: some(many.action_masks(it), dice) for it in many.agents}
        observations, rewards, terminations, truncations, infos = many.step(actions)
        rows, reward, over, _, info = one.step({it: actions[it][0] for it in one.agents})
        assert {it: value[0] for it, value in rewards.items()} == reward and {
            it: value[0] for it, value in terminations.items()
        } == over
        assert not any(value.any() for value in truncations.values())
        if over["one"]:
            assert all(np.array_equal(infos[it]["final_obs"][0], rows[it]) for it in many.agents)
            rows, _ = one.reset()
    assert many.agents == ["one", "two"] and many.close() is None and many.closed


def test_teams_of_each_battle():
    tauros, jynx = Member("Tauros", ["Body Slam"]), Member("Jynx", ["Ice Beam", "Psychic"])

    def team(dice):
        return [tauros, jynx][:: int(dice.choice([-1, 1]))]

    env, again, dice = VectorEnv(16, team, [tauros]), VectorEnv(16, team, [tauros]), np.random.default_rng(1)
    env.reset(seed=1), again.reset(seed=1)
    first = [env.player(at).own.active.species.label for at in range(16)]
    assert set(first) == {"Tauros", "Jynx"}
    for _ in range(60):
        actions = some(env.action_masks(), dice)
        assert np.array_equal(env.step(actions)[0], again.step(actions)[0])
    assert [env.player(at).own.members[0].species.label for at in range(16)] != first
    env = VectorEnv(4, [tauros], [tauros])
    env.reset(seed=1, options={"two": [jynx]})
    assert env.player(0).foe.active.species.label == "Jynx"
    env.reset()
    assert all(env.player(at).foe.active.species.label == "Tauros" for at in range(4))


def test_greedy_beats_random():
    """It wins more than four of five of its battles, with the default teams."""
    env, dice, rewards = VectorEnv(200, opponent="greedy", autoreset="same_step"), np.random.default_rng(3), []
    _, infos = env.reset(seed=3)
    for _ in range(150):
        _, reward, _, _, infos = env.step(some(infos["action_mask"], dice))
        rewards += reward[reward != 0].tolist()
    assert len(rewards) > 300 and rewards.count(-1) > 0.8 * len(rewards)


def test_what_greedy_estimates():
    """Twice the power is twice the worth; the user's type gives half more, and the chart its factors, also those of both types."""
    chart = {"Blizzard": 4.0, "Thunderbolt": 0.0, "Strength": 1.0, "Earthquake": 1.0}
    team, foe = [Member("Rhydon", list(chart))], [Member("Dragonite", ["Surf"])]
    array = PlayerArray(2, team, foe)
    found = dict(zip(chart, worths(array, 1)[0, 0]))
    physical, special = 358 / (95 + 50), 188 / (100 + 50)
    assert found["Strength"] == pytest.approx(80 * physical) and found["Earthquake"] == 0
    assert found["Blizzard"] == pytest.approx(120 * 0.9 * 4 * special)
    assert found["Thunderbolt"] == pytest.approx(95 * special * 2 * 0.5)
    assert (worths(array, 1)[:, 1:] == 0).all()


@pytest.mark.parametrize("made", [VectorEnv, TwoPlayerVectorEnv])
def test_arguments_that_are_wrong(made):
    for call, kind in (
        (lambda: made(0), BadArgument),
        (lambda: made(None), BadType),
        (lambda: made(2, []), BadTeam),
        (lambda: made(2, limit=0), BadArgument),
        (lambda: made(2, autoreset="never"), BadArgument),
        (lambda: made(2, autoreset=None), BadArgument),
        (lambda: made(2, observations="all"), BadType),
        (lambda: made(2, threads=0), BadArgument),
        (lambda: made(2).reset(seed=-1), BadArgument),
        (lambda: made(2).reset(seed=[1]), BadArgument),
        (lambda: made(2).reset(seed="ab"), BadType),
        (lambda: made(2).reset(options=[]), BadType),
        (lambda: made(2).reset(options={"two": []}), BadTeam),
        (lambda: made(2).reset(options={"reset_mask": np.ones(3, bool)}), BadArgument),
        (lambda: made(2).reset(options={"reset_mask": np.zeros(2, bool)}), BadArgument),
        (lambda: made(2).reset(options={"reset_mask": [True, True]}), BadArgument),
    ):
        with pytest.raises(kind):
            call()


def test_actions_that_are_wrong():
    env = VectorEnv(3)
    with pytest.raises(ResetNeeded, match=r"^call reset\(\) before step\(\)"):
        env.step([2, 2, 2])
    with pytest.raises(ResetNeeded):
        TwoPlayerVectorEnv(2).step({"one": [2, 2], "two": [2, 2]})
    env.reset(seed=1)
    before = env.battles
    for actions, kind in (
        ([2, 2], BadArgument),
        ([2, 2, 12], BadArgument),
        ([2, -1, 2], BadArgument),
        ([2.0, 2, 2], BadType),
        (None, BadType),
        ([[2], [2, 2], 2], BadType),
        ([2, 1, 2], Refused),
    ):
        with pytest.raises(kind):
            env.step(actions)
        assert env.battles == before
    with pytest.raises(
        Refused, match="^battle 1: side 1's choice is not offered: move 0; it can choose move 1, "
    ) as fault:
        env.step([2, 1, 2])
    assert fault.value.choice == CHOICES[1]
    two = TwoPlayerVectorEnv(2)
    two.reset()
    for actions, kind in (
        ({}, BadArgument),
        (None, BadType),
        ({"one": [2, 2], "two": [2]}, BadArgument),
        ({"one": [2, 2], "two": [1, 2]}, Refused),
    ):
        with pytest.raises(kind):
            two.step(actions)
    with pytest.raises(BadArgument):
        two.action_masks("three")


def test_modes():
    for it in AutoresetMode:
        assert mode_of(it) is mode_of(it.value) is mode_of(it.name) is mode_of(it.name.lower()) is it


def test_copies_go_on_alike():
    env = VectorEnv(5, opponent="greedy")
    env.reset(seed=6)
    copied, actions = copy.deepcopy(env), some(env.action_masks(), np.random.default_rng(1))
    assert np.array_equal(env.step(actions)[0], copied.step(actions)[0]) and env.battles == copied.battles
    env.step(some(env.action_masks(), np.random.default_rng(1)))
    assert env.battles != copied.battles


def test_gymnasiums_own_wrappers():
    """If it is installed: the class is one of its vector environments, and its wrappers take it."""
    gymnasium = pytest.importorskip("gymnasium")
    env = VectorEnv(4)
    assert isinstance(env, gymnasium.vector.VectorEnv)
    wrapped = gymnasium.wrappers.vector.RecordEpisodeStatistics(env)
    _, infos = wrapped.reset(seed=1)
    for _ in range(200):
        *_, infos = wrapped.step(some(infos["action_mask"], np.random.default_rng(1)))
