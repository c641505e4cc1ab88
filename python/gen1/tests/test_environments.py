"""The environments by the rules of Gymnasium's and PettingZoo's published checkers, which are not needed here."""

import copy
import sys
import types

import pytest

np = pytest.importorskip("numpy")

from gen1 import (  # noqa: E402
    BadArgument,
    BadTeam,
    BadType,
    Battle,
    BattleEnv,
    Encoding,
    Host,
    Member,
    Player,
    Refused,
    ResetNeeded,
    Side,
    TwoPlayerEnv,
)
from gen1.arrays import CHOICES  # noqa: E402
from gen1.encodings import COLUMNS  # noqa: E402
from gen1.environments import DEFAULT_TEAM  # noqa: E402
from gen1.spaces import AutoresetMode, Box, Discrete, MultiDiscrete  # noqa: E402


def played(env, seed, dice):
    """Everything that an episode with random choices returns."""
    told = [env.reset(seed=seed)]
    while True:
        action = dice.choice(np.flatnonzero(env.action_masks()))
        told.append(env.step(int(action)))
        if told[-1][2] or told[-1][3]:
            return told


def same(one, two):
    """Whether two returned values are the same, including arrays."""
    if isinstance(one, np.ndarray):
        return np.array_equal(one, two)
    if isinstance(one, (tuple, list)):
        return len(one) == len(two) and all(map(same, one, two))
    if isinstance(one, dict):
        return one.keys() == two.keys() and all(same(it, two[key]) for key, it in one.items())
    return one == two


# What gymnasium.utils.env_checker.check_env asks.


def test_reset_by_the_checker():
    env = BattleEnv()
    observation, info = env.reset(seed=123)
    assert env.observation_space.contains(observation) and isinstance(info, dict)
    again, _ = env.reset(seed=123)
    assert np.array_equal(observation, again) and again is not observation
    assert env.reset(seed=124) and env.reset() and env.reset(options={}) and env.reset(seed=1, options=None)
    first, second = env.reset()[0], env.reset()[0]
    assert env.observation_space.contains(first) and env.observation_space.contains(second)
    one, two = BattleEnv(), BattleEnv()
    one.reset(seed=5), two.reset(seed=6)
    assert one.battle != two.battle
    one.reset(), two.reset(seed=5)
    assert one.battle != two.battle


def test_spaces_by_the_checker():
    env = BattleEnv()
    box, discrete = env.observation_space, env.action_space
    assert (
        box.shape == (len(COLUMNS),)
        and box.dtype == np.float32
        and (box.low <= box.high).all()
        and np.isfinite(box.low).all()
    )
    assert discrete.n == 12 and discrete.start == 0
    assert box.contains(box.sample()) and discrete.contains(discrete.sample())
    assert env.render_mode is None and "ansi" in env.metadata["render_modes"]


def test_steps_by_the_checker():
    """Five values of their types; episodes with one seed and the same actions are the same; each observation is in the space."""
    env = BattleEnv()
    told = played(env, 7, np.random.default_rng(1))
    assert same(told, played(BattleEnv(), 7, np.random.default_rng(1)))
    for observation, reward, over, cut, info in told[1:]:
        assert env.observation_space.contains(observation) and isinstance(reward, float) and np.isfinite(reward)
        assert isinstance(over, bool) and cut is False and info["action_mask"].shape == (12,)
        assert reward in (-1.0, 0.0, 1.0) and (reward == 0 or over)
    assert not told[-1][4]["action_mask"].any() and env.close() is None
    with pytest.raises(Refused, match="^the battle is over: "):
        env.step(1)


def test_masks_are_what_the_battle_offers():
    env, dice = BattleEnv(), np.random.default_rng(3)
    for seed in range(5):
        env.reset(seed=seed)
        over = False
        while not over:
            mask = env.action_masks()
            assert mask.dtype == bool and mask.sum() == len(env.battle.choices(Side.ONE)) > 0
            before = env.battle
            for action in np.flatnonzero(~mask)[:2]:
                with pytest.raises(Refused):
                    env.step(int(action))
                assert env.battle == before
            _, _, over, _, info = env.step(dice.choice(np.flatnonzero(mask)))
            assert np.array_equal(info["action_mask"], env.action_masks())


@pytest.mark.parametrize("action", [-1, 12, 255, None, "1", 1.0, True, [1], np.array([1])])
def test_actions_that_are_wrong(action):
    env = BattleEnv()
    env.reset(seed=1)
    before = env.battle
    with pytest.raises((BadArgument, BadType)):
        env.step(action)
    assert env.battle == before
    assert env.step(np.int64(2)) and env.reset(seed=1) and env.step(np.array(2))


def test_other_arguments():
    for wrong, kind in (
        (lambda: BattleEnv(opponent=5), BadType),
        (lambda: BattleEnv(opponent="best"), BadArgument),
        (lambda: BattleEnv(observations="battle"), BadType),
        (lambda: BattleEnv(render_mode="human"), BadArgument),
        (lambda: TwoPlayerEnv(render_mode="human"), BadArgument),
        (lambda: BattleEnv([]), BadArgument),
        (lambda: BattleEnv(limit=0), BadArgument),
        (lambda: BattleEnv().reset(seed=-1), BadArgument),
        (lambda: BattleEnv().reset(seed="1"), BadType),
        (lambda: BattleEnv().reset(options=5), BadType),
        (lambda: BattleEnv().reset(options=[]), BadType),
        (lambda: BattleEnv().reset(options={"two": None}), BadType),
        (lambda: TwoPlayerEnv().reset(options=5), BadType),
        (lambda: TwoPlayerEnv().step(None), BadType),
        (lambda: TwoPlayerEnv().action_masks("three"), BadArgument),
        (lambda: TwoPlayerEnv().action_space("three"), BadArgument),
        (lambda: TwoPlayerEnv().observation_space(None), BadArgument),
    ):
        with pytest.raises(kind):
            wrong()
    for two in ([], [5], 5):
        for made in (BattleEnv, TwoPlayerEnv):
            with pytest.raises((BadArgument, BadType), match="^side 2"):
                made(DEFAULT_TEAM, two)
            with pytest.raises((BadArgument, BadType), match="^side 2"):
                made().reset(options={"two": two})
    tauros = Member("Tauros", ["Body Slam"])
    env = BattleEnv(render_mode="ansi")
    env.reset(seed=1, options={"one": [tauros]})
    assert len(env.battle.choices(1)) == 1 and env.render().startswith("turn 1: Tauros 353/353 - ")
    assert BattleEnv().render() is None
    # Keys that wrappers and checkers add are ignored.
    assert same(env.reset(seed=1, options={"options": 1}), BattleEnv().reset(seed=1))


def test_a_reset_that_is_refused_changes_nothing():
    """The rest of the episode, and the next battle, are the same as without the wrong call."""
    for wrong in ({"seed": -1}, {"seed": "1"}, {"seed": 3, "options": 5}, {"seed": 3, "options": {"two": []}}):
        env, other, dice = BattleEnv(), BattleEnv(), np.random.default_rng(6)
        assert same(env.reset(seed=8), other.reset(seed=8))
        with pytest.raises((BadArgument, BadType)):
            env.reset(**wrong)
        for _ in range(3):
            action = int(dice.choice(np.flatnonzero(env.action_masks())))
            assert same(env.step(action), other.step(action))
        assert same(env.reset(), other.reset())


def first_offered(observations, masks):
    return masks.argmax(1)


def test_a_refused_action_is_refused_before_the_opponent_is_asked():
    """It draws nothing, so the rest of the episode is the same as without it."""
    asked = []

    def policy(observations, masks):
        asked.append((observations.shape, masks.shape))
        return first_offered(observations, masks)

    env, other = BattleEnv(opponent=policy), BattleEnv(opponent=first_offered)
    env.reset(seed=9), other.reset(seed=9)
    for action in (0, 1, 6):
        with pytest.raises(Refused) as fault:
            env.step(action)
        assert (fault.value.side, fault.value.choice) == (1, CHOICES[action])
    assert asked == [] and same(env.step(2), other.step(2)) and asked == [((1, len(COLUMNS)), (1, 12))]


@pytest.mark.parametrize(
    "answer, kind, said",
    [
        ([6], Refused, "^side 2's choice is not offered: switch 1"),
        ([12], BadArgument, "the opponent's actions.0. must be 0 to 11, not 12"),
        ([1, 1], BadArgument, "must be .1,. numbers"),
        ([1.0], BadType, "must be whole numbers"),
        ([[1], [1, 2]], BadType, "the opponent's actions must be"),
    ],
)
def test_an_opponent_whose_answer_is_refused(answer, kind, said):
    env = BattleEnv(opponent=lambda observations, masks: answer)
    env.reset(seed=1)
    before = env.battle
    with pytest.raises(kind, match=said):
        env.step(2)
    assert env.battle == before


def test_an_opponent_sees_what_its_player_knows():
    """Its row is that of the player of side 2, and its mask has the player's choices."""
    seen = []

    def policy(observations, masks):
        seen.append((observations[0].copy(), [int(it) for it in CHOICES[masks[0]]], env.player(2)))
        return first_offered(observations, masks)

    env, dice = BattleEnv(opponent=policy), np.random.default_rng(2)
    played(env, 2, dice)
    assert len(seen) > 5
    for row, choices, player in seen:
        assert np.array_equal(row, Encoding().row(player)) and choices == [int(it) for it in player.choices]


@pytest.mark.parametrize("env", [BattleEnv(), TwoPlayerEnv()])
def test_before_the_first_reset(env):
    """A step is refused, and so are masks; it says what to do."""
    for call in (
        lambda: env.step({"one": 2, "two": 2} if isinstance(env, TwoPlayerEnv) else 2),
        lambda: env.action_masks(*env_agent(env)),
    ):
        with pytest.raises(ResetNeeded, match=r"^call reset\(\) before step\(\)"):
            call()
    env.reset(seed=1)
    assert env.action_masks(*env_agent(env)).any()


def env_agent(env):
    return ["one"] if isinstance(env, TwoPlayerEnv) else []


def test_teams_of_each_battle():
    """A function of the generator gives the team of each new battle; the same seed gives the same teams."""
    tauros, jynx = Member("Tauros", ["Body Slam"]), Member("Jynx", ["Ice Beam", "Psychic"])

    def team(dice):
        return [tauros, jynx][:: int(dice.choice([-1, 1]))]

    env, other = BattleEnv(team, [tauros]), BattleEnv(team, [tauros])
    firsts = []
    for seed in range(20):
        assert same(env.reset(seed=seed), other.reset(seed=seed))
        firsts.append(env.player().own.active.species.label)
    assert set(firsts) == {"Tauros", "Jynx"} and env.player().foe.active.species.label == "Tauros"
    env.reset(seed=1, options={"one": [jynx]})
    assert len(env.player().own.members) == 1
    env.reset()
    assert len(env.player().own.members) == 2
    with pytest.raises(BadTeam):
        BattleEnv(lambda dice: []).reset()


def test_copies_go_on_alike():
    env = BattleEnv(opponent="greedy")
    env.reset(seed=4)
    copied = copy.deepcopy(env)
    assert same(env.step(2), copied.step(2)) and env.battle == copied.battle
    env.step(int(env.action_masks().argmax()))
    assert env.battle != copied.battle


# What pettingzoo.test.parallel_api_test asks.


def test_two_players_by_the_checker():
    env, dice = TwoPlayerEnv(), np.random.default_rng(4)
    assert env.agents == [] and env.possible_agents == ["one", "two"] and env.unwrapped is env
    for agent in env.possible_agents:
        assert env.observation_space(agent) is env.observation_space(agent) and env.action_space(
            agent
        ) is env.action_space(agent)
    for seed in range(8):
        observations, infos = env.reset(seed=seed)
        assert set(env.agents) == set(observations) == set(infos) == set(env.possible_agents)
        while env.agents:
            acting = list(env.agents)
            actions = {it: int(dice.choice(np.flatnonzero(env.action_masks(it)))) for it in acting}
            observations, rewards, terminations, truncations, infos = env.step(actions)
            for told in (observations, rewards, terminations, truncations, infos):
                assert set(told) == set(acting)
            for agent in acting:
                assert env.observation_space(agent).contains(observations[agent])
                assert isinstance(terminations[agent], bool) and truncations[agent] is False
            assert set(env.agents) == {it for it in acting if not terminations[it]}
            assert sum(rewards.values()) == 0
        assert env.step({}) == ({}, {}, {}, {}, {}) and env.state().shape == (384,)


def test_two_players_come_out_the_same():
    def told(seed):
        env, dice = TwoPlayerEnv(), np.random.default_rng(5)
        found = [env.reset(seed=seed)]
        while env.agents:
            found.append(env.step({it: int(dice.choice(np.flatnonzero(env.action_masks(it)))) for it in env.agents}))
        return found

    assert same(told(3), told(3)) and not same(told(3), told(4))


def test_two_players_see_what_a_host_sends():
    """The rows and masks of each step are those of players that receive the messages of a host."""
    env, dice = TwoPlayerEnv(), np.random.default_rng(9)
    for seed in range(10):
        observations, _ = env.reset(seed=seed)
        numbers = np.random.default_rng(seed).integers(0, 256, (1, 10), np.uint8).tobytes()
        host = Host(Battle(DEFAULT_TEAM, DEFAULT_TEAM, numbers))
        players = [Player(side, DEFAULT_TEAM, len(DEFAULT_TEAM)) for side in Side]
        while True:
            assert host.battle == env.battle
            for agent, player in zip(env.possible_agents, players):
                player.receive(host.message(player.side))
                assert np.array_equal(observations[agent], Encoding().row(player))
                offered = [CHOICES[at] for at in np.flatnonzero(env.action_masks(agent))]
                assert offered == [int(it) for it in host.message(player.side).choices]
            if not env.agents:
                break
            actions = {it: int(dice.choice(np.flatnonzero(env.action_masks(it)))) for it in env.agents}
            number, awaited = host.number, [side for side in Side if host.awaits(side)]
            for side in awaited:
                host.submit(side, number, int(CHOICES[actions[env.agents[side - 1]]]), None)
            observations = env.step(actions)[0]
        assert host.is_closed


def test_actions_of_two_players_that_are_wrong():
    env = TwoPlayerEnv(render_mode="ansi")
    env.reset(seed=1)
    before = env.battle
    for actions in (
        {},
        {"one": 1},
        {"one": 1, "two": 1, "three": 1},
        {1: 1, "two": 1},
        {"one": 12, "two": 1},
        {"one": 1, "two": -1},
    ):
        with pytest.raises(BadArgument):
            env.step(actions)
        assert env.battle == before
    with pytest.raises(Refused):
        env.step({"one": 0, "two": 1})
    assert env.battle == before and env.render().startswith("turn 1: ")


def test_our_spaces():
    discrete, box = Discrete(3), Box(-1, 1, (2,))
    discrete.seed(1), box.seed(1)
    assert {int(discrete.sample()) for _ in range(100)} == {0, 1, 2}
    assert {int(discrete.sample(np.array([0, 1, 1], np.int8))) for _ in range(100)} == {1, 2}
    assert discrete.sample(np.zeros(3, np.int8)) == 0
    assert (
        2 in discrete and np.int64(2) in discrete and 3 not in discrete and True not in discrete and 1.0 not in discrete
    )
    assert (
        np.zeros(2, np.float32) in box and np.full(2, 2, np.float32) not in box and np.zeros(3, np.float32) not in box
    )
    assert [0, 0] not in box and np.full(2, np.nan, np.float32) not in box
    assert (
        discrete == Discrete(3) != Discrete(4)
        and box == Box(-1, 1, (2,))
        and "Box" in repr(box)
        and "3" in repr(discrete)
    )
    many = MultiDiscrete([2, 3])
    many.seed(1)
    assert many.shape == (2,) and all(many.sample() in many for _ in range(20)) and np.array([1, 3]) not in many
    assert (
        np.array([1.0, 2.0]) not in many
        and [1, 2] not in many
        and many == MultiDiscrete([2, 3]) != MultiDiscrete([3, 2])
    )
    assert many.sample((np.array([0, 1]), np.array([0, 0, 0]))).tolist() == [1, 0] and "MultiDiscrete" in repr(many)
    for other in (Box(-2, 1, (2,)), Box(-1, 2, (2,)), Box(-1, 1, (3,)), Box(-1, 1, (2,), np.float64), discrete):
        assert box != other


def test_with_gymnasium_its_spaces_are_taken(monkeypatch):
    """A module with its name, and the attributes that are used."""
    from importlib.machinery import ModuleSpec

    from gen1 import spaces

    class Env:
        def reset(self, *, seed=None):
            self.seeded = seed

    fake = types.ModuleType("gymnasium")
    fake.__spec__ = ModuleSpec("gymnasium", None)
    fake.spaces, fake.Env = types.SimpleNamespace(Discrete=Discrete, Box=Box, MultiDiscrete=MultiDiscrete), Env
    fake.vector = types.SimpleNamespace(VectorEnv=Env)
    monkeypatch.setitem(sys.modules, "gymnasium", fake)
    assert spaces.made() == (Discrete, Box, Env) and spaces.made_for_vectors() == (MultiDiscrete, Env, AutoresetMode)


def test_actions_that_are_not_offered_are_replaced():
    """With `invalid="random"` an episode takes any action, is repeated by its seed, and each offered action comes up."""
    env, chosen = BattleEnv(invalid="random"), set()
    for episode in range(2):
        env.reset(seed=7)
        told = [env.step(0) for _ in range(10)]
        if episode:
            assert same(told, first)
        first = told
    for seed in range(150):
        env.reset(seed=seed)
        env.step(0)
        chosen.add(env.battle.state.one.active.picked_move if env.battle.state.one.active.place == 1 else -1)
    # The first of six members has four moves, and can be switched; none is left out in 150 draws but with a chance below 1e-6.
    assert chosen >= {-1, 1, 2, 3, 4}
    pair = TwoPlayerEnv(invalid="random")
    pair.reset(seed=1)
    assert pair.step({"one": 0, "two": 11})[0].keys() == {"one", "two"}
    for invalid in ("mask", None, True):
        with pytest.raises(BadArgument, match="invalid must be 'refuse' or 'random'"):
            BattleEnv(invalid=invalid)
    with pytest.raises(BadArgument):
        env.step(12)


def test_with_pettingzoo_its_base_class_is_taken(monkeypatch):
    from importlib.machinery import ModuleSpec

    from gen1 import spaces

    fake = types.ModuleType("pettingzoo")
    fake.__spec__, fake.ParallelEnv = ModuleSpec("pettingzoo", None), type("ParallelEnv", (), {})
    assert spaces.made_for_pairs() is object or "pettingzoo" in sys.modules
    monkeypatch.setitem(sys.modules, "pettingzoo", fake)
    assert spaces.made_for_pairs() is fake.ParallelEnv


def test_the_registered_id(monkeypatch):
    """Gymnasium finds the function by the entry point, and is passed classes that exist."""
    from importlib import import_module

    from gen1.environments import register

    known = {}
    fake = types.ModuleType("gymnasium.envs.registration")
    fake.register = lambda id, **places: known.update({id: places})
    for name in ("gymnasium", "gymnasium.envs"):
        monkeypatch.setitem(sys.modules, name, types.ModuleType(name))
    monkeypatch.setitem(sys.modules, "gymnasium.envs.registration", fake)
    register()
    assert list(known) == ["gen1/Battle-v1"]
    names = [place.partition(":")[::2] for place in known["gen1/Battle-v1"].values()]
    assert [getattr(import_module(module), name).__name__ for module, name in names] == ["BattleEnv", "VectorEnv"]


# The published checkers, if they are installed. They ignore masks.


def test_gymnasiums_own_checker():
    checker = pytest.importorskip("gymnasium.utils.env_checker")
    checker.check_env(BattleEnv(invalid="random"), skip_render_check=True)


def test_pettingzoos_own_checker():
    pytest.importorskip("pettingzoo")
    from pettingzoo.test import parallel_api_test

    parallel_api_test(TwoPlayerEnv(invalid="random"), num_cycles=300)
