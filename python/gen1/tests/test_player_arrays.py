"""Arrays of battles with their players against single battles, tellers and players; the columns of their rows; and threads."""

import copy
import pickle
import random
import subprocess
import sys
from types import SimpleNamespace

import pytest
from conftest import random_team

np = pytest.importorskip("numpy")

from gen1 import (  # noqa: E402
    BadArgument,
    BadTeam,
    BadType,
    Battle,
    BattleArray,
    Choice,
    Conditions,
    LibraryMissing,
    Player,
    Request,
    Side,
    Teller,
    _library,
)
from gen1 import encodings as encoded  # noqa: E402
from gen1.arrays import COUNTS, nth_choices  # noqa: E402
from gen1.encodings import COLUMNS, VERSION, Encoding  # noqa: E402
from gen1.player_arrays import PlayerArray, start_of  # noqa: E402

ENCODINGS = [Encoding(dtype, one_hot) for dtype in ("float32", "uint8") for one_hot in (False, True)]


def seeds(n, seed):
    return np.random.default_rng(seed).integers(0, 256, (n, 10), np.uint8)


def at_random(array, dice):
    """A random choice of each side in each battle."""
    masks = [array.masks(side) for side in (1, 2)]
    return [nth_choices(it, (dice.random(len(it)) * COUNTS[it]).astype(np.int64)) for it in masks]


class Hosted:
    """A battle as its host keeps it: with a teller and a player of each side."""

    def __init__(self, teams, seed, pixels):
        self.battle = Battle(*teams, seed, limit=40)
        self.tellers = [Teller(side, pixels) for side in Side]
        self.players = [Player(side, teams[side - 1], len(teams[2 - side])) for side in Side]
        self.update(Choice.PASS, Choice.PASS)

    def update(self, one, two):
        log = self.battle.update(one, two).log
        for teller, player in zip(self.tellers, self.players):
            teller.report(self.battle, log, player)


@pytest.mark.parametrize("pixels", [False, True])
def test_it_knows_what_single_players_know(pixels):
    """After each update, in random battles of random teams, begun at each place of the array."""
    dice, n = random.Random(31), 12
    array = PlayerArray(n, random_team(dice), random_team(dice), limit=40, pixels=pixels)
    hosted = []
    for at in range(n):
        teams, seed = (random_team(dice), random_team(dice)), dice.randbytes(10)
        array.begin(at, *teams, seed)
        hosted.append(Hosted(teams, seed, pixels))
    for _ in range(60):
        for at, it in enumerate(hosted):
            assert array.battles[at] == it.battle
            assert [array.player(at, side) for side in Side] == it.players
        ones, twos = at_random(array, np.random.default_rng(dice.getrandbits(32)))
        over = array.over
        array.step(ones, twos)
        assert ((array.codes != 0) == over).all()
        for at, it in enumerate(hosted):
            if not over[at]:
                it.update(int(ones[at]), int(twos[at]))
    assert array.over.any()
    array.reset()
    assert array.over.sum() == 0 and all(array.player(at, 1).turn == 1 for at in range(n))


OWN = (
    "members",
    "place",
    "stages",
    "stats",
    "types",
    "conditions",
    "disabled_slot",
    "held",
    "request",
    "turn",
    "outcome",
)


def noted(player):
    """What a player knows, with each part made once."""
    own, public = player.own, {side: player.public(side) for side in Side}
    return SimpleNamespace(
        side=player.side,
        own=SimpleNamespace(**{name: getattr(own, name) for name in OWN}),
        foe=public[player.side.foe],
        public=public.get,
        choices=player.choices,
        foes=player.foes,
    )


def flag(name, player):
    """The flags that the test of the columns reads from the dataclasses."""
    own, foe = player.own, player.foe
    if name.startswith("offered "):
        return {it.label: it for it in Choice}[name.removeprefix("offered ")] in player.choices
    asked = {"asked to move": Request.MOVE, "asked to switch": Request.SWITCH}
    if name in asked:
        return own.request is asked[name]
    if name in ("won", "lost", "tied"):
        return int(own.outcome) == {"won": player.side, "lost": player.side.foe, "tied": 3}[name]
    if name == "own held":
        return own.held
    kind, of = name.split(" ", 1)
    return bool(own.conditions & Conditions[of.upper()]) if kind == "own" else getattr(foe.announced, of)


def of_member(name, player):
    """The column of a member: its value as a number, and what that is divided by."""
    kind, place, of = name.split(" ", 2)
    own, place = kind == "own", int(place)
    members = player.own.members if own else player.foe.members
    if of == "is out":
        return float((player.own.place if own else player.foe.place) == place), 1
    if place > len(members):
        return 0, 1
    member = members[place - 1]
    uses = (player.public(player.side) if own else player.foe).members[place - 1].moves
    if of.startswith("seen move "):
        at, *more = of.removeprefix("seen move ").split(" ", 1)
        if int(at) > len(uses):
            return 0, 1
        return (min(uses[int(at) - 1].uses, 64), 64) if more else (uses[int(at) - 1].move, 1)
    for word, values, by in (("move ", getattr(member, "moves", ()), 1), ("pp ", getattr(member, "pp", ()), 63)):
        if own and of.startswith(word):
            at = int(of.removeprefix(word).split(" ")[0])
            return (values[at - 1], by) if at <= len(values) else (0, 1)
    word, _, by = of.partition(" / ")
    if word in encoded.STATS:
        return member.stats[encoded.STATS.index(word)], 999
    return int(getattr(member, word)), member.max_hp if word == "hp" else int(by or 1)


def expected(name, player):
    """The value of a column for float32, from the dataclasses of a player."""
    own, foe = player.own, player.foe
    if name.split(" ")[1:2] and name.split(" ")[1].isdigit():
        value, by = of_member(name, player)
        return value / by
    of, _, _ = name.partition(" / ")
    kind, _, word = of.partition(" ")
    public = {"own": player.public(player.side), "foe": foe}.get(kind)
    if word.endswith(" stage"):
        return (own if kind == "own" else foe).stages[encoded.STAGES.index(word.removesuffix(" stage"))] / 6
    if word.startswith("current "):
        return own.stats[encoded.STATS.index(word.removeprefix("current "))] / 999
    if word.startswith("type "):
        return (own if kind == "own" else foe).types[int(word[-1]) - 1]
    if word == "last move":
        return public.last_move or 0
    numbers = {"own disabled slot": own.disabled_slot, "turn": own.turn / 1000, "foes": (player.foes or 0) / 6}
    return numbers[of] if of in numbers else float(flag(of, player))


def midway(seed, count=80, **more):
    """An array of random battles at some update."""
    dice = random.Random(seed)
    array = PlayerArray(count, random_team(dice), random_team(dice), limit=40, **more)
    for at in range(count):
        array.begin(at, random_team(dice), random_team(dice), dice.randbytes(10))
    rolls, left = np.random.default_rng(seed), np.array([dice.randrange(45) for _ in range(count)])
    for turn in range(45):
        ones, twos = at_random(array, rolls)
        array.step(np.where(turn < left, ones, 255), np.where(turn < left, twos, 255))
    return array


def as_byte(column, value, player):
    """The value of a column for uint8, by its documentation."""
    if column.name.endswith(" stage / 6"):
        return round(6 * value) + 6
    if column.name.endswith(" hp / max_hp"):
        return -int(-255 * of_member(column.name, player)[0] // of_member(column.name, player)[1])
    if column.name.endswith("/ 999"):
        return round(999 * value) // 4
    if column.name == "turn / 1000":
        return min(255, round(1000 * value))
    by = column.name.partition(" / ")[2]
    return round(value * int(by or 1))


def telling(pixels):
    """Players of random battles: for each column one in which it first was not 0; and which columns were 0 in all."""
    dice, rolls, count = random.Random(32), np.random.default_rng(32), 400
    array = PlayerArray(count, random_team(dice), random_team(dice), limit=60, pixels=pixels)
    for at in range(count):
        array.begin(at, random_team(dice), random_team(dice), dice.randbytes(10))
    players, met = [], np.zeros(len(COLUMNS), bool)
    while not array.over.all():
        for side in Side:
            hit = array.observe(side) != 0
            players += [array.player(int(at), side) for at in np.unique(hit[:, hit.any(0) & ~met].argmax(0))]
            met |= hit.any(0)
        array.step(*at_random(array, rolls))
    return players, {it.name for it, ever in zip(COLUMNS, met) if not ever}


@pytest.mark.parametrize("pixels", [False, True])
def test_each_column_is_what_the_player_knows(pixels):
    """All columns against the dataclasses of `Player`. In some player each is not 0, but those of a fifth move, which is Struggle."""
    players, never = telling(pixels)
    assert len(players) > 50 and {it.side for it in players} == set(Side)
    assert all(" seen move 5" in it or " seen move 4" in it for it in never)
    for player in players:
        known = noted(player)
        values = [float(expected(it.name, known)) for it in COLUMNS]
        assert Encoding().row(player) == pytest.approx(values, abs=1e-6)
        assert Encoding("uint8").row(player).tolist() == [
            as_byte(it, value, known) for it, value in zip(COLUMNS, values)
        ]


def test_a_row_is_that_of_its_player():
    array = midway(40, 20)
    for encoding in ENCODINGS:
        for side in Side:
            rows = array.observe(side, encoding)
            assert rows.shape == (20, encoding.width) and len(COLUMNS) == 336
            assert all((encoding.row(array.player(at, side)) == rows[at]).all() for at in range(20))


def test_one_hot_columns():
    """Each category has a 1 in the column of its option and 0 in its others; numbers are the same."""
    array = midway(33, 20)
    for dtype in ("float32", "uint8"):
        plain, hot = array.observe(1, Encoding(dtype)), array.observe(1, Encoding(dtype, True))
        names = [it.name for it in Encoding(dtype, True).columns]
        assert len(names) == len(set(names)) == hot.shape[1] == Encoding(one_hot=True).width
        for at, column in enumerate(COLUMNS):
            if not column.options:
                assert (hot[:, names.index(column.name)] == plain[:, at]).all()
                continue
            first = names.index(f"{column.name} = 0")
            block = hot[:, first : first + column.options]
            assert (block.sum(1) == 1).all() and (block.argmax(1) == plain[:, at]).all()


def test_the_columns_are_those_of_the_version():
    """Who changes a column raises `VERSION` and puts the new sum here."""
    import hashlib

    told = "\n".join(f"{it.name} {it.options} {it.low} {it.high} {it.top}" for it in COLUMNS)
    assert (VERSION, hashlib.sha256(told.encode()).hexdigest()[:16]) == (1, "2747dbe088f359f7")
    assert len({it.name for it in COLUMNS}) == len(COLUMNS) and all(it.says for it in COLUMNS)
    lines = encoded.described().splitlines()
    assert len(lines) == 1 + len(COLUMNS) and all(
        it.name in line and it.says in line for it, line in zip(COLUMNS, lines[1:])
    )


def test_rows_are_within_their_bounds():
    array = midway(34)
    for encoding in ENCODINGS:
        low, high = encoding.bounds
        for side in Side:
            rows = array.observe(side, encoding)
            assert (
                rows.dtype == low.dtype == high.dtype == encoding.dtype and (rows >= low).all() and (rows <= high).all()
            )
            out = np.ones_like(rows)
            assert array.observe(side, encoding, out) is out and (out == rows).all()


def test_what_a_side_may_not_know_changes_no_row():
    """Numbers to be drawn, and moves, DVs and PP of the foe, until they are shown."""
    dice = random.Random(35)
    one, two = random_team(dice), random_team(dice)
    changed = [
        type(it)(it.species, [164 if 164 not in map(int, it.moves) else 33], it.level, dvs=it.dvs, exp=it.exp)
        for it in two
    ]
    rows = [
        PlayerArray(3, one, foes, seeds(3, seed)).observe(1, encoding)
        for foes, seed in ((two, 1), (two, 2), (changed, 1))
        for encoding in (Encoding(),)
    ]
    assert (rows[0] == rows[1]).all() and (rows[0] == rows[2]).all()


def test_the_first_update_draws_nothing():
    """So battles can be reseeded after it."""
    dice = random.Random(36)
    for _ in range(50):
        teams, seed = (random_team(dice), random_team(dice)), dice.randbytes(10)
        start = start_of(*teams, 3, 100).battle
        start.reseed(seed)
        battle = Battle(*teams, seed, 3, 100)
        battle.update(0, 0)
        assert battle == start


@pytest.mark.parametrize("threads", [2, 3, 8])
def test_threads_change_nothing(threads, battle):
    """Steps, masks, players and rows are those of one thread."""
    n, team = 2500, random_team(random.Random(37))
    alone, apart = (BattleArray(n, battle, seeds(n, 1), threads=it) for it in (1, threads))
    assert (
        apart.threads
        == apart.copy().threads
        == pickle.loads(pickle.dumps(apart)).threads
        == apart.take([0]).threads
        == threads
    )
    players = [PlayerArray(n, team, team, seeds(n, 2), threads=it) for it in (1, threads)]
    dice = [np.random.default_rng(3) for _ in range(2)]
    for _ in range(40):
        drawn = [it.random_step(of, reset=True) for it, of in zip((alone, apart), dice)]
        assert (
            (np.array(drawn[0]) == np.array(drawn[1])).all() and alone == apart and (alone.codes == apart.codes).all()
        )
        assert (alone.masks() == apart.masks()).all()
        ones, twos = at_random(players[0], dice[0])
        at_random(players[1], dice[1])
        assert (players[0].step(ones, twos) == players[1].step(ones, twos)).all()
        for side in Side:
            assert (players[0].known(side) == players[1].known(side)).all()
            assert (players[0].observe(side) == players[1].observe(side)).all()


def test_threads_of_a_forked_process():
    """A child has none of its parent's threads, and makes its own."""
    script = (
        "import os, numpy as np; from gen1 import *; t = Member('Tauros', ['Body Slam']); b = Battle([t], [t], range(10))\n"
        "b.update(0, 0); a = BattleArray(2048, b, threads=4); a.random_step(np.random.default_rng(1)); child = os.fork()\n"
        "a.random_step(np.random.default_rng(2))\n"
        "if child: assert os.waitpid(child, 0)[1] == 0\n"
    )
    assert subprocess.run([sys.executable, "-W", "ignore", "-c", script], timeout=60).returncode == 0


def test_arguments_that_are_wrong(battle):
    team = random_team(random.Random(38))
    array = PlayerArray(3, team, team)
    before = array.battles
    for call, kind in (
        (lambda: PlayerArray(0, team, team), BadArgument),
        (lambda: PlayerArray("3", team, team), BadType),
        (lambda: PlayerArray(3, [], team), BadTeam),
        (lambda: PlayerArray(3, team, team, limit=0), BadArgument),
        (lambda: PlayerArray(3, team, team, pixels=1), BadType),
        (lambda: PlayerArray(3, team, team, seeds(4, 1)), BadArgument),
        (lambda: PlayerArray(3, team, team, threads=0), BadArgument),
        (lambda: BattleArray(3, battle, threads=257), BadArgument),
        (lambda: BattleArray(3, battle, threads=None), BadType),
        (lambda: BattleArray.of([battle], threads=0), BadArgument),
        (lambda: array.step([0] * 2, [0] * 3), BadArgument),
        (lambda: array.step([0] * 3, [256] * 3), BadArgument),
        (lambda: array.step([0.0] * 3, [0] * 3), BadType),
        (lambda: array.masks(3), BadArgument),
        (lambda: array.known(0), BadArgument),
        (lambda: array.player(3, 1), IndexError),
        (lambda: array.observe(None), BadType),
        (lambda: array.observe(1, Encoding(), np.zeros((3, 5), np.float32)), BadArgument),
        (lambda: array.observe(1, Encoding(), np.zeros((3, 336))), BadType),
        (lambda: array.observe(1, Encoding(), 5), BadType),
        (lambda: array.reset([True]), BadArgument),
        (lambda: array.reset(None, seeds(2, 1)), BadArgument),
        (lambda: array.begin(3, team, team), IndexError),
        (lambda: array.begin(0, team, []), BadTeam),
        (lambda: array.begin(0, team, team, b""), BadArgument),
        (lambda: Encoding("float64"), BadArgument),
        (lambda: Encoding(one_hot=1), BadType),
        (lambda: Encoding().row(battle), BadType),
    ):
        with pytest.raises(kind):
            call()
        assert array.battles == before
    with pytest.raises(ValueError):
        array.known(1)["turn"] = 5


def test_players_that_no_battle_has():
    """Bytes that only a forged pickle has: each row is written, and nothing next to it."""
    forge = pickle.loads(pickle.dumps(Player(1, random_team(random.Random(41))))).__reduce__()[0]
    for byte in (0x00, 0x7F, 0xFF):
        held = bytearray(encoded.PLAYER.itemsize * bytes([byte]))
        held[encoded.PlayerStruct.side.offset] = 1
        for encoding in ENCODINGS:
            rows = encoding.row(forge(bytes(held)))
            assert rows.shape == (encoding.width,) and np.isfinite(rows).all()


def test_a_library_without_the_loops():
    """As tools/install builds it: the message says who adds them."""
    with pytest.raises(LibraryMissing, match="has no gen1_py_nothing; only tools/python_wheel adds it"):
        _library.bind("gen1_py_nothing", None)


def test_copies_are_independent():
    team = random_team(random.Random(39))
    array = PlayerArray(3, team, team, seeds(3, 1))
    for copied in (copy.copy(array), copy.deepcopy(array), pickle.loads(pickle.dumps(array))):
        assert copied.battles == array.battles and (copied.observe(2) == array.observe(2)).all()
        copied.step(*at_random(copied, np.random.default_rng(1)))
        assert copied.battles != array.battles and array.player(0, 1).turn == 1
        copied.reset()
        assert copied.battles == array.battles and (copied.known(1) == array.known(1)).all()
