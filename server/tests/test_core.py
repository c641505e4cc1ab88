"""The parts without a process: ratings, clocks, options, frames, and what a side can learn."""

import asyncio
import itertools
import json
import random
from functools import partial
from types import SimpleNamespace

import gen1.hosts
import pytest
from gen1 import Battle, Row, Side, random_team
from gen1_server import connections, rooms
from gen1_server.clock import Clock
from gen1_server.config import BadConfig, Config, configured
from gen1_server.core import Entry, Match, Options, Start
from gen1_server.json_protocol import JsonConnection
from gen1_server.limits import Bucket, Limits
from gen1_server.ratings import Rating, rated
from gen1_server.rooms import Rooms


def test_glickmans_example():
    """The player of Glickman's paper, whose numbers are printed there to two and five places."""
    foes = [(Rating(1400, 30), 1.0), (Rating(1550, 100), 0.0), (Rating(1700, 300), 0.0)]
    found = rated(Rating(1500, 200, 0.06), foes)
    assert abs(found.rating - 1464.06) < 0.02 and abs(found.deviation - 151.52) < 0.01
    assert round(found.volatility, 5) == 0.06 and abs(found.volatility - 0.05999) < 0.00001


def test_ratings_of_equals():
    one, two = rated(Rating(), [(Rating(), 1.0)]), rated(Rating(), [(Rating(), 0.0)])
    assert one.rating - 1500 == pytest.approx(1500 - two.rating) and one.deviation == pytest.approx(two.deviation)
    tie = rated(Rating(), [(Rating(), 0.5)])
    assert tie.rating == 1500 and tie.deviation < 350


def test_clock():
    clock = Clock(begun=1000, choice=100, total=150)
    assert (clock.due(1), clock.due(2), clock.first) == (1100, 1100, 1100)
    clock.chose(1, 1090)
    assert clock.due(2) == 1100
    clock.chose(2, 1010)
    clock.ended(1090)
    # Side 1 has 150 - 90 left, and side 2 140.
    assert (clock.due(1), clock.due(2), clock.first) == (1150, 1190, 1150)
    clock.chose(1, 1100)
    clock.cancelled(1)
    clock.not_before(1170)
    assert (clock.due(1), clock.due(2)) == (1170, 1190)
    clock.chose(1, 5000)
    clock.chose(2, 5000)
    clock.ended(5000)
    assert (clock.due(1), clock.due(2)) == (5000, 5040)


@pytest.mark.parametrize(
    "text, said",
    [
        ("ports = 1", "there is no option ports"),
        ("port = 65536", "port must be 1 to 65535"),
        ("port = true", "port must be a int"),
        ("durable = 1", "durable must be a bool"),
        ("lease_seconds = 0.5", "lease_seconds must be at least 1"),
        ("origins = [1]", "origins must be a list of texts"),
        ("bot_level = 6", "bot_level must be 1 to 5"),
        ("port = ", "Invalid value"),
        ('page = "/no/such/page"', "page: there is no file"),
        ('database = "mysql://a/b"', "database must be a file, or a URL"),
    ],
)
def test_bad_options(tmp_path, text, said):
    file = tmp_path / "options.toml"
    file.write_text(text)
    with pytest.raises(BadConfig, match=said):
        configured(file, {})


def test_options_of_the_environment_stand_over_the_file(tmp_path):
    file = tmp_path / "options.toml"
    file.write_text('port = 9000\nname = "a"\norigins = ["https://a.example"]')
    found = configured(file, {"GEN1_SERVER_PORT": "9001", "GEN1_SERVER_DURABLE": "false", "OTHER": "1"})
    assert (found.port, found.name, found.durable, found.origins) == (9001, "a", False, ("https://a.example",))
    assert Config(database="postgres://a@b/c").url == "postgresql+psycopg2://a@b/c"


@pytest.mark.parametrize("size, head", [(0, 2), (125, 2), (126, 4), (65535, 4), (65536, 10)])
def test_frames(size, head):
    """As RFC 6455, 5.2, has them."""
    made = connections.frame(connections.TEXT, b"a" * size)
    assert made[0] == 0x81 and len(made) == head + size
    assert made[1] == (size if head == 2 else 126 if head == 4 else 127)
    assert head == 2 or int.from_bytes(made[2:head], "big") == size


def test_buckets(monkeypatch):
    clock = SimpleNamespace(now=0.0)
    monkeypatch.setattr("gen1_server.limits.monotonic", lambda: clock.now)
    bucket = Bucket(rate=2, most=3)
    assert [bucket.take() for _ in range(5)] == [0, 0, 0, 0.5, 1.0]
    clock.now = 2
    assert bucket.takes(2) and not bucket.takes(1) and not bucket.is_full()
    limits = Limits(1, 1, 2)
    assert [limits.login("a") for _ in range(3)] == [True, True, False] and limits.login("b")
    limits.failed("b")
    assert not limits.login("b")
    assert limits.connect("a", 1) and not limits.connect("a", 1)
    limits.disconnect("a")
    assert limits.connect("a", 1)


class FakeStore:
    """Commits everything at once, and keeps nothing."""

    def add(self, work):
        work.done((), None)


class FakeTransport:
    """Keeps what is written."""

    def __init__(self):
        self.written = []

    def write(self, data):
        self.written.append(data)

    def get_write_buffer_size(self):
        return 0

    def is_closing(self):
        return False


def watching(services, account):
    made = JsonConnection(services, FakeTransport(), "", None)
    if account:
        services.rooms.arrive(account, made)
    return made


def teams_of(chance, hidden, variant):
    """The teams of a leak game, and the places of the two members of side 2 that come out.

    The variants differ in what side 2 hides: its other members, the place of the second one, and moves that it does not use.
    """
    mine, theirs = random_team(chance), random_team(chance).to_dicts()
    known, others = theirs[:2], random_team(hidden).to_dicts()[:4]
    if variant:
        for member in known:
            unused = [[it, 0] for it in ("Rest", "Toxic", "Substitute", "Agility") if it != member["moves"][0][0]]
            member["moves"][1:] = unused[: len(member["moves"]) - 1]
    others.insert(3 * variant, known[1])
    return mine, gen1.Team.from_dicts([known[0], *others]), (1, 2 + 3 * variant)


def chosen_by_two(host, places, switches):
    """Side 2's choice: its first move, or one of its two members; None where it would have to show more."""
    message = host.message(Side.TWO)
    offered = message.choices
    others = [0x20 + it for it in places if 0x20 + it in offered]
    if others and (switches or min(offered) > 0x20):
        return others[0]
    return min(offered) if min(offered) <= 17 else None


async def leak_game(seed, variant, monkeypatch):
    """What side 1 and the audience are sent in a game of this variant, and how many pairs it has."""
    chance, numbers, clock = random.Random(seed), random.Random(seed), itertools.count(1000)
    hidden = random.Random(f"{seed} {variant}")
    monkeypatch.setattr(gen1.hosts.os, "urandom", numbers.randbytes)
    monkeypatch.setattr(rooms, "now", lambda: next(clock))
    mine, theirs, places = teams_of(chance, hidden, variant)
    services = SimpleNamespace(config=Config(), limits=Limits(1, 1, 1), rooms=Rooms(Config(), FakeStore()))
    one, audience = watching(services, 11), watching(services, 0)
    battle = Battle(mine, theirs, hidden.randbytes(10), 3, 1000)
    teams = json.dumps(mine.to_dicts()), json.dumps(theirs.to_dicts())
    start = Start(1, "gen1ou", False, (11, 12), ("a", "b"), teams, battle.bytes, Options(), "1", 0)
    services.rooms.seat(start)
    room = services.rooms.open[1]
    await services.rooms.watch(room.id, 99, audience)
    pairs = 0
    while room.id in services.rooms.open and pairs < 40:
        host = room.match.host
        asked = [side for side in Side if host.awaits(side)]
        if chance.random() < 0.5:
            asked.reverse()
        choices = {Side.TWO: chosen_by_two(host, places, chance.random() < 0.2)}
        if choices[Side.TWO] is None:
            break
        choices[Side.ONE] = chance.choice(host.message(Side.ONE).choices)
        for side in asked:
            row = partial(Row.submit, number=host.number, choice=choices[side])
            services.rooms.ask(room.id, start.accounts[side - 1], row, rooms.ignored)
        pairs += 1
    if room.id in services.rooms.open:
        await services.rooms.watch(room.id, 11, one)
        await services.rooms.watch(room.id, 99, audience)
        services.rooms.ask(room.id, 12, Row.forfeit, rooms.ignored)
    return pairs, one._transport.written, audience._transport.written


def test_what_the_foe_hides_changes_nothing(monkeypatch):
    """Twenty games twice. What side 1 and the audience are sent is the same, byte for byte."""
    pairs = 0
    for seed in range(20):
        one, two = [asyncio.run(leak_game(seed, variant, monkeypatch)) for variant in (0, 1)]
        assert one == two, f"game {seed}"
        assert len(one[1]) > one[0]
        pairs += one[0]
    assert pairs > 200


def test_the_hidden_facts_differ(monkeypatch):
    """The games above would find a leak: a view of side 2 differs in them."""
    for seed in range(20):
        seen = []
        for variant in (0, 1):
            with monkeypatch.context() as patched:
                patched.setattr(Match, "view", lambda self, side, view=Match.view: view(self, Side.TWO))
                seen.append(asyncio.run(leak_game(seed, variant, patched)))
        assert seen[0] != seen[1]


def test_a_cancelled_choice_does_not_shorten_the_time():
    chance = random.Random(5)
    teams = random_team(chance), random_team(chance)
    texts = json.dumps(teams[0].to_dicts()), json.dumps(teams[1].to_dicts())
    options = Options(may_cancel=True, choice=100, total=1000)
    match = Match(Start(1, "", False, (1, 2), ("a", "b"), texts, Battle(*teams, range(10)).bytes, options, "1", 0))
    choice = match.host.message(1).choices[0]
    for row, at in ((Row.submit(1, 0, choice), 10), (Row.cancel(1, 0), 20), (Row.submit(1, 0, choice), 60)):
        assert not match.take(Entry(row, at))
    assert match.take(Entry(Row.submit(2, 0, match.host.message(2).choices[0]), 90))
    assert (match.clock.due(1), match.clock.due(2)) == (190, 190)
