"""Battles through a server process: play, watch, reconnect, end, ratings, restarts."""

import asyncio
import json
import os
import random
from functools import partial
from types import SimpleNamespace

import aiohttp
import gen1
import pytest
from client import PACKAGE, Client, guest, packed, paired, play, run, unpacked
from gen1 import Message, Notice, Player, Side, Team, sample_teams
from gen1_server import keeping, records
from gen1_server.config import Config
from gen1_server.core import replayed

# How often a server is killed, and how many duels continue meanwhile.
KILLS, DUELS = int(os.environ.get("KILLS", "3")), int(os.environ.get("DUELS", "12"))
TEAMS = [it.to_dicts() for it in sample_teams().values()]


def test_two_play_a_third_watches_a_fourth_plays_the_computer(server, database):
    it = server(database=database, bot="bot")

    async def test(session):
        one, two, three, four = [await guest(session, it, name) for name in ("One", "Two", "Three", "Four")]
        await one.ask("searching", type="search", format="gen1ou", team=TEAMS[0])
        await two.say(type="search", format="gen1ou", team=TEAMS[1])
        first, second = await one.until("room"), await two.until("room")
        assert {first["side"], second["side"]} == {1, 2} and first["rated"]
        seen = await three.ask("room", type="join", room=first["room"])
        assert seen["side"] == 0 and "team" not in seen and "choices" not in seen
        await four.say(type="challenge", to="bot", format="gen1randombattle")
        shown = await four.until("room")
        ends = await asyncio.gather(play(one, first), play(two, second), play(four, shown))
        seen = await three.until("update")
        while "ending" not in seen:
            Notice.from_bytes(unpacked(seen["sent"]))
            seen = await three.until("update")
        assert seen["ending"] == ends[0]["ending"] == ends[1]["ending"]
        ratings = ends[0]["ending"]["ratings"]
        players = json.loads(it.get("/ladder/gen1ou"))["players"]
        assert sorted(row["rating"] for row in players) == sorted(ratings[1::2]) and ratings[::2] == [1500, 1500]
        assert len(json.loads(it.get("/player/one"))["battles"]) == 1
        assert json.loads(it.get("/rooms")) == {"rooms": []}
        return [one, two, three, four]

    clients = run(test)
    expect_schema(clients)
    assert it.stop() == 0
    assert it.command("verify") == (0, "2 finished battles end as they were stored\n")


def test_a_search_meets_those_of_another_process(server, postgres):
    """A client that can be led goes where the battle is. One of Showdown's protocol stays, so others come to it."""
    database = postgres()
    one, two = [server(name=name, database=database, address=f"ws://{name}/socket") for name in ("one", "two")]

    async def test(session):
        a, b = await guest(session, one, "A"), await guest(session, two, "B")
        bot = await session.ws_connect(one.url.replace("/socket", "/showdown/websocket"))
        await bot.send_str("|/trn C,0,")
        for client, foe, place in ((a, b, "two"), (b, bot, "one")):
            if foe is bot:
                await bot.send_str("|/search gen1randombattle")
            await client.ask("searching", type="search", format="gen1randombattle")
            # A reply from the database comes after the search is in it.
            await client.ask("refused", type="accept", code="none")
            if foe is b:
                await b.ask("searching", type="search", format="gen1randombattle")
            led = await client.until("moved")
            assert led["address"] == f"ws://{place}/socket"
            assert client.heard[-2] == {"type": "searching", "formats": []}
            there = Client(session, (one if place == "one" else two).url)
            await there.connect(type="token", token=client.welcome["token"])
            shown = await there.until("room")
            assert shown["room"] == led["room"] and shown["rated"]
            await there.say(type="forfeit", room=led["room"])
            await there.until("update")
        # One that is taken back, or whose client is gone, meets nobody.
        await a.ask("searching", type="search", format="gen1ou", team=TEAMS[0])
        await a.ask("searching", type="cancel_search")
        gone = await guest(session, one, "D")
        await gone.ask("searching", type="search", format="gen1ou", team=TEAMS[0])
        await gone.socket.close()
        await asyncio.sleep(0.5)
        await b.ask("searching", type="search", format="gen1ou", team=TEAMS[1])
        with pytest.raises(TimeoutError):
            await b.until("room", "moved", seconds=3)

    run(test)
    assert '"fault"' not in one.said() + two.said()


async def bot_of(session, server, name):
    """A connection of Showdown's protocol. `heard` has what it was sent, and `until` waits for a text in it."""
    socket = await session.ws_connect(server.url.replace("/socket", "/showdown/websocket"))
    heard = []

    async def until(text):
        async with asyncio.timeout(10):
            while not any(text in it for it in heard):
                heard.append((await socket.receive()).data)
            return next(heard.pop(at) for at, it in enumerate(heard) if text in it)

    await socket.send_str(f"|/trn {name},0,")
    await until(f"|updateuser| {name}|1|")
    return SimpleNamespace(say=lambda text: socket.send_str(f"|{text}"), until=until, heard=heard)


async def led(session, client, servers):
    """Goes where a client is led; returns the connection there, and the room as it is shown."""
    moved = await client.until("moved", seconds=10)
    there = Client(session, servers[moved["address"]].url)
    await there.connect(type="token", token=client.welcome["token"])
    shown = await there.until("room")
    assert shown["room"] == moved["room"]
    return there, shown


@pytest.fixture
def two_processes(server, postgres):
    """Two servers on one PostgreSQL, by their addresses."""
    database, names = postgres(), ("one", "two")
    yield {f"ws://{it}": server(name=it, database=database, address=f"ws://{it}") for it in names}


def test_a_challenge_meets_a_player_of_another_process(two_processes):
    """By name and by link; the process of the player that accepts has the battle, and the other one is led there."""
    one, two = two_processes.values()

    async def test(session):
        a, b = await guest(session, one, "A"), await guest(session, two, "B")
        made = await a.ask("challenging", type="challenge", to="b", format="gen1ou", team=TEAMS[0])
        told = await b.until("challenged", seconds=5)
        assert told == {"type": "challenged", "from": "A", "format": "gen1ou", "code": made["code"]}
        assert (await b.ask("refused", type="accept", code=made["code"], team=[]))["code"] == "team"
        here = await b.ask("room", type="accept", code=made["code"], team=TEAMS[1])
        there, shown = await led(session, a, two_processes)
        assert shown["names"] == here["names"] and not shown["rated"] and {here["side"], shown["side"]} == {1, 2}
        assert {json.dumps(it["team"]) for it in (here, shown)} == {json.dumps(it) for it in TEAMS[:2]}
        ends = await asyncio.gather(play(there, shown), play(b, here))
        assert ends[0]["ending"] == ends[1]["ending"] and ends[0]["ending"]["ratings"] == []
        # A link is for the first that comes, from any process.
        code = (await a.ask("challenging", type="challenge", format="gen1randombattle"))["code"]
        assert (await a.ask("refused", type="accept", code=code))["code"] == "no challenge"
        c, d = await guest(session, one, "C"), await guest(session, two, "D")
        await d.ask("room", type="accept", code=code)
        assert (await c.ask("refused", type="accept", code=code))["code"] == "no challenge"
        await led(session, a, two_processes)
        # What is refused, taken back, or made by a client that is gone can't be accepted, nor what is for another one.
        for withdraws in ("D", "E", None, "nobody"):
            e = await guest(session, one, "E")
            code = (await e.ask("challenging", type="challenge", to="D", format="gen1randombattle"))["code"]
            assert (await d.until("challenged", seconds=5))["code"] == code
            if withdraws is None:
                await e.socket.close()
            else:
                await {"D": d, "E": e, "nobody": b}[withdraws].say(type="withdraw", code=code)
            await asyncio.sleep(0.3)
            accepts = b if withdraws == "nobody" else d
            assert (await accepts.ask("refused", type="accept", code=code))["code"] == "no challenge"
        await d.ask("room", type="accept", code=code)
        # A player who is nowhere.
        await c.socket.close()
        await asyncio.sleep(0.3)
        assert (await a.ask("refused", type="challenge", to="none", format="gen1randombattle"))["code"] == "no player"
        await a.ask("challenging", type="challenge", to="C", format="gen1randombattle")
        assert (await a.until("refused", seconds=10))["code"] == "no player"

    run(test)
    assert '"fault"' not in one.said() + two.said()


def test_challenges_of_showdowns_protocol_meet_across_processes(two_processes):
    """Its clients stay, so others come to them; two of them can't meet."""
    one, two = two_processes.values()

    async def test(session):
        a, bot = await guest(session, one, "A"), await bot_of(session, two, "Bot")
        await a.ask("challenging", type="challenge", to="bot", format="gen1randombattle")
        assert await bot.until("|pm|") == "|pm| A| Bot|/challenge gen1randombattle|gen1randombattle|||"
        await bot.say("/accept A")
        await bot.until("|init|battle")
        there, shown = await led(session, a, two_processes)
        assert set(shown["names"]) == {"A", "Bot"}
        await there.ask("update", type="forfeit", room=shown["room"])
        await there.socket.close()
        await asyncio.sleep(0.3)
        await bot.say("/challenge A,gen1randombattle")
        code = (await a.until("challenged", seconds=5))["code"]
        await a.say(type="accept", code=code)
        there, shown = await led(session, a, two_processes)
        await bot.until("|init|battle")
        await there.ask("update", type="forfeit", room=shown["room"])
        await there.socket.close()
        await a.ask("challenging", type="challenge", to="Bot", format="gen1randombattle")
        await bot.until("|pm| A| Bot|")
        await bot.say("/reject A")
        await bot.say("/accept A")
        assert await bot.until("|popup|") == "|popup|there is no such challenge"
        await bot.say("/challenge A,gen1randombattle")
        code = (await a.until("challenged", seconds=5))["code"]
        await bot.say("/cancelchallenge A")
        await asyncio.sleep(0.3)
        assert (await a.ask("refused", type="accept", code=code))["code"] == "no challenge"
        other = await bot_of(session, one, "Other")
        await other.say("/challenge Bot,gen1randombattle")
        await bot.until("|pm| Other| Bot|/challenge")
        await bot.say("/accept Other")
        assert "no client can be led there" in await bot.until("|popup|")

    run(test)
    assert '"fault"' not in one.said() + two.said()


def test_the_computer_plays_those_who_find_nobody(server):
    it = server(bot="bot", bot_seconds=1.0)

    async def test(session):
        one = await guest(session, it, "One")
        await one.ask("searching", type="search", format="gen1ou", team=TEAMS[0])
        shown = await one.until("room", seconds=10)
        assert shown["rated"] and set(shown["names"]) == {"One", "bot"}
        await one.say(type="forfeit", room=shown["room"])
        await one.until("update")

    run(test)
    players = json.loads(it.get("/ladder/gen1ou"))["players"]
    assert [(row["name"], row["wins"]) for row in players] == [("bot", 1), ("One", 0)]


def expect_schema(clients):
    """Each message is as messages.schema.json says."""
    jsonschema = pytest.importorskip("jsonschema")
    paths = PACKAGE / "gen1_server" / "messages.schema.json", PACKAGE.parent / "docs" / "HOST.schema.json"
    schema, host = (json.loads(it.read_text()) for it in paths)
    for definition, messages in (("client", [it.said for it in clients]), ("server", [it.heard for it in clients])):
        part = {"$id": schema["$id"], "$ref": f"#/definitions/{definition}", "definitions": schema["definitions"]}
        resolver = jsonschema.RefResolver(schema["$id"], part, {host["$id"]: host})
        checker = jsonschema.Draft7Validator(part, resolver=resolver)
        for message in sum(messages, [])[:300]:
            checker.validate(message)


def test_draw_forfeit_rematch_and_cancelled_choices(server):
    it = server(may_cancel=True)

    async def test(session):
        one, two = await guest(session, it, "One"), await guest(session, it, "Two")
        first, second = await paired(one, two)
        side = first["side"]
        while not (first["number"] and first["awaited"] and second["awaited"]):
            first, second = await play_pairs(one, two, first, second, 1)
        given = {"room": first["room"], "number": first["number"]}
        await one.ask("taken", type="choose", choice=first["choices"][0], **given)
        await one.ask("cancelled", type="cancel_choice", **given)
        assert (await one.ask("refused", type="cancel_choice", **given))["code"] == "nothing chosen"
        await one.say(type="offer_draw", room=first["room"])
        assert (await two.until("draw_offered"))["side"] == side
        await two.say(type="offer_draw", room=first["room"])
        end = (await one.until("update"))["ending"]
        assert end == {"outcome": 3, "reason": "draw", "ratings": []}
        assert (await one.ask("refused", type="offer_draw", room=first["room"]))["code"] == "no room"
        await one.say(type="rematch", room=first["room"])
        assert (await two.until("challenged"))["from"] == "One"
        await two.say(type="rematch", room=first["room"])
        again = await one.until("room")
        await two.until("room")
        await one.say(type="forfeit", room=again["room"])
        end = (await two.until("update"))["ending"]
        assert (end["outcome"], end["reason"]) == (3 - again["side"], "forfeit")
        return [one, two]

    expect_schema(run(test))


async def play_pairs(one, two, first, second, pairs):
    return await asyncio.gather(play(one, first, pairs), play(two, second, pairs, random.Random(2)))


def test_a_side_whose_time_has_run_out(server):
    # Side 2 has to choose in time on a busy machine too.
    it = server(choice_seconds=3, lapses=1, grace_seconds=1)

    async def test(session):
        one, two = await guest(session, it, "One"), await guest(session, it, "Two")
        first, second = await paired(one, two)
        await two.say(type="choose", room=second["room"], number=0, choice=second["choices"][0])
        shown = await one.until("update")
        assert shown["number"] == 1 and "ending" not in shown
        await two.until("update")
        await two.say(type="choose", room=second["room"], number=1, choice=17)
        end = (await one.until("update"))["ending"]
        assert (end["outcome"], end["reason"]) == (second["side"], "time")

    run(test)


@pytest.mark.parametrize("delay", [0, 2])
def test_the_audience_is_told_late(server, delay):
    it = server(audience_delay=delay)

    async def test(session):
        one, two, three = [await guest(session, it, name) for name in ("One", "Two", "Three")]
        first, second = await paired(one, two)
        await three.ask("room", type="join", room=first["room"])
        await play_pairs(one, two, first, second, 4)
        seen = [(await three.until("update"))["number"] for _ in range(4 - delay)]
        assert seen == list(range(1, 5 - delay))
        shown = await three.ask("room", type="join", room=first["room"])
        assert shown["number"] == 4 - delay and len(shown["history"]) == 4 - delay
        await one.say(type="forfeit", room=first["room"])
        rest = [await three.until("update") for _ in range(delay + 1)]
        assert [update["number"] for update in rest] == list(range(5 - delay, 6))
        assert ["ending" in update for update in rest] == [False] * delay + [True]

    run(test)


def test_a_stranger_watches(server):
    """Without an account a connection may be of the audience, until it logs in, and nothing else."""
    it = server(login_seconds=1.0)

    async def test(session):
        one, two = await guest(session, it, "One"), await guest(session, it, "Two")
        three = await guest(session, it, "Three")
        first, second = await paired(one, two)
        stranger, idle = [await Client(session, it.url).connect() for _ in range(2)]
        shown = [await each.ask("room", type="join", room=first["room"]) for each in (stranger, three)]
        assert shown[0] == shown[1] and shown[0]["side"] == 0 and "team" not in shown[0]
        await asyncio.sleep(1.5)
        with pytest.raises(ConnectionError):
            await idle.until("nothing")
        for kind in ("choose", "forfeit", "search", "challenge"):
            given = {"room": first["room"], "number": 0, "choice": 17, "format": "gen1ou"}
            assert (await stranger.ask("refused", type=kind, **given))["code"] == "account"
        await play_pairs(one, two, first, second, 2)
        told = [[await each.until("update") for _ in range(2)] for each in (stranger, three)]
        assert told[0] == told[1]
        await stranger.ask("welcome", type="guest", name="Four")
        await one.say(type="forfeit", room=first["room"])
        assert "ending" in await three.until("update")
        with pytest.raises(TimeoutError):
            await stranger.until("update", seconds=1)

    run(test)


def test_a_player_that_reconnects_knows_the_same(server):
    """Reconnects after each pair and compares the player with the one that heard everything."""
    it = server()

    async def test(session):
        one, two = await guest(session, it, "One"), await guest(session, it, "Two")
        first, second = await paired(one, two)
        team, foes = Team.from_dicts(first["team"]), first["sizes"][2 - first["side"]]
        whole = Player(first["side"], team, foes)
        whole.receive(Message.from_bytes(unpacked(first["sent"])))
        for _ in range(12):
            if "ending" in first:
                break
            first, second = await play_pairs(one, two, first, second, 1)
            whole.receive(Message.from_bytes(unpacked(first["sent"])))
            again = await Client(session, it.url).connect(type="token", token=one.welcome["token"])
            shown = await again.until("room")
            player = Player(shown["side"], Team.from_dicts(shown["team"]), foes)
            for log in shown["history"]:
                player.feed(unpacked(log))
            player.receive(Message.from_bytes(unpacked(shown["sent"])))
            assert player == whole and shown["choices"] == first["choices"]
            await again.socket.close()

    run(test)


class Duel:
    """Two bots that play rooms of one another, and come back when their server is killed."""

    def __init__(self, session, server, number):
        self.session, self.server, self.ended = session, server, 0
        self.names = [f"D{number}{it}" for it in "ab"]
        self.taken, self.logs, self.tokens, self.sides = set(), {}, {}, {}
        self.chance = random.Random(number)

    async def bot(self, at):
        while True:
            try:
                await self.visit(at)
            except (OSError, asyncio.TimeoutError, aiohttp.ClientError):
                await asyncio.sleep(0.05)

    async def visit(self, at):
        token, name = self.tokens.get(at), self.names[at]
        login = {"type": "token", "token": token} if token else {"type": "guest", "name": name}
        me = await Client(self.session, self.server.url).connect(**login)
        self.tokens[at] = me.welcome["token"] or token
        if at == 0 and not me.welcome["rooms"]:
            await me.say(type="challenge", to=self.names[1], format="gen1randombattle")
        while True:
            await self.answer(me, at, await me.hear(5))

    async def answer(self, me, at, given):
        kind = given["type"]
        if kind == "challenged":
            await me.say(type="accept", code=given["code"])
        elif kind == "taken":
            self.taken.add((given["room"], at, given["number"]))
        elif kind == "refused" and given["code"] == "no player":
            await asyncio.sleep(0.05)
            await me.say(type="challenge", to=self.names[1], format="gen1randombattle")
        elif kind in ("room", "update"):
            if kind == "room":
                self.sides[at, given["room"]] = given["side"]
            self.hear(given, self.logs.setdefault((given["room"], self.sides[at, given["room"]]), []))
            if "ending" in given:
                self.ended += 1
                if at == 0:
                    await me.say(type="challenge", to=self.names[1], format="gen1randombattle")
            elif given["number"] >= 25:
                await me.say(type="forfeit", room=given["room"])
            elif given["awaited"]:
                choice = self.chance.choice(given["choices"])
                await me.say(type="choose", room=given["room"], number=given["number"], choice=choice)

    def hear(self, given, logs):
        """Keeps the logs that a side received, as base64. Logs that are sent again are the same."""
        if given["type"] == "room":
            assert logs == given["history"][: len(logs)] or logs[:-1] == given["history"]
            logs[:] = given["history"]
        logs.append(packed(Message.from_bytes(unpacked(given["sent"])).log))


def test_killed_three_times(server, database):
    """No row that was taken is lost, no pair is played twice, and the logs that were sent are those of the rows."""
    it = server(database=database, grace_seconds=30, messages_per_second=1000.0)
    kills = KILLS if database.endswith(".db") else 1

    async def test(session):
        duels = [Duel(session, it, number) for number in range(DUELS)]
        bots = [asyncio.create_task(duel.bot(at)) for duel in duels for at in (0, 1)]

        async def until(condition):
            while not condition():
                await asyncio.sleep(0.05)
                assert not [bot.result() for bot in bots if bot.done()]

        for _ in range(kills):
            most = sum(len(duel.taken) for duel in duels) + 20 * DUELS
            await until(lambda: sum(len(duel.taken) for duel in duels) > most)
            it.kill()
            await asyncio.to_thread(it.start)
        await until(lambda: min(duel.ended for duel in duels) > 1)
        while pending := [bot for bot in bots if not bot.done()]:
            for bot in pending:
                bot.cancel()
            await asyncio.wait(pending, timeout=0.2)
        return duels

    duels = run(test, 400 + kills * DUELS)
    assert it.stop() == 0
    status, said = it.command("verify")
    assert status == 0, said
    config = Config(database=database)
    last = max(room for duel in duels for room, _ in duel.logs)
    rooms = keeping.within(config, partial(records.stored, list(range(1, last + 1))))
    assert sum(room.ending is not None for room in rooms) >= DUELS
    stored = {room.start.id: room for room in rooms}
    for duel in duels:
        for room, at, number in duel.taken:
            rows = [it.row for it in stored[room].entries if it.row.kind == gen1.RowKind.SUBMIT]
            assert [it.number for it in rows if it.side == duel.sides[at, room]].count(number) == 1
        for (room, side), logs in duel.logs.items():
            told = [packed(log) for log in replayed(stored[room].start, stored[room].entries).view(Side(side)).logs]
            assert logs == told[: len(logs)]
    taken = sum(len(duel.taken) for duel in duels)
    assert taken > 20 * DUELS
    print(f"{kills} kills, {len(duels)} duels, {len(rooms)} rooms, {taken} choices taken; {said.strip()}")
