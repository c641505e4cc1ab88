"""Showdown's protocol: bots that follow poke-env's way from the connection to the last line, and what is refused."""

import asyncio
import json
import random
from pathlib import Path
from types import SimpleNamespace

import pytest
import test_core
from gen1 import Side
from gen1_server.accounts import Account
from gen1_server.showdown import ShowdownConnection

aiohttp = pytest.importorskip("aiohttp")

TEAMS = [
    "Bo|Tauros|||bodyslam,hyperbeam,earthquake,blizzard|||||||]Chansey||||softboiled,thunderwave,icebeam,sing|||||||"
    "]Snorlax||||bodyslam,rest,selfdestruct,amnesia|||||||]Dragonite||||wrap,agility,hyperbeam,thunderwave|||||||",
    "Gengar||||hypnosis,nightshade,explosion,megadrain|||||||]Starmie||||surf,recover,thunderbolt,blizzard|||||||"
    "]Exeggutor||||sleeppowder,psychic,stunspore,explosion|||||||]Persian||||slash,bubblebeam,thunderbolt,rage|||||||",
]
# How many of the ten battles are those of the ladder, where players whose ratings differ wait longer for each other.
RATED = 1
# Words of lines that a client of the first generation knows.
WORDS = set(
    "init title j t: gametype player teamsize gen tier rule start switch turn move cant faint upkeep win tie request raw inactive "
    "-damage -heal -crit -supereffective -resisted -immune -miss -fail -status -curestatus -boost -unboost -clearallboost -start -end "
    "-activate -prepare -mustrecharge -hitcount -ohko -message".split()
)


@pytest.fixture
def address(server):
    """The address of a server that runs."""
    process = server()
    yield f"127.0.0.1:{process.port}"
    assert "Traceback" not in Path(process.log.name).read_text()


class Bot:
    """A client as poke-env is one: it keeps the last request, and chooses at a turn or when it has to send out a member."""

    def __init__(self, session, address, name, team, with_rqid=True):
        self.session, self.address, self.name, self.team = session, address, name, team
        self.with_rqid, self.dice = with_rqid, random.Random(name)
        self.rooms, self.errors, self.popups, self.hp, self.ended = {}, [], [], {}, []
        self.named, self.challenges = asyncio.Event(), asyncio.Queue()

    async def run(self):
        self.socket = await self.session.ws_connect(f"http://{self.address}/showdown/websocket")
        async for message in self.socket:
            lines = message.data.split("\n")
            room = lines.pop(0)[1:] if lines[0].startswith(">") else ""
            for line in lines:
                assert line.startswith("|"), line
                await (self.of_room(room, line) if room else self.of_lobby(line.split("|")))

    async def say(self, text, room=""):
        await self.socket.send_str(f"{room}|{text}")

    async def of_lobby(self, fields):
        if fields[1] == "challstr":
            await self.say(f"/trn {self.name},0,{await self.assertion('%7C'.join(fields[2:4]))}")
            await self.say("/avatar 1")
        elif fields[1] == "updateuser" and fields[2] == f" {self.name}":
            await self.say(f"/utm {self.team}")
            self.named.set()
        elif fields[1] == "pm" and fields[4].startswith("/challenge") and fields[2].strip() != self.name:
            assert fields[5] == "gen1ou"
            self.challenges.put_nowait(fields[2].strip())
        elif fields[1] == "popup":
            self.popups.append("|".join(fields[2:]))

    async def assertion(self, challstr):
        """No password: none."""
        return ""

    async def of_room(self, room, line):
        fields = line.split("|")
        state = self.rooms.setdefault(room, {"request": None, "turn": 0, "lines": []})
        state["lines"].append(line)
        if fields[1] == "request":
            state["request"] = json.loads(fields[2])
            if state["request"].get("forceSwitch"):
                await self.choose(room, state)
        elif fields[1] == "turn":
            state["turn"] += 1
            assert int(fields[2]) == state["turn"]
            if state["request"]:
                self.compare(state)
            await self.choose(room, state)
        elif fields[1] in ("win", "tie"):
            self.ended.append((room, line))
            await self.say(f"/leave {room}", room)
        elif fields[1] == "error":
            self.errors.append(line)
        elif fields[1] not in ("", "deinit"):
            assert fields[1] in WORDS, line
            self.believe(state, fields)

    def has_left(self):
        """Whether it has left all of its rooms."""
        return all(state["lines"][-1] == "|deinit" for state in self.rooms.values())

    def believe(self, state, fields):
        """Follows the player's active member, and looks at the form of the foe's HP."""
        if fields[1] == "player" and fields[3] == self.name:
            state["side"] = fields[2]
        if len(fields) < 4 or not fields[2].startswith(("p1a", "p2a")):
            return
        is_own = fields[2].startswith(state.get("side", "p0"))
        if fields[1] in ("switch", "-damage", "-heal"):
            health = fields[4 if fields[1] == "switch" else 3]
            if is_own:
                state["own"] = [fields[2][5:], health]
            else:
                hp, _, most = health.split(" ")[0].partition("/")
                assert most in ("100", "") and int(hp) <= 100, fields
        elif is_own and fields[1] == "-status":
            state["own"][1] = f"{state['own'][1].split(' ')[0]} {fields[3]}"
        elif is_own and fields[1] == "-curestatus":
            state["own"][1] = state["own"][1].split(" ")[0]

    def compare(self, state):
        """The request says the same of the player's active member as the lines."""
        listed = state["request"]["side"]["pokemon"]
        assert [it["active"] for it in listed] == [True] + [False] * (len(listed) - 1)
        assert state["own"] == [listed[0]["ident"][4:], listed[0]["condition"]], state["lines"][-20:]

    async def choose(self, room, state):
        request = state["request"]
        if request.get("wait"):
            return
        team = request["side"]["pokemon"]
        bench = [at for at, it in enumerate(team, 1) if not it["active"] and not it["condition"].endswith("fnt")]
        moves = [it for it in request.get("active", [{"moves": []}])[0]["moves"] if not it["disabled"]]
        trapped = request.get("active", [{}])[0].get("trapped")
        if request.get("forceSwitch") or (bench and not trapped and self.dice.random() < 0.2):
            chosen = f"switch {self.dice.choice(bench)}"
        else:
            chosen = f"move {self.dice.choice(moves)['id']}"
        rqid = f"|{request['rqid']}" if self.with_rqid else ""
        await self.say(f"/choose {chosen}{rqid}", room)


def played(address, act, *bots):
    """Runs bots, and what `act` does with them."""

    async def run():
        async with aiohttp.ClientSession() as session:
            made = [bot(session, address) for bot in bots]
            tasks = [asyncio.create_task(it.run()) for it in made]
            acting = asyncio.create_task(act(*made))
            done, _ = await asyncio.wait([acting, *tasks], timeout=60, return_when=asyncio.FIRST_COMPLETED)
            for task in tasks:
                task.cancel()
            assert acting in done, [it for it in done] or "it took more than a minute"
            return await acting

    return asyncio.run(run())


def bot(name, team=TEAMS[0], kind=Bot, **more):
    return lambda session, address: kind(session, address, name, team, **more)


async def until(true, seconds=30):
    for _ in range(int(seconds * 100)):
        if true():
            return
        await asyncio.sleep(0.01)
    raise AssertionError("it did not come")


def test_ten_battles(address):
    async def act(one, two):
        await asyncio.gather(one.named.wait(), two.named.wait())
        for number in range(1, 11):
            if number <= RATED:
                for it in (one, two):
                    await it.say("/search gen1ou")
            else:
                await one.say(f"/challenge {two.name}, gen1ou")
                await two.say(f"/accept {await two.challenges.get()}")
            await until(lambda: len(one.ended) == len(two.ended) == number)
        await until(lambda: all(map(Bot.has_left, (one, two))))
        return one, two

    one, two = played(address, act, bot("Alice", with_rqid=False), bot("Eve 2", TEAMS[1]))
    assert one.errors == two.errors == [] and one.popups == two.popups == []
    assert [it[1] for it in one.ended] == [it[1] for it in two.ended] and len(set(one.rooms)) == 10
    for room, state in one.rooms.items():
        words = [line.split("|")[1] for line in state["lines"]]
        assert words[:5] == ["init", "title", "j", "j", "gametype"] and words.count("request") >= state["turn"] > 1
        assert words.index("request") < words.index("start")
        ratings = [line for line in state["lines"] if "'s rating: " in line]
        assert len(ratings) == (2 if room in list(one.rooms)[:RATED] else 0) and words[-1] == "deinit"
        # Each side sees the same members, its own by HP and the foe's by hundredths.
        for it in (state, two.rooms[room]):
            assert any(
                line.endswith("a: Tauros|Tauros|" + ("353/353" if it is state else "100/100")) for line in it["lines"]
            )


def test_a_challenge_a_spectator_and_a_player_that_comes_back(address):
    async def act(one, two, three):
        await asyncio.gather(*(it.named.wait() for it in (one, two, three)))
        one.choose = two.choose = three.choose = nothing
        await one.say("/challenge Trent, gen1ou")
        await two.say(f"/accept {await two.challenges.get()}")
        await until(lambda: one.rooms and two.rooms)
        (room,) = one.rooms
        await three.say(f"/join {room}")
        for at in range(4):
            await until(lambda: one.rooms[room]["request"]["rqid"] == two.rooms[room]["request"]["rqid"] == at + 1)
            for it in (one, two):
                await it.say("/choose default", room)
        await until(lambda: one.rooms[room]["turn"] == 5 or one.rooms[room]["request"]["rqid"] > 4)
        again = Bot(one.session, address, "Carol", TEAMS[0])
        again.choose = nothing
        back = asyncio.create_task(again.run())
        await until(lambda: room in again.rooms and again.rooms[room]["request"])
        await one.say("/choose move 9", room)
        await one.say("/choose move 1|1", room)
        await one.say("/undo", room)
        await one.say("/forfeit", room)
        await until(lambda: all(map(Bot.has_left, (one, two, three, again))))
        back.cancel()
        return room, one, two, three, again

    room, one, two, three, again = played(address, act, bot("Carol"), bot("Trent", TEAMS[1]), bot("Watcher"))
    texts = [[line for line in it.rooms[room]["lines"] if "|t:|" not in line] for it in (one, two, three, again)]
    assert "|-message|Carol forfeited." in texts[0] and texts[0][-2:] == ["|win|Trent", "|deinit"]
    assert one.rooms[room]["request"] == again.rooms[room]["request"]
    plain = [[it for it in text if it.split("|")[1] not in ("request", "error", "deinit")] for text in texts]
    assert plain[0] == plain[3]
    assert not any(line.startswith("|request") for line in texts[2]) and plain[2] != plain[0]
    assert [it.split("|", 2)[2] for it in one.errors] == [
        "[Invalid choice] Can't move: Your Tauros doesn't have a move 9",
        "[Invalid choice] Sorry, too late to make a different move; the next turn has already started",
        "[Invalid choice] There's nothing to cancel",
    ]


class Watching(Bot):
    """It makes no choice."""

    async def choose(self, room, state):
        pass

    def compare(self, state):
        pass


class Stranger(Watching):
    """It has no name."""

    async def of_lobby(self, fields):
        if fields[1] == "challstr":
            self.named.set()
        await super().of_lobby([*fields[:1], fields[1].replace("challstr", ""), *fields[2:]])


def test_a_stranger_watches(address):
    """It is shown what a spectator with a name is, and may do nothing else."""

    async def act(one, two, three, four):
        await asyncio.gather(*(it.named.wait() for it in (one, two, three, four)))
        await one.say("/challenge Trent, gen1ou")
        await two.say(f"/accept {await two.challenges.get()}")
        await until(lambda: one.rooms)
        (room,) = one.rooms
        for it in (three, four):
            await it.say(f"/join {room}")
        await four.say("/search gen1ou")
        await until(lambda: four.popups)
        await until(lambda: all(it.ended and it.has_left() for it in (three, four)))
        return room, three, four

    watchers = bot("Watcher", kind=Watching), bot("Nobody", kind=Stranger)
    room, three, four = played(address, act, bot("Carol"), bot("Trent", TEAMS[1]), *watchers)
    told = [[it for it in each.rooms[room]["lines"] if "|t:|" not in it] for each in (three, four)]
    assert told[0][-3:-1] == told[1][-3:-1] and told[0] == told[1] and four.popups == ["Choose a name first."]


async def nothing(*_):
    """A bot that only listens."""


class Named(Bot):
    """A bot whose name has a password."""

    async def assertion(self, challstr):
        data = {"act": "login", "name": self.name, "pass": "correct horse", "challstr": challstr}
        async with self.session.post(f"http://{self.address}/action.php", data=data) as answer:
            text = await answer.text()
        assert text.startswith("]")
        return json.loads(text[1:])["assertion"]


class Waiting(Bot):
    """A client that chooses as soon as a request comes, also in a room that it is shown again."""

    async def of_room(self, room, line):
        if line.startswith("|turn|"):
            self.rooms[room]["lines"].append(line)
            self.rooms[room]["turn"] += 1
            return
        await super().of_room(room, line)
        if line.startswith("|request|") and not self.rooms[room]["request"].get("forceSwitch"):
            await self.choose(room, self.rooms[room])


def test_a_battle_goes_on_after_the_server_was_killed(server):
    """The clients come back by their names, are shown the battle from its beginning, and play it to its end."""
    process = server()
    address = f"127.0.0.1:{process.port}"

    async def before(one, two):
        await asyncio.gather(one.named.wait(), two.named.wait())
        await one.say("/challenge Eve, gen1ou")
        await two.say(f"/accept {await two.challenges.get()}")
        await until(lambda: one.rooms and min(next(iter(one.rooms.values()))["turn"], 4) == 4 or one.ended)
        process.kill()
        return one

    async def after(one, two):
        await until(lambda: one.ended and two.ended)
        await until(lambda: all(map(Bot.has_left, (one, two))))
        return one, two

    pair = bot("Alice", kind=Waiting), bot("Eve", TEAMS[1], kind=Waiting)
    first = played(address, before, *pair)
    process.start()
    one, two = played(address, after, *pair)
    (room,) = first.rooms
    assert [*one.rooms] == [*two.rooms] == [room] and one.errors == two.errors == []
    told, again = (
        [it for it in of.rooms[room]["lines"] if not it.startswith(("|t:|", "|request|"))] for of in (first, one)
    )
    assert again[: len(told)] == told and len(again) > len(told)


def test_a_name_with_a_password(address):
    async def act(one, two):
        await two.named.wait()
        socket = await one.session.ws_connect(f"http://{address}/socket")
        await socket.receive()
        await socket.send_json({"type": "register", "name": "Mallory", "password": "correct horse"})
        await socket.receive()
        named = Named(one.session, address, "Mallory", TEAMS[0])
        task = asyncio.create_task(named.run())
        await named.named.wait()
        heard = []
        two.of_lobby = lambda fields: collect(heard, fields)
        await two.say("/trn Mallory,0,")
        await two.say("/trn Mallory,0,4|ff,mallory;00")
        await until(lambda: len(heard) == 2)
        task.cancel()
        return heard

    heard = played(address, act, bot("Someone"), bot("Other"))
    assert [it[1:3] for it in heard] == [["nametaken", "Mallory"]] * 2


async def collect(heard, fields):
    heard.append(fields)


def test_what_is_refused_is_said(address):
    async def act(one):
        await one.named.wait()
        for text, why in (
            ("/search gen9ou", "no such format"),
            ("/dance", 'The command "/dance" does not exist.'),
            ("hello", "Chat is off here."),
            ("/accept Nobody", "no such challenge"),
            ("/challenge Nobody, gen1ou", "no such player"),
            ("/choose move 1", "You are in no battle of this name"),
        ):
            before = len(one.popups)
            await one.say(text)
            await until(lambda: len(one.popups) > before)
            assert why in one.popups[-1], one.popups[-1]
        await one.say("/utm Mew||||mimic|||||||")
        await one.say("/search gen1ou")
        await until(lambda: "team" in one.popups[-1] or "move" in one.popups[-1])
        await one.say("/join battle-gen1ou-99999")
        await until(lambda: "no such room" in one.popups[-1] or one.errors)
        await one.say("/choose move 1", "battle-gen1ou-99999")
        await until(lambda: one.errors)
        assert one.errors[-1] == "|error|[Invalid choice] You are in no battle of this name"

    played(address, act, bot("Solo"))


def test_messages_that_no_client_sends(address):
    """They are refused, none of them makes the server fail, and it plays on."""
    words = (
        "trn utm search challenge accept reject logout join leave choose undo forfeit offertie timer __init__".split()
    )
    rests = [
        "",
        ",,,",
        "a|b,0,",
        "☆,0,",
        "Solo,0,4|ff;00",
        "gen9ou",
        "gen1ou",
        "move 1|" + "9" * 30,
        "battle--",
        "battle-gen1ou-²",
    ]
    rooms = ["", "lobby", "battle-gen1ou-1", "battle-gen1ou-" + "9" * 15, "x" * 999]

    async def act(one):
        await one.named.wait()
        dice = random.Random(9)
        for _ in range(400):
            await one.say(f"/{dice.choice(words)} {dice.choice(rests)}", dice.choice(rooms))
            await one.socket.send_str("".join(chr(dice.randrange(1, 999)) for _ in range(dice.randrange(9))))
        one.named.clear()
        await one.say("/trn Solo,0,")
        await asyncio.wait_for(one.named.wait(), 60)
        assert len(one.popups) > 200 and "the server failed" not in one.popups

    played(address, act, bot("Solo", kind=Listener))


class Listener(Bot):
    """It looks at no room, and is refused names."""

    async def of_room(self, room, line):
        pass


def watching(services, account):
    """A connection of this protocol, for the games of test_core."""
    services.lobby = SimpleNamespace(searching=lambda account: [])
    made = ShowdownConnection(services, test_core.FakeTransport(), "", None)
    made.account, made._name = Account(account, "a"), "a"
    if account:
        services.rooms.arrive(account, made)
    return made


@pytest.mark.parametrize("viewer", [None, Side.TWO], ids=["its own", "side 2"])
def test_what_the_foe_hides_changes_nothing(monkeypatch, viewer):
    """Twenty games twice: side 1 and the audience are sent the same, unless they are given the view of side 2."""
    monkeypatch.setattr(test_core, "watching", watching)
    monkeypatch.setattr("gen1_server.showdown.time", lambda: 7)
    differ = 0
    for seed in range(20):
        seen = []
        for variant in (0, 1):
            with monkeypatch.context() as patched:
                if viewer:
                    patched.setattr(
                        test_core.Match, "view", lambda self, _, view=test_core.Match.view: view(self, viewer)
                    )
                seen.append(asyncio.run(test_core.leak_game(seed, variant, patched)))
        assert len(seen[0][1]) > 2 * seen[0][0] or viewer
        differ += seen[0] != seen[1]
    assert differ == (20 if viewer else 0)
