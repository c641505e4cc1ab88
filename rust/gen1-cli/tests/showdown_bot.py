"""Bots that read Showdown's protocol as poke-env (AbstractBattle, Pokemon) and foul-play (battle_modifier) do, from memory of both.

It uses nothing of gen1. Where one of them would raise, assert or warn, `Unparsed` is raised. python/gen1/tests/test_clients.py compares what they
believe with the battle. As a program it plays battles over pipes; each side chooses at random:

usage: showdown_bot.py BATTLES COMMAND ..
Prints how many battles were won and tied, and fails if a message is wrong or shows a player what it may not know.
"""

import json
import random
import re
import subprocess
import sys

STATS = ["atk", "def", "spa", "spd", "spe", "accuracy", "evasion"]
STATUS = {"slp", "psn", "tox", "brn", "frz", "par"}
# Words of the first generation that poke-env ignores.
IGNORED = set(
    """-crit -fail -hint -hitcount -miss -notarget -nothing -ohko -resisted -supereffective askreg chat c c: debug gametype inactive
    inactiveoff init j join l leave n rated start t: title upkeep""".split()
)
# Its effects, of those that the first generation has.
EFFECTS = set(
    """BIDE CONFUSION DISABLE FOCUS_ENERGY HAZE LEECH_SEED LIGHT_SCREEN MIMIC MINIMIZE MIST RAGE REFLECT SPLASH SUBSTITUTE TRANSFORM
    TRAPPED TYPECHANGE""".split()
)
TYPES = set("Normal Fighting Flying Poison Ground Rock Bug Ghost Fire Water Grass Electric Psychic Ice Dragon".split())
REASONS = {"slp", "frz", "par", "flinch", "recharge", "partiallytrapped", "Disable", "nopp"}
IDENT = re.compile(r"p[12][a ]?: ?.+")
# The beginnings of `|error|` that poke-env answers with another choice.
ERRORS = (
    "[Invalid choice] Can't move: ",
    "[Invalid choice] Can't switch: ",
    "[Invalid choice] ",
    "[Unavailable choice] ",
)


class Unparsed(AssertionError):
    """A line or a request on which a bot would fall over, or warn."""


def want(it, *said):
    if not it:
        raise Unparsed(*said)


def id_of(name):
    return re.sub(r"[^a-z0-9]", "", name.lower())


class Pokemon:
    """A member as poke-env keeps it."""

    def __init__(self, details):
        self.active, self.status, self.hp, self.max_hp = False, None, None, None
        self.moves, self.stats, self.uses = {}, None, {}
        self.details_are(details)
        self.leave()

    def details_are(self, details):
        species, *rest = details.split(", ")
        want(re.fullmatch(r"[A-Z][\w.'’♀♂ -]*", species) and len(rest) <= 2, "details", details)
        levels = [it for it in rest if it.startswith("L")]
        want(set(rest) - set(levels) <= {"M", "F"} and len(levels) <= 1, "details", details)
        self.species, self.level = species, int(levels[0][1:]) if levels else 100

    def leave(self):
        self.active, self.boosts, self.effects, self.types = False, dict.fromkeys(STATS, 0), set(), None
        self.must_recharge, self.preparing, self.volatiles = False, None, []

    def condition_is(self, text):
        """HP and status. A condition without a status changes none, but for `0 fnt`."""
        if text == "0 fnt":
            self.hp, self.status = 0, "fnt"
            return
        found = re.fullmatch(r"(\d+)/(\d+)[gyr]?(?: (\w+))?", text)
        want(found and 0 < int(found[1]) <= int(found[2]), "condition", text)
        if found[3]:
            want(found[3] in STATUS, "condition", text)
            self.status = found[3]
        self.hp, self.max_hp = int(found[1]), int(found[2])

    def boost(self, stat, amount):
        want(stat in STATS and amount.isdigit(), "boost", stat, amount)
        return stat, int(amount)

    def effect(self, text):
        """The name of poke-env for an effect; it warns where it knows none."""
        name = text.replace("move: ", "").replace(" ", "_").replace("-", "_").upper()
        want(name in EFFECTS, "effect", text)
        return name

    def moved(self, move, counts):
        self.must_recharge, self.preparing = False, None
        if id_of(move) not in ("struggle", "recharge"):
            self.moves.setdefault(id_of(move), move)
            self.uses[id_of(move)] = self.uses.get(id_of(move), 0) + counts
            want(len(self.moves) <= 4, "a fifth move", move, self.moves)


class Client:
    """A battle as a bot sees it: the player `role`, or with "" a spectator."""

    def __init__(self, role):
        self.role, self.teams, self.sizes, self.request = role, {"p1": {}, "p2": {}}, {}, None
        self.turn, self.players, self.rules, self.ended, self.errors = 0, {}, [], None, []

    def member(self, ident, details=None):
        want(IDENT.fullmatch(ident), "ident", ident)
        name = ident[:2] + ident[ident.index(":") :]
        team = self.teams[ident[:2]]
        if name not in team:
            want(details, "a member that did not come out", ident)
            want(len(team) < self.sizes.get(ident[:2], 6), "the team is full", ident)
            team[name] = Pokemon(details)
        return team[name]

    def out(self, side):
        found = [it for it in self.teams[side].values() if it.active]
        want(len(found) <= 1, "two active members", side)
        return found[0] if found else None

    def acting(self, ident):
        """The member of a line, which can only be an active one."""
        found = self.member(ident)
        want(found.active and ident[2] == "a", "not an active member", ident)
        return found

    def reads(self, line):
        """Takes a line of an update."""
        want(line.startswith("|"), "line", line)
        _, word, *fields = line.split("|")
        if word == "" or word in IGNORED:
            return
        name = "on_" + word.lstrip("-") + ("_" if word.startswith("-") else "")
        want(hasattr(self, name), "word", line)
        try:
            getattr(self, name)(*fields)
        except Unparsed as why:
            raise Unparsed(line, *why.args) from None
        except (TypeError, ValueError, KeyError, IndexError) as why:
            raise Unparsed(line, repr(why)) from why

    # The heading.

    def on_player(self, role, name, *more):
        want(len(more) >= 1, "player", name, more)
        self.players[role] = name

    def on_teamsize(self, role, count):
        self.sizes[role] = int(count)

    def on_gen(self, number):
        want(number == "1", "gen", number)

    def on_tier(self, name):
        want(re.sub("[^a-z0-9]+", "", name.lower()), "tier", name)

    def on_rule(self, text):
        want(": " in text, "rule", text)
        self.rules.append(text)

    # What happens.

    def on_turn(self, number):
        want(int(number) == self.turn + 1, "turn", number)
        self.turn = int(number)

    def on_switch(self, ident, details, condition):
        want(ident[2] == "a", "switch", ident)
        before = self.out(ident[:2])
        if before:
            before.leave()
        found = self.member(ident, details)
        found.details_are(details)
        if " " not in condition and found.status:
            raise Unparsed("a status that is gone without a line", found.status)
        found.active = True
        found.condition_is(condition)

    def on_move(self, ident, move, target="", *tags):
        """`[from] move: X` says that X continues: foul-play counts no PP, poke-env notes X."""
        user, tags = self.acting(ident), list(tags)
        froms = [tag for tag in tags if tag.startswith("[from]")]
        for tag in tags:
            want(tag in ("[miss]", "[still]", "[notarget]") or tag in froms, "tag", tag)
        for tag in froms:
            source = tag.removeprefix("[from]").strip().removeprefix("move: ")
            want(source in ("lockedmove", move), "from", tag)
        want(target == "" or re.match(r"p[12]a?: ", target), "target", target)
        if target:
            self.acting(target)
        user.moved(move, 0 if froms else 1)

    def on_cant(self, ident, reason, move=None):
        user = self.acting(ident)
        want(reason in REASONS, "reason", reason)
        want(move is None or id_of(move) in user.moves, "a move that it doesn't have", move)
        if reason == "recharge":
            user.must_recharge = False

    def on_faint(self, ident):
        found = self.acting(ident)
        found.hp, found.status = 0, "fnt"

    def on_win(self, name):
        want(name in self.players.values(), "winner", name)
        self.ended = name

    def on_tie(self):
        self.ended = ""

    def on_message_(self, text):
        want(text, "message")

    # What moves do. The trailing `_` is Showdown's `-`.

    def on_damage_(self, ident, condition, *tags):
        self.tagged(tags, ("psn", "brn", "Leech Seed", "Recoil", "confusion"))
        self.acting(ident).condition_is(condition)

    def on_heal_(self, ident, condition, *tags):
        self.tagged(tags, ("drain", "move: Rest"))
        self.acting(ident).condition_is(condition)

    def tagged(self, tags, sources):
        """`[from]` with a source, `[of]` with an active member, and `[silent]`."""
        for tag in tags:
            word, _, rest = tag.partition(" ")
            want(word in ("[from]", "[of]", "[silent]", "[msg]"), "tag", tag)
            if word == "[of]":
                self.acting(rest)
            if word == "[from]":
                want(rest in sources or sources == "move: " and rest.startswith("move: "), "from", tag)

    def on_status_(self, ident, status, *tags):
        self.tagged(tags, "move: ")
        want(status in STATUS, "status", status)
        self.acting(ident).status = status

    def on_curestatus_(self, ident, status, *tags):
        """poke-env cures only the status that it believes in."""
        self.tagged(tags, ())
        found = self.acting(ident)
        want(status == found.status, "cured of what it doesn't have", status, found.status)
        found.status = None

    def on_boost_(self, ident, stat, amount, *tags):
        self.change(ident, stat, amount, tags, 1)

    def on_unboost_(self, ident, stat, amount, *tags):
        self.change(ident, stat, amount, tags, -1)

    def change(self, ident, stat, amount, tags, sign):
        self.tagged(tags, ("Rage",))
        found = self.acting(ident)
        stat, amount = found.boost(stat, amount)
        found.boosts[stat] = max(-6, min(6, found.boosts[stat] + sign * amount))

    def on_setboost_(self, ident, stat, amount, *tags):
        found = self.acting(ident)
        stat, amount = found.boost(stat, amount.lstrip("-"))
        found.boosts[stat] = amount

    def on_clearallboost_(self, *tags):
        self.tagged(tags, ())
        for side in self.teams:
            if self.out(side):
                self.out(side).boosts = dict.fromkeys(STATS, 0)

    def on_start_(self, ident, effect, *rest):
        found = self.acting(ident)
        if effect == "typechange":
            types = rest[0].split("/")
            want(set(types) <= TYPES and 1 <= len(types) <= 2, "types", types)
            found.types, rest = types, rest[1:]
        if effect == "Disable" and rest:
            want(id_of(rest[0]) in found.moves, "a move that it doesn't have", rest[0])
            rest = rest[1:]
        self.tagged(rest, ("move: Conversion",))
        found.effects.add(found.effect(effect))
        if id_of(effect.split(":")[-1]) not in found.volatiles:
            found.volatiles.append(id_of(effect.split(":")[-1]))

    def on_activate_(self, ident, effect, *tags):
        """poke-env starts an effect here too, even where none lasts; foul-play does not."""
        want(all(tag in ("[damage]", "[silent]") or tag.startswith("[of] ") for tag in tags), "tags", tags)
        self.acting(ident).effect(effect)

    def on_end_(self, ident, effect, *tags):
        """foul-play warns where it knows no such volatile status."""
        self.tagged(tags, ())
        found, name = self.acting(ident), id_of(effect.split(":")[-1])
        want(name in found.volatiles, "it did not start", effect, found.volatiles)
        found.effects.discard(found.effect(effect))
        found.volatiles.remove(name)

    def on_immune_(self, ident, *tags):
        want(not tags, "immune", tags)
        self.acting(ident)

    def on_mustrecharge_(self, ident):
        self.acting(ident).must_recharge = True

    def on_prepare_(self, ident, move, *target):
        self.acting(ident).preparing = id_of(move)

    # Requests and errors, which come to a player alone.

    def asks(self, text):
        """Takes a request. poke-env asserts that each id is a move of the active member."""
        self.request = asked = json.loads(text)
        want(not asked.get("rqid") or asked["rqid"] > getattr(self, "rqid", 0), "rqid", asked.get("rqid"))
        self.rqid = asked.get("rqid", 0)
        want(asked["side"]["id"] == self.role and asked["side"]["name"] == self.players.get(self.role), "side", text)
        for it in asked["side"]["pokemon"]:
            want(
                {"ident", "details", "condition", "active", "stats", "moves", "baseAbility", "item", "pokeball"}
                <= set(it),
                it,
            )
            found = self.member(it["ident"], it["details"])
            found.details_are(it["details"])
            if found.max_hp is not None:
                believed = (
                    "0 fnt" if not found.hp else f"{found.hp}/{found.max_hp}" + f" {found.status}" * bool(found.status)
                )
                away = it["condition"].replace("tox", "psn") == believed.replace("tox", "psn") and not found.active
                want(it["condition"] == believed or away, "condition", it, believed)
            found.condition_is(it["condition"])
            want(bool(it["active"]) == found.active, "active", it)
            want(set(found.moves) <= set(it["moves"]), "moves", it, found.moves)
            for move in it["moves"]:
                found.moves.setdefault(move, move)
            found.stats = it["stats"]
        self.moves, self.switches, self.trapped = [], [], False
        if "active" in asked:
            self.trapped = bool(asked["active"][0].get("trapped"))
            for it in asked["active"][0]["moves"]:
                usable = it["id"] in self.out(self.role).moves or it["id"] in ("struggle", "recharge")
                want(usable and id_of(it["move"]) == it["id"], "a move that it doesn't have", it)
                if not it.get("disabled", False):
                    self.moves.append(it["id"])
        if not self.trapped and not asked.get("wait"):
            on_bench = [it for it in asked["side"]["pokemon"] if not it["active"] and it["condition"] != "0 fnt"]
            self.switches = [it["ident"].split(": ", 1)[1] for it in on_bench]

    def refused(self, text):
        want(text.startswith(ERRORS), "error", text)
        self.errors.append(text)

    @property
    def awaited(self):
        """Whether the player has to choose."""
        return self.request is not None and not self.request.get("wait", False)

    def choices(self):
        """What poke-env would send, of which one is chosen."""
        moves = [] if any(self.request.get("forceSwitch", [])) else [f"move {it}" for it in self.moves]
        return moves + [f"switch {it}" for it in self.switches] or ["default"]


MOVES = {
    "Tauros": "bodyslam,hyperbeam,blizzard,earthquake",
    "Chansey": "icebeam,thunderwave,softboiled,counter",
    "Alakazam": "psychic,recover,thunderwave,seismictoss",
    "Cloyster": "explosion,clamp,blizzard,surf",
    "Charizard": "fly,firespin,rage,substitute",
    "Gengar": "hypnosis,nightshade,confuseray,megadrain",
    "Kangaskhan": "thrash,bide,disable,pinmissile",
    "Jynx": "lovelykiss,rest,haze,leechseed",
    "Ditto": "bodyslam",
}


def team():
    """The species of a team in order, and its packed line."""
    species = random.sample(sorted(MOVES), random.randint(1, 6))
    levels = [random.choice(["", "50", "80"]) for _ in species]
    return species, "]".join(f"{name}||||{MOVES[name]}||||||{level}|" for name, level in zip(species, levels))


class Player(Client):
    """A client that looks for what its player may not know: the foe's members before they come out."""

    def __init__(self, role, own, foes):
        super().__init__(role)
        self.own, self.hidden, self.is_refused = own, set(foes), False

    def reads(self, line):
        if line.startswith("|switch|") and not line.startswith(f"|switch|{self.role}"):
            self.hidden.discard(line.split("|")[3].split(",")[0])
        others = re.sub(rf"{self.role}a: \w+(\|\w+)?", "", line)
        want(not any(name in others for name in self.hidden), line)
        super().reads(line)

    def asks(self, text):
        super().asks(text)
        side, known = self.request["side"], {"active", "forceSwitch", "wait", "side", "rqid"}
        want(set(self.request) <= known and set(side) == {"name", "id", "pokemon"}, text)
        want(sum(key in self.request for key in ("active", "forceSwitch", "wait")) == 1, text)
        want(sorted(it["ident"][4:] for it in side["pokemon"]) == sorted(self.own), text)
        want(not any(name in text for name in self.hidden - set(self.own)), text)

    def choice(self):
        """A choice that the request allows, in one of its forms; at times a wrong one."""
        if not self.is_refused and random.random() < 0.03:
            self.is_refused = True
            return random.choice(["move 9", "switch 1", "switch 7", "move Splash", "dance"])
        kind, _, name = random.choice(self.choices() + ["default"]).partition(" ")
        if kind == "default" or random.random() < 0.5:
            return f"{kind} {name}".strip()
        places = {"move": [it["id"] for it in self.request.get("active", [{"moves": []}])[0]["moves"]]}
        places["switch"] = [it["ident"][4:] for it in self.request["side"]["pokemon"]]
        return f"{kind} {places[kind].index(name) + 1}"


def read_by(client, kind, lines):
    """Gives a message to a client. Only the first of two lines after a split is for the side that the split names."""
    if kind == "sideupdate" and lines[0] == client.role:
        _, word, text = lines[1].split("|", 2)
        client.refused(text) if word == "error" else client.asks(text)
    rest = iter(lines if kind == "update" else [])
    for line in rest:
        if line.startswith("|split|"):
            own, public = next(rest), next(rest)
            line = own if line == f"|split|{client.role}" else public
        client.reads(line)


def battle(program):
    """Plays a battle, and returns its object and the number of wrong choices that were refused."""

    def send(text):
        program.stdin.write(text + "\n")
        program.stdin.flush()

    teams = [team(), team()]
    players = [Player(f"p{number}", teams[number - 1][0], teams[2 - number][0]) for number in (1, 2)]
    send(">start " + json.dumps({"formatid": "gen1customgame", "seed": [random.randrange(65536) for _ in range(4)]}))
    for number, (_, packed) in enumerate(teams, 1):
        send(f">player p{number} " + json.dumps({"name": f"Bot {number}", "team": packed}))
    refused = 0
    while True:
        kind, *lines = message(program)
        if kind == "end":
            return json.loads(lines[0]), refused
        for player in players:
            read_by(player, kind, lines)
            if kind == "sideupdate" and lines[0] == player.role and player.awaited:
                want(len(player.errors) == player.is_refused, player.errors)
                refused += len(player.errors)
                player.is_refused = player.is_refused and not player.errors
                player.errors = []
                send(f">{player.role} {player.choice()}")


def message(program):
    """The lines of the next message, which ends with an empty line."""
    lines = []
    while line := program.stdout.readline():
        if line == "\n":
            return lines
        lines.append(line.rstrip("\n"))
    sys.exit(f"the program ended: {lines}")


def main():
    random.seed(int(sys.argv[1]))
    program = subprocess.Popen(sys.argv[2:], stdin=subprocess.PIPE, stdout=subprocess.PIPE, text=True, encoding="utf-8")
    counts = {"Bot 1": 0, "Bot 2": 0, "": 0}
    refused = turns = 0
    for _ in range(int(sys.argv[1])):
        result, errors = battle(program)
        counts[result["winner"]] += 1
        refused, turns = refused + errors, turns + result["turns"]
    program.stdin.close()
    assert program.wait() == 0
    print(f"{counts['Bot 1']} and {counts['Bot 2']} won, {counts['']} tied, {turns} turns, {refused} refused")


if __name__ == "__main__":
    main()
