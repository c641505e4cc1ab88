"""The views that bots have of a battle: two players and a spectator read the simulator's messages (showdown_bot.py), beside the true battle."""

import json
import os
import random
import sys

import pytest
from conftest import ALL_SPECIES, MOVES, ROOT
from gen1 import Battle, Choice, Conditions, Member, Move, Outcome, Rules, Status, Team
from gen1.showdown import Hp, Members, Simulator
from test_showdown import GOING_ON, is_there

sys.path.insert(0, str(ROOT / "rust" / "gen1-cli" / "tests"))
from showdown_bot import Client, id_of, read_by

pytestmark = pytest.mark.skipif(not is_there(), reason="libgen1_extras.so is missing: no cargo")
# How many battles are played: 20, or as many as the variable says.
BATTLES = int(os.environ.get("GEN1_SHOWDOWN_BATTLES", "20"))
# Moves of whose effects clients keep something.
OFTEN = """SUBSTITUTE HAZE MIST LEECH_SEED CONFUSE_RAY REST HYPER_BEAM HYPNOSIS CONVERSION RECOVER MEGA_DRAIN DREAM_EATER EXPLOSION FISSURE
    AMNESIA REFLECT LIGHT_SCREEN FOCUS_ENERGY THUNDER_WAVE BLIZZARD JUMP_KICK AURORA_BEAM SOLAR_BEAM DIG""".split()
OFTEN = GOING_ON + [Move[it] for it in OFTEN]
STATUS = {Status.SLEEP: "slp", Status.POISON: "psn", Status.BURN: "brn", Status.FREEZE: "frz", Status.PARALYSIS: "par"}
EFFECTS = {
    "confusion": Conditions.CONFUSED,
    "substitute": Conditions.SUBSTITUTE,
    "leechseed": Conditions.SEEDED,
    "mist": Conditions.MIST,
    "focusenergy": Conditions.FOCUS_ENERGY,
    "lightscreen": Conditions.LIGHT_SCREEN,
    "reflect": Conditions.REFLECT,
    "disable": Conditions.DISABLED,
    "bide": Conditions.BIDE,
    "rage": Conditions.RAGE,
}
# Bots count a PP where a move is charged, the battle takes it where the move is used.
CHARGED = {"fly", "dig", "solarbeam", "razorwind", "skyattack", "skullbash"}


def drawn(dice):
    """Six members, as a packed line has them; some have nicknames."""
    members, names = [], []
    for number, species in enumerate(dice.sample(ALL_SPECIES, 6), 1):
        moves = dice.sample(OFTEN if dice.random() < 0.6 else MOVES, dice.randint(3, 4))
        level = dice.choice([100, 100, 100, dice.randint(20, 100)])
        dvs, exp = [dice.randint(0, 15) for _ in range(4)], [dice.randint(0, 65535) for _ in range(5)]
        members.append(Member(species, moves, level=level, dvs=dvs, exp=exp))
        names.append(f"Nick {number}" if dice.random() < 0.3 else None)
    return Members(Members(Team(members), names).packed())


def shown(hp, most, form):
    """HP as others than the owner see them."""
    return {
        Hp.EXACT: (hp, most),
        Hp.PERCENT: (100 if hp == most else min(99, -(-100 * hp // most)), 100),
        Hp.PIXELS: (max(1, 48 * hp // most), 48),
    }[form]


class Game:
    """A battle, and the bots that read about it."""

    def __init__(self, seed):
        self.dice = dice = random.Random(seed)
        self.form, has_clauses = dice.choice(list(Hp)), dice.random() < 0.5
        self.teams, ten = [drawn(dice), drawn(dice)], [dice.randrange(256) for _ in range(10)]
        rules = Rules.SLEEP_CLAUSE | Rules.FREEZE_CLAUSE if has_clauses else Rules.NONE
        self.battle = Battle(self.teams[0].team, self.teams[1].team, ten, rules=rules)
        self.first = self.battle.state
        self.clients = [Client("p1"), Client("p2"), Client("")]
        # The place of a side's member whose bad poison is on after its poison was cured: a new poison is an ordinary one.
        self.lingering = {1: 0, 2: 0}
        self.simulator = Simulator(hp=self.form)
        formatid = "gen1link" if has_clauses else "gen1customgame"
        self.simulator.take(">start " + json.dumps({"formatid": formatid, "seed": ten}))
        for player, team in zip(("p1", "p2"), self.teams):
            given = {"name": f"Bot {player}", "team": team.packed()}
            self.said = self.simulator.take(f">player {player} " + json.dumps(given)).text
        self.battle.update(0, 0)

    def play(self):
        """Plays to the end, and compares all beliefs before and after each request."""
        while True:
            for client in self.clients:
                for kind, *lines in [it.split("\n") for it in self.said.split("\n\n") if it]:
                    read_by(client, kind, lines)
                    if kind == "update" or lines[0] == client.role:
                        self.compare(client)
                    if kind == "sideupdate" and lines[0] == client.role:
                        self.compare_request(client)
            if self.battle.result.is_over:
                winner = {Outcome.WIN_ONE: "Bot p1", Outcome.WIN_TWO: "Bot p2"}.get(self.battle.result.outcome, "")
                assert [client.ended for client in self.clients] == [winner] * 3
                return
            self.choose()

    def choose(self):
        """Both players choose by their requests alone. No choice is refused."""
        self.said, chosen = "", []
        for side, client in enumerate(self.clients[:2], 1):
            text = self.dice.choice(client.choices()) if client.awaited else None
            chosen.append(self.choice_of(side, text) if text else Choice.PASS)
            if text:
                self.said += self.simulator.take(f">p{side} {text}").text
        assert "|error|" not in self.said, self.said
        self.battle.update(*chosen)
        for side in (1, 2):
            active = self.battle.state.side(side).active
            is_cured = self.battle.state.member(side, active.place).status is not Status.POISON
            if not active.conditions & Conditions.BAD_POISON:
                self.lingering[side] = 0
            elif is_cured:
                self.lingering[side] = active.place

    def choice_of(self, side, text):
        word, _, name = text.partition(" ")
        if word == "switch":
            return Choice(0x21 + self.teams[side - 1].names.index(name))
        if Choice.MOVE_0 in self.battle.choices(side):
            return Choice.MOVE_0
        return Choice(0x11 + self.moves_of(side).index(name))

    def moves_of(self, side):
        state = self.battle.state.side(side)
        return [id_of(it.label) for it in state.members[state.active.place - 1].moves]

    def compare(self, client):
        """A client's view of both sides is that of the true battle."""
        state = self.battle.state
        for side in (1, 2):
            names, active, out = self.teams[side - 1].names, state.side(side).active, client.out(f"p{side}")
            for at, member in enumerate(state.side(side).members):
                found = client.teams[f"p{side}"].get(f"p{side}: {names[at]}")
                assert found or at + 1 != active.place
                if found and found.hp is not None:
                    assert (found is out) == (at + 1 == active.place)
                    form = Hp.EXACT if client.role == f"p{side}" else self.form
                    self.compare_member(found, member, form, active, self.lingering[side] == active.place)
                    self.compare_moves(found, member, self.first.side(side).members[at])
            if state.member(side, active.place).hp:
                self.compare_active(out, active)

    def compare_member(self, found, member, form, active, is_cured):
        assert (id_of(found.species), found.level) == (id_of(member.species.label), member.level)
        if not member.hp:
            assert (found.hp, found.status) == (0, "fnt")
            return
        assert (found.hp, found.max_hp) == shown(member.hp, member.max_hp, form)
        is_toxic = found.active and active.conditions & Conditions.BAD_POISON and member.status is Status.POISON
        believed = found.status if found.active else found.status and found.status.replace("tox", "psn")
        assert believed == ("tox" if is_toxic else STATUS.get(member.status)) or is_toxic and is_cured

    def compare_moves(self, found, member, before):
        known = {id_of(it.label): (pp, most) for it, pp, most in zip(member.moves, member.pp, before.pp)}
        assert set(found.moves) <= set(known)
        for move, uses in found.uses.items():
            pp, most = known[move]
            assert move in CHARGED or move == "bide" or (most - uses) % 64 == pp, (move, found.uses, pp)

    def compare_active(self, out, active):
        stages = dict(zip(["atk", "def", "spe", "spa", "accuracy", "evasion"], active.stages))
        assert out.boosts == {**stages, "spd": stages["spa"]}
        assert set(out.volatiles) - {"typechange"} == {name for name, it in EFFECTS.items() if active.conditions & it}
        assert set(out.types or ()) in (set(), {it.label for it in active.types})
        assert out.must_recharge or not active.conditions & Conditions.RECHARGE
        assert out.preparing or not active.conditions & Conditions.CHARGING

    def compare_request(self, client):
        """A request offers what the battle offers."""
        side = int(client.role[1])
        offered, names = self.battle.choices(side), self.teams[side - 1].names
        assert client.awaited == (offered != (Choice.PASS,))
        assert sorted(client.switches) == sorted(names[int(it) - 0x21] for it in offered if it >= 0x20)
        if client.awaited and Choice.MOVE_0 not in offered:
            moves = self.moves_of(side)
            assert client.moves == [moves[int(it) - 0x11] for it in offered if it < 0x20]
        for it, member in zip(names, self.battle.state.side(side).members):
            attack, defense, speed, special = member.stats
            stats = {"atk": attack, "def": defense, "spe": speed, "spa": special, "spd": special}
            assert client.member(f"p{side}: {it}").stats == stats


@pytest.mark.parametrize("seed", range(BATTLES))
def test_no_line_is_unread_and_no_belief_is_wrong(seed):
    Game(seed).play()


class Deaf(Client):
    """A spectator that misses the first line with some beginning."""

    def __init__(self, begins):
        super().__init__("")
        self.begins, self.missed = begins, False

    def reads(self, line):
        if self.missed or not line.startswith(self.begins):
            return super().reads(line)
        self.missed = True


MISSED = "|switch|p1a |move|p2a |turn| |-damage| |-heal| |-status| |-curestatus| |-boost| |-unboost| |-start| |-end| |-mustrecharge| |-prepare|"


@pytest.mark.parametrize("begins", MISSED.split())
def test_a_line_that_is_missing_is_noticed(begins):
    for seed in range(40):
        game = Game(seed)
        game.clients = [*game.clients[:2], Deaf(begins)]
        try:
            game.play()
        except AssertionError:
            if game.clients[2].missed:
                return
            raise
    raise AssertionError(f"nobody misses {begins}")
