"""States, choices in words, rows of the tables, teams as text, the sample teams, and random teams of their members."""

import random
import re
from fractions import Fraction

import gen1
import pytest
from conftest import BIG, NO_NUMBERS, RECORDED, ROOT, random_team, recorded_only
from gen1 import (
    BadArgument,
    BadTeam,
    BadText,
    BadType,
    Battle,
    Choice,
    Conditions,
    Member,
    Move,
    NewFault,
    Outcome,
    Request,
    Rules,
    Species,
    Status,
    Team,
    TextFault,
    Type,
    base,
    effectiveness,
    move_data,
    sample_sets,
    sample_teams,
)


if RECORDED.is_dir():
    from battles import recorded, traces


def u16(given, at):
    return given[at] + 256 * given[at + 1]


def compare_member(it, given):
    """A member with its 24 bytes (docs/LAYOUT.md, "Member")."""
    kinds = {0: 0, 8: 2, 16: 3, 32: 4, 64: 5, **dict.fromkeys(range(1, 8), 1)}
    slots = [at for at in range(4) if given[15 + at]]
    assert (it.species, it.level, it.max_hp, it.hp) == (given[0], given[1], u16(given, 2), u16(given, 4))
    assert it.stats == tuple(u16(given, at) for at in (6, 8, 10, 12)) and it.status == kinds[given[14]]
    assert it.sleep == (given[14] if given[14] < 8 else 0) and it.marked == bool(given[23])
    assert it.moves == tuple(given[15 + at] for at in slots) and it.pp == tuple(given[19 + at] for at in slots)


def compare_active(it, given):
    """The active block (docs/LAYOUT.md, "Active block")."""
    assert (it.place, *it.types) == tuple(given[:3]) and it.stages == tuple(byte - 6 for byte in given[3:9])
    assert it.stats == tuple(u16(given, at) for at in (9, 11, 13, 15)) and it.conditions == int.from_bytes(
        given[17:21], "little"
    )
    counters = it.substitute, it.confusion, it.disabled_slot, it.disabled_turns, it.bad_poison, it.turns
    assert counters == tuple(given[21:27]) and it.energy == u16(given, 27)
    assert (it.current_move, it.picked_move, it.kept_accuracy) == tuple(given[29:32])


@recorded_only
@pytest.mark.parametrize("name", ["traces", "corners"])
def test_states(name):
    """The state of each recorded battle, field by field by docs/LAYOUT.md."""
    for trace in traces(recorded(f"{name}.jsonl")):
        for update in trace["updates"][::3]:
            given = bytes.fromhex(update["bytes"])
            state = Battle.load(given).state
            assert (state.turn, state.last_damage) == (u16(given, 1), u16(given, 3))
            assert (state.index, state.numbers) == (given[5], tuple(given[6:16]))
            assert (state.outcome, *state.requests, state.rules, state.limit) == (*given[16:20], u16(given, 20))
            for at, side in ((24, state.one), (204, state.two)):
                places = [given[at + 24 * it : at + 24 * it + 24] for it in range(6)]
                for it, member in zip(side.members, places):
                    compare_member(it, member)
                assert len(side.members) == sum(bool(it[0]) for it in places)
                if state.turn:
                    compare_active(side.active, given[at + 144 : at + 180])
                else:
                    assert side.active is None and not any(given[at + 144 : at + 180])


def test_a_state(team):
    battle = Battle(team, team, range(10), Rules.SLEEP_CLAUSE, 99)
    assert battle.state.one.active is None and battle.state.turn == 0 and battle.state.rules is Rules.SLEEP_CLAUSE
    battle.update(0, 0)
    state = battle.state
    assert state.one.active.types == (Type.NORMAL, Type.NORMAL) and state.one.active.conditions == Conditions.NONE
    assert (state.outcome, state.requests, state.limit) == (Outcome.ONGOING, (Request.MOVE, Request.MOVE), 99)
    assert (
        state.two.members[1].moves == (Move.HYPNOSIS, Move.NIGHT_SHADE) and state.one.members[0].status is Status.NONE
    )


def test_choices_in_words(battle, team):
    assert [battle.words(1, it) for it in battle.choices(1)] == [
        "move 1 Body Slam",
        "move 2 Hyper Beam",
        "move 3 Earthquake",
        "move 4 Blizzard",
        "switch 2 Gengar",
    ]
    assert (battle.words(2, Choice.PASS), battle.words(2, Choice.MOVE_0), battle.words(2, 0x21)) == (
        "pass",
        "move 0",
        "switch 1 Tauros",
    )
    for side, choice in ((1, 0x23), (1, 5), (1, 256), (3, 0)):
        with pytest.raises(BadArgument):
            battle.words(side, choice)
    with pytest.raises(BadArgument):
        Battle(team, team, range(10)).words(1, 0x11)


# Tables


def rows(heading):
    text = (ROOT / "docs" / "TABLES.md").read_text()
    section = re.search(rf"^## {heading}\n(.*?)(?=^## |\Z)", text, re.M | re.S)[1]
    return [
        [cell.strip() for cell in line.strip("|").split("|")]
        for line in section.splitlines()
        if re.match(r"\| *\d", line)
    ]


@recorded_only
def test_rows_of_the_tables():
    for number, name, one, two, *stats in rows("Species"):
        it = base(int(number))
        assert [it.types[0].label, it.types[1].label] == [one, two] and it == base(name)
        assert [it.hp, it.attack, it.defense, it.speed, it.special] == list(map(int, stats))
    for number, name, kind, power, accuracy, pp, effect in rows("Moves"):
        it = move_data(name)
        assert it.effect.name.replace("_", "") == re.search(r"\w+", effect)[0].upper()
        assert it.priority == {"Quick Attack": 1, "Counter": -1}.get(name, 0)
        assert it.high_critical == (name in ("Karate Chop", "Razor Leaf", "Crabhammer", "Slash"))
        assert (it.type.label, it.power, it.accuracy, it.pp) == (kind, int(power), int(accuracy), int(pp))
        assert it == move_data(int(number))
    for call in (base, move_data):
        for wrong in (0, 256, "Pond"):
            with pytest.raises(BadTeam):
                call(wrong)


# Text

TEXT = """Tauros (M)
Level: 88
EVs: 252 HP / 4 Atk / 100 SpA / 100 SpD
IVs: 6 HP / 0 Atk / 20 Def
- Body Slam
"""


def test_effectiveness():
    """docs/TABLES.md, "Type rows", for a few; and each of both numbers."""
    for attack, foe, factor in (
        ("WATER", "FIRE", 2),
        ("FIRE", "WATER", Fraction(1, 2)),
        ("NORMAL", "GHOST", 0),
        ("GHOST", "PSYCHIC", 0),
        ("NORMAL", "NORMAL", 1),
    ):
        assert effectiveness(Type[attack], Type[foe]) == factor == effectiveness(int(Type[attack]), int(Type[foe]))
    for it in (-1, 15, *BIG):
        for call in (lambda it=it: effectiveness(it, 0), lambda it=it: effectiveness(0, it)):
            with pytest.raises(BadArgument):
                call()
    for it in NO_NUMBERS:
        with pytest.raises(BadType):
            effectiveness(it, 0)


def test_stats_of_members():
    """docs/MECHANICS.md, "Stats"."""
    assert (
        Member("Tauros", ["Strength"]).stats[:4] == (353, 298, 288, 318)
        and Member("Chansey", ["Strength"]).stats[0] == 703
    )
    # Level 1 without DVs and experience: Chansey has 250 * 2 * 1 / 100 + 1 + 10 HP, and 5 * 2 * 1 / 100 + 5 Attack.
    assert Member("Chansey", ["Pound"], level=1, dvs=[0] * 4, exp=[0] * 5).stats[:2] == (16, 5)


def test_a_team_from_text():
    """The example of docs/TEAM_TEXT.md: EVs are roots of the experience, and a DV is half its IV."""
    it = Team.from_text(TEXT)[0]
    assert (it.species, it.level, it.moves, it.pp_ups) == (Species.TAUROS, 88, (Move.BODY_SLAM,), (3,))
    assert it.exp == (252 * 252, 16, 0, 0, 10000) and it.dvs == (0, 10, 15, 15)
    assert Team.from_text("Starmie\n- Surf\n") == Team([Member("Starmie", ["Surf"], exp=[63504] * 5)])
    packed = Team.from_packed(
        "Bob|Tauros||NoAbility|bodyslam,hyperbeam||,4,,,,|M|,0,,,,||88|]Starmie||||psychic,recover|||||||"
    )
    assert [it.species.label for it in packed] == ["Tauros", "Starmie"] and packed[0].exp == (0, 16, 0, 0, 0)


@pytest.mark.parametrize(
    "text, line, code",
    [
        ("Tauros\n- Body Slm\n", 2, TextFault.MOVE),
        ("\n\nTaurus\n- Body Slam\n", 3, TextFault.SPECIES),
        ("Tauros @ Leftovers\n- Body Slam\n", 1, TextFault.ITEM),
        ("Tauros\nLevel: 101\n- Body Slam\n", 2, TextFault.LEVEL),
        ("Tauros\nEVs: 256 Atk\n", 2, TextFault.EVS),
        ("Tauros\nIVs: 32 Atk\n", 2, TextFault.IVS),
        ("Tauros\nEVs: 4 SpA / 8 SpD\n", 2, TextFault.SPECIAL_EVS),
        ("Tauros\n- Pound\n- Cut\n- Surf\n- Fly\n- Dig\n", 6, TextFault.FIFTH_MOVE),
        ("Tauros\nsomething\n", 2, TextFault.LINE),
        ("Tauros\n- Pound\n\n" * 7, 19, TextFault.SEVENTH_MEMBER),
    ],
)
def test_texts_with_a_fault(text, line, code):
    with pytest.raises(BadText) as fault:
        Team.from_text(text)
    assert (fault.value.line, fault.value.text_code) == (line, code) and str(fault.value).startswith(
        f"line {line}: expected: "
    )


@pytest.mark.parametrize(
    "text, found, near",
    [
        ("Tauros\n- Body Slm\n", "Body Slm", "Body Slam"),
        ("Starmie\n\nBob (Taurus) (M)\n", "Taurus", "Tauros"),
        ("Missingno.\n", "Missingno.", None),
        ("Tauros\nLevel: 101\n", "Level: 101", None),
        ("Bob|Tuaros|||pound|||||||", "Tuaros", "Tauros"),
        ("Tuaros||||pound|||||||", "Tuaros", "Tauros"),
        ("Tauros||||pound|||||||]Starmie||||surf,thnderbolt,pond|||||||", "thnderbolt", "Thunderbolt"),
        ("Tauros\n- Pound\n- Cut\n- Surf\n- Fly\n- Dig\n", "", None),
    ],
)
def test_texts_with_a_wrong_word(text, found, near):
    """The error has the word, and the name that it is a letter or two from."""
    with pytest.raises(BadText) as fault:
        (Team.from_packed if "|" in text else Team.from_text)(text)
    assert (fault.value.found, fault.value.near) == (found, near)
    end = f", not {found!r}" * bool(found) + f"; did you mean {near!r}?" * bool(near)
    assert str(fault.value).endswith(end) and str(fault.value).count("member") <= 1 + ("at most" in str(fault.value))


def test_texts_that_are_no_team():
    mimic = "Tauros\n- Mimic\n"
    for text, member, code in (
        ("", 0, NewFault.EMPTY),
        (mimic, 1, NewFault.MOVE_LEFT_OUT),
        ("Tauros\n", 1, NewFault.NO_MOVE),
    ):
        with pytest.raises(BadText) as fault:
            Team.from_text(text)
        assert (fault.value.text_code, fault.value.code, fault.value.member) == (TextFault.TEAM, code, member)
    with pytest.raises(BadText) as fault:
        Team.from_packed("Tauros||||")
    assert (fault.value.text_code, fault.value.member) == (TextFault.FIELDS, 1)
    with pytest.raises(BadText) as fault:
        Team.from_packed("Tauros||||pond|||||||")
    assert (fault.value.member, fault.value.column) == (1, 5)
    for call in (Team.from_text, Team.from_packed):
        for wrong in (None, b"Tauros", 5, ["Tauros"]):
            with pytest.raises(BadType):
                call(wrong)


def test_teams_to_text_and_back():
    """The stats, moves and PP are the same. So both teams have the same battles, byte for byte."""
    dice = random.Random(5)
    for _ in range(300):
        team = random_team(dice)
        team = Team([it | {"moves": [[name, 3] for name, _ in it["moves"]]} for it in team.to_dicts()])
        read = Team.from_text(team.to_text())
        assert Battle(team, read, bytes(10)) == Battle(read, team, bytes(10)) == Battle(team, team, bytes(10))
        assert Team.from_text(read.to_text()) == read == Team.from_packed(team.to_packed())
    refused = Team([Member("Tauros", ["Pound"]), Member("Tauros", ["Pound", "Cut"], pp_ups=[3, 0])])
    for call in (refused.to_text, refused.to_packed):
        with pytest.raises(BadArgument) as fault:
            call()
        assert str(fault.value) == "member 2: in a text each move has three PP ups, but the moves have [3, 0]"


def test_the_form_of_a_written_team():
    """docs/TEAM_TEXT.md, "Writing", worked out on paper."""
    tauros = Member("Tauros", ["Body Slam"], 88, (0, 15, 15, 15))
    mime = Member("Mr. Mime", ["Psychic", "Double-Edge"], exp=(65535, 0, 0, 9, 0))
    text = "Mr. Mime\nEVs: 252 HP / 0 Atk / 0 Def / 0 SpA / 0 SpD / 3 Spe\n- Psychic\n- Double-Edge\n"
    team = Team([tauros, mime])
    assert team.to_text() == f"Tauros\nLevel: 88\nIVs: 14 HP / 0 Atk\n- Body Slam\n\n{text}"
    line = "Tauros||||bodyslam||||14,0,,,,||88|]Mr. Mime||||psychic,doubleedge||252,0,0,0,0,3|||||\n"
    assert team.to_packed() == line


FILES = sorted((ROOT / "examples" / "teams").glob("*.txt"))


def test_the_teams_are_those_of_the_files():
    """Twelve of six different species, at level 100, with four moves each; the first line of a file says what the team is."""
    teams = sample_teams()
    assert list(teams) == [it.stem for it in FILES] and len(teams) == 12
    for path, team in zip(FILES, teams.values()):
        text = path.read_text(encoding="ascii")
        assert text.startswith("=== ") and text.splitlines()[0].endswith(" ===") and team == Team.from_text(text)
        assert len({it.species for it in team}) == 6 and all((it.level, len(it.moves)) == (100, 4) for it in team)
        assert Team.from_text(team.to_text()) == team and Battle(team, team, range(10))
    teams.clear()
    assert len(sample_teams()) == 12


def test_the_sets():
    """Each different member of the teams once."""
    members = [it for team in sample_teams().values() for it in team]
    assert set(sample_sets()) == set(members) and len(sample_sets()) == len(set(members)) >= 40
    assert {it.species for it in sample_sets("chansey")} == {113} and sample_sets("Magikarp") == ()
    with pytest.raises(gen1.BadTeam):
        sample_sets("Taurus")


def test_random_teams():
    """Legal ones have members of the sample teams only; each is drawn in the end."""
    dice, known, met = random.Random(1), set(sample_sets()), set()
    for _ in range(300):
        team = gen1.random_team(dice)
        met.update(team)
        assert len({it.species for it in team}) == 6 and set(team) <= known
    assert met == known and gen1.random_team(random.Random(5)) == gen1.random_team(random.Random(5))
    assert [len(gen1.random_team(dice, count=it)) for it in range(1, 7)] == [1, 2, 3, 4, 5, 6]
    assert gen1.random_team() != gen1.random_team()
    species, moves = set(), set()
    for _ in range(300):
        team = gen1.random_team(dice, legal=False)
        species.update(it.species for it in team), moves.update(move for it in team for move in it.moves)
    assert len(species) == 151 and len(moves) == 160


def test_random_teams_of_a_number():
    """The team that docs/MECHANICS.md, "Random teams", gives for 7, as in the other languages."""
    assert gen1.random_team(7, count=2) == Team.from_text(
        "Zapdos\n- Thunderbolt\n- Drill Peck\n- Thunder Wave\n- Agility\n\n"
        "Kabutops\n- Swords Dance\n- Surf\n- Slash\n- Hyper Beam\n"
    )
    assert gen1.random_team(7, legal=False, count=2) == Team.from_text(
        "Sandslash\n- Peck\n- Fury Attack\n- Seismic Toss\n- Drill Peck\n\n"
        "Cloyster\n- Sonic Boom\n- Blizzard\n- Double Team\n- Thunder Shock\n"
    )


def test_random_teams_of_numpy():
    """So an environment draws a new team for each battle."""
    numpy = pytest.importorskip("numpy")
    one, two = (numpy.random.default_rng(1) for _ in range(2))
    assert [gen1.random_team(one), gen1.random_team(one)] == [gen1.random_team(two), gen1.random_team(two)]
    env = gen1.VectorEnv(8, gen1.random_team, gen1.random_team)
    env.reset(seed=1)
    species = env.battles.fields["sides"]["members"]["species"]
    assert len({it.tobytes() for it in species}) == 8 and (species > 0).all()


def test_random_teams_of_wrong_arguments():
    dice = random.Random(1)
    for call in (lambda: gen1.random_team(dice, count=0), lambda: gen1.random_team(dice, count=7)):
        with pytest.raises(BadArgument, match="^count must be 1 to 6, not"):
            call()
    for seed in (-1, 1 << 64):
        with pytest.raises(BadArgument, match="^seed must be 0 to "):
            gen1.random_team(seed)
    for call in (
        lambda: gen1.random_team("5"),
        lambda: gen1.random_team(True),
        lambda: gen1.random_team(dice, "yes"),
        lambda: gen1.random_team(dice, count="6"),
    ):
        with pytest.raises(BadType):
            call()
