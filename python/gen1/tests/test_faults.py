"""Every wrong argument raises an exception with a message, and changes nothing. Bugs of an earlier example are tests too."""

import copy
import pickle

import gen1
import pytest
from conftest import BIG, NO_NUMBERS
from gen1 import (
    BadArgument,
    BadBytes,
    BadLog,
    BadTeam,
    BadType,
    Battle,
    Choice,
    Member,
    Move,
    NoDamage,
    Refused,
    Species,
    Team,
)
from gen1.names import DamageFault, LoadFault, LogFault, NewFault, Refusal


def said(fault):
    """The message of an exception of the package."""
    assert isinstance(fault.value, gen1.Error)
    text = str(fault.value)
    assert len(text) > 10 and "\n" not in text
    return text


# Bugs that were found in the earlier example.


def test_a_species_is_not_cut_to_a_byte():
    with pytest.raises(BadTeam) as fault:
        Member(300, ["Pound"])
    assert fault.value.field == "species" and "1 to 151" in said(fault) and "300" in said(fault)


def test_a_choice_is_not_cut_to_a_byte(team):
    battle = Battle(team, team, range(10))
    before = battle.bytes
    for pair in ((256, 0), (0, 256), (512, 256), (-256, 0)):
        with pytest.raises(BadArgument) as fault:
            battle.update(*pair)
        assert "0 to 255" in said(fault) and battle.bytes == before


def test_the_number_of_members_is_not_cut_to_a_byte(tauros):
    for count in (7, 255, 256, 257, 262, 1000):
        with pytest.raises(BadTeam) as fault:
            Team([tauros] * count)
        assert (fault.value.code, fault.value.member) == (NewFault.TOO_MANY, 0) and str(count) in said(fault)


@pytest.mark.parametrize("copied", [copy.copy, copy.deepcopy, Battle.copy, lambda it: pickle.loads(pickle.dumps(it))])
def test_a_copy_has_bytes_of_its_own(battle, copied):
    other, before = copied(battle), battle.bytes
    assert other == battle and other is not battle and hash(other) == hash(battle)
    other.update(Choice.MOVE_1, Choice.MOVE_1)
    assert battle.bytes == before != other.bytes and other != battle


def test_damage_is_numbers_or_an_exception(battle):
    assert len(battle.damage(1, "Body Slam")) == 39
    before = battle.bytes
    with pytest.raises(NoDamage) as fault:
        battle.damage(1, "Splash")
    assert fault.value.code is DamageFault.UNUSUAL and "Splash" in said(fault) and battle.bytes == before


# Arguments out of range, of a wrong type, too many.


@pytest.mark.parametrize("side", [0, 3, *BIG])
def test_sides_out_of_range(battle, tauros, side):
    for call in (
        battle.choices,
        battle.own_side,
        gen1.Teller,
        gen1.Room(battle).forfeit,
        lambda it: battle.damage(it, "Pound"),
        lambda it: battle.knock_out(it, "Pound"),
        lambda it: battle.with_hp(it, 1, 5),
        lambda it: gen1.Player(it, [tauros]),
    ):
        with pytest.raises(BadArgument) as fault:
            call(side)
        assert "1 or 2" in said(fault)


@pytest.mark.parametrize("it", NO_NUMBERS)
def test_no_numbers(battle, team, it):
    before = battle.bytes
    calls = (
        lambda: battle.choices(it),
        lambda: battle.words(1, it),
        lambda: Battle(team, team, range(10), rules=it),
        lambda: Battle(team, team, range(10), limit=it),
        lambda: Battle(team, team, [it] * 10),
        lambda: Member("Tauros", ["Pound"], level=it),
        lambda: Member("Tauros", ["Pound"], dvs=[it] * 4),
        lambda: Member("Tauros", ["Pound"], exp=[it] * 5),
        lambda: Choice.move(it),
        lambda: Choice.switch(it),
        lambda: battle.own_side(it),
        lambda: battle.knock_out(it, "Pound"),
        lambda: battle.with_hp(it, 1, 5),
        lambda: battle.with_hp(1, it, 5),
        lambda: battle.with_hp(1, 1, it),
        lambda: battle.with_status(1, 1, it),
        lambda: battle.with_stage(1, it, 1),
        lambda: battle.with_stage(1, 1, it),
        lambda: battle.with_state(turn=it),
        lambda: gen1.Room(battle).forfeit(it),
        lambda: gen1.Teller(it),
    )
    for call in calls:
        with pytest.raises(BadType) as fault:
            call()
        assert "whole number" in said(fault)
    # Text may be a choice in words, but not this one.
    for call in (lambda: battle.update(it, Choice.MOVE_1), lambda: battle.update_silent(Choice.MOVE_1, it)):
        with pytest.raises(BadArgument if isinstance(it, str) else BadType) as fault:
            call()
        assert "whole number" in said(fault) or "nor the name of one" in said(fault)
    assert battle.bytes == before


def test_enums_of_another_kind(battle, team, tauros):
    """Each enum is a number too, but that of another kind: 57 is the move Surf and the species Primeape."""
    assert (Move.SURF, Species.PRIMEAPE) == (57, 57)
    before, begun = battle.bytes, battle.own_side(1)
    member = battle.state.one.members[0]
    calls = {
        "species must be a Species, its name or its number": (
            lambda: Member(Move.SURF, ["Surf"]),
            lambda: Team([{"species": Move.SURF, "moves": ["Surf"]}]),
            lambda: gen1.base(Move.SURF),
        ),
        "must be a Move, its name or its number": (
            lambda: Member("Tauros", [Species.PRIMEAPE]),
            lambda: battle.odds(1, Species.PRIMEAPE),
            lambda: battle.knock_out(1, gen1.SeenMove(Move.SURF, 1)),
            lambda: gen1.odds(tauros, tauros, Species.PRIMEAPE),
            lambda: gen1.move_data(gen1.Type.WATER),
            lambda: battle.playout(1, 1, weights={Species.PRIMEAPE: 2}),
        ),
        "side must be a Side or a whole number": (
            lambda: battle.choices(gen1.Status.SLEEP),
            lambda: gen1.Player(gen1.Status.SLEEP, team),
            lambda: gen1.log_bytes([gen1.WinEvent(gen1.Status.SLEEP)]),
        ),
        "choice must be a Choice or a whole number": (
            lambda: battle.update(Move.MEGA_KICK, Choice.MOVE_1),
            lambda: battle.update_silent(["move 1"], Choice.MOVE_1),
            lambda: battle.outcomes(Move.MEGA_KICK, Choice.MOVE_1),
            lambda: gen1.Room(battle).submit(1, 0, Move.MEGA_KICK),
        ),
        "offered[0] must be a Choice or a whole number": (lambda: gen1.Player(1, team).show(begun, [Move.MEGA_KICK]),),
        "rules must be a Rules or a whole number": (
            lambda: Battle(team, team, bytes(10), rules=gen1.Conditions(1)),
            lambda: battle.with_state(rules=gen1.Side.ONE),
        ),
        "status must be a Status or a whole number": (
            lambda: battle.with_status(1, 1, gen1.Stat.SPEED),
            lambda: Battle.from_state(battle.state.with_member(1, 1, status=gen1.Side.ONE)),
        ),
        "stat must be a Stat or a whole number": (
            lambda: battle.with_stage(1, gen1.Status.SLEEP, 1),
            lambda: begun.stage(gen1.Status.SLEEP),
            lambda: battle.state.one.active.stage(gen1.Status.SLEEP),
            lambda: gen1.Player(1, team).foe.stage(gen1.Status.SLEEP),
            lambda: gen1.Spectator(team, team).state.one.stage(gen1.Status.SLEEP),
        ),
        "outcome must be an Outcome or a whole number": (lambda: battle.with_state(outcome=gen1.Side.ONE),),
        "attack must be a Type or a whole number": (lambda: gen1.effectiveness(Move.SURF, gen1.Type.FIRE),),
        "moves[0] must be a Move or a whole number": (
            lambda: Battle.from_state(battle.state.with_member(1, 1, moves=(Species.MEW, *member.moves[1:]))),
        ),
        "level must be a whole number": (lambda: Member("Tauros", ["Surf"], level=Species.PRIMEAPE),),
        "slot must be a whole number": (lambda: Choice.move(Move.POUND),),
    }
    for lawful, wrong in calls.items():
        for call in wrong:
            with pytest.raises(BadType) as fault:
                call()
            assert isinstance(fault.value, TypeError) and f"{lawful}, not " in said(fault) and battle.bytes == before


def test_stages_of_no_stat(battle):
    """A stat is 1 to 6; 0 is not the last stage."""
    for stat in (0, -1, 7):
        with pytest.raises(BadArgument) as fault:
            battle.own_side(1).stage(stat)
        assert said(fault) == f"stat must be 1 to 6, not {stat}"


def test_pp_ups_of_a_wrong_type():
    for it in NO_NUMBERS[1:]:
        with pytest.raises(BadType):
            Member("Tauros", ["Pound"], pp_ups=[it])


@pytest.mark.parametrize("choice", [it for it in range(256) if it not in (0x11, 0x12, 0x13, 0x14, 0x22)])
def test_choices_that_are_not_offered(battle, choice):
    before = battle.bytes
    for side, pair in ((1, (choice, 0x11)), (2, (0x11, choice))):
        for call in (battle.update, battle.update_silent):
            with pytest.raises(Refused) as fault:
                call(*pair)
            it = fault.value
            assert (it.code, it.side, it.choice) == (
                (Refusal.NOT_OFFERED_ONE, Refusal.NOT_OFFERED_TWO)[side - 1],
                side,
                choice,
            ) and it.offered == battle.choices(side)
            assert f"side {side}" in said(fault) and "move 1" in said(fault) and battle.bytes == before


def test_a_battle_that_is_over(team):
    battle = Battle(team, team, range(10), limit=1)
    battle.update(0, 0)
    while not battle.result.is_over:
        battle.update(battle.choices(1)[0], battle.choices(2)[0])
    before = battle.bytes
    with pytest.raises(Refused) as fault:
        battle.update(17, 17)
    assert fault.value.code is Refusal.OVER and "over" in said(fault) and battle.bytes == before
    assert battle.choices(1) == battle.choices(2) == ()


@pytest.mark.parametrize("rules", [4, *BIG])
def test_rules_out_of_range(team, rules):
    with pytest.raises(BadArgument) as fault:
        Battle(team, team, range(10), rules=rules)
    assert str(rules) in said(fault)


@pytest.mark.parametrize("limit", [0, -1, 10_000, 65536, 65537, 1 << 64])
def test_limits_out_of_range(team, limit):
    with pytest.raises(BadArgument) as fault:
        Battle(team, team, range(10), limit=limit)
    assert "9,999" in said(fault) and str(limit) in said(fault)


@pytest.mark.parametrize("seed", [b"", bytes(9), bytes(11), [1] * 9, [], [256] + [0] * 9, [-1] * 10])
def test_seeds_out_of_range(team, seed):
    with pytest.raises(BadArgument) as fault:
        Battle(team, team, seed)
    assert "seed" in said(fault)


@pytest.mark.parametrize("seed", [True, "0123456789", 1.5])
def test_seeds_of_a_wrong_type(team, seed):
    with pytest.raises(BadType) as fault:
        Battle(team, team, seed)
    assert "seed" in said(fault)


MEMBER_FAULTS = (
    (dict(species=0), "species", NewFault.NO_SUCH_SPECIES),
    (dict(species=152), "species", NewFault.NO_SUCH_SPECIES),
    (dict(species="Taurus"), "species", NewFault.NO_SUCH_SPECIES),
    (dict(species="Nidoran"), "species", NewFault.NO_SUCH_SPECIES),
    (dict(moves=[0]), "moves[0]", NewFault.NO_SUCH_MOVE),
    (dict(moves=["Pound", 166]), "moves[1]", NewFault.NO_SUCH_MOVE),
    (dict(moves=[1 << 40]), "moves[0]", NewFault.NO_SUCH_MOVE),
    (dict(moves=["Pond"]), "moves[0]", NewFault.NO_SUCH_MOVE),
    (dict(moves=[]), "moves", NewFault.NO_MOVE),
    (dict(moves=[1, 2, 3, 4, 5]), "moves", None),
    (dict(moves=["Pound", "Pound"]), "moves", NewFault.REPEATED_MOVE),
    (dict(moves=["Struggle"]), "moves", NewFault.STRUGGLE),
    *(
        (dict(moves=[name]), "moves", NewFault.MOVE_LEFT_OUT)
        for name in ("Mimic", "Metronome", "Mirror Move", "Transform")
    ),
    *((dict(level=level), "level", NewFault.LEVEL) for level in (0, 101, 255, *BIG)),
    *((dict(dvs=[15, dv, 15, 15]), "dvs", NewFault.DV) for dv in (16, 255, *BIG)),
    (dict(dvs=[15] * 3), "dvs", None),
    (dict(dvs=[15] * 5), "dvs", None),
    *((dict(exp=[0, 0, exp, 0, 0]), "exp", None) for exp in (-1, 65536, 1 << 32, 1 << 64)),
    (dict(exp=[0] * 4), "exp", None),
    (dict(exp=[0] * 6), "exp", None),
    *((dict(pp_ups=[ups]), "pp_ups", NewFault.PP_UPS) for ups in (4, 255, *BIG)),
    (dict(pp_ups=[3, 3]), "pp_ups", None),
)


@pytest.mark.parametrize("changed, field, code", MEMBER_FAULTS)
def test_members(tauros, changed, field, code):
    """Each field of a member, alone and as the second of a team from dicts."""
    with pytest.raises(BadTeam) as fault:
        Member(**{"species": "Tauros", "moves": ["Pound"], **changed})
    assert (fault.value.field, fault.value.code, fault.value.member) == (field, code, 0)
    assert field.partition("[")[0] in said(fault)
    if "pp_ups" in changed or len(changed.get("moves", [])) == 5:
        return
    given = {"species": "Tauros", "level": 100, "dvs": [15] * 4, "exp": [0] * 5, "moves": [["Pound", 3]]}
    given |= {key: [[it, 3] for it in value] if key == "moves" else value for key, value in changed.items()}
    with pytest.raises(BadTeam) as fault:
        Battle([tauros], [tauros.to_dict(), given], range(10))
    assert (fault.value.side, fault.value.member, fault.value.field, fault.value.code) == (2, 2, field, code)
    assert said(fault).startswith("side 2, member 2: ")


@pytest.mark.parametrize("given", [None, 5, "Tauros", b"Tauros", [None], [5], ["Tauros"], [["Tauros"]]])
def test_teams_of_a_wrong_type(given):
    with pytest.raises(BadType):
        Team(given)


@pytest.mark.parametrize("left_out", ["species", "moves"])
def test_dicts_without_a_key(tauros, left_out):
    given = tauros.to_dict()
    del given[left_out]
    with pytest.raises(BadTeam) as fault:
        Team([given])
    assert (fault.value.member, fault.value.field) == (1, left_out) and left_out in said(fault)


def test_moves_that_are_no_pairs(tauros):
    for moves, kind in (
        ([["Pound"]], BadTeam),
        ([["Pound", 3, 3]], BadTeam),
        ([None], BadType),
        ("Pound", BadType),
        (5, BadType),
    ):
        with pytest.raises(kind):
            Team([tauros.to_dict() | {"moves": moves}])


def test_an_empty_team():
    with pytest.raises(BadTeam) as fault:
        Team([])
    assert fault.value.code is NewFault.EMPTY and "1 to 6" in said(fault)


@pytest.mark.parametrize(
    "given, code",
    [
        (b"", LoadFault.LENGTH),
        (bytes(383), LoadFault.LENGTH),
        (bytes(385), LoadFault.LENGTH),
        (bytes(384), LoadFault.VERSION),
    ],
)
def test_bytes_that_are_no_battle(given, code):
    with pytest.raises(BadBytes) as fault:
        Battle.load(given)
    assert fault.value.code is code and said(fault)


@pytest.mark.parametrize("given", [None, "a battle", 384, [0] * 384])
def test_no_bytes(given):
    for call in (Battle.load, gen1.lines, gen1.events):
        with pytest.raises(BadType) as fault:
            call(given)
        assert "bytes" in said(fault)


def test_logs_with_a_fault():
    good = bytes([0x1A, 1])
    for given, code, at in (
        (good + b"\0", LogFault.TAG, 2),
        (good + b"\x1d", LogFault.TAG, 2),
        (good + b"\x1a\x03", LogFault.FIELD, 2),
        (good + b"\x1a", LogFault.CUT, 2),
    ):
        for call in (gen1.lines, gen1.events):
            with pytest.raises(BadLog) as fault:
                call(given)
            assert (fault.value.code, fault.value.at) == (code, at) and f"byte {at}" in said(fault)


def test_events_as_bytes():
    """The bytes of docs/MECHANICS.md, "Log bytes"; and events whose fields are wrong."""
    tauros, foe = (gen1.Who(side, Species.TAUROS) for side in (gen1.Side.ONE, gen1.Side.TWO))
    fallen = gen1.Health(0, 353, gen1.Status.NONE)
    log = bytes.fromhex("030180460280 070280 050280000061010000 190280 1a01")
    told = [
        gen1.MoveEvent(tauros, Move.STRENGTH, foe),
        gen1.CritEvent(foe),
        gen1.DamageEvent(foe, fallen, gen1.Source.DIRECT),
    ]
    told += [gen1.FaintEvent(foe), gen1.WinEvent(gen1.Side.ONE)]
    assert gen1.log_bytes(told) == log and gen1.events(log) == tuple(told) and gen1.log_bytes([]) == b""
    for number in (-1, 0, 10_000, 65_536, *BIG[4:], LONG):
        with pytest.raises(BadArgument) as fault:
            gen1.log_bytes([gen1.TieEvent(), gen1.TurnEvent(number)])
        assert said(fault).startswith("events[1] has a field that is out of range: ") and len(said(fault)) < 150
    for wrong in (
        gen1.SwitchEvent(tauros, 7, 100, fallen),
        gen1.SwitchEvent(tauros, 256, 100, fallen),
        gen1.StatusEvent(tauros, gen1.Status.NONE),
        gen1.HealEvent(tauros, gen1.Health(354, 353, gen1.Status.NONE)),
        gen1.CritEvent(gen1.Who(3, Species.TAUROS)),
        gen1.HitCountEvent(tauros, 6),
        gen1.FaultEvent(3),
    ):
        with pytest.raises(BadArgument):
            gen1.log_bytes([wrong])
    for wrong in (
        None,
        5,
        b"\x1b",
        [None],
        [tauros],
        [gen1.Event()],
        [gen1.CritEvent(None)],
        [gen1.HealEvent(tauros, 5)],
        [gen1.TurnEvent("1")],
    ):
        with pytest.raises(BadType):
            gen1.log_bytes(wrong)


def test_damages_out_of_range(battle, team, tauros):
    for move in (0, 166, *BIG, "Pond", "bodyslm"):
        with pytest.raises(BadTeam) as fault:
            battle.damage(1, move)
        assert fault.value.field == "move" and said(fault)
    for critical in (None, 1, 0, "yes"):
        with pytest.raises(BadType) as fault:
            battle.damage(1, "Pound", critical)
        assert "critical" in said(fault)
    with pytest.raises(NoDamage) as fault:
        Battle(team, team, range(10)).damage(1, "Pound")
    assert fault.value.code is DamageFault.NOBODY
    with pytest.raises(BadType):
        gen1.damage(tauros, None, "Pound")


LONG = 10**5000


def test_numbers_and_names_of_any_length(team, tauros, battle):
    """Python refuses to write a number of thousands of digits, so an error shows its length instead; and long names are cut."""
    member, before = tauros.to_dict(), battle.bytes
    calls = (
        lambda: Choice.move(LONG),
        lambda: Choice.switch(-LONG),
        lambda: battle.update(LONG, 17),
        lambda: battle.choices(LONG),
        lambda: battle.reseed(bytes(10), LONG),
        lambda: battle.playout(LONG, 1),
        lambda: battle.damage(1, LONG),
        lambda: battle.odds(1, LONG),
        lambda: battle.knock_out(LONG, "Pound"),
        lambda: battle.with_hp(1, 1, LONG),
        lambda: battle.with_hp(1, LONG, 1),
        lambda: battle.with_status(1, 1, -LONG),
        lambda: battle.with_status(1, 1, 1, LONG),
        lambda: battle.with_stage(1, 1, -LONG),
        lambda: battle.with_stage(1, LONG, 1),
        lambda: battle.with_state(turn=LONG),
        lambda: battle.with_state(last_damage=-LONG),
        lambda: battle.with_state(rules=LONG),
        lambda: battle.own_side(LONG),
        lambda: gen1.Player(1, [tauros], LONG),
        lambda: gen1.Player(LONG, [tauros]),
        lambda: gen1.Player(1, [tauros]).public(LONG),
        lambda: gen1.Player(1, [tauros]).show(battle.own_side(1), [LONG]),
        lambda: gen1.Teller(-LONG),
        lambda: gen1.Room(battle).forfeit(LONG),
        lambda: Battle(team, team, bytes(10), rules=LONG),
        lambda: Battle(team, team, bytes(10), limit=-LONG),
        lambda: Battle(team, team, [LONG] * 10),
        lambda: Member(LONG, ["Pound"]),
        lambda: Member("Tauros", [LONG]),
        lambda: Member("Tauros", ["Pound"], level=LONG),
        lambda: Member("Tauros", ["Pound"], dvs=[LONG, 1, 1, 1]),
        lambda: Member("Tauros", ["Pound"], exp=[LONG, 1, 1, 1, 1]),
        lambda: Member("Tauros", ["Pound"], pp_ups=[LONG]),
        lambda: Team([member | {"moves": [["Pound", 3, LONG]]}]),
        lambda: Team([LONG]),
        lambda: Team.from_text(LONG),
        lambda: Member("a" * 100_000, ["Pound"]),
        lambda: Member("Tauros", ["a" * 100_000]),
    )
    for at, call in enumerate(calls):
        with pytest.raises(gen1.Error) as fault:
            call()
        assert len(said(fault)) < 200 and battle.bytes == before, at
    with pytest.raises(BadArgument) as fault:
        Choice.move(LONG)
    assert str(fault.value) == f"slot must be 0 to 4, not a number of {LONG.bit_length():,} bits"


def test_what_cannot_be_shown():
    """For a value whose `repr` raises, an error names the class."""

    class Hidden:
        def __repr__(self):
            raise KeyError("no")

    with pytest.raises(BadType) as fault:
        Choice.move(Hidden())
    assert str(fault.value) == "slot must be a whole number, not a value that cannot be shown (Hidden)"


def test_types_that_are_wrong_say_where(team, tauros):
    """The side and the member, as where a number is out of range."""
    given = tauros.to_dict()
    for two, said_of in (
        (5, "side 2: a team must be a list, not 5 (int)"),
        ([tauros, None], "side 2, member 2: it must be a Member or a dict, not None (NoneType)"),
        ([tauros, given | {"level": "9"}], "side 2, member 2: level must be a whole number, not '9' (str)"),
    ):
        with pytest.raises(BadType) as fault:
            Battle(team, two, range(10))
        assert said(fault) == said_of


def test_choices_by_slot():
    for slot in (-1, 5, *BIG):
        with pytest.raises(BadArgument):
            Choice.move(slot)
    for place in (-1, 0, 7, *BIG):
        with pytest.raises(BadArgument):
            Choice.switch(place)


def test_a_battle_is_frozen_where_it_should_be(tauros, team, battle):
    for it, name in ((tauros, "level"), (team, "members"), (battle.result, "outcome"), (battle.update(17, 17), "log")):
        with pytest.raises(AttributeError):
            setattr(it, name, None)
    for it, name in ((battle, "bytes"), (battle, "result"), (battle, "unknown")):
        with pytest.raises(AttributeError):
            setattr(it, name, None)


def test_names_are_those_of_the_tables():
    assert (Species(128).label, str(Move(34)), Move["BODY_SLAM"]) == ("Tauros", "Body Slam", 34)
    with pytest.raises(ValueError):
        Species(152)


def test_seeds_and_indexes_to_reseed(battle):
    before = battle.bytes
    for seed, index in ((bytes(9), 0), (bytes(11), 0), *((bytes(10), it) for it in (9, 255, *BIG)), ([256] * 10, 0)):
        with pytest.raises(BadArgument) as fault:
            battle.reseed(seed, index)
        assert said(fault) and battle.bytes == before
    for seed, index in ((1.5, 0), ("0123456789", 0), (bytes(10), None), (bytes(10), True)):
        with pytest.raises(BadType):
            battle.reseed(seed, index)
        assert battle.bytes == before


def test_a_fault_that_is_pickled_is_the_same(team, tauros):
    """Errors can be pickled, as they are on their way from a worker process."""
    room = gen1.Room(Battle(team, team, range(10)))
    calls = (
        lambda: Battle(team, team, range(10)).update(17, 17),
        lambda: room.submit(1, 5, 17),
        lambda: Battle([tauros], [tauros.to_dict() | {"level": 0}], range(10)),
        lambda: Battle.load(bytes(3)),
        lambda: gen1.lines(b"\x1a\x03"),
        lambda: Team.from_text("Tauros\n- Body Slm\n"),
        lambda: Battle(team, team, range(10)).damage(1, "Pound"),
        lambda: room.submit(3, 0, 17),
        lambda: room.submit(None, 0, 17),
        lambda: room.battle.with_hp(2, 1, 400),
        lambda: (room.forfeit(1), room.forfeit(2)),
        lambda: gen1.Teller(1).tell(b"\x1a\x03"),
    )
    for call in calls:
        with pytest.raises(gen1.Error) as fault:
            call()
        read = pickle.loads(pickle.dumps(fault.value))
        assert type(read) is type(fault.value) and (str(read), vars(read)) == (str(fault.value), vars(fault.value))
