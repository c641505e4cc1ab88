"""What a player knows: values worked on paper from docs/MECHANICS.md, battles that differ only in what is hidden, and the library itself."""

import copy
import ctypes
import dataclasses
import pickle
import random

import pytest
from conftest import BIG, LIB, NO_NUMBERS, random_team
from gen1 import (
    Announced,
    AsleepBy,
    BadArgument,
    BadBytes,
    BadLog,
    BadTeam,
    BadType,
    Battle,
    Choice,
    Conditions,
    Error,
    HpForm,
    Member,
    Move,
    Outcome,
    OwnSide,
    Player,
    PublicSide,
    Request,
    Room,
    Rules,
    Seen,
    SeenMove,
    Side,
    Species,
    Spectator,
    Stat,
    Status,
    Team,
    Teller,
    Type,
)
from gen1._structs import OwnSideStruct, PlayerStruct, PlayerTermsStruct, TellerStruct
from gen1.names import LogFault

SEED = bytes([1, 36, 255, 7, 31, 100, 179, 254, 127, 10])
TAUROS, CHANSEY, GYARADOS = (Member(it, ["Strength"]) for it in ("Tauros", "Chansey", "Gyarados"))
NOTHING = Announced(**dict.fromkeys((it.name for it in dataclasses.fields(Announced)), False))


def switch(side, species, place, hp, most, status=0):
    """The bytes of a Switch of a member at level 100."""
    return bytes([2, side, species, place, 100, hp % 256, hp // 256, most % 256, most // 256, status])


def damage(side, species, hp, most):
    """The bytes of a Damage."""
    return bytes([5, side, species, hp % 256, hp // 256, most % 256, most // 256, 0, 0])


def seen_by(player, *events):
    """The foe as a player of side 1 knows it after these events."""
    player.feed(b"".join(map(bytes, events)))
    return player.foe


@pytest.fixture
def player():
    return Player(Side.ONE, [TAUROS, CHANSEY])


def test_before_the_battle(player):
    """Its own team, at full HP (docs/MECHANICS.md, "Stats"), and nothing of the foe."""
    assert [(it.species, it.level, it.hp, it.max_hp, it.moves) for it in player.public(1).members] == [
        (Species.TAUROS, 100, 353, 353, ()),
        (Species.CHANSEY, 100, 703, 703, ()),
    ]
    assert (
        player.foe
        == player.public(Side.TWO)
        == PublicSide((), 0, None, (0,) * 6, (Type.NORMAL, Type.NORMAL), None, NOTHING)
    )
    assert (player.side, player.foes, player.turn, player.outcome, player.choices, player.held) == (
        Side.ONE,
        None,
        0,
        Outcome.ONGOING,
        (),
        b"",
    )
    assert (player.own.members, player.own.active, player.own.place, player.own.request) == (
        (),
        None,
        0,
        Request.NOTHING,
    )
    assert Player(2, [TAUROS], foes=6).foes == 6 and Player(2, [TAUROS], 1).side is Side.TWO
    terms = Player(2, [TAUROS], rules=Rules.FREEZE_CLAUSE, limit=9999)
    assert (terms.rules, terms.limit) == (Rules.FREEZE_CLAUSE, 9999) and (player.rules, player.limit) == (0, 1000)
    assert terms.rules is Rules.FREEZE_CLAUSE and terms != Player(2, [TAUROS], limit=9999) != Player(2, [TAUROS])
    assert (
        repr(player) == "<Player of side 1, turn 0, ongoing>"
        and repr(Teller(2, True)) == "<Teller of side 2, in pixels>"
    )


def test_places_of_the_foe_are_told_by_appearance():
    """The foe's places 5, 2 and 5 again are reported as 1, 2 and 1; the side's own place 5 as it is."""
    teller = Teller(Side.ONE, pixels=False)
    for place, told in ((5, 1), (2, 2), (5, 1)):
        assert teller.tell(switch(2, 113, place, 322, 323)) == switch(2, 113, told, 322, 323)
    assert teller.tell(switch(1, 113, 5, 322, 323)) == switch(1, 113, 5, 322, 323) and teller.places == (5, 2)
    assert teller.tell(b"") == b"" and teller.side is Side.ONE and not teller.pixels


def test_forms_of_hp():
    """docs/MECHANICS.md, "Player's view": as the bar 322 of 323 HP are 48, since 12 * 322 / 80 is 48.3, and 254 of 255 are 47; in hundredths
    322 of 323 are 99. Own HP is reported as it is.
    """
    for hp, most, bar, hundredths in (
        *((322, 323, 48, 99), (323, 323, 48, 100), (266, 323, 39, 83), (7, 323, 1, 3), (6, 323, 1, 2), (0, 323, 0, 0)),
        *((254, 255, 47, 99), (255, 255, 48, 100), (5, 255, 1, 2)),
    ):
        for teller, told, parts in (
            (Teller(1), bar, 48),
            (Teller(1, pixels=False), hp, most),
            (Teller(1, hp_form=HpForm.BAR), bar, 48),
            (Teller(1, True, hp_form=HpForm.HUNDREDTHS), hundredths, 100),
            (Teller(1, True, hp_form=HpForm.EXACT), hp, most),
        ):
            assert teller.tell(switch(2, 113, 3, hp, most)) == switch(2, 113, 1, told, parts)
            own = damage(1, 113, hp, most)
            assert teller.tell(damage(2, 113, hp, most) + own) == damage(2, 113, told, parts) + own
            assert teller.hp_form is {48: HpForm.BAR, 100: HpForm.HUNDREDTHS}.get(parts, HpForm.EXACT)
            assert teller.pixels is (parts == 48) and Teller.from_bytes(bytes(teller)) == teller


def test_what_put_a_member_to_sleep(player):
    """A sleep after the member's own Rest is by it; after a later move of the foe it is by that (docs/MECHANICS.md, "What the log makes
    public").
    """
    rest, spore, sleeps, wakes = [3, 2, 130, 156, 1, 128], [3, 1, 128, 147, 2, 130], [13, 2, 130, 1], [14, 2, 130, 1]
    seen_by(player, switch(1, 128, 1, 353, 353), switch(2, 130, 1, 393, 393))
    for events, by in (
        ([spore, sleeps], AsleepBy.MOVE),
        ([wakes], None),
        ([rest], None),
        ([sleeps], AsleepBy.REST),
        ([spore], AsleepBy.REST),
        ([wakes, rest, spore, sleeps], AsleepBy.MOVE),
        ([[25, 2, 130]], None),
    ):
        assert seen_by(player, *events).active.asleep_by is by


def test_turns_of_a_sleep(player):
    """Each turn that the log shows it asleep counts, until it wakes, faints or falls asleep again."""
    spore, sleeps, wakes, dozes = [3, 1, 128, 147, 2, 130], [13, 2, 130, 1], [14, 2, 130, 1], [4, 2, 130, 1]
    seen_by(player, switch(1, 128, 1, 353, 353), switch(2, 130, 1, 393, 393))
    for events, turns in (
        ([spore, sleeps], 0),
        ([dozes], 1),
        ([dozes, dozes], 3),
        ([spore, sleeps], 0),
        ([dozes], 1),
        ([wakes], 0),
        ([spore, sleeps, *7 * [dozes]], 6),
        ([[25, 2, 130]], 0),
    ):
        assert seen_by(player, *events).active.slept == turns


def test_what_events_make_public(player):
    """Each event of the foe that changes what is public of it (docs/MECHANICS.md, "What the log makes public")."""
    gyarados = Seen(Species.GYARADOS, 100, 393, 393, Status.NONE, ())
    foe = seen_by(player, switch(1, 128, 1, 353, 353), switch(2, 130, 1, 393, 393), [1, 1, 0])
    assert (
        foe == PublicSide((gyarados,), 1, gyarados, (0,) * 6, (Type.WATER, Type.FLYING), None, NOTHING)
        and player.turn == 1
    )
    foe = seen_by(
        player,
        [3, 2, 130, 56, 1, 128],
        damage(2, 130, 40, 393),
        [13, 2, 130, 5],
        [3, 2, 130, 57, 1, 128],
        [3, 2, 130, 56, 1, 128],
    )
    assert foe.active == Seen(
        Species.GYARADOS, 100, 40, 393, Status.PARALYSIS, (SeenMove(Move(56), 2), SeenMove(Move(57), 1))
    )
    assert foe.last_move is Move.HYDRO_PUMP and foe.members == (foe.active,)
    foe = seen_by(player, [15, 2, 130, 2, 2], [16, 2, 130, 3, 1], [18, 2, 130, 1], [18, 2, 130, 9], [21, 2, 130, 19])
    assert (foe.stages, foe.stage(Stat.DEFENSE), foe.stage(Stat.SPEED)) == ((0, 2, -1, 0, 0, 0), 2, -1)
    assert foe.announced == dataclasses.replace(NOTHING, confused=True, disabled=True, charging=True, invulnerable=True)
    foe = seen_by(player, [19, 2, 130, 1], [17])
    assert (foe.stages, foe.announced) == ((0,) * 6, dataclasses.replace(NOTHING, charging=True, invulnerable=True))
    foe = seen_by(player, [14, 2, 130, 5], switch(2, 113, 2, 703, 703, 2))
    assert (foe.place, foe.last_move, foe.announced, foe.types) == (2, None, NOTHING, (Type.NORMAL, Type.NORMAL))
    assert [(it.species, it.hp, it.status) for it in foe.members] == [
        (Species.GYARADOS, 40, Status.NONE),
        (Species.CHANSEY, 703, Status.POISON),
    ]
    foe = seen_by(player, [25, 2, 113], [26, 1])
    assert (foe.active.hp, foe.active.status, player.outcome) == (0, Status.NONE, Outcome.WIN_ONE)
    assert player.public(1).active == Seen(Species.TAUROS, 100, 353, 353, Status.NONE, ())


def test_each_condition_that_is_announced():
    """Start of each (volatiles of docs/MECHANICS.md, "Events"), Prepare and MustRecharge; and poison after Toxic."""
    begun = Player(1, [TAUROS])
    begun.feed(switch(1, 128, 1, 353, 353) + switch(2, 130, 1, 393, 393))
    starts = {
        1: "confused",
        2: "bide",
        3: "substitute",
        4: "seeded",
        5: "mist",
        6: "focus_energy",
        7: "light_screen",
        8: "reflect",
        9: "disabled",
        12: "rage",
    }
    for events, name in (
        *((bytes([18, 2, 130, number]), name) for number, name in starts.items()),
        (bytes([21, 2, 130, 13]), "charging"),
        (bytes([22, 2, 130]), "recharging"),
        (bytes([3, 1, 128, Move.TOXIC, 2, 130, 13, 2, 130, 2]), "toxic"),
    ):
        assert seen_by(begun.copy(), events).announced == dataclasses.replace(NOTHING, **{name: True}), name


def begun_battle(one=(TAUROS, CHANSEY), two=(TAUROS, CHANSEY)):
    made = Battle(one, two, SEED)
    made.update_silent(0, 0)
    return made


def test_what_a_side_is_shown_of_itself():
    """docs/MECHANICS.md, "What a side is shown of itself": Speed 318 is 477 at stage 1, and 119 if it is paralysed as well."""
    battle = begun_battle()
    own = battle.own_side(1)
    assert (own.turn, own.place, own.request, own.outcome, own.held) == (1, 1, Request.MOVE, Outcome.ONGOING, False)
    assert (own.stats[:3], own.types, own.stages, own.conditions) == (
        (298, 288, 318),
        (Type.NORMAL, Type.NORMAL),
        (0,) * 6,
        Conditions.NONE,
    )
    tauros = own.members[0]
    assert (
        own.active is tauros
        and tauros.stats[:3] == (298, 288, 318)
        and (tauros.moves, tauros.pp) == ((Move.STRENGTH,), (24,))
    )
    assert (own.members[1].species, own.members[1].hp, own.members[1].max_hp, own.disabled_slot) == (
        Species.CHANSEY,
        703,
        703,
        0,
    )
    fast = battle.with_stage(1, Stat.SPEED, 1)
    assert (fast.own_side(1).stats[2], fast.own_side(1).stage(Stat.SPEED)) == (477, 1) and fast.own_side(
        2
    ) == battle.own_side(2)
    slow = fast.with_status(1, 1, Status.PARALYSIS).own_side(1)
    assert (slow.stats[2], slow.members[0].stats[2], slow.members[0].status) == (119, 318, Status.PARALYSIS)
    assert repr(own) == "<OwnSide, turn 1, Tauros out, asked move>"


def test_what_a_side_is_not_shown():
    """Turns of sleep; how long the foe's Wrap holds it; all else of the foe."""
    battle = begun_battle(two=[Member("Tauros", ["Wrap"])])
    shown = {battle.with_status(1, 1, Status.SLEEP, turns).own_side(1) for turns in range(1, 8)}
    assert len(shown) == 1 and shown.pop().members[0].status is Status.SLEEP
    holds = [
        battle.state.with_active(2, conditions=Conditions.TRAPPING, current_move=1, turns=turns) for turns in (0, 4)
    ]
    held = [Battle.from_state(it).own_side(1) for it in holds]
    assert (
        held[0] == held[1] != battle.own_side(1) and held[0].held and not Battle.from_state(holds[0]).own_side(2).held
    )
    other = battle.with_hp(2, 1, 5).with_status(2, 1, Status.BURN).with_stage(2, Stat.SPEED, 3)
    assert other.own_side(1) == battle.own_side(1) and hash(other.own_side(1)) == hash(battle.own_side(1))
    flinched = Battle.from_state(battle.state.with_active(1, conditions=Conditions.FLINCH))
    assert flinched.own_side(1) == battle.own_side(1) != "a side"


def test_before_the_first_update():
    own = Battle([TAUROS], [CHANSEY], SEED).own_side(2)
    assert (own.place, own.active, own.stages, own.stats, own.turn, len(own.members)) == (
        0,
        None,
        (0,) * 6,
        (0,) * 4,
        0,
        1,
    )
    assert repr(own) == "<OwnSide, turn 0, nobody out, asked nothing>"


def test_the_battle_of_the_example():
    """As README.md shows it: two Tauros with Strength; the first turn hits each, and the second fells side 2."""
    battle = Battle([TAUROS], [TAUROS], SEED)
    tellers, players = [Teller(it, pixels=False) for it in (1, 2)], [Player(it, [TAUROS], 1) for it in (1, 2)]
    for choice in (0, 17, 17):
        update = battle.update(choice, choice)
        for teller, player in zip(tellers, players):
            teller.report(battle, update.log, player)
            assert player.choices == battle.choices(player.side) and player.own == battle.own_side(player.side)
        if choice == 0:
            assert [it.foe.active for it in players] == [Seen(Species.TAUROS, 100, 353, 353, Status.NONE, ())] * 2
    one, two = players
    assert (one.outcome, two.outcome, one.choices, one.turn) == (Outcome.WIN_ONE, Outcome.WIN_ONE, (), 2)
    assert (two.public(2).active.hp, one.foe.active.hp, one.foe.active.moves) == (0, 0, (SeenMove(Move.STRENGTH, 1),))
    assert one.public(1) == two.foe and two.foe.active.moves == (SeenMove(Move.STRENGTH, 2),)


def test_a_forfeit():
    room, teller, player = Room(begun_battle()), Teller(2), Player(2, [TAUROS, CHANSEY])
    room.forfeit(2)
    player.feed(teller.tell(room.log))
    player.show(room.battle.own_side(2), room.choices(2))
    assert (player.outcome, player.choices) == (Outcome.WIN_ONE, ())


def test_what_is_hidden_changes_nothing():
    """A foe with its members in other places, other moves, other stats and other numbers: all that is seen is the same."""
    tauros, gengar = Member("Tauros", ["Splash"]), Member("Gengar", ["Splash", "Night Shade"])
    lead = Member("Chansey", ["Splash", "Strength"])
    other = dataclasses.replace(lead, moves=["Splash", "Ice Beam"], exp=[65535, 0, 65535, 0, 65535])
    foes, known = ([lead, gengar, GYARADOS], [other, GYARADOS, gengar]), []
    for seed, two, place in ((SEED, foes[0], 2), (bytes(10), foes[1], 3)):
        battle, teller, player, logs = Battle([tauros], two, seed), Teller(1, pixels=False), Player(1, [tauros], 3), b""
        for pair in ((0, 0), (17, 17), (17, Choice.switch(place)), (17, 17), (17, Choice.SWITCH_1)):
            log = battle.update(*pair).log
            teller.report(battle, log, player)
            logs += log
        known.append((player, teller.places, logs))
    (one, places, log), (two, other_places, other_log) = known
    assert one == two and [it.species.label for it in one.foe.members] == ["Chansey", "Gengar"]
    assert (places, other_places) == ((1, 2), (1, 3)) and log != other_log


def test_random_battles():
    """Players of random battles against the state, against spectators, and against direct calls of the library."""
    dice = random.Random(21)
    for _ in range(40):
        teams = random_team(dice), random_team(dice)
        battle, side = Battle(*teams, dice.randbytes(10), dice.randint(0, 3), limit=60), dice.randint(1, 2)
        own_team, foe_side, spectator = teams[side - 1], 3 - side, Spectator(*teams)
        teller, player = Teller(side, pixels=False), Player(side, own_team, len(teams[foe_side - 1]))
        raw_teller, raw, buffer = TellerStruct(), PlayerStruct(), ctypes.create_string_buffer(512)
        LIB.gen1_teller_begin(ctypes.byref(raw_teller), side, 0)
        terms = PlayerTermsStruct(60, battle.state.rules, len(teams[foe_side - 1]), 0)
        LIB.gen1_player_begin(ctypes.byref(raw), side, ctypes.byref(own_team._struct), ctypes.byref(terms))
        while not battle.result.is_over:
            log = battle.update(*(dice.choice(battle.choices(it)) for it in (1, 2))).log
            teller.report(battle, log, player)
            spectator.feed(log)
            own, length = OwnSideStruct(), ctypes.c_size_t(0)
            LIB.gen1_tell(
                ctypes.byref(raw_teller),
                log,
                ctypes.c_size_t(len(log)),
                buffer,
                ctypes.c_size_t(512),
                ctypes.byref(length),
            )
            LIB.gen1_player_feed(ctypes.byref(raw), buffer, length)
            LIB.gen1_get_own_side(battle.bytes, side, ctypes.byref(own))
            LIB.gen1_player_show(ctypes.byref(raw), ctypes.byref(own), LIB.gen1_offered(battle.bytes, side))
            assert (bytes(player._held), bytes(teller._held)) == (bytes(raw), bytes(raw_teller))
            agrees(player, teller, battle, spectator.state, side)


def agrees(player, teller, battle, shown, side):
    """What the player knows is true of the battle, and as much as a spectator sees."""
    state, foe = battle.state, player.foe
    mine, theirs = state.side(side), state.side(3 - side)
    assert (player.turn, player.outcome) == (state.turn, state.outcome) and player.choices == battle.choices(side)
    for place, seen in zip(teller.places, foe.members, strict=True):
        member = theirs.members[place - 1]
        assert (seen.species, seen.level, seen.hp, seen.max_hp, seen.status) == (
            member.species,
            member.level,
            member.hp,
            member.max_hp,
            member.status,
        )
    assert teller.places[foe.place - 1] == theirs.active.place and (foe.stages, foe.types) == (
        theirs.active.stages,
        theirs.active.types,
    )
    eye = (shown.one, shown.two)[2 - side]
    told = foe.announced
    assert (told.substitute, told.confused, told.light_screen, told.reflect) == (
        eye.substitute,
        eye.confused,
        eye.light_screen,
        eye.reflect,
    )
    # Leech Seed raises the counter without an event once poison took the last HP.
    out = theirs.active
    assert told.toxic_count == out.bad_poison or not theirs.members[out.place - 1].hp
    own, active = player.own, mine.active
    assert (own.place, own.stats, own.stages, own.types, own.disabled_slot) == (
        active.place,
        active.stats,
        active.stages,
        active.types,
        active.disabled_slot,
    )
    assert own.conditions == active.conditions & ~Conditions.FLINCH and own.request == state.requests[side - 1]
    assert own.held == bool(theirs.active.conditions & Conditions.TRAPPING) and (own.turn, own.outcome) == (
        state.turn,
        state.outcome,
    )
    for one, two in zip(own.members, mine.members, strict=True):
        assert all(getattr(one, it.name) == getattr(two, it.name) for it in dataclasses.fields(one))


def test_bytes_that_come_in_pieces(player):
    log = switch(1, 128, 1, 353, 353) + switch(2, 130, 1, 393, 393) + bytes([1, 1, 0]) + damage(2, 130, 40, 393)
    whole = player.copy()
    whole.feed(log)
    for at in range(len(log)):
        player.feed(log[at : at + 1])
        assert pickle.loads(pickle.dumps(player)) == player and len(player.held) <= 9
    assert player == whole and player.held == b"" and player.foe.active.hp == 40


@pytest.mark.parametrize(
    "copied", [copy.copy, copy.deepcopy, lambda it: it.copy(), lambda it: pickle.loads(pickle.dumps(it))]
)
def test_copies(player, copied):
    teller = Teller(1, True)
    for it, change in (
        (player, lambda it: it.feed(bytes([1, 5, 0]))),
        (teller, lambda it: it.tell(switch(2, 113, 4, 5, 703))),
    ):
        other = copied(it)
        assert other == it and other is not it and type(other) is type(it) and it != "one"
        change(other)
        assert other != it
        change(it)
        assert other == it
        with pytest.raises(TypeError):
            hash(it)
    own = begun_battle().own_side(1)
    assert pickle.loads(pickle.dumps(own)) == own


def test_sizes_of_structs():
    """include/gen1.h, GEN1_OWN_SIDE_SIZE and GEN1_PLAYER_SIZE."""
    assert (ctypes.sizeof(OwnSideStruct), ctypes.sizeof(PlayerStruct), ctypes.sizeof(TellerStruct)) == (172, 488, 8)


def test_logs_that_are_wrong(player):
    teller, before = Teller(1), player.copy()
    good = switch(2, 113, 4, 5, 703)
    for bad, code in ((b"\0", LogFault.TAG), (b"\x1d", LogFault.TAG), (b"\x1a\x03", LogFault.FIELD)):
        for call in (player.feed, teller.tell, lambda it: teller.report(begun_battle(), it, player)):
            with pytest.raises(BadLog) as fault:
                call(good + bad)
            assert (fault.value.code, fault.value.at) == (code, 10) and "byte 10" in str(fault.value)
            assert player == before and teller == Teller(1)
    for call in (teller.tell, lambda it: teller.report(begun_battle(), it, player)):
        with pytest.raises(BadLog) as fault:
            call(good + good[:3])
        assert (fault.value.code, fault.value.at) == (LogFault.CUT, 10) and player == before and teller == Teller(1)
        with pytest.raises(BadArgument) as fault:
            call(bytes([17]) * 513)
        assert str(fault.value) == "log must be the log of one update, at most 512 bytes, not 513" and teller == Teller(
            1
        )
    assert teller.tell(bytes([17]) * 512) == bytes([17]) * 512
    player.feed(good[:3])
    held = player.copy()
    for call in (lambda: player.feed(bytes(7)), lambda: teller.report(begun_battle(), bytes([17] * 7), player)):
        with pytest.raises(BadLog) as fault:
            call()
        assert (
            fault.value.at == -3
            and "3 bytes before these" in str(fault.value)
            and player == held
            and teller == Teller(1)
        )


def test_wrong_arguments(player):
    """Each wrong argument with right others raises an exception of the package, and changes nothing."""
    battle, teller, before = begun_battle(), Teller(1), player.copy()
    own, bytes_before = battle.own_side(1), battle.bytes
    calls = []
    for call in (lambda it: Player(it, [TAUROS]), lambda it: Teller(it), battle.own_side, player.public):
        calls += [(lambda call=call, it=it: call(it), BadArgument) for it in (0, 3, *BIG)]
        calls += [(lambda call=call, it=it: call(it), BadType) for it in NO_NUMBERS]
    calls += [(lambda it=it: Player(1, [TAUROS], it), BadArgument) for it in (0, 7, *BIG)]
    calls += [(lambda it=it: Player(1, [TAUROS], it), BadType) for it in NO_NUMBERS if it is not None]
    calls += [(lambda it=it: Player(1, [TAUROS], rules=it), BadArgument) for it in (4, *BIG)]
    calls += [(lambda it=it: Player(1, [TAUROS], limit=it), BadArgument) for it in (0, 10_000, *BIG[4:])]
    for it in NO_NUMBERS:
        calls += [(lambda it=it: Player(1, [TAUROS], rules=it), BadType)]
        calls += [(lambda it=it: Player(1, [TAUROS], limit=it), BadType)]
    calls += [(lambda it=it: Player(1, it), BadType) for it in (None, 5, "Tauros", [None])] + [
        (lambda: Player(1, []), BadTeam)
    ]
    calls += [(lambda it=it: Teller(1, it), BadType) for it in (None, 1, 0, "yes")]
    for call in (player.feed, teller.tell, lambda it: teller.report(battle, it, player)):
        calls += [(lambda call=call, it=it: call(it), BadType) for it in (None, 5, "log", [1, 2])]
    calls += [(lambda it=it: player.show(it, ()), BadType) for it in (None, 5, battle, player)]
    calls += [
        (lambda it=it: player.show(own, it), BadType) for it in (None, 5, "17", b"\x11", [None], [True], ["move 1"])
    ]
    calls += [(lambda it=it: player.show(own, [17, it]), BadArgument) for it in (1, 0x15, 0x20, 0x27, *BIG)]
    calls += [(lambda it=it: teller.report(it, b"", player), BadType) for it in (None, 5, battle.bytes, Room(battle))]
    calls += [(lambda it=it: teller.report(battle, b"", it), BadType) for it in (None, 5, teller, battle)]
    calls += [(lambda: teller.report(battle, b"", Player(2, [TAUROS])), BadArgument)]
    for at, (call, kind) in enumerate(calls):
        with pytest.raises(kind) as fault:
            call()
        assert isinstance(fault.value, Error) and len(str(fault.value)) > 10 and "\n" not in str(fault.value), at
        assert (player, teller, battle.bytes) == (before, Teller(1), bytes_before), at
    with pytest.raises(BadArgument) as fault:
        teller.report(battle, b"", Player(2, [TAUROS]))
    assert str(fault.value) == "player must be of side 1, like the teller, not of side 2"
    with pytest.raises(BadArgument) as fault:
        player.show(own, [300])
    assert str(fault.value) == "offered[0] must be a choice, not 300"
    with pytest.raises(BadTeam) as fault:
        Player(1, [TAUROS, TAUROS.to_dict() | {"level": 0}])
    assert fault.value.member == 2


def test_reports_that_are_not_of_the_players_battle():
    """A log that was skipped, repeated or is another battle's, and a side of another team: each is refused, and nothing changes."""
    battle, teller, player = Battle([TAUROS, CHANSEY], [GYARADOS], SEED), Teller(1), Player(1, [TAUROS, CHANSEY])
    logs = [battle.update(0, 0).log]
    teller.report(battle, logs[0], player)
    logs += [battle.update(17, 17).log for _ in range(2)]
    other = Battle([CHANSEY], [GYARADOS], SEED)
    started = other.update(0, 0).log
    before = player.copy(), teller.copy()
    asked = (
        (lambda: teller.report(battle, logs[0], player), "log is not that of the battle's last update"),
        (lambda: teller.report(battle, logs[1], player), "is at 2 after the log, and the battle at 3"),
        (lambda: teller.report(battle, b"", player), "was reported before"),
        (
            lambda: teller.report(other, started, player),
            "own must be the side of the player's team, Tauros at level 100, Chansey at level 100, not Chansey at level 100",
        ),
        (lambda: teller.report(battle, started, player), "log is not that of the battle's last update"),
        (lambda: player.show(battle.own_side(2), ()), "not Gyarados at level 100"),
    )
    for call, text in asked:
        with pytest.raises(BadArgument) as fault:
            call()
        assert text in str(fault.value) and (player, teller) == before
    for log in logs[1:]:
        player.feed(teller.tell(log))
    player.show(battle.own_side(1), battle.choices(1))
    assert player.turn == 3
    with pytest.raises(BadArgument):
        teller.report(battle, logs[2], player)
    teller.report(battle, battle.update(17, 17).log, player)


def test_nothing_can_be_assigned(player):
    own = begun_battle().own_side(1)
    for it, names in (
        (player, ("side", "own", "foe", "choices", "unknown")),
        (own, ("members", "turn", "unknown")),
        (Teller(1), ("side", "pixels")),
    ):
        for name in names:
            with pytest.raises(AttributeError):
                setattr(it, name, None)
    assert isinstance(own, OwnSide)


def test_choices_that_are_shown(player):
    own = begun_battle().own_side(1)
    for offered in ((), (Choice.MOVE_1, Choice.SWITCH_2), (0x22, 0x11), tuple(Choice), iter([17])):
        wanted = tuple(sorted(offered)) if isinstance(offered, tuple) else (Choice.MOVE_1,)
        player.show(own, offered)
        assert player.choices == wanted and all(isinstance(it, Choice) for it in player.choices)


def known_table():
    """A room with all that follow it, as in rust/gen1/tests/wire.rs. HP is reported to side 2 in 48ths."""
    one = "Tauros||||BodySlam,HyperBeam,Blizzard,Earthquake|||||||]Chansey||||IceBeam,Thunderbolt,SoftBoiled|||||||"
    two = "Gengar||||Hypnosis,Dig,NightShade|||||||]Snorlax||||BodySlam,Substitute,Amnesia|||||||"
    teams = [Team.from_packed(it) for it in (one, two)]
    tellers = [Teller(1, pixels=False), Teller(2)]
    players = [Player(1, teams[0], 2, hp_form=HpForm.EXACT), Player(2, teams[1])]
    return [Room(Battle(*teams, SEED)), *tellers, *players, Spectator(*teams)]


def told(room, one, two, first, second, spectator):
    """All of a table, after the log of the room's last pair."""
    for teller, player in ((one, first), (two, second)):
        player.feed(teller.tell(room.log))
        player.show(room.battle.own_side(player.side), room.battle.choices(player.side))
    spectator.feed(room.log)


def fnv(before, data):
    """FNV-1a."""
    for byte in data:
        before = (before ^ byte) * 0x100000001B3 % 2**64
    return before


def test_bytes_are_those_of_the_c_structs():
    """In a battle that Rust and JavaScript play too; at each step all continue from their bytes."""
    table, pairs = known_table(), 0
    told(*table)
    found = fnv(0xCBF29CE484222325, b"".join(map(bytes, table)))
    while not table[0].result.is_over:
        for side in Side:
            choices = table[0].choices(side)
            if choices:
                again = [type(it).from_bytes(bytes(it)) for it in table]
                assert again == table
                number, table = table[0].number, again
                table[0].submit(side, number, choices[(pairs + side) % len(choices)])
                if table[0].number > number:
                    told(*table)
                found = fnv(found, b"".join(map(bytes, table)))
        pairs += 1
    room = known_table()[0]
    room.forfeit(2)
    assert pairs == 25 and fnv(found, bytes(Room.from_bytes(bytes(room)))) == 0x3895A0453EAA0160


def test_bytes_that_are_refused():
    """A field out of its range is named; random damage is refused, or can be looked at."""
    table, dice = known_table(), random.Random(4)
    told(*table)
    own = table[3].own
    assert OwnSide.from_bytes(bytes(own)) == own
    for it, at, byte, field in (
        *((table[3], at, byte, field) for at, byte, field in ((4, 152, "species"), (1, 4, "hp"), (286, 7, "place"))),
        *(
            (table[3], at, byte, field)
            for at, byte, field in (
                (469, 16, "offered"),
                (471, 40, "limit"),
                (474, 4, "rules"),
                (476, 9, "held"),
                (472, 3, "side"),
            )
        ),
        *((table[1], at, byte, field) for at, byte, field in ((0, 0, "side"), (1, 3, "pixels"), (3, 1, "places"))),
        *(
            (table[5], at, byte, field)
            for at, byte, field in ((24, 7, "count"), (25, 3, "place"), (75, 10, "held_count"))
        ),
        *((own, at, byte, field) for at, byte, field in ((12, 99, "hp"), (158, 3, "place"), (171, 0, "count"))),
        *((table[0], at, byte, field) for at, byte, field in ((393, 1, "unused"), (392, 3, "forfeit"))),
    ):
        data = bytearray(bytes(it))
        data[at] = byte
        with pytest.raises(BadArgument, match=f"data is not an? [a-z ]*: {field} is out of its range"):
            type(it).from_bytes(data)
        for wrong in (b"", bytes(len(data) + 1)):
            with pytest.raises(BadArgument, match=f"data must be the {len(data)} bytes of an? "):
                type(it).from_bytes(wrong)
        with pytest.raises(BadType):
            type(it).from_bytes("bytes")
    for it in (*table, own):
        for _ in range(1000):
            data = bytearray(bytes(it))
            data[dice.randrange(len(data))] = dice.randrange(256)
            try:
                made = type(it).from_bytes(data)
            except BadArgument:
                continue
            assert bytes(made) == data and repr(made)
            if isinstance(made, Player):
                assert made.foe and made.public(made.side) and made.own.members and made.choices is not None


def test_bytes_of_no_room_are_refused():
    """The library's test of hosts, and a forfeit that leads to the room."""
    room = known_table()[0]
    lost = room.copy()
    lost.submit(1, 0, 0x11)
    lost.forfeit(1)
    for it, edits, why in (
        (room, {384: 10}, "leaves no place"),
        (room, {390: 0x15}, "side 1's choice is not offered"),
        (room, {390: 0x11, 391: 0x11}, "both choices are there"),
        (room, {396: 0x1D}, "is no log"),
        (room, {392: 1}, "leaves no place"),
        (lost, {384: 0}, "leaves no place"),
        (lost, {384: 11}, "leaves no place"),
        (lost, {397: 1}, "no forfeit of side 1 leads there"),
        (lost, {392: 2}, "no forfeit of side 2 leads there"),
        (lost, {390: 255}, "no forfeit of side 1 leads there"),
        (lost, {392: 0}, "is missing though nothing is asked|is not offered"),
    ):
        data = bytearray(bytes(it))
        for at, byte in edits.items():
            data[at] = byte
        with pytest.raises(BadArgument, match=why):
            Room.from_bytes(data)
    data = bytearray(bytes(room))
    data[0] = 9
    with pytest.raises(BadBytes):
        Room.from_bytes(data)
