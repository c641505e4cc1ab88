"""Battles that fit what a player knows, with a guess of the rest."""

import random

import pytest
from conftest import random_team
from gen1 import (
    HpForm,
    BadArgument,
    BadState,
    BadTeam,
    BadType,
    Battle,
    Choice,
    Conditions,
    Error,
    Member,
    Player,
    Side,
    StateField,
    Status,
    Teller,
)

SEED = bytes([1, 36, 255, 7, 31, 100, 179, 254, 127, 10])
TAUROS = Member("Tauros", ["Body Slam"])
ALAKAZAM = Member("Alakazam", ["Psychic"])
CHANSEY = Member("Chansey", ["Ice Beam"])


def after_a_turn(hp_form):
    """Side 1 after the first turn of a battle with Alakazam, whose Psychic it has seen; its own Body Slam was used once."""
    battle = Battle([TAUROS], [ALAKAZAM, CHANSEY], SEED, rules=3, limit=50)
    teller, made = Teller(1, hp_form=hp_form), Player(1, [TAUROS])
    for choice in (0, 17):
        teller.report(battle, battle.update(choice, choice).log, made)
    return made


@pytest.fixture
def player():
    """Side 1 after that turn, which was told HP as they are."""
    return after_a_turn(HpForm.EXACT)


def test_what_is_known_and_what_is_guessed(player):
    """The log of the first turn: Tauros is left with 5 of 353 HP and a lower Special, Alakazam with 32 of 313."""
    guess = [
        Member("Alakazam", ["Recover", "Psychic"], exp=[65535, 0, 65535, 65535, 65535]),
        Member("Gengar", ["Hypnosis"]),
    ]
    copy = Battle.from_player(player, guess, range(20, 30))
    state = copy.state
    assert (
        copy.own_side(1) == player.own
        and copy.choices(1) == player.choices
        and (state.turn, state.limit, state.rules) == (2, 50, 3)
    )
    assert state.numbers == tuple(range(20, 30)) and copy.choices(2) == (Choice.MOVE_1, Choice.MOVE_2, Choice.SWITCH_2)
    # Of 16 PP of Psychic one was used.
    alakazam = state.member(2, 1)
    assert (alakazam.max_hp, alakazam.hp, alakazam.pp, alakazam.status) == (313, 32, (32, 15), Status.NONE)
    assert (state.member(2, 2).hp, state.member(2, 2).max_hp, state.two.active.current_move) == (323, 323, 2)
    assert (
        copy.update(17, 18).log
        and type(type("Noted", (Battle,), {}).from_player(player, guess, SEED)).__name__ == "Noted"
    )


def test_a_guess_has_hp_that_are_told_so(player):
    """Without experience for HP Alakazam has (55 + 15) * 2 + 110 = 250 HP. The bar of 32 of 313 HP has 12 * 32 / 78 = 4 pixels, and so
    has that of 21 of 250 (48 * 21 / 250), but not of 20. 32 of 313 are 11 hundredths, and so are 27 of 250, but not 28.
    """
    guess = [Member("Alakazam", ["Psychic"], exp=[0, 65535, 65535, 65535, 65535])]
    for form, told, hp in ((HpForm.BAR, 4, 21), (HpForm.HUNDREDTHS, 11, 27)):
        other = after_a_turn(form)
        found = Battle.from_player(other, guess, SEED).state.member(2, 1)
        assert (other.hp_form, other.foe.members[0].hp, found.hp, found.max_hp) == (form, told, hp, 250)
    with pytest.raises(BadArgument) as fault:
        Battle.from_player(player, guess, SEED)
    assert str(fault.value) == "team: member 1 must have a maximum HP that allows 32 of 313 HP, as the player was told"
    assert player.hp_form is HpForm.EXACT and Player(1, [TAUROS]).hp_form is HpForm.BAR


def test_conditions_that_were_announced(player):
    """Substitute and confusion with middle counts; Rage, whose use of Rage explains it."""
    told = player.copy()
    told.feed(bytes([18, 2, 65, 3, 18, 2, 65, 1, 18, 2, 65, 12]))
    out = Battle.from_player(told, [ALAKAZAM], SEED).state.two.active
    assert out.conditions == Conditions.SUBSTITUTE | Conditions.CONFUSED and (out.substitute, out.confusion) == (78, 3)
    told.feed(bytes([3, 2, 65, 99, 1, 128, 18, 2, 65, 12]))
    raging = Battle.from_player(told, [Member("Alakazam", ["Psychic", "Rage"])], SEED).state.two.active
    assert raging.conditions & Conditions.RAGE and (raging.current_move, raging.kept_accuracy) == (2, 255)
    # Toxic, then damage by its poison and by Leech Seed.
    told.feed(bytes([3, 1, 128, 92, 2, 65, 13, 2, 65, 2, 5, 2, 65, 13, 0, 57, 1, 2, 1]))
    told.feed(bytes([18, 2, 65, 4, 5, 2, 65, 1, 0, 57, 1, 2, 3]))
    poisoned = Battle.from_player(told, [Member("Alakazam", ["Psychic", "Rage"])], SEED).state.two.active
    assert (told.foe.announced.toxic_count, poisoned.bad_poison) == (2, 2)


def test_random_battles():
    """A guess of the true team, in the order of appearance: the copy shows and offers the side what the battle does, and can be played."""
    dice, count = random.Random(31), 0
    for _ in range(20):
        teams = random_team(dice), random_team(dice)
        battle = Battle(*teams, dice.randbytes(10), dice.randint(0, 3), limit=40)
        tellers = [Teller(it, hp_form=HpForm.EXACT) for it in (1, 2)]
        players = [Player(it, teams[it - 1]) for it in (1, 2)]
        while not battle.result.is_over:
            log = battle.update(*(dice.choice(battle.choices(it)) for it in (1, 2))).log
            for side, teller, player in zip(Side, tellers, players):
                teller.report(battle, log, player)
                if battle.result.is_over:
                    continue
                foes = teams[side.foe - 1]
                order = [*teller.places, *(it for it in range(1, len(foes) + 1) if it not in teller.places)]
                copy = Battle.from_player(player, [foes[it - 1] for it in order], dice.randbytes(10))
                agrees(copy, battle, side, teller.places)
                count += 1
    assert count > 500


def agrees(copy, battle, side, places):
    """The side has the same knowledge of both battles."""
    state, true = copy.state, battle.state
    assert (state.rules, state.limit) == (true.rules, true.limit)
    assert (
        copy.choices(side) == battle.choices(side)
        and copy.result.requests[side - 1] == battle.result.requests[side - 1]
    )
    own, known = copy.own_side(side), battle.own_side(side)
    assert (own.members, own.place, own.stats, own.stages, own.types, own.turn) == (
        known.members,
        known.place,
        known.stats,
        known.stages,
        known.types,
        known.turn,
    )
    for at, place in enumerate(places, 1):
        one, two = state.member(side.foe, at), true.member(side.foe, place)
        assert (one.species, one.level, one.hp, one.max_hp, one.status, one.marked, one.moves, one.stats) == (
            two.species,
            two.level,
            two.hp,
            two.max_hp,
            two.status,
            two.marked,
            two.moves,
            two.stats,
        )
    assert [it.marked for it in state.side(side).members] == [it.marked for it in true.side(side).members]
    assert state.side(side.foe).active.stages == true.side(side.foe).active.stages
    copy.update(*(copy.choices(it)[0] for it in (1, 2)))


def test_guesses_that_do_not_fit(player):
    before = player.copy()
    for foes, said in (
        ([CHANSEY], "team: member 1 must be Alakazam of level 100, which appeared, not Chansey of level 100"),
        (
            [Member("Alakazam", ["Psychic"], level=99)],
            "team: member 1 must be Alakazam of level 100, which appeared, not Alakazam of level 99",
        ),
        ([Member("Alakazam", ["Recover"])], "team: member 1 must know Psychic, which it was seen to use"),
    ):
        with pytest.raises(BadArgument) as fault:
            Battle.from_player(player, foes, SEED)
        assert str(fault.value) == said and player == before
    more = player.copy()
    more.feed(bytes([2, 2, 113, 2, 100, 191, 2, 191, 2, 0]))
    with pytest.raises(BadArgument) as fault:
        Battle.from_player(more, [ALAKAZAM], SEED)
    assert str(fault.value) == "team must have the 2 members that have appeared, not 1"
    over = player.copy()
    over.feed(bytes([26, 1]))
    for it in (over, Player(1, [TAUROS])):
        with pytest.raises(BadArgument) as fault:
            Battle.from_player(it, [ALAKAZAM], SEED)
        assert str(fault.value) == "player must be in a battle that has begun and is not over"


def test_a_guess_of_another_number_of_members():
    """A player that knows that the foe has two members takes guesses of two."""
    battle, teller, player = Battle([TAUROS], [ALAKAZAM, CHANSEY], SEED), Teller(1), Player(1, [TAUROS], foes=2)
    teller.report(battle, battle.update(0, 0).log, player)
    for team in ([ALAKAZAM], [ALAKAZAM, CHANSEY, TAUROS]):
        with pytest.raises(BadArgument) as fault:
            Battle.from_player(player, team, SEED)
        assert str(fault.value) == f"team must have 2 members, as many as the foe has, not {len(team)}"
    assert Battle.from_player(player, [ALAKAZAM, TAUROS], SEED).choices(1) == player.choices


def test_a_player_past_its_turn_limit(player):
    """Of bytes that no battle leads to: at turn 2 with a limit of 1."""
    data = bytearray(bytes(player))
    data[470:472] = 1, 0
    with pytest.raises(BadState) as fault:
        Battle.from_player(Player.from_bytes(data), [ALAKAZAM], SEED)
    assert (fault.value.code, fault.value.value) in ((StateField.TURN, 2), (StateField.LIMIT, 1))


def test_wrong_arguments(player):
    calls = [(lambda it=it: Battle.from_player(it, [ALAKAZAM], SEED), BadType) for it in (None, 5, Teller(1), [TAUROS])]
    calls += [(lambda it=it: Battle.from_player(player, it, SEED), BadType) for it in (None, 5, "Alakazam", [5])]
    calls += [(lambda: Battle.from_player(player, [], SEED), BadTeam)]
    calls += [
        (lambda it=it: Battle.from_player(player, [ALAKAZAM], it), BadArgument) for it in (b"", bytes(9), [256] * 10)
    ]
    calls += [(lambda it=it: Battle.from_player(player, [ALAKAZAM], it), BadType) for it in (1.5, "0123456789")]
    before = player.copy()
    for at, (call, kind) in enumerate(calls):
        with pytest.raises(kind) as fault:
            call()
        assert isinstance(fault.value, Error) and len(str(fault.value)) > 10 and player == before, at
