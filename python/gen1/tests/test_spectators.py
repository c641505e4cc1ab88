"""Spectators of recorded battles, fed the logs in pieces, against the recorded bytes; of single events; and of bytes that aren't a log."""

import copy
import ctypes
import pickle
import random

import pytest
from conftest import LIB, RECORDED, random_team, recorded_only
from gen1 import BadLog, BadTeam, BadType, Battle, Error, Member, Outcome, Spectator, Stat, Status, Team
from gen1._structs import SpectatorStruct
from gen1.names import LogFault

if RECORDED.is_dir():
    from battles import TRACES, recorded, traces

KINDS = {0: Status.NONE, 8: Status.POISON, 16: Status.BURN, 32: Status.FREEZE, 64: Status.PARALYSIS}
# The log of the battle that README.md shows: both come out, the first turn hits each, and the second fells side 2.
LOG = bytes.fromhex(
    "020180016461016101000202800164610161010001010003018046028007028005028095006101000003028046018005018007016101000001020003018046"
    "02800702800502800000610100001902801a01"
)
# At level 100, with DVs of 15 and all experience, Tauros has 353 HP and Chansey 703.
TEAM = Team([Member("Tauros", ["Strength"]), Member("Chansey", ["Strength"])])
OUT = bytes([2, 1, 128, 1, 100, 97, 1, 97, 1, 0, 2, 2, 128, 1, 100, 97, 1, 97, 1, 0])


def begun(*more):
    """A spectator that has seen both first members come out, and then these events."""
    made = Spectator(TEAM, TEAM)
    made.feed(OUT + b"".join(map(bytes, more)))
    return made.state


def shown(side):
    """A side's place, the HP and status of each member, stages and conditions."""
    up = side.substitute, side.confused, side.light_screen, side.reflect
    return side.place, [(it.hp, it.status) for it in side.members], side.stages, up


def read(given, at):
    """A spectator's view from the 180 bytes of a side (docs/LAYOUT.md). A side without an active member has no stages."""
    places = [given[at + 24 * it : at + 24 * it + 24] for it in range(6)]
    active = given[at + 144 : at + 180]
    members = [(it[4] + 256 * it[5], KINDS.get(it[14], Status.SLEEP)) for it in places if it[0]]
    bits = int.from_bytes(active[17:21], "little")
    up = tuple(bool(bits & it) for it in (512, 64, 16384, 32768))
    return active[0], members, tuple(it - 6 for it in active[3:9]), up


def agrees(spectator, given):
    """A spectator that was fed the log of each update agrees with the battle of these bytes."""
    state = spectator.state
    assert (state.turn, state.outcome) == (given[1] + 256 * given[2], given[16])
    assert [shown(state.one), shown(state.two)] == [read(given, 24), read(given, 204)] and spectator.held == b""


def cut(dice, log):
    """A log in pieces, some of them empty."""
    places = sorted(dice.randint(0, len(log)) for _ in range(dice.randint(0, 5)))
    return [log[one:two] for one, two in zip([0, *places], [*places, len(log)])]


@recorded_only
@pytest.mark.parametrize("name", ["traces", "corners"])
def test_recorded_battles(name):
    """After each recorded update, whose log came in pieces."""
    assert name in TRACES
    dice = random.Random(1)
    for trace in traces(recorded(f"{name}.jsonl")):
        spectator = Spectator(trace["object"]["one"], trace["object"]["two"])
        for update in trace["updates"]:
            for piece in cut(dice, bytes.fromhex(update["log"] or "")):
                spectator.feed(piece)
                assert pickle.loads(pickle.dumps(spectator)) == spectator
            if not update["refused"]:
                agrees(spectator, bytes.fromhex(update["bytes"]))


def test_random_battles():
    """Whole random battles: each spectator agrees with `Battle.state`, and so does one that is fed the whole log at once."""
    dice = random.Random(2)
    for _ in range(60):
        teams = random_team(dice), random_team(dice)
        battle, spectator, log = Battle(*teams, dice.randbytes(10), dice.randint(0, 3), 60), Spectator(*teams), b""
        while not battle.result.is_over:
            update = battle.update(*(dice.choice(battle.choices(side)) for side in (1, 2)))
            log += update.log
            for piece in cut(dice, update.log):
                spectator.feed(piece)
            agrees(spectator, battle.bytes)
        other = Spectator(*teams)
        other.feed(log)
        assert other == spectator


# Single events, as in docs/MECHANICS.md, "Spectator's view", and in rust/gen1-tests/tests/players.


def test_before_the_start():
    state = Spectator(TEAM, TEAM).state
    for side in (state.one, state.two):
        assert shown(side) == (0, [(353, Status.NONE), (703, Status.NONE)], (0,) * 6, (False,) * 4)
    assert (state.turn, state.outcome) == (0, Outcome.ONGOING)


def test_a_log_is_followed_however_it_is_cut():
    for first in range(len(LOG) + 1):
        spectator = Spectator(TEAM, TEAM)
        spectator.feed(LOG[:first])
        assert LOG[:first].endswith(spectator.held) and len(spectator.held) <= 9
        spectator.feed(LOG[first:])
        state = spectator.state
        assert (state.one.members[0].hp, state.two.members[0].hp, state.turn) == (263, 0, 2), first
        assert (
            state.outcome is Outcome.WIN_ONE
            and spectator.held == b""
            and repr(spectator) == "<Spectator, turn 2, win one>"
        )


def test_what_each_event_changes():
    who = 1, 128
    assert shown(begun((2, *who, 2, 100, 244, 1, 191, 2, 5)).one)[:2] == (
        2,
        [(353, Status.NONE), (500, Status.PARALYSIS)],
    )
    # A switch to a place without a member changes nothing.
    assert shown(begun((2, *who, 3, 100, 11, 0, 11, 0, 0)).one) == shown(begun().one)
    # If no member is out, only a switch changes a side.
    before = Spectator(TEAM, TEAM)
    before.feed(bytes([5, *who, 12, 0, 97, 1, 0, 0, 15, *who, 1, 2, 18, *who, 2]))
    assert before == Spectator(TEAM, TEAM)
    hurt = begun((13, *who, 3), (5, *who, 12, 0, 97, 1, 0, 0))
    assert hurt.one.members[0] == begun((13, *who, 3), (5, *who, 12, 0, 97, 1, 3, 0)).one.members[0]
    assert (hurt.one.members[0].hp, hurt.one.members[0].status, hurt.two) == (12, Status.BURN, begun().two)
    assert begun((13, *who, 4), (14, *who, 4)) == begun()
    fallen = begun((13, *who, 5), (25, *who)).one
    assert (fallen.place, fallen.members[0].hp, fallen.members[0].status) == (1, 0, Status.NONE)
    stages = begun(*[(15, *who, 6, 2)] * 4, *[(16, 2, 128, 4, 2)] * 4)
    assert (stages.one.stage(Stat.EVASION), stages.two.stage(Stat.SPECIAL)) == (6, -6)
    assert begun((1, 15, 39)).turn == 9999
    for event, outcome in (((26, 1), 1), ((26, 2), 2), ((27,), 3), ((28, 1), 4), ((28, 2), 5)):
        assert begun(event).outcome is Outcome(outcome)


def test_the_bytes_of_a_fault_are_not_taken_in():
    """The error has the offset in these bytes, which follow those that are held; events before it are not applied either."""
    for held in (b"", LOG[20:21], LOG[20:22]):
        spectator = Spectator(TEAM, TEAM)
        spectator.feed(OUT + held)
        before, rest = spectator.copy(), LOG[20 + len(held) : 23]
        for given, code, at in (
            (rest + b"\x00", LogFault.TAG, len(rest)),
            (rest + b"\x1d" + LOG, LogFault.TAG, len(rest)),
            (rest + b"\x1a\x03", LogFault.FIELD, len(rest)),
            (rest + bytes([5, 1, 128, 255, 255, 255, 255, 9, 9]), LogFault.FIELD, len(rest)),
        ):
            with pytest.raises(BadLog) as fault:
                spectator.feed(given)
            assert (
                (fault.value.code, fault.value.at) == (code, at)
                and spectator == before
                and f"byte {at}" in str(fault.value)
            )
    spectator.feed(LOG[22:26])
    before = spectator.copy()
    assert spectator.held == LOG[23:26]
    with pytest.raises(BadLog) as fault:
        spectator.feed(b"\xff\xff\xff")
    assert (fault.value.code, fault.value.at) == (LogFault.FIELD, -3) and spectator == before
    assert str(fault.value).endswith("in the event that begins 3 bytes before these")


def test_any_bytes():
    """Changed bytes of a log: the same code and the same struct as by direct calls of the library."""
    dice, changed = random.Random(3), 0
    for _ in range(4000):
        spectator, raw = Spectator(TEAM, TEAM), SpectatorStruct()
        LIB.gen1_spectator_begin(ctypes.byref(raw), ctypes.byref(TEAM._struct), ctypes.byref(TEAM._struct))
        for piece in cut(dice, LOG):
            given = bytearray(piece)
            if given and dice.random() < 0.2:
                given[dice.randrange(len(given))] = dice.randint(0, 255)
            before = spectator.copy()
            code = LIB.gen1_spectator_feed(ctypes.byref(raw), bytes(given), ctypes.c_size_t(len(given))) & 0xFF
            try:
                spectator.feed(bytes(given))
                assert code == 0
            except BadLog as fault:
                changed += 1
                assert fault.code == code and spectator == before and -9 <= fault.at < len(given)
            assert (spectator.state.turn, spectator.state.outcome, spectator.held) == (
                raw.turn,
                raw.outcome,
                bytes(raw.held[: raw.held_count]),
            )
            for side, of in zip((spectator.state.one, spectator.state.two), raw.sides):
                assert [(it.hp, it.status) for it in side.members] == [
                    (it.hp, it.status) for it in of.members[: of.count]
                ]
    assert changed > 500


def test_the_struct_is_that_of_the_header():
    assert ctypes.sizeof(SpectatorStruct) == 86 and ctypes.alignment(SpectatorStruct) == 2


@pytest.mark.parametrize(
    "copied", [copy.copy, copy.deepcopy, Spectator.copy, lambda it: pickle.loads(pickle.dumps(it))]
)
def test_a_copy_is_an_independent_spectator(copied):
    spectator = Spectator(TEAM, TEAM)
    spectator.feed(LOG[:40])
    other = copied(spectator)
    assert other == spectator and other is not spectator and other.held == spectator.held != b""
    other.feed(LOG[40:])
    assert other != spectator and spectator.state.turn == 1
    spectator.feed(LOG[40:])
    assert other == spectator and spectator != "a spectator"
    with pytest.raises(TypeError):
        hash(spectator)


def test_arguments_that_are_wrong():
    """Wrong arguments raise an exception of the package with a message, and change nothing."""
    spectator = Spectator(TEAM, TEAM)
    spectator.feed(LOG[:40])
    before = spectator.copy()
    for it in (None, 5, "a log", list(LOG), 1.5, True):
        with pytest.raises(BadType) as fault:
            spectator.feed(it)
        assert "log must be bytes" in str(fault.value) and spectator == before
    for wrong in (None, 5, "Tauros", [None]):
        for pair in ((wrong, TEAM), (TEAM, wrong)):
            with pytest.raises(BadType) as fault:
                Spectator(*pair)
            assert isinstance(fault.value, Error) and len(str(fault.value)) > 10
    for count in (0, 7, 257):
        with pytest.raises(BadTeam) as fault:
            Spectator(TEAM, [TEAM[0]] * count)
        assert fault.value.side == 2 and str(fault.value).startswith("side 2: ")
    for it, name in (
        (spectator, "state"),
        (spectator, "held"),
        (spectator, "unknown"),
        (spectator.state, "turn"),
        (spectator.state.one, "place"),
    ):
        with pytest.raises(AttributeError):
            setattr(it, name, None)
    # Any bytes-like object is accepted.
    spectator.feed(bytearray(LOG[40:50]))
    spectator.feed(memoryview(LOG)[50:])
    assert spectator.state.outcome is Outcome.WIN_ONE
