"""Rooms: recorded ones, the example of docs/MECHANICS.md, and random ones against single updates and direct calls of the library."""

import copy
import ctypes
import json
import pickle
import random
import sys
import threading
import time

import pytest
from conftest import BIG, LIB, NO_NUMBERS, RECORDED, random_team, recorded_only
from gen1 import (
    BadArgument,
    BadType,
    Battle,
    Choice,
    Error,
    Member,
    Outcome,
    Request,
    Result,
    Room,
    RoomRefusal,
    RoomRefused,
    Side,
    Team,
    Update,
)
from gen1._structs import RoomStruct

if RECORDED.is_dir():
    from battles import cases, recorded

SEED = bytes([1, 36, 255, 7, 31, 100, 179, 254, 127, 10])
STRONG = Team([Member("Tauros", ["Strength"])])
# The first update of the battle that README.md shows: both come out, and turn 1 begins.
START = bytes([2, 1, 128, 1, 100, 97, 1, 97, 1, 0, 2, 2, 128, 1, 100, 97, 1, 97, 1, 0, 1, 1, 0])


def two_tauros():
    return Room(Battle(STRONG, STRONG, SEED))


def reply(room, *submission):
    """The reply of a room: "waiting", "advanced", or the number of its refusal, from 1 on (docs/MECHANICS.md, "Rooms")."""
    before = copy.copy(room)
    try:
        told = room.submit(*submission)
    except RoomRefused as fault:
        it = fault
        assert room == before and (it.side, it.number, it.current, it.choice) == (
            *submission[:2],
            room.number,
            submission[2],
        )
        assert it.offered == room.choices(it.side) and len(str(it)) > 10 and "\n" not in str(it)
        return list(RoomRefusal).index(it.code) + 1
    if told is None:
        assert (room.number, room.log, room.battle) == (before.number, before.log, before.battle)
        return "waiting"
    assert isinstance(told, Update) and room.number == before.number + 1
    assert (told.result, told.log) == (room.result, room.log) == (room.battle.result, room.log)
    return "advanced"


def lines_of(room, *submission):
    """The lines that `battle_tool room` prints of a submission (docs/PROGRAM.md, "room")."""
    answer = reply(room, *submission)
    if answer == "advanced":
        return ["|room|advanced", *Update(room.result, room.log).lines]
    if answer == "waiting":
        return ["|room|waiting"]
    current = f"|{room.number}" if answer == 2 else ""
    return [f"|room|refused|{answer}{current}"]


@recorded_only
def test_recorded_rooms():
    """Each recorded case of `room`: the reply to each submission, and the log of each pair, in lines."""
    count = 0
    for case in cases(recorded("room.jsonl")):
        asked = json.loads(case["input"])
        room = Room(Battle(asked["one"], asked["two"], asked["seed"], asked.get("rules", 0), asked.get("limit", 1000)))
        out = Update(room.result, room.log).lines
        for submission in asked["submissions"]:
            out += lines_of(room, *submission)
            room = pickle.loads(pickle.dumps(room))
        assert "".join(f"{line}\n" for line in out) == case["stdout"], case["name"]
        count += len(asked["submissions"])
    assert count > 1000


@recorded_only
def test_recorded_battles_in_rooms():
    """Each recorded update, as two players' submissions in either order: the log, and all 384 bytes."""
    from battles import TRACES, traces

    dice = random.Random(1)
    for trace in (it for name in TRACES for it in traces(recorded(f"{name}.jsonl"))):
        asked = trace["object"]
        battle = Battle(asked["one"], asked["two"], asked["seed"], asked.get("rules", 0), asked.get("limit", 1000))
        updates = [it for it in trace["updates"] if it["refused"] is None]
        room = Room(battle)
        assert (room.log.hex(), room.battle.bytes.hex()) == (updates[0]["log"], updates[0]["bytes"])
        for number, update in enumerate(updates[1:]):
            due = [side for side in (1, 2) if room.choices(side)]
            for side in dice.sample(due, len(due)):
                assert list(room.choices(side)) == list(room.battle.choices(side))
                told = room.submit(side, number, update["pair"][side - 1])
            assert (told.log.hex(), room.battle.bytes.hex()) == (update["log"], update["bytes"])


def test_a_room_starts_its_battle(battle):
    room = two_tauros()
    assert (room.number, room.log, room.result.requests) == (0, START, (Request.MOVE, Request.MOVE))
    begun = Room(battle)
    assert (begun.number, begun.log, begun.battle) == (0, b"", battle)
    assert repr(begun) == "<Room, pair 0, ongoing>"


def test_the_example_of_the_rules():
    """docs/MECHANICS.md, "Rooms"."""
    room = two_tauros()
    replies = [reply(room, *it) for it in ((1, 0, 17), (1, 0, 17), (2, 1, 17), (2, 0, 17), (2, 0, 17), (1, 1, 20))]
    assert replies == ["waiting", 3, 2, "advanced", 2, 4] and room.number == 1


def test_what_a_refusal_says():
    room = two_tauros()
    for side, number, choice, code, said in (
        (1, 0, 20, RoomRefusal.NOT_OFFERED, "side 1's choice is not offered: move 4; it can choose move 1"),
        (2, 7, 17, RoomRefusal.STALE, "the number is not that of the current pair: 7; the current pair is 0"),
    ):
        with pytest.raises(RoomRefused) as fault:
            room.submit(side, number, choice)
        assert (fault.value.code, str(fault.value), fault.value.current) == (code, said, 0)
    room.submit(1, 0, 17)
    with pytest.raises(RoomRefused) as fault:
        room.submit(1, 0, 17)
    assert (
        str(fault.value) == "the side has already chosen: side 1 can submit nothing more for pair 0"
        and fault.value.offered == ()
    )


def test_a_battle_that_is_over_takes_nothing():
    """As rust/gen1-tests/tests/players has it: side 1 wins in the second turn."""
    room = two_tauros()
    for pair in (0, 1):
        room.submit(Side.ONE, pair, Choice.MOVE_1)
        told = room.submit(Side.TWO, pair, Choice.MOVE_1)
    assert told.result.outcome is Outcome.WIN_ONE and room.number == 2 and room.log[-1] == 1
    assert room.choices(1) == room.choices(2) == ()
    for submission in ((1, 2, 17), (2, 0, 0)):
        with pytest.raises(RoomRefused) as fault:
            room.submit(*submission)
        assert fault.value.code is RoomRefusal.OVER and "win one" in str(fault.value)


def test_a_side_of_which_nothing_is_asked_passes_by_itself():
    """Gengar is immune to Explosion, so only the user falls."""
    one = Team([Member("Tauros", ["Explosion"]), Member("Chansey", ["Strength"])])
    room = Room(Battle(one, [Member("Gengar", ["Splash"])], SEED))
    room.submit(1, 0, 17)
    room.submit(2, 0, 17)
    assert room.result.requests == (Request.SWITCH, Request.NOTHING) and room.choices(2) == ()
    assert [reply(room, *it) for it in ((2, 1, 0), (1, 1, 17), (1, 1, 0x22))] == [3, 4, "advanced"]


def test_no_answer_tells_what_the_foe_has_chosen(team):
    """Rooms in which side 1 made different choices give the same results to both sides, until the pair has ended."""
    begun = Room(Battle(team, team, SEED))
    rooms = []
    for choice in begun.choices(1):
        room = begun.copy()
        room.submit(1, 0, choice)
        rooms.append(room)
    assert len(rooms) == 5
    tried = [(side, number, choice) for side in (1, 2) for number in (0, 1) for choice in (0, 99, 255)]
    for submission in [*tried, (1, 0, 17), (2, 1, 17)]:
        assert (
            len(
                {
                    (reply(room, *submission), room.log, room.number, room.choices(1), room.choices(2), repr(room))
                    for room in rooms
                }
            )
            == 1
        )


@pytest.mark.parametrize("side, winner", [(1, Outcome.WIN_TWO), (2, Outcome.WIN_ONE)])
@pytest.mark.parametrize("chosen", [(), (1,), (2,)])
def test_forfeits(side, winner, chosen):
    """docs/MECHANICS.md, "Rooms": one event, the win of the other side; nothing more is taken, and the battle is as it was."""
    room = two_tauros()
    for it in chosen:
        room.submit(it, 0, 17)
    before = room.copy()
    assert (room.forfeited, room.result.is_over) == (None, False)
    update = room.forfeit(side)
    assert (update.log, update.lines) == (bytes([26, 3 - side]), [f"|win|p{3 - side}"])
    assert (room.log, room.number, room.forfeited, room.battle) == (update.log, 1, side, before.battle)
    assert update.result == room.result == Result(
        winner, (Request.NOTHING, Request.NOTHING)
    ) and room.forfeited is Side(side)
    assert room.choices(1) == room.choices(2) == () and before.forfeited is None and room != before
    for call in (lambda: room.forfeit(1), lambda: room.forfeit(2), lambda: room.submit(1, 1, 17)):
        kept = pickle.loads(pickle.dumps(room))
        with pytest.raises(RoomRefused) as fault:
            call()
        assert (
            fault.value.code is RoomRefusal.OVER
            and str(fault.value) == f"the battle is over: {winner.label}"
            and room == kept
        )
    with pytest.raises(RoomRefused) as fault:
        room.forfeit(1)
    assert (fault.value.side, fault.value.number, fault.value.current, fault.value.choice, fault.value.offered) == (
        1,
        1,
        1,
        None,
        (),
    )


def test_rooms_whose_other_sides_forfeited_are_not_equal():
    one, two = two_tauros(), two_tauros()
    one.forfeit(1)
    two.forfeit(2)
    assert one != two and one == one.copy() and repr(one) == "<Room, pair 1, win two>"


def test_no_forfeit_of_a_battle_that_is_over():
    room = two_tauros()
    for pair in (0, 1):
        room.submit(1, pair, 17)
        room.submit(2, pair, 17)
    before = room.copy()
    with pytest.raises(RoomRefused) as fault:
        room.forfeit(1)
    assert fault.value.code is RoomRefusal.OVER and room == before and room.forfeited is None


def test_random_rooms():
    """Rooms against direct calls of the library, with any numbers and bytes; each pair is the update of a single battle."""
    dice = random.Random(7)
    for _ in range(60):
        battle = Battle(
            random_team(dice), random_team(dice), dice.randbytes(10), dice.randint(0, 3), dice.randint(1, 40)
        )
        raw, room = RoomStruct(), Room(battle)
        ctypes.memmove(ctypes.byref(raw), battle.bytes, 384)
        LIB.gen1_room_begin(ctypes.byref(raw))
        if not battle.state.turn:
            assert room.log == battle.update(0, 0).log
        chosen = {}
        for _ in range(400):
            side, offered = dice.randint(1, 2), []
            for it in (1, 2):
                front = (ctypes.c_uint8 * 9)()
                count = LIB.gen1_room_choices(ctypes.byref(raw), it, front) & 0xFF
                offered.append(list(front[:count]))
                assert list(room.choices(it)) == offered[-1]
            if dice.random() < 0.2:
                seed = dice.randbytes(10)
                room.reseed(seed)
                battle.reseed(seed)
                raw.battle[:] = room.battle.bytes
            number = room.number if dice.random() < 0.9 else dice.choice((0, room.number + 1, (1 << 32) - 1))
            choice = (
                dice.choice(offered[side - 1]) if offered[side - 1] and dice.random() < 0.9 else dice.randint(0, 255)
            )
            code = LIB.gen1_room_submit(ctypes.byref(raw), side, number, choice) & 0xFF
            before, answer = room.number, reply(room, side, number, choice)
            assert (list(RoomRefusal)[answer - 1] if isinstance(answer, int) else 0) == code
            assert (room.number, room.battle.bytes, room.log) == (
                raw.number,
                bytes(raw.battle),
                bytes(raw.log[: raw.log_length]),
            )
            chosen |= {} if code else {side: choice}
            if room.number != before:
                assert room.log == battle.update(chosen.get(1, 0), chosen.get(2, 0)).log and room.battle == battle
                chosen = {}


@pytest.fixture
def hurried():
    """Threads take turns as often as they can."""
    interval = sys.getswitchinterval()
    sys.setswitchinterval(1e-5)
    yield
    sys.setswitchinterval(interval)


def player(room, side, told):
    """A thread that makes random choices for a side until the battle is over; `told` has each choice and its result by its pair."""

    def play():
        dice = random.Random(side)
        while not room.result.is_over:
            number, offered = room.number, room.choices(side)
            try:
                if offered:
                    choice = dice.choice(offered)
                    told[number, side] = choice, room.submit(side, number, choice)
                else:
                    time.sleep(0)  # the foe's turn
            except RoomRefused as fault:
                assert fault.code in (RoomRefusal.STALE, RoomRefusal.CHOSEN, RoomRefusal.OVER)

    return threading.Thread(target=play)


def test_both_players_in_threads_of_their_own(hurried):
    """Each pair ends for exactly one of them, which gets its log; and the battle is the same as with single updates."""
    dice, pairs = random.Random(17), 0
    for _ in range(20):
        room, told = Room(Battle(random_team(dice), random_team(dice), dice.randbytes(10), limit=40)), {}
        alone, players = room.battle, [player(room, side, told) for side in (1, 2)]
        for it in players:
            it.start()
        for it in players:
            it.join()
        for number in range(room.number):
            both = [told.get((number, side), (0, None)) for side in (1, 2)]
            assert [update for _, update in both if update is not None] == [alone.update(both[0][0], both[1][0])]
        assert alone == room.battle and alone.result.is_over
        pairs += room.number
    assert pairs > 100


def test_the_struct_is_that_of_the_header():
    assert ctypes.sizeof(RoomStruct) == 908 and ctypes.alignment(RoomStruct) == 4


@pytest.mark.parametrize("copied", [copy.copy, copy.deepcopy, Room.copy, lambda it: pickle.loads(pickle.dumps(it))])
def test_a_copy_is_a_room_of_its_own(copied):
    room = two_tauros()
    for submission in ((1, 0, 17), (2, 0, 17), (2, 1, 17)):
        room.submit(*submission)
    other = copied(room)
    assert other == room and other is not room and other.choices(2) == () and other.log == room.log != b""
    assert reply(other, 1, 1, 17) == "advanced" and other != room and room.number == 1
    assert reply(room, 1, 1, 17) == "advanced" and other == room and room != "a room"
    with pytest.raises(TypeError):
        hash(room)


def test_rooms_that_differ_in_one_choice_are_not_equal(team):
    one, two = (Room(Battle(team, team, SEED)) for _ in range(2))
    one.submit(1, 0, 17)
    assert one != two
    two.submit(1, 0, 18)
    assert one != two


def test_the_battle_of_a_room_is_a_copy(battle):
    room = Room(battle)
    battle.update(17, 17)
    room.battle.update(17, 17)
    assert room == Room(room.battle) and room.battle != battle and room.number == 0


def test_arguments_that_are_wrong():
    """Each wrong argument with right others raises an exception of the package with a message, and changes nothing."""
    room = two_tauros()
    before = room.copy()
    calls = [(lambda it=it: Room(it), BadType) for it in (None, 5, STRONG, before.battle.bytes, room)]
    for it in NO_NUMBERS:
        calls += [(lambda it=it: room.submit(it, 0, 17), BadType), (lambda it=it: room.submit(1, it, 17), BadType)]
        calls += [(lambda it=it: room.submit(1, 0, it), BadType), (lambda it=it: room.choices(it), BadType)]
        calls += [(lambda it=it: room.forfeit(it), BadType)]
    for it in BIG:
        calls += [
            (lambda it=it: room.submit(it, 0, 17), BadArgument),
            (lambda it=it: room.submit(1, 0, it), BadArgument),
        ]
        calls += [(lambda it=it: room.choices(it), BadArgument)]
    calls += [(lambda it=it: room.submit(it, 0, 17), BadArgument) for it in (0, 3)]
    calls += [(lambda it=it: room.forfeit(it), BadArgument) for it in (0, 3, *BIG)]
    calls += [(lambda it=it: room.submit(1, it, 17), BadArgument) for it in (-1, 1 << 32, 1 << 64)]
    for at, (call, kind) in enumerate(calls):
        with pytest.raises(kind) as fault:
            call()
        assert isinstance(fault.value, Error) and " must be " in str(fault.value) and room == before, at
    for name in ("battle", "number", "log", "result", "forfeited", "unknown"):
        with pytest.raises(AttributeError):
            setattr(room, name, None)
