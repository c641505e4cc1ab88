"""Rooms and spectators (include/gen1.h, "rooms", "watching"): rooms with the recorded ones, line by line; spectators with each update."""

import json
from ctypes import byref, c_uint8

import gen1
from battles import TRACES, recorded, traces
from structs import battle_of, cases_of, state_read, team_of

# The conditions that a spectator sees (docs/LAYOUT.md, "Condition bits").
CONFUSED, SUBSTITUTE, LIGHT_SCREEN, REFLECT = 64, 512, 16384, 32768


def shown(side):
    """What a spectator knows of a side, from a state as state_read returns it."""
    out, members = side["active"], [it for it in side["members"] if it["species"]]
    conditions = [int(bit & out["conditions"] != 0) for bit in (SUBSTITUTE, CONFUSED, LIGHT_SCREEN, REFLECT)]
    return [(it["hp"], it["status"]) for it in members], out["place"], out["stages"], conditions


def known(side):
    """A spectator's view of a side, in the form of `shown`."""
    members = [(it.hp, it.status) for it in side.members[: side.count]]
    return members, side.place, list(side.stages), [side.substitute, side.confused, side.light_screen, side.reflect]


def fed_in_parts(spectator, log, at):
    """Feeds a log in two parts."""
    cut = at % (len(log) + 1)
    spectator.feed(log[:cut])
    spectator.feed(log[cut:])


def test_spectators(library, battles, checks):
    """Compares what a spectator knows after the log of each recorded update."""
    for name in TRACES:
        for number, trace in enumerate(traces(recorded(f"{name}.jsonl", battles)), 1):
            spectator = gen1.Spectator(library, *(team_of(trace["object"], side) for side in ("one", "two")))
            for at, update in enumerate(trace["updates"]):
                if update["refused"] is not None:
                    continue
                fed_in_parts(spectator, bytes.fromhex(update["log"]), at)
                state, held = state_read(bytes.fromhex(update["bytes"])), spectator.held
                got = (*map(known, held.sides), held.turn, held.outcome, held.held_count)
                want = (*map(shown, state["sides"]), state["turn"], state["outcome"], 0)
                checks.same(f"{name}, line {number}, pair {at}, watched", got, want)


def test_bytes_that_are_not_a_log(library, checks):
    """Bytes that are not a log are refused and leave the spectator unchanged."""
    one = gen1.team([gen1.member(128, 100, [15] * 4, [65535] * 5, [(70, 3)])])
    spectator = gen1.Spectator(library, one, one)
    spectator.feed(b"\x01")
    before = bytes(spectator.held)
    for given, code in ((b"\x00\x00", 33), (b"\x01\x00\x1d", 32)):
        try:
            spectator.feed(given)
            got = 0
        except gen1.LogFault as fault:
            got = fault.args[0]
        checks.same(f"watched {given!r}", (got, bytes(spectator.held)), (code, before))
    spectator.feed(b"\x07\x00")
    checks.same("watched, the rest of an event", (spectator.held.turn, spectator.held.held_count), (7, 0))


def replied(room, library, submission):
    """The lines that a room prints for a submission (docs/MECHANICS.md, "Lines")."""
    number = room.held.number
    try:
        room.submit(*submission)
    except gen1.Refused as refused:
        code = {24: 1, 52: 2, 53: 3, 54: 4}[refused.args[0]]
        return f"|room|refused|{code}|{number}\n" if code == 2 else f"|room|refused|{code}\n"
    return "|room|waiting\n" if room.held.number == number else "|room|advanced\n" + library.lines(room.log).decode()


def test_recorded_rooms(library, battles, checks):
    """Compares each recorded room."""
    for case in cases_of(battles, "room"):
        asked = json.loads(case["input"])
        room = gen1.Room(battle_of(library, asked))
        got = library.lines(room.log).decode() + "".join(replied(room, library, it) for it in asked["submissions"])
        checks.same(f"room, {case['name']}", got, case["stdout"])
        before = bytes(room.held)
        others = [side for side in range(256) if side not in (1, 2)]
        codes = {room.calls.gen1_room_submit(byref(room.held), side, room.held.number, 17) for side in others}
        counts = {room.calls.gen1_room_choices(byref(room.held), side, (c_uint8 * 9)()) for side in others}
        checks.same(f"room, {case['name']}, no side", (codes, counts, bytes(room.held)), ({40}, {0}, before))


def test_choices_in_a_room(library, battles, checks):
    """Plays battles in a room: each side is offered the recorded choices until it has submitted one."""
    for name in TRACES:
        for number, trace in enumerate(traces(recorded(f"{name}.jsonl", battles)), 1):
            room = gen1.Room(battle_of(library, trace["object"]))
            updates = [it for it in trace["updates"] if it["refused"] is None]
            for at, (before, update) in enumerate(zip(updates, updates[1:])):
                due = [before["offered"][side] if before["result"][1 + side] else [] for side in (0, 1)]
                for side in (1, 2):
                    checks.same(f"{name}, line {number}, pair {at}, in a room", [room.choices(1), room.choices(2)], due)
                    if not due[side - 1]:
                        continue
                    room.submit(side, at, update["pair"][side - 1])
                    due = [[], due[1]]
                    if not due[1]:
                        break
                after = (bytes(room.held.battle).hex(), room.log.hex(), room.held.number)
                checks.same(
                    f"{name}, line {number}, pair {at}, after it", after, (update["bytes"], update["log"], at + 1)
                )
