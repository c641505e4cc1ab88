"""Recorded updates, byte strings, logs and hits, and arguments out of range (include/gen1.h)."""

import ctypes
import json

import gen1
from battle_input import MOVES
from battles import in_codes, loads, newest_form, recorded
from structs import battle_of, battles_of, cases_of, member


def test_updates(library, battles, checks):
    """Compares all that each recorded update returns and leaves."""
    for name, trace in battles_of(battles):
        battle = battle_of(library, trace["object"])
        for at, update in enumerate(trace["updates"]):
            refused, log = None, b""
            try:
                log = battle.update(*update["pair"])
            except gen1.Refused as why:
                refused = why.args[0] - gen1.OVER + 1
            result = None if refused else list(battle.result())
            got = (refused, result, [battle.choices(1), battle.choices(2)], log.hex(), battle.bytes.hex())
            want = (update["refused"], update["result"], update["offered"], update["log"] or "", update["bytes"])
            checks.same(f"{name}, pair {at}", got, want)
            events = library.events(log)
            checks.same(
                f"{name}, pair {at}, events",
                [b"".join(map(of, events)) for of in (code_of, library.event_bytes)],
                [log, log],
            )
            checks.same(f"{name}, pair {at}, loaded", library.load(battle.bytes).bytes, battle.bytes)


def two_bytes(number):
    return [number % 256, number // 256]


def code_of(event):
    """The log bytes of an event (docs/MECHANICS.md, "Events"), from its fields."""
    who = [event.side, event.species]
    health = [*two_bytes(event.hp), *two_bytes(event.max_hp), event.status]
    fields = {
        1: two_bytes(event.turn),
        2: [*who, event.place, event.level, *health],
        5: [*who, *health, event.detail],
        3: [*who, event.move, event.target_side, event.target_species],
        6: [*who, *health],
        26: [event.side],
        28: [event.detail],
        **dict.fromkeys((4, 18, 19, 20), [*who, event.detail]),
        **dict.fromkeys((13, 14), [*who, event.status]),
        **dict.fromkeys((15, 16), [*who, event.detail, event.amount]),
        21: [*who, event.move],
        23: [*who, event.amount],
        **dict.fromkeys((17, 24, 27), []),
    }
    return bytes([event.tag, *fields.get(event.tag, who)])


def test_byte_strings(library, battles, checks):
    """Loads each recorded byte string; each is accepted, or refused by the recorded test. So is its plain state."""
    for number, (test, given) in enumerate(loads(recorded("loads.txt", battles)), 1):
        try:
            got = (0, library.load(given).bytes)
        except gen1.LoadFault as fault:
            got = (fault.args[0] - gen1.LOAD_LENGTH + 1, None)
        checks.same(f"byte string {number}", got, (test, None if test else newest_form(given)))


def test_logs(library, battles, checks):
    for case in cases_of(battles, "print"):
        given = bytes.fromhex(case["hex"]) if "hex" in case else case["input"].encode()
        try:
            got = (library.lines(given).decode(), "")
        except gen1.LogFault as fault:
            got = ("", f"error: log {fault.args[0]}\n")
        checks.same(f"print, {case['name']}", got, (case["stdout"], in_codes(case.get("stderr", ""))))


def test_hits(library, battles, checks):
    """Compares each hit of `calc` with that after the first update of two teams of one."""
    for case in cases_of(battles, "calc"):
        if "error: json" in case.get("stderr", ""):
            continue
        asked = json.loads(case["input"])
        try:
            battle = library.battle(
                gen1.team([member(asked["attacker"])]), gen1.team([member(asked["defender"])]), [0] * 10
            )
            battle.update(0, 0)
            got = (" ".join(map(str, battle.damage(1, MOVES[asked["move"]], asked["critical"]))) + "\n", "")
        except gen1.DamageFault:
            got = ("", "error: calc\n")
        except gen1.TeamFault as fault:
            got = ("", "error: team %d place %d refusal %d\n" % fault.args)
        checks.same(f"calc, {case['name']}", got, (case["stdout"], case.get("stderr", "")))


def test_bad_arguments(library, checks):
    """Checks that arguments out of range return their codes and change nothing."""
    tauros = dict(species=128, level=100, dvs=[15] * 4, exp=[65535] * 5, moves=[(70, 3)])
    good = gen1.team([gen1.member(**tauros)])

    def fault(one=good, two=good, rules=0, limit=1000):
        try:
            return library.battle(one, two, range(10), rules, limit) and (0, 0, 0)
        except gen1.TeamFault as why:
            return why.args

    def other(**changed):
        return gen1.team([gen1.member(**tauros), gen1.member(**{**tauros, **changed})])

    for name, got, want in (
        ("rules", fault(rules=4), (0, 0, 12)),
        ("limit 0", fault(limit=0), (0, 0, 13)),
        ("limit", fault(limit=10000), (0, 0, 13)),
        ("seven", fault(two=gen1.Team(count=7)), (2, 0, 2)),
        ("none", fault(gen1.Team()), (1, 0, 1)),
        ("species 0", fault(other(species=0)), (1, 2, 10)),
        ("species 152", fault(good, other(species=152)), (2, 2, 10)),
        ("move 166", fault(other(moves=[(70, 0), (166, 0)])), (1, 2, 11)),
        ("good", fault(), (0, 0, 0)),
        ("a place without a move", fault(other(moves=[(0, 9), (70, 0)])), (0, 0, 0)),
    ):
        checks.same(f"a new battle, {name}", got, want)
    battle = library.battle(good, good, range(10))
    compare_bad_calls(library, battle, checks)


def compare_bad_calls(library, battle, checks):
    calls, held, before = library.calls, ctypes.byref(battle.held), battle.bytes
    choices, damages = (ctypes.c_uint8 * 9)(*range(9)), (ctypes.c_uint16 * 39)(*range(39))
    log, length = (ctypes.c_uint8 * 600)(*[7] * 600), ctypes.c_size_t(9)
    at, event, text = ctypes.c_size_t(3), gen1.Event(tag=9), ctypes.create_string_buffer(b"as it was", 96)
    sides = [side for side in range(256) if side not in (1, 2)]
    checks.same("no side", {calls.gen1_choices(held, side, choices) for side in sides}, {0})
    checks.same("no side's damage", {calls.gen1_damage(held, side, 70, False, damages) for side in sides}, {40})
    checks.same("no move", {calls.gen1_damage(held, 1, move, False, damages) for move in (0, 166, 255)}, {11})
    checks.same("no member out", calls.gen1_damage(held, 1, 70, False, damages), 50)
    checks.same(
        "small logs", {calls.gen1_update(held, 0, 0, log, room, ctypes.byref(length)) for room in range(512)}, {27}
    )
    pairs = [(one, two) for one in range(256) for two in range(256) if one or two]
    refusals = [calls.gen1_update(held, *pair, log, 512, ctypes.byref(length)) for pair in pairs]
    checks.same("choices that are not offered", refusals, [25 if one else 26 for one, two in pairs])
    log_bytes = bytes([26, 1, 26])
    for name, given, code in (("cut", b"\x1a\x01\x1a\x1a", 34), ("end", log_bytes, 35), ("none", None, 35)):
        got = calls.gen1_next_event(given, len(given or b""), ctypes.byref(at), ctypes.byref(event))
        checks.same(f"events, {name}", got, code)
    compare_bad_events(calls, checks)
    at.value = 0
    for room in range(9):
        checks.same(
            f"text of {room}",
            calls.gen1_next_line(log_bytes, 3, ctypes.byref(at), text, room, ctypes.byref(length)),
            41,
        )
    kept = (battle.bytes, list(choices), list(damages), set(log), length.value, event.tag, text.value, at.value)
    checks.same("what was kept", kept, (before, list(range(9)), list(range(39)), {7}, 9, 9, b"as it was", 0))
    checks.same("no log", calls.gen1_update_silent(held, 0, 0), 0)
    checks.same(
        "a text that fits",
        (calls.gen1_next_line(log_bytes, 3, ctypes.byref(at), text, 9, ctypes.byref(length)), text.raw[:10]),
        (0, b"|win|p1\n\0\0"),
    )


def compare_bad_events(calls, checks):
    """Checks that a tag out of its range is refused, and a field."""
    code, length = (ctypes.c_uint8 * 10)(*[7] * 10), ctypes.c_size_t(9)
    damage = dict(tag=5, side=1, species=128, detail=1, hp=1, max_hp=353)
    wrong = [(32, dict(damage, tag=0)), (32, dict(damage, tag=29))] + [
        (33, dict(damage, **changed))
        for changed in (
            dict(side=3),
            dict(species=152),
            dict(detail=6),
            dict(hp=354),
            dict(max_hp=1000),
            dict(status=6),
        )
    ]
    got = [
        calls.gen1_event_bytes(ctypes.byref(gen1.Event(**fields)), code, ctypes.byref(length)) for _, fields in wrong
    ]
    checks.same("no events", (got, set(code), length.value), ([fault for fault, _ in wrong], {7}, 9))
