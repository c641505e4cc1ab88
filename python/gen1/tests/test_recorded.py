"""All recorded battles through the package: each result, log, event, line, load and damage."""

import json
from dataclasses import fields

import pytest
from conftest import RECORDED, ROOT, recorded_only
from gen1 import (
    BadArgument,
    BadBytes,
    BadLog,
    BadTeam,
    Battle,
    Member,
    NoDamage,
    Refused,
    Team,
    damage,
    events,
    lines,
    log_bytes,
)
from gen1.names import EventKind, LoadFault, LogFault, Refusal

pytestmark = recorded_only

if RECORDED.is_dir():
    from battles import TRACES, cases, loads, newest_form, recorded, traces


def battle_of(asked):
    return Battle(asked["one"], asked["two"], asked["seed"], asked.get("rules", 0), asked.get("limit", 1000))


def two_bytes(number):
    return [number % 256, number // 256]


def code_of(event):
    """The log bytes of an event (docs/MECHANICS.md, "Events"), from its fields in the order of the dataclass."""
    code = [event.kind]
    for name in (field.name for field in fields(event)):
        value = getattr(event, name)
        if name in ("who", "foe"):
            code += [value.side, value.species]
        elif name == "health":
            code += [*two_bytes(value.hp), *two_bytes(value.max_hp), value.status]
        else:
            code += two_bytes(value) if event.kind is EventKind.TURN else [value]
    return bytes(code)


@pytest.mark.parametrize("name", ["traces", "corners"])
def test_updates(name):
    """Each recorded update, with everything that it returns and changes; the battle is loaded, copied and pickled at each."""
    assert name in TRACES
    for at, trace in enumerate(traces(recorded(f"{name}.jsonl"))):
        battle = battle_of(trace["object"])
        for update in trace["updates"]:
            before, refused, log = battle.copy(), None, b""
            try:
                answer = battle.update(*update["pair"])
                log = answer.log
                assert answer.result == battle.result
                assert b"".join(map(code_of, answer.events)) == log_bytes(answer.events) == log
                assert [answer.result.outcome, *answer.result.requests] == update["result"]
                assert before.update_silent(*update["pair"]) == battle.result and before == battle
            except Refused as why:
                refused = why.code - Refusal.OVER + 1
                assert battle == before and why.offered == (battle.choices(why.side) if why.side else ())
            where = f"{name}, line {at + 1}, pair {update['pair']}"
            assert refused == update["refused"], where
            assert [list(battle.choices(1)), list(battle.choices(2))] == update["offered"], where
            assert (log.hex(), battle.bytes.hex()) == (update["log"] or "", update["bytes"]), where
            assert Battle.load(battle.bytes) == battle


@pytest.mark.parametrize("name", ["first_path", "battles", "rules", "limit"])
def test_runs(name):
    """Each recorded input of `run`: its lines, and the refusal that ends it."""
    for case in cases(recorded(f"{name}.jsonl")):
        asked = json.loads(case["input"])
        battle, out, fault = battle_of(asked), [], ""
        for at, pair in enumerate(asked["choices"]):
            try:
                out += battle.update(*pair).lines
            except Refused as why:
                fault = f"error: pair {at} refused {why.code - Refusal.OVER + 1}\n"
                break
        assert "".join(f"{line}\n" for line in out) == case["stdout"], case["name"]
        assert fault == case.get("stderr", ""), case["name"]


def test_teams_to_dicts():
    """The teams of all recorded battles as dicts, and back."""
    for case in cases(recorded("battles.jsonl")):
        asked = json.loads(case["input"])
        for side in ("one", "two"):
            team = Team.from_dicts(asked[side])
            assert team.to_dicts() == asked[side]
            assert Team.from_dicts(json.loads(json.dumps(team.to_dicts()))) == team


def test_loads():
    for number, (test, given) in enumerate(loads(recorded("loads.txt")), 1):
        try:
            got = (0, Battle.load(given).bytes)
        except BadBytes as fault:
            got = (fault.code - LoadFault.LENGTH + 1, None)
        assert got == (test, None if test else newest_form(given)), number


def test_logs():
    for case in cases(recorded("print.jsonl")):
        given = bytes.fromhex(case["hex"]) if "hex" in case else case["input"].encode()
        try:
            got = ("".join(f"{line}\n" for line in lines(given)), "")
            assert b"".join(map(code_of, events(given))) == log_bytes(events(given)) == given
        except BadLog as fault:
            got = ("", f"error: log {fault.code - LogFault.TAG + 1}\n")
            with pytest.raises(BadLog) as also:
                events(given)
            assert (also.value.code, also.value.at) == (fault.code, fault.at)
        assert got == (case["stdout"], case.get("stderr", "")), case["name"]


def test_damages():
    for case in cases(recorded("calc.jsonl")):
        if "error: json" in case.get("stderr", ""):
            continue
        asked = json.loads(case["input"])
        try:
            pair = []
            for side in ("attacker", "defender"):
                pair.append(Team([asked[side]])[0])
            got = (" ".join(map(str, damage(*pair, asked["move"], asked["critical"]))) + "\n", "")
        except BadTeam as fault:
            got = ("", f"error: team {len(pair) + 1} place {fault.member} refusal {fault.code:d}\n")
        except NoDamage:
            got = ("", "error: calc\n")
        assert got == (case["stdout"], case.get("stderr", "")), case["name"]


def test_refused_teams():
    """Each team of errors.jsonl that the rules of teams refuse, by side, place and number."""
    count = 0
    for case in cases(recorded("errors.jsonl")):
        want = case.get("stderr", "")
        if case["args"] == ["run"] and want.startswith("error: team"):
            with pytest.raises(BadTeam) as fault:
                battle_of(json.loads(case["input"]))
            it = fault.value
            assert f"error: team {it.side} place {it.member} refusal {it.code:d}\n" == want, case["name"]
            assert it.field and str(it).startswith(f"side {it.side}")
            count += 1
    assert count == 16


def test_inputs_of_wrong_shape():
    """Objects that `run` refuses as JSON of a wrong shape raise errors of the package, and not of Python."""
    for case in cases(recorded("errors.jsonl")):
        if case["args"] == ["run"] and case.get("stderr") == "error: json\n":
            try:
                asked = json.loads(case["input"])
                one, two, seed = asked["one"], asked["two"], asked["seed"]
            except (ValueError, KeyError, TypeError, RecursionError):
                continue
            try:
                Battle(one, two, seed, asked.get("rules", 0), asked.get("limit", 1000))
            except (BadArgument, TypeError) as fault:
                assert type(fault).__module__ == "gen1.errors", case["name"]


def test_the_tables():
    """Each name of docs/TABLES.md has its number here."""
    from gen1 import Move, Species

    text = (ROOT / "docs" / "TABLES.md").read_text()
    for kind in (Species, Move):
        for it in kind:
            assert f"| {it:d} | {it.label} |" in text
    assert (len(Species), len(Move)) == (151, 165)
    assert Member(Species.MR_MIME, [Move.SELF_DESTRUCT]) == Member("Mr. Mime", ["Self-Destruct"]) == Member(122, [120])
