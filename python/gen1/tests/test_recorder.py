"""Recorded battles: the input, the address of the page, and the file."""

import base64
import json
import random
import struct

import gen1
import pytest
from conftest import RECORDED, random_team, recorded_only
from gen1 import BadArgument, Battle, Choice, Recorder, Refused

if RECORDED.is_dir():
    from battles import cases, recorded

PAGE = '<html><script id="battle" type="application/json">null</script><p>null</p></html>'


def a_recorder(dice, updates=20):
    """A random battle after some updates."""
    made = Recorder(
        random_team(dice), random_team(dice), dice.randbytes(10), rules=dice.randrange(4), limit=dice.randint(1, 9999)
    )
    while not made.battle.result.is_over and len(made.pairs) < updates:
        made.update(*(dice.choice(made.choices(side)) for side in (1, 2)))
    return made


@recorded_only
@pytest.mark.parametrize("name", ["first_path", "battles", "rules", "limit"])
def test_recorded_battles(name):
    """A recorder that plays a recorded input has that input and its lines, and so has one of its JSON."""
    played = 0
    for case in cases(recorded(f"{name}.jsonl"))[:40]:
        asked = json.loads(case["input"])
        if case["args"][:1] != ["run"] or case.get("status") or not isinstance(asked, dict):
            continue
        made = Recorder(asked["one"], asked["two"], asked["seed"], asked.get("rules", 0), asked.get("limit", 1000))
        told = [line for pair in asked["choices"] for line in made.update(*pair).lines]
        assert "".join(f"{it}\n" for it in told) == case["stdout"]
        assert made.input == {"rules": 0, "limit": 1000} | {key: asked[key] for key in made.input if key in asked}
        assert Recorder.from_json(made.json()).battle == made.battle
        played += 1
    assert played


def test_from_json():
    """A recorder made of its JSON has the battle, to its bytes, and the record of the first one."""
    dice = random.Random(2)
    for _ in range(20):
        made = a_recorder(dice)
        again = Recorder.from_json(made.json())
        assert (again.battle, again.pairs, again.input) == (made.battle, made.pairs, made.input)
        assert again.battle.bytes == Recorder.from_json(made.json().encode()).battle.bytes
        noted = made.input | {
            "note": "a key more",
            "one": [it | {"nickname": "a key more"} for it in made.input["one"]],
        }
        assert Recorder.from_json(json.dumps(noted)).input == made.input


def test_a_link():
    """The layout of web/README.md, "An address that is a position", read here byte by byte."""
    dice = random.Random(3)
    for _ in range(20):
        made = a_recorder(dice)
        link = made.link("https://example.org/gen1.html")
        page, _, code = link.partition("#replay?b=i")
        assert page == "https://example.org/gen1.html" and not set(code) & set("+/=&#")
        held = base64.b64decode(code.replace("-", "+").replace("_", "/") + "=" * (-len(code) % 4))
        asked, at = made.input, 13
        assert (list(held[:10]), held[10], held[11] + 256 * held[12]) == (asked["seed"], asked["rules"], asked["limit"])
        for team in (asked["one"], asked["two"]):
            assert held[at] == len(team)
            at += 1
            for member in team:
                species, level, *rest = struct.unpack_from("<BB4B4B4B5H", held, at)
                moves = [[gen1.Move(move).label, ups] for move, ups in zip(rest[4:8], rest[8:12]) if move]
                assert (gen1.Species(species).label, level, rest[:4], rest[12:], moves) == tuple(
                    member[key] for key in ("species", "level", "dvs", "exp", "moves")
                )
                at += 24
        assert [list(it) for it in zip(held[at::2], held[at + 1 :: 2])] == asked["choices"]


def test_a_replay(tmp_path):
    made, page, out = a_recorder(random.Random(4)), tmp_path / "page.html", tmp_path / "out.html"
    page.write_text(PAGE)
    made.write_replay(out, page)
    before, after = PAGE.split("null", 1)
    text = out.read_text()
    assert (
        text.startswith(before) and text.endswith(after) and json.loads(text[len(before) : -len(after)]) == made.input
    )
    with pytest.raises(BadArgument, match="cannot be read"):
        made.write_replay(out, tmp_path / "missing.html")
    with pytest.raises(OSError):
        made.write_replay(tmp_path / "missing" / "out.html", page)
    page.write_text(PAGE + PAGE)
    with pytest.raises(BadArgument, match="it has 2 places for a battle, not 1"):
        made.write_replay(out, page)


def test_a_refused_pair_is_not_recorded(team):
    made = Recorder(team, team, range(10))
    made.update(Choice.PASS, Choice.PASS)
    before = made.json(), made.battle
    for pair in ((Choice.SWITCH_5, Choice.MOVE_1), (77, 17), (256, 17)):
        with pytest.raises((Refused, BadArgument)):
            made.update(*pair)
        assert (made.json(), made.battle) == before
    made.battle.update(Choice.MOVE_1, Choice.MOVE_1)
    battle = Battle(team, team, range(10))
    battle.update(Choice.PASS, Choice.PASS)
    assert (
        made.battle == before[1] == battle and made.pairs == ((0, 0),) and repr(made) == "<Recorder, 1 update, ongoing>"
    )


def test_texts_that_are_no_inputs(team):
    made = Recorder(team, team, range(10))
    twice = json.dumps(made.input | {"choices": [[0, 0], [0, 0]]})
    texts = [("", "JSON"), (b"\xff", "JSON"), ("[" * 100000, "JSON"), ("[]", "object"), ("{}", "'seed'")]
    texts += [(twice, r"choices\[1\]: "), (made.json()[:-1] + f', "limit": {"9" * 5000}}}', "digits|limit")]
    with pytest.raises(gen1.BadType, match="choices must be a list, not 5"):
        Recorder.from_json(json.dumps(made.input | {"choices": 5}))
    for choices, said in (([[0]], "two numbers"), ([[0, 256]], "0 to 255")):
        texts.append((json.dumps(made.input | {"choices": choices}), said))
    for text, said in texts:
        with pytest.raises(BadArgument, match=said):
            Recorder.from_json(text)
    with pytest.raises(gen1.BadTeam):
        Recorder([], team, range(10))
