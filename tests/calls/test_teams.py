"""Teams: as text, refused by the rules, and the stats of their members (include/gen1.h; docs/TEAM_TEXT.md; docs/MECHANICS.md, "Stats")."""

import ctypes
import json
import re
from ctypes import byref, c_uint16
from math import isqrt

import gen1
from battles import cases, recorded
from repository import ROOT
from tables import numbered, table
from structs import KEPT, TextFault, battle_of, member


def export_text(members):
    """The members of a recorded team as a team builder exports them."""
    lines = []
    for it in members:
        dvs = it["dvs"]
        ivs = zip(("Atk", "Def", "Spe", "SpA", "SpD"), [*dvs, dvs[3]])
        lines += [it["species"], f"Level: {it['level']}", "IVs: " + " / ".join(f"{2 * dv} {stat}" for stat, dv in ivs)]
        lines += [
            "EVs: 252 HP / 252 Atk / 252 Def / 252 SpA / 252 SpD / 252 Spe",
            *(f"- {name}" for name, _ in it["moves"]),
            "",
        ]
    return "\r\n".join(lines).encode()


def packed_line(members):
    def packed(it):
        attack, defense, speed, special = (2 * dv for dv in it["dvs"])
        moves = ",".join(name for name, _ in it["moves"])
        return f"|{it['species']}|||{moves}||252,252,252,252,252,252||,{attack},{defense},{special},{special},{speed}||{it['level']}|"

    return "]".join(map(packed, members)).encode()


def test_texts(library, battles, checks):
    """Compares the recorded teams, read from text, with the experience and the PP ups that a team builder gives."""
    for case in cases(recorded("battles.jsonl", battles)):
        members = json.loads(case["input"])["one"]
        want = gen1.team(
            [member({**it, "exp": [252 * 252] * 5, "moves": [(name, 3) for name, _ in it["moves"]]}) for it in members]
        )
        for form, text, call in (
            ("text", export_text(members), library.calls.gen1_team_from_text),
            ("packed", packed_line(members), library.calls.gen1_team_from_packed),
        ):
            team, fault = gen1.Team(count=KEPT), TextFault(KEPT, KEPT, KEPT, KEPT, KEPT)
            code = call(text, len(text), byref(team), byref(fault))
            checks.same(
                f"{form} of {case['name']}",
                (code, bytes(team).hex(), fault.line, fault.code),
                (0, bytes(want).hex(), KEPT, KEPT),
            )


STATS = ("HP", "Atk", "Def", "SpA", "SpD", "Spe")


def spread(it):
    """The EVs and IVs of a member in the order of STATS (docs/TEAM_TEXT.md, "Writing")."""
    attack, defense, speed, special = it["dvs"]
    hp = attack % 2 * 8 + defense % 2 * 4 + speed % 2 * 2 + special % 2
    roots = [min(252, isqrt(exp - 1) + 1 if exp else 0) for exp in it["exp"]]
    ivs = [31 if dv == 15 else 2 * dv for dv in (hp, attack, defense, special, special, speed)]
    return [roots[at] for at in (0, 1, 2, 4, 4, 3)], ivs


def block_due(it):
    evs, ivs = spread(it)
    lines = [it["species"], *([] if it["level"] == 100 else [f"Level: {it['level']}"])]
    if any(ev != 252 for ev in evs):
        lines.append("EVs: " + " / ".join(f"{ev} {stat}" for ev, stat in zip(evs, STATS)))
    said = [f"{iv} {stat}" for iv, stat in zip(ivs, STATS) if iv != 31]
    return "\n".join(
        [*lines, *(["IVs: " + " / ".join(said)] if said else []), *(f"- {name}" for name, _ in it["moves"]), ""]
    )


def packed_due(it):
    evs, ivs = (",".join(map(str, numbers)) for numbers in spread(it))
    fields = [""] * 12
    fields[0], fields[4] = it["species"], ",".join(re.sub("[^a-z0-9]", "", name.lower()) for name, _ in it["moves"])
    fields[6] = {"252,252,252,252,252,252": "", "0,0,0,0,0,0": "0"}.get(evs, evs)
    fields[8] = "" if ivs == "31,31,31,31,31,31" else re.sub(r"\b31\b", "", ivs)
    fields[10] = "" if it["level"] == 100 else str(it["level"])
    return "|".join(fields)


def written(call, team, room):
    text, length = ctypes.create_string_buffer(b"?" * room, room), ctypes.c_size_t(KEPT)
    code = call(byref(team), text, room, byref(length))
    return code, text.raw[: length.value + 1] if code == 0 else (text.raw == b"?" * room, length.value)


def test_written_texts(library, battles, checks):
    """Compares the recorded teams as text with docs/TEAM_TEXT.md, "Writing"; and the codes of teams that have none."""
    text, packed = library.calls.gen1_team_to_text, library.calls.gen1_team_to_packed
    for case in cases(recorded("battles.jsonl", battles)):
        members = [{**it, "moves": [(name, 3) for name, _ in it["moves"]]} for it in json.loads(case["input"])["one"]]
        team = gen1.team([member(it) for it in members])
        due = "\n".join(map(block_due, members)).encode() + b"\0"
        checks.same(f"text of {case['name']}", written(text, team, 1408), (0, due))
        line = "]".join(map(packed_due, members)).encode() + b"\n\0"
        checks.same(f"line of {case['name']}", written(packed, team, 832), (0, line))
        checks.same(f"room of {case['name']}", written(packed, team, len(line) - 1), (41, (True, KEPT)))
    it = {"species": "Mew", "level": 5, "dvs": [15] * 4, "exp": [0] * 5}
    for moves, code in (([("Surf", 3), ("Cut", 2)], 78), ([("Surf", 3)] * 2, 8), ([], 5), ([("Cut", 4)], 9)):
        team = gen1.team([member({**it, "moves": given}) for given in ([("Cut", 3)], moves)])
        for call in (text, packed):
            checks.same(f"code {code} of a team", written(call, team, 1408), (512 + code, (True, KEPT)))


def test_faults_of_texts(library, checks):
    """Compares the errors of texts that are not a team, by their numbers from 1 on, and their places (docs/TEAM_TEXT.md, "Faults")."""
    text, packed = library.calls.gen1_team_from_text, library.calls.gen1_team_from_packed
    for call, given, want in (
        (text, b"Tauros\n- Body Slam\n\nMissingno\n", (1, 4, 0, 0, 0)),
        (text, b"Tauros @ Leftovers\n", (2, 1, 0, 0, 0)),
        (text, b"Tauros\n- Tackle\n\n" * 7, (3, 19, 0, 0, 0)),
        (text, b"Tauros\nLevel: 101\n", (4, 2, 0, 0, 0)),
        (text, b"Tauros\nEVs: 256 HP\n", (5, 2, 0, 0, 0)),
        (text, b"Tauros\nEVs: 4 SpA / 8 SpD\n", (6, 2, 0, 0, 0)),
        (text, b"Tauros\nIVs: 32 Atk\n", (7, 2, 0, 0, 0)),
        (text, b"Tauros\nIVs: 4 SpA / 8 SpD\n", (8, 2, 0, 0, 0)),
        (text, b"Tauros\nIVs: 0 HP\n", (9, 2, 0, 0, 0)),
        (text, b"Tauros\n- Body Slm\n", (10, 2, 0, 0, 0)),
        (text, b"Tauros\n- Tackle\n- Stomp\n- Rest\n- Toxic\n- Rage\n", (11, 6, 0, 0, 0)),
        (text, b"Tauros\nHello\n", (12, 2, 0, 0, 0)),
        (packed, b"|Tauros|", (13, 0, 1, 0, 0)),
        (packed, b"|Tauros||||||||||]|Snorlax||||||||300|", (13, 0, 2, 0, 0)),
        (packed, b"|Tauros|||Tackle||||||300|", (4, 0, 1, 11, 0)),
        (text, b"", (14, 0, 0, 0, 1)),
        (text, b"Tauros\n", (14, 0, 1, 0, 5)),
        (text, b"Tauros\n- Tackle\n\nSnorlax\n- Rest\n- Rest\n", (14, 0, 2, 0, 8)),
    ):
        team, fault = gen1.Team(count=KEPT), TextFault()
        code = call(given, len(given), byref(team), byref(fault))
        got = (fault.code, fault.line, fault.member, fault.field, fault.rule)
        checks.same(f"fault of {given!r}", (code, got, team.count), (want[0] + 63, (want[0] + 63, *want[1:]), KEPT))


def test_stats(library, battles, checks):
    """Compares the stats of the members of `calc` with the formulas of docs/MECHANICS.md, "Stats"; and a member that is refused."""
    rows = {
        name: [int(base) for base in stats]
        for name, _, _, *stats in numbered(table((ROOT / "docs" / "TABLES.md").read_text(), "Species"))
    }
    for case in cases(recorded("calc.jsonl", battles)):
        if case.get("stderr", "").startswith(("error: json", "error: team")):
            continue
        it = json.loads(case["input"])["attacker"]
        attack, defense, speed, special = it["dvs"]
        dvs = [attack % 2 * 8 + defense % 2 * 4 + speed % 2 * 2 + special % 2, *it["dvs"]]
        points = [
            ((base + dv) * 2 + min(255, isqrt(exp - 1) + 1 if exp else 0) // 4) * it["level"] // 100
            for base, dv, exp in zip(rows[it["species"]], dvs, it["exp"])
        ]
        due = [min(999, points[0] + it["level"] + 10), *(min(999, number + 5) for number in points[1:])]
        stats = (c_uint16 * 5)()
        code = library.calls.gen1_member_stats(byref(member(it)), stats)
        checks.same(f"the stats of {case['name']}", (code, list(stats)), (0, due))
    stats = (c_uint16 * 5)(*[KEPT] * 5)
    codes = [
        library.calls.gen1_member_stats(byref(gen1.member(*it, [15] * 4, [0] * 5, moves)), stats)
        for *it, moves in (
            (128, 0, [(70, 0)]),
            (0, 50, [(70, 0)]),
            (128, 50, [(166, 0)]),
            (128, 50, []),
            (128, 50, [(165, 0)]),
        )
    ]
    checks.same("the stats of no member", (codes, list(stats)), ([3, 10, 11, 5, 7], [KEPT] * 5))


def test_refused_teams(library, battles, checks):
    """Compares each team of errors.jsonl that the rules of teams refuse."""
    for case in cases(recorded("errors.jsonl", battles)):
        want = case.get("stderr", "")
        if case["args"] != ["run"] or not want.startswith("error: team"):
            continue
        try:
            battle_of(library, json.loads(case["input"]))
            got = ""
        except gen1.TeamFault as fault:
            got = "error: team %d place %d refusal %d\n" % fault.args
        checks.same(f"errors, {case['name']}", got, want)


def sample_members():
    """The species and the moves of each member of examples/teams, in the order of the files."""
    texts = [path.read_text() for path in sorted((ROOT / "examples" / "teams").glob("*.txt"))]
    blocks = [block.split("\n- ") for text in texts for block in text.strip().split("\n\n")[1:]]
    return [(species, moves) for species, *moves in blocks]


def drawn(seed, count, from_all):
    """The species and the moves of a random team, by docs/MECHANICS.md, "Random teams"."""

    def take(items):
        nonlocal seed
        seed = (seed * 6364136223846793005 + 1442695040888963407) % 2**64
        return items.pop((seed >> 32) % len(items))

    tables = (ROOT / "docs" / "TABLES.md").read_text()
    species, moves = ([name for name, *_ in numbered(table(tables, heading))] for heading in ("Species", "Moves"))
    samples = sample_members()
    left = [it for it in species if from_all or any(it == of for of, _ in samples)]
    known = [it for it in moves if it not in ("Mimic", "Metronome", "Mirror Move", "Transform", "Struggle")]
    for _ in range(count):
        one, others = take(left), [*known]
        yield one, [take(others) for _ in range(4)] if from_all else take([it for of, it in samples if of == one])


def struct_due(members):
    """The struct of members at level 100, with the experience that a text without EVs gives."""
    rest = {"level": 100, "dvs": [15] * 4, "exp": [252 * 252] * 5}
    return gen1.team([member({"species": of, "moves": [(name, 3) for name in moves], **rest}) for of, moves in members])


def test_random_teams(library, checks):
    """Compares random teams and the sample teams with the rule of docs/MECHANICS.md and with examples/teams."""
    for seed in [0, 1, 7, 2**64 - 1, *(it * 0x9E3779B97F4A7C15 % 2**64 for it in range(2, 60))]:
        count, from_all = seed % 6 + 1, seed // 6 % 2
        team = gen1.Team(count=KEPT)
        code = library.calls.gen1_random_team(seed, count, from_all, byref(team))
        due = struct_due(drawn(seed, count, from_all))
        checks.same(f"{count} members by {seed}", (code, bytes(team).hex()), (0, bytes(due).hex()))
    members = sample_members()
    for number in range(1, 13):
        team = gen1.Team(count=KEPT)
        code = library.calls.gen1_sample_team(number, byref(team))
        due = struct_due(members[6 * number - 6 : 6 * number])
        checks.same(f"sample team {number}", (code, bytes(team).hex()), (0, bytes(due).hex()))
