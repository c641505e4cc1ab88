"""The cases of each program of examples/c, and of those of tests/c that compare by themselves, with the expected output."""

import json
import math
import re
import subprocess
import sys
from dataclasses import dataclass
from pathlib import Path
from typing import Callable, NamedTuple

from battle_input import MOVES, SPECIES, TABLES, as_numbers
from battles import cases, in_codes, recorded
from c_library import ran
from repository import ROOT
from tables import table

# How many recorded battles are played in a room.
ROOMS = 40
ROOM = ("-Iexamples/c/common", "examples/c/room/room.c", "examples/c/common/battle_file.c")
PLAYED = ("battles", "rules", "limit", "first_path")


class Folders(NamedTuple):
    """The recorded cases, and a folder to work in."""

    cases: Path
    work: Path


@dataclass
class Case:
    """A run of a program: its arguments and input, the expected output as bytes or a pattern, and the status."""

    name: str
    words: tuple
    given: bytes
    stdout: bytes | re.Pattern
    stderr: bytes | re.Pattern
    status: int = 0
    is_long: bool = False


@dataclass
class Example:
    """An example: its name, its sources, and a function from the folders to its cases."""

    name: str
    sources: tuple
    cases: Callable


def recorded_case(case, words, given):
    """A recorded case for an example, which must print the same for these arguments and this input."""
    return Case(
        case["name"],
        words,
        given,
        case["stdout"].encode(),
        in_codes(case.get("stderr", "")).encode(),
        case.get("status", 0),
    )


TAUROS, TAUROS_LINES = ROOT / "examples" / "tauros.txt", (ROOT / "crates" / "battle_tool" / "stdout").read_bytes()
# Words that are not a number from 0 to 255; those past 2 to the power of 32 become 0 or 17 where their high bits are cut.
NO_BYTES = (
    b"256",
    b"273",
    b"-1",
    b"-239",
    b"four",
    b"17x",
    b"4294967296",
    b"4294967313",
    b"18446744073709551633",
    b"0" * 30 + b"17",
)


def of_play(folders):
    """Every recorded battle; and after a first update words that are not a choice, which are refused."""
    for name in PLAYED:
        for case in cases(recorded(f"{name}.jsonl", folders.cases)):
            yield recorded_case(case, (), as_numbers(json.loads(case["input"])).encode())
    given, lines = TAUROS.read_bytes(), TAUROS_LINES.splitlines(keepends=True)
    begun, first = given[: given.index(b"17 17")], b"".join(lines[: lines.index(b"|turn|1\n") + 1])
    for word in NO_BYTES:
        yield Case(f"{word} for side 1", (), begun + word + b" 17\n", first, b"error: input\n", 1)
        yield Case(f"{word} for side 2", (), begun + b"17 " + word + b"\n", first, b"error: input\n", 1)
    yield Case("half a pair", (), begun + b"17", first, b"error: input\n", 1)
    yield Case("no species", (), given.replace(b"128", b"4294967424", 1), b"", b"error: input\n", 1)


def of_comparison(_folders):
    """A program that has no input, and does its own comparison."""
    yield Case("status", (), b"", b"", b"")


def of_leaks(_folders):
    """It has no input, and does its own comparison of what players are shown and sent (include/gen1.h, "players", "hosts")."""
    counts = rb"\d+ changes of hidden bits, \d+ of shown bits, \d+ of a foe's bench, \d+ of hosts, 0 wrong\n"
    yield Case("status", (), b"", re.compile(counts), b"")


def of_text(_folders):
    """GEN1_ERROR_TEXT_MOVE in the second line of a text, and in the fifth field of the second member of a packed line; the team; a battle."""
    faults = rb"line 2, member 0, field 0: code 73\nline 0, member 2, field 5: code 73\n"
    team = b"Tauros||||bodyslam,hyperbeam,blizzard,earthquake|||||||]Chansey||||icebeam,thunderbolt|||||||\n"
    yield Case("status", (), b"", re.compile(faults + re.escape(team) + rb"outcome [123]\n"), b"")


def of_known(_folders):
    """Shown fields: HP in 48ths, the members that appeared in their order, a move, and a screen (docs/MECHANICS.md, "Player's view")."""
    said = "turn 1\n1 Chansey (out), 48 of 48 HP\nturn 3\n1 Chansey, 48 of 48 HP\n2 Alakazam (out), 48 of 48 HP, Reflect 1, Reflect is up\n"
    yield Case("status", (), b"", said.encode(), b"")


def of_many(_folders):
    """It has no input, and compares results itself; all battles end. Body Slam misses with one byte of 256, and Tauros is critical with 55."""
    playouts, outcomes = (
        rb"\d+ wins of side 1, \d+ of side 2, \d+ ties\n",
        rb"\d+ outcomes, a miss with probability 0\.00390625\n",
    )
    ways, steps = rb"a critical hit with probability 0\.214005\n", rb"\d+ random steps to the end of all battles\n"
    yield Case("status", (), b"", re.compile(playouts + outcomes + ways + steps + rb"100 battles have ended\n"), b"")


def of_look(_folders):
    """It has no input, and does its own comparison. The battle has the same result in a room and at a host."""
    alike = rb"in a room.*: outcome \2 in turn (\d+),.*\nat a host: outcome \2 in turn \4,.*\n"
    yield Case("status", (), b"", re.compile(rb"(.*\n)+outcome ([12])\n(.*\n)+" + alike), b"", 0)


def of_replay(folders):
    """Every recorded log, with its faults."""
    for case in cases(recorded("print.jsonl", folders.cases)):
        it = recorded_case(case, (), bytes.fromhex(case["hex"]))
        if it.status:
            it.stderr = re.compile(re.escape(it.stderr.strip()) + rb" at byte \d+\n")
        yield it


# The row of each species by its name: number, name, types, and base HP, Attack, Defense, Speed and Special. So with the moves.
SPECIES_ROWS, MOVE_ROWS = ({row[1]: row for row in table(TABLES, heading)} for heading in ("Species", "Moves"))


def points_of(member, dv, exp, base):
    """The part of a stat that depends on the level (docs/MECHANICS.md, "Stats")."""
    root = min(255, math.isqrt(max(0, exp - 1)) + 1 if exp else 0)
    return ((base + dv) * 2 + root // 4) * member["level"] // 100


def hp_of(member):
    """A member's maximum HP (docs/MECHANICS.md, "Stats")."""
    dv = sum((value & 1) << bit for value, bit in zip(member["dvs"], (3, 2, 1, 0)))
    return min(
        999, points_of(member, dv, member["exp"][0], int(SPECIES_ROWS[member["species"]][4])) + member["level"] + 10
    )


def speed_of(member):
    """A member's Speed (docs/MECHANICS.md, "Stats")."""
    return min(999, points_of(member, member["dvs"][2], member["exp"][3], int(SPECIES_ROWS[member["species"]][7])) + 5)


NOT_FOR_TEAMS = ("Metronome", "Mimic", "Mirror Move", "Transform", "Struggle")


def of_damage(folders):
    """Every recorded hit by a move that a member may know, as the attacker's only move; as numbers, and as text where text can say it."""
    for case in cases(recorded("calc.jsonl", folders.cases)):
        asked = {} if "error: json" in case.get("stderr", "") else json.loads(case["input"])
        if not asked or asked["move"] in NOT_FOR_TEAMS:
            continue
        one, two = dict(asked["attacker"], moves=[[asked["move"], 0]]), asked["defender"]
        given = as_numbers({"seed": [0] * 10, "one": [one], "two": [two], "choices": []}).encode()
        if "error: team" in case["stderr"]:
            yield Case(case["name"], (), given, b"", case["stderr"].encode(), 1)
            continue
        head = "species %d at level %d on species %d at level %d, %d HP\n  move %3d: " % (
            SPECIES[one["species"]],
            one["level"],
            SPECIES[two["species"]],
            two["level"],
            hp_of(two),
            MOVES[asked["move"]],
        )
        row = (
            re.escape("no usual damage (code 48)")
            if case["stderr"]
            else damage_row(case["stdout"], hp_of(two), asked["critical"])
        )
        chances = chances_of(one, two, asked["move"], not case["stderr"])
        want = re.compile((re.escape(head) + row + re.escape(chances) + r"\n").encode())
        yield Case(case["name"], (), given, want, b"")
        if all(member["dvs"] == [15] * 4 and member["exp"] == [65535] * 5 for member in (one, two)):
            yield Case(case["name"] + ", as text", team_files(folders, case["name"], one, two), b"", want, b"")
    tauros = {"species": "Tauros", "level": 100, "moves": [["Body Slam", 3]]}
    none = dict(tauros, moves=[["Body Slam", 3], ["Budy Slam", 3]])
    words = team_files(folders, "no move", tauros, none)
    # GEN1_ERROR_TEXT_MOVE, in the line after species, level and the other move.
    yield Case("no move", words, b"", b"", f"error: {words[1]}: line 4 member 0 code 73 rule 0\n".encode(), 1)
    for word in (b"4294967424", b"-128", b"Tauros", b"0" * 30 + b"128"):
        yield Case(f"the species {word}", (), TAUROS.read_bytes().replace(b"128", word, 1), b"", b"error: input\n", 1)


def team_files(folders, name, *members):
    """Files with a team of each member as text, which has DVs of 15 and the experience 65,535."""
    folder = folders.work / "teams"
    folder.mkdir(exist_ok=True)
    files = [folder / f"{name}, {which}.txt" for which in ("one", "two")]
    for file, member in zip(files, members):
        moves = "".join(f"- {move}\n" for move, _ in member["moves"])
        file.write_text(f"{member['species']}\nLevel: {member['level']}\n{moves}")
    return tuple(map(str, files))


def damage_row(recorded_line, hp, is_critical):
    """A pattern of the row of a move, with the numbers of the recorded hit, usual or critical."""
    damages = list(map(int, recorded_line.split()))
    least, most = min(damages), max(damages)
    numbers = re.escape("%3d to %3d, %3d to %3d%%" % (least, most, least * 100 // hp, most * 100 // hp))
    any_numbers = r"[^;]*"
    hits = r"no number of hits is enough|\d+ hits"
    if is_critical:
        return rf"{any_numbers}; critical {numbers}; ({hits})"
    return rf"{numbers}; critical {any_numbers}; " + (
        re.escape(f"{-(-hp // least)} hits") if least else "no number of hits is enough"
    )


OFTEN_CRITICAL = ("Karate Chop", "Razor Leaf", "Crabhammer", "Slash")
# Effects of docs/TABLES.md whose moves take no hit test (docs/MECHANICS.md, "Hit test").
UNTESTED = (
    "AlwaysFails",
    "Bide",
    "Conversion",
    "FocusEnergy",
    "Haze",
    "Heal",
    "Mist",
    "Screen",
    "Splash",
    "StatUp",
    "Substitute",
)


def hits_of(one, two, row):
    """How many of 256 draws hit a member by another, both just sent out, by docs/TABLES.md and docs/MECHANICS.md."""
    _, name, kind, power, accuracy, _, effect = row
    if effect == "NeverMisses":
        return 256
    types = SPECIES_ROWS[two["species"]][2:4]
    by_types = effect not in ("FixedDamage", "SuperFang") and int(power) > 0
    immune = by_types and any(
        factor == "0" and mover == kind and foe in types for mover, foe, factor in table(TABLES, "Type rows")
    )
    slower = effect == "OneHitKnockOut" and speed_of(one) < speed_of(two)
    # No foe is asleep, and no damage was dealt that Counter could return.
    return 0 if immune or slower or effect in ("DreamEater", "Counter") else max(1, int(accuracy) * 255 // 100)


def chances_of(one, two, move, has_damage):
    """How many of 256 draws hit and are critical for members just sent out, by docs/TABLES.md and docs/MECHANICS.md."""
    row = MOVE_ROWS[move]
    if row[6].split("(")[0] in UNTESTED:
        return "; no hit test"
    speed = int(SPECIES_ROWS[one["species"]][7])
    doubled = min(255, speed // 2 * 2)
    critical = min(255, 4 * doubled) if move in OFTEN_CRITICAL else doubled // 2
    return f"; {hits_of(one, two, row)} of 256 hit" + (f", {critical} of 256 critical" if has_damage else "")


def of_bot(_folders):
    """It wins at least 95 battles of 100."""
    yield Case(
        "100 battles", ("100", "1"), b"", re.compile(rb"bot (100|9[5-9]), random \d, ties \d\n"), b"", is_long=True
    )


def choices_of(asked, side):
    """The recorded choices of a side, where it was asked: Pass is only for a side that is asked nothing."""
    return [pair[side] for pair in asked["choices"][1:] if pair[side] != 0]


def refused(side, choices):
    """The lines of the room that count the refusals of tests/c/rude_player.py as a side, by code."""
    rubbish = 7 * len(choices) + 3000
    return "".join(
        f"side {side}: refused {code}: {times}\n"
        for code, times in ((52, len(choices)), (54, len(choices)), (255, rubbish))
    )


def of_room(folders):
    """Recorded battles to their end, between processes that choose as recorded; every second one has a rude player."""
    folder, player = folders.work / "battles_of_rooms", folders.work / "player"
    folder.mkdir(exist_ok=True)
    ran("cc", "-O2", "-Wall", "-Wextra", "-Werror", "examples/c/room/player.c", "-o", player)
    rude = f"exec {sys.executable} {ROOT / 'tests' / 'c' / 'rude_player.py'}"
    played = [case for name in PLAYED for case in cases(recorded(f"{name}.jsonl", folders.cases)) if is_whole(case)]
    for number, case in enumerate(played[:: len(played) // ROOMS + 1]):
        asked = json.loads(case["input"])
        file = folder / f"{number}.txt"
        file.write_text(as_numbers(asked))
        one, two = (choices_of(asked, side) for side in (0, 1))
        players = [f"exec {player}", f"exec {player}"]
        if number % 2:
            players[number // 2 % 2] = rude
        words = [f"{command} {' '.join(map(str, choices))}" for command, choices in zip(players, (one, two))]
        said = "".join(refused(side, choices) for side, choices in ((1, one), (2, two)) if players[side - 1] == rude)
        yield Case(case["name"], (file, *words, "60"), b"", case["stdout"].encode(), said.encode())
    # All processes that a shell starts ignore the signals that it ignores.
    deaf = f"trap '' TERM; {player}; exec sleep 1000"
    for name, one, two in (
        ("players that leave", "exec true", "exec false"),
        ("a player with a pipe that breaks", f"yes | true; exec {player}", f"exec {player}"),
        ("a player that ignores SIGTERM", deaf, f"exec {player}"),
        ("players that ignore SIGTERM, one with a process of its own", f"{deaf} & wait", deaf),
    ):
        yield Case(name, (TAUROS, one, two, "60"), b"", TAUROS_LINES, b"", is_long=True)
    # The room waits a second for player 2, each time. On a loaded machine that may be too short for player 1, whose choice is then stale.
    late = rb"(side 1: refused 52: \d+\n)?"
    for name, two, said in (
        ("a flood without an end", "exec yes", rb"side 2: refused 255: \d+\n"),
        ("a player that is silent", "exec sleep 1000", b""),
    ):
        yield Case(name, (TAUROS, f"exec {player}", two, "1"), b"", TAUROS_LINES, re.compile(late + said), is_long=True)
    usage = re.compile(rb"usage: room BATTLE PLAYER PLAYER \[SECONDS\]\nSECONDS are 1 to 86400\n")
    for seconds in ("0", "-1", "86401", "4294967297", "soon", "1s", ""):
        yield Case(f"{seconds!r} seconds", (TAUROS, f"exec {player}", f"exec {player}", seconds), b"", b"", usage, 2)


def of_player(_folders):
    """The choices of its arguments, then the first offered one; other lines are ignored."""
    yield Case(
        "asked thrice",
        ("18",),
        b"ask 7 17 18\nline |turn|2\ntaken\nask 8 34 35\nrefused 2\nask 9 0\n",
        b"7 18\n8 34\n9 0\n",
        b"",
    )


def is_whole(case):
    """Whether a recorded battle was played to its end without a refused pair."""
    return (
        case.get("status", 0) == 0
        and case["stdout"].splitlines()[-1:]
        and case["stdout"].splitlines()[-1].startswith(("|win|", "|tie"))
    )


EXAMPLES = (
    Example("play", ("examples/c/play.c",), of_play),
    Example("names", ("tests/c/names.c",), of_comparison),
    Example("the_theorem", ("tests/c/the_theorem.c",), of_comparison),
    Example("leaks", ("tests/c/leaks.c",), of_leaks),
    Example("look", ("examples/c/look.c",), of_look),
    Example("known", ("examples/c/known.c",), of_known),
    Example("text", ("examples/c/text.c",), of_text),
    Example("many", ("examples/c/many.c",), of_many),
    Example("replay", ("examples/c/replay/replay.c",), of_replay),
    Example("bot", ("examples/c/bot/bot.c",), of_bot),
    Example("room", ROOM, of_room),
    Example("player", ("examples/c/room/player.c",), of_player),
    Example(
        "damage", ("-Iexamples/c/common", "examples/c/damage/damage.c", "examples/c/common/battle_file.c"), of_damage
    ),
)


def fault_of_case(program, case):
    """What is wrong with a run."""
    try:
        done = subprocess.run([program, *case.words], input=case.given, capture_output=True, timeout=300)
    except subprocess.TimeoutExpired:
        return "it did not end within 300 seconds"
    for what, found, want in (
        ("standard error", done.stderr, case.stderr),
        ("status", done.returncode, case.status),
        ("standard output", done.stdout, case.stdout),
    ):
        if not want.fullmatch(found) if isinstance(want, re.Pattern) else found != want:
            return f"{what} is {found!r:.600}, not {want!r:.600}"
    return None
