"""The programs of examples/rust, built by cargo: battles by fixed seeds, recorded battles between processes and in files, and files that
were made wrong in one place."""

import copy
import json
import random
import re
import struct
import subprocess
import sys
from concurrent.futures import ThreadPoolExecutor

import pytest
from cargo import TARGET, built, want_cargo
from log_lines import codes

PROGRAMS = ("bot", "referee", "room")
RECORDED = ("battles", "first_path", "limit", "rules")
TRACES = ("traces", "corners")
# How many recorded battles are played in a room, and how many wrong files the referee gets.
ROOMS, WRONG = 60, 60
# A player for the room that stores all that it receives, and chooses as recorded. A rude one sends rubbish before each choice: seven lines
# that are not a choice, the first time 3,000 more, a choice for the next pair, and one that is never offered.
PLAYER = """
import sys
kept, is_rude, choices = open(sys.argv[1], "wb", 0), sys.argv[2] == "rude", iter(sys.argv[3:])
flood = 3000
for line in iter(sys.stdin.buffer.readline, b""):
    kept.write(line)
    if not line.startswith(b"ask "):
        continue
    number = int(line.split()[1])
    if is_rude:
        rubbish = [b"hello", b"x" * 100000, b"\\0\\0", b"4294967296 17", b"-1 17", b"0 17 17", b"", *[b"y"] * flood]
        rubbish += [b"%d 17" % (number + 1), b"%d 99" % number]
        sys.stdout.buffer.write(b"\\n".join(rubbish) + b"\\n")
        flood = 0
    sys.stdout.buffer.write(b"%d %s\\n" % (number, next(choices).encode()))
    sys.stdout.flush()
"""
# A spectator that stores all that it receives.
SPECTATOR = """
import sys
with open(sys.argv[1], "wb", 0) as kept:
    for bytes in iter(lambda: sys.stdin.buffer.read1(), b""):
        kept.write(bytes)
"""


@pytest.fixture(scope="module", autouse=True)
def programs():
    """The release builds of the programs. Built with gen1-cli, they share its gen1, which has more features."""
    want_cargo()
    built(*PROGRAMS, "gen1-cli", release=True)


def run(program, *words):
    """Runs a program; returns its status and what it printed."""
    done = subprocess.run([TARGET / "release" / program, *map(str, words)], capture_output=True, timeout=300)
    return done.returncode, done.stdout.decode(), done.stderr.decode()


@pytest.fixture(scope="module")
def rows(unpacked):
    """The battles with their updates."""
    return [json.loads(line) for name in TRACES for line in (unpacked / f"{name}.jsonl").read_text().splitlines()]


def test_bot(checks):
    """It wins at least 95 battles of 100, and the same arguments give the same battles."""
    status, told, _ = run("bot", "--battles", 100, "--seed", 1)
    won, lost, tied = map(int, re.search(r"won (\d+), lost (\d+), tied (\d+)\n", told).groups())
    checks.same("status and battles", (status, won + lost + tied), (0, 100))
    checks.same(f"{won} won", won >= 95, True)
    one, four = (run("bot", "--battles", 10, "--threads", count)[:2] for count in (1, 4))
    checks.same("by one thread", one, four)


@pytest.mark.parametrize("name", [*RECORDED, *TRACES])
def test_referee_accepts(name, unpacked):
    """The referee accepts every recorded battle."""
    file = unpacked / f"{name}.jsonl"
    status, told, _ = run("referee", file)
    assert (status, told.split(" battles")[0]) == (0, str(len(file.read_text().splitlines())))


def test_referee_finds_a_wrong_pair(rows, tmp_path, checks):
    """The referee finds the pair of each file that was made wrong."""
    dice = random.Random(1)
    for number in range(WRONG):
        one_wrong(number, dice.sample(rows, 3), dice, tmp_path / "wrong.jsonl", checks)


def test_referee_on_a_long_file(rows, tmp_path, checks):
    file = tmp_path / "long.jsonl"
    with open(file, "w") as to:
        to.writelines(json.dumps(row) + "\n" for row in rows * 30)
    status, told, said = run("referee", file, "--progress")
    checks.same("battles", (status, told.split(" battles")[0]), (0, str(30 * len(rows))))
    checks.same("its progress", re.fullmatch(r"(\d+ battles, \d+ %\n)*", said) is not None, True)


def one_wrong(number, rows, dice, file, checks):
    """Three battles. The second is wrong at one pair in one key."""
    rows = [rows[0], copy.deepcopy(rows[1]), rows[2]]
    updates = rows[1]["updates"]
    taken = [at for at, it in enumerate(updates) if it["refused"] is None]
    key = ("refused", "result", "offered", "draws", "log", "bytes")[number % 6]
    at = dice.choice([it for it in taken if key != "log" or updates[it]["log"]])
    updates[at][key] = changed(key, updates[at][key], dice)
    file.write_text("".join(json.dumps(row) + "\n" for row in rows))
    status, told, _ = run("referee", file)
    named = re.match(r".*: line (\d+).*?: pair (\d+) \[(\d+), (\d+)\]: (\w+)", told)
    what = {"refused": "answer", "offered": "choices"}.get(key, key)
    wanted = ("2", str(at), *map(str, updates[at]["pair"]), what)
    checks.same(f"{key} of pair {at}", (status, named and named.groups()), (1, wanted))


def test_room(rows, tmp_path, checks):
    """Recorded battles between processes: each receives the right bytes. Every second battle has rude players."""
    whole = [row for row in rows if is_whole(row)]
    for name, text in (("player.py", PLAYER), ("spectator.py", SPECTATOR)):
        (tmp_path / name).write_text(text)
    chosen = whole[:: max(1, len(whole) // ROOMS)][:ROOMS]
    with ThreadPoolExecutor(4) as pool:
        ended = pool.map(lambda row, number: played(row, number, tmp_path), chosen, range(len(chosen)))
        for number, (row, got) in enumerate(zip(chosen, ended)):
            compare(row, number, *got, checks)


def played(row, number, work):
    """Plays a battle in a room; returns how it ended and what each process received."""
    files = [work / f"{number}.{who}" for who in ("json", "one", "two", "spectator")]
    files[0].write_text(json.dumps(row["object"]))
    mode = "rude" if number % 2 else "quiet"
    choices = [[str(it["pair"][side]) for it, asked in asked_of(row, side)] for side in (0, 1)]
    player = f"{sys.executable} {work / 'player.py'}"
    words = [
        f"--{who}={player} {file} {mode} {' '.join(own)}" for who, file, own in zip(("one", "two"), files[1:], choices)
    ]
    words += [
        f"--spectator={sys.executable} {work / 'spectator.py'} {files[3]}",
        "--patience=120",
        "--replays",
        "--refusals=100000",
    ]
    ended = run("room", "host", files[0], *words)
    return ended, [file.read_bytes() for file in files[1:]]


def compare(row, number, ended, got, checks):
    """Compares what the players and the spectator received: side, team, logs, offers and replies; and the logs."""
    logs = [it["log"] for it in row["updates"]]
    checks.same(f"room {number}: the spectator", got[2].hex(), "".join(told(told(logs, 0), 1)))
    refused = ""
    for side in (0, 1):
        wanted, asked = transcript(row, side, number % 2)
        lines = got[side].decode().split("\n")
        team = lines[1:2] and json.loads(lines[1].removeprefix("team "))
        checks.same(f"room {number}: side {side + 1}'s team", team, row["object"][("one", "two")[side]])
        checks.same(f"room {number}: side {side + 1}", "\n".join(lines[:1] + lines[2:]), wanted)
        rude = ((2, asked), (4, asked), (5, 7 * asked + 3000)) if number % 2 and asked else ()
        refused += "".join(f"side {side + 1}: refused {code}: {times}\n" for code, times in rude)
    checks.same(f"room {number}: its end", (ended[0], ended[2]), (0, refused))


def asked_of(row, side):
    """The updates for which a side is asked, each with what it is offered."""
    updates = row["updates"]
    for before, it in zip(updates, updates[1:]):
        if before["result"][1 + side] != 0:
            yield it, before["offered"][side]


def is_whole(row):
    """Whether a recorded battle was played to its end without a refused pair."""
    updates = row["updates"]
    return len(updates) < 60 and all(it["refused"] is None for it in updates) and updates[-1]["result"][0] in (1, 2, 3)


def told(logs, side):
    """Log bytes as a player of a side gets them (docs/MECHANICS.md, "What a side is told"): the foe's members are numbered in the order in
    which they appear, and their HP are pixels of the bar."""
    places = []
    for log in logs:
        found = b""
        for code in map(bytearray, codes(bytes.fromhex(log))):
            at = {0x02: 5, 0x05: 3, 0x06: 3}.get(code[0])
            if at and code[1] != side + 1:
                if at == 5 and code[3] not in places:
                    places.append(code[3])
                if at == 5:
                    code[3] = places.index(code[3]) + 1
                hp, most = struct.unpack_from("<2H", code, at)
                pixels = 12 * hp // (most // 4) if most > 255 else 48 * hp // most
                struct.pack_into("<2H", code, at, max(pixels, hp > 0), 48)
            found += code
        yield found.hex()


def transcript(row, side, is_rude):
    """All lines that a player must receive, except that of its team; and how often it is asked."""
    text, asked, updates = f"side {side + 1}\n", 0, row["updates"]
    logs = told((it["log"] for it in updates), side)
    for number, (it, log) in enumerate(zip(updates, logs)):
        text += f"log {log}\n"
        if it["result"][0] != 0 or it["result"][1 + side] == 0:
            continue
        text += f"ask {number} {' '.join(map(str, it['offered'][side]))}\n"
        if is_rude:
            codes = [5] * (7 + (0 if asked else 3000)) + [2, 4]
            text += "".join(f"refused {code} {number}\n" for code in codes)
        text += f"taken {number}\n"
        asked += 1
    return text, asked


def changed(key, value, dice):
    """Another value for a key of an update."""
    if key == "refused":
        return dice.choice((1, 2, 3))
    if key == "draws":
        return value + 1
    if key == "result":
        return [value[0], value[1], (value[2] + 1) % 3]
    if key == "offered":
        return [value[0], value[1] + [38]]
    at = 2 * dice.randrange(len(value) // 2)
    return value[:at] + f"{int(value[at : at + 2], 16) ^ 1 << dice.randrange(8):02x}" + value[at + 2 :]
