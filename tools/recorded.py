"""Tests of whole recorded battles (docs/PROOFS.md, "Recorded battles"), and the recorded battles of docs/DIFFERENCES.md.

Each battle of BATTLES, a line of traces.jsonl of tests/battles, is a row of recorded_battles.rs in rust/gen1-tests/tests/engine: its
teams, and for each update the pair of choices, the recorded log and all 384 bytes. recorded.rs there plays them.

A line of examples/differences.jsonl with a key "recorded", such as "corners 251, update 4", is the recorded battle of that line of that
file, up to and with that update (tests/battles/README.md). Its lines are those of the recorded log, as tests/log_lines.py writes them. For
a new one write a line with its name and this key alone.
"""

import json
import re
import sys
from functools import cache

from battles import recorded, traces
from log_lines import lines
from repository import ROOT

# The numbers of the lines, from 0.
BATTLES = (17, 28, 50)

FILE = ROOT / "rust" / "gen1-tests" / "tests" / "engine" / "recorded_battles.rs"

DIFFERENCES = ROOT / "examples" / "differences.jsonl"
UPDATE = re.compile(r"(corners|traces) (\d+), update (\d+)")

SIDES = ("one", "two")

HEAD = """//! Recorded battles. Made by tools/gen.
use crate::recorded::{Recorded, Update};

"""
TABLE = "pub(crate) static BATTLES: [Recorded; %d] = [\n%s];\n"


def a_list(items):
    return "[%s]" % ", ".join(map(str, items))


def member(given):
    moves = ", ".join('("%s", %d)' % (move, ups) for move, ups in given["moves"])
    return '("%s", %d, %s, %s, &[%s]),\n' % (
        given["species"],
        given["level"],
        a_list(given["dvs"]),
        a_list(given["exp"]),
        moves,
    )


def update(given):
    """The bytes in seven lines: the header, and three lines for each side."""
    text = given["bytes"]
    lines = [text[:48]] + [text[at : at + 120] for at in range(48, 768, 120)]
    return ("Update {\n" "choices: (0x%02x, 0x%02x),\n" 'log: "%s",\n' "bytes: [\n%s],\n" "},\n") % (
        *given["pair"],
        given["log"],
        "".join('"%s",\n' % line for line in lines),
    )


def row(battle):
    given, updates = battle["object"], battle["updates"]
    teams = [" and ".join(member["species"] for member in given[side]) for side in SIDES]
    members = "".join("%s: &[\n%s],\n" % (side, "".join(map(member, given[side]))) for side in SIDES)
    return 'Recorded {\nname: "%s",\nseed: %s,\nrules: %d,\nlimit: %d,\n%supdates: &[\n%s],\n},\n' % (
        " against ".join(teams),
        a_list(given["seed"]),
        given.get("rules", 0),
        given.get("limit", 1000),
        members,
        "".join(map(update, updates)),
    )


def laid_out(text):
    """The text without what rustfmt may change."""
    return re.sub(r",(?=[\])])", "", re.sub(r"\s", "", text))


def is_same(there, text):
    """Whether a file is its text, a module apart from its layout."""
    return there == text or text.startswith("//!") and laid_out(there) == laid_out(text)


@cache
def battles_of(name):
    return traces(recorded(f"{name}.jsonl"))


def recording(words):
    """The battle up to a recorded update, with its lines."""
    found = UPDATE.fullmatch(words)
    file, line, update = found[1], int(found[2]), int(found[3])
    if line >= len(battles_of(file)) or update >= len(battles_of(file)[line]["updates"]):
        raise LookupError(f"there is no recorded {words}")
    battle = battles_of(file)[line]
    played = battle["updates"][: update + 1]
    shown = [line for it in played if it["refused"] is None for line in lines(bytes.fromhex(it["log"]))]
    return {"recorded": words, **battle["object"], "choices": [it["pair"] for it in played], "expected": shown}


def difference(text):
    """A line of DIFFERENCES, with its battle as recorded if it names one."""
    given = json.loads(text)
    if words := given.get("recorded"):
        if not UPDATE.fullmatch(words):
            sys.exit(f"{DIFFERENCES.relative_to(ROOT)}: '{words}' is not a recorded update")
        given = {"name": given["name"], **recording(words)}
    return json.dumps(given, separators=(",", ":"), ensure_ascii=False) + "\n"


def differences():
    """The text of DIFFERENCES."""
    return "".join(map(difference, DIFFERENCES.read_text().splitlines()))


def generated():
    """The text of each file."""
    battles = battles_of("traces")
    if len(battles) <= max(BATTLES):
        sys.exit(f"tests/battles has only {len(battles)} battles")
    text = HEAD + TABLE % (len(BATTLES), "".join(row(battles[line]) for line in BATTLES))
    return {FILE: text, DIFFERENCES: differences()}
