"""The full teams of recorded battles, as bench/teams.h.

A team of tests/battles/battles.jsonl.xz is used if it has six members with four moves each, and only once. The numbers of species and
moves are those of docs/TABLES.md.
"""

import json
import re
import sys
from pathlib import Path

ROOT = Path(__file__).resolve().parent.parent

sys.path.insert(0, str(ROOT / "tools"))
sys.dont_write_bytecode = True
from battles import cases, recorded  # noqa: E402


def numbers(heading):
    """The numbers of the names in the table under a heading of docs/TABLES.md."""
    document = (ROOT / "docs" / "TABLES.md").read_text()
    section = re.search(rf"^## {heading}\n(.*?)(?=^## |\Z)", document, re.M | re.S)[1]
    rows = re.findall(r"^\| *(\d+) *\| *([^|]*?) *\|", section, re.M)
    return {name: int(number) for number, name in rows}


def full_teams(path):
    """Each team of six members with four moves each, in the order of the file."""
    teams = []
    for case in cases(path):
        battle = json.loads(case["input"])
        for team in (battle["one"], battle["two"]):
            full = len(team) == 6 and all(len(member["moves"]) == 4 for member in team)
            if full and team not in teams:
                teams.append(team)
    return teams


def braced(values):
    return "{" + ", ".join(str(value) for value in values) + "}"


def member_text(member, species, moves):
    """A gen1_member as C writes it."""
    return (
        f"{{{species[member['species']]}, {member['level']}, {braced(member['dvs'])}, "
        f"{braced(moves[name] for name, _ in member['moves'])}, "
        f"{braced(ups for _, ups in member['moves'])}, {braced(member['exp'])}}}"
    )


def generated():
    """The header with the teams."""
    species, moves = numbers("Species"), numbers("Moves")
    lines = ["/* The full teams of recorded battles. Made by tools/gen. */", "static const gen1_team TEAMS[] = {"]
    for team in full_teams(recorded("battles.jsonl")):
        members = [f"        {member_text(member, species, moves)}," for member in team]
        lines += ["    {.members = {", *members, "    }, .count = 6},"]
    return {ROOT / "bench" / "teams.h": "\n".join([*lines, "};", ""])}
