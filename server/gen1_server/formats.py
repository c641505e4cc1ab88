"""The formats in which battles are played, and the teams that they allow."""

import json
from dataclasses import dataclass
from pathlib import Path
from random import SystemRandom
from typing import Any

from gen1 import Error, Rules, Team, random_team, sample_teams
from gen1.showdown import Formats, Members
from gen1_server.core import Refused

# The updates after which a battle is a tie.
LIMIT = 1000
MOST_TEAM_CHARACTERS = 8192


@dataclass(frozen=True, slots=True)
class Format:
    """`checker` says which teams players may bring. Without it each gets a random one."""

    id: str
    title: str
    rules: int
    checker: Formats | None


FORMATS: dict[str, Format] = {}


def load(file: str) -> None:
    """Makes `FORMATS` those of a file in the form of rust/gen1-showdown's
    formats.json; of that file itself if `file` is empty. Raises
    `gen1.BadArgument`, `OSError`.
    """
    checker = Formats(Path(file).read_text() if file else None)
    clauses = int(Rules.SLEEP_CLAUSE | Rules.FREEZE_CLAUSE)
    found = [Format(it, checker.tier(it), int(checker.rules(it)), checker) for it in checker.ids]
    found.append(Format("gen1randombattle", "[Gen 1] Random Battle", clauses, None))
    FORMATS.clear()
    FORMATS.update({it.id: it for it in found})


load("")


def format_named(name: str) -> Format:
    """The format with this id. Raises `Refused`."""
    if name not in FORMATS:
        raise Refused("format", f"there is no such format; there are {', '.join(FORMATS)}")
    return FORMATS[name]


def team_for(format: Format, given: Any) -> Team:
    """The team of a player for a format: a packed line, an export text, a list
    of members, or a random one where the format says so. Raises `Refused`.
    """
    if format.checker is None:
        return random_team(SystemRandom())
    text = given if isinstance(given, str) else json.dumps(given)
    if len(text) > MOST_TEAM_CHARACTERS:
        raise Refused("team", f"a team has at most {MOST_TEAM_CHARACTERS} characters")
    try:
        members = Members(text)
        broken = format.checker.complaints(members, format.id)
    except Error as fault:
        raise Refused("team", str(fault)) from None
    if broken:
        raise Refused("team", "; ".join(map(str, broken)))
    return members.team


def computers_team(name: str) -> Team:
    """A team of the computer for a format."""
    chance, checker = SystemRandom(), FORMATS[name].checker
    if checker is None:
        return random_team(chance)
    samples = list(sample_teams().values())
    return chance.choice([it for it in samples if not checker.complaints(Members(it), name)] or samples)


def text_of(team: Team) -> str:
    """A team as the JSON of its members."""
    return json.dumps(team.to_dicts(), separators=(",", ":"))
