"""Recorded cases in the page's form: inputs, and expected results (tests/battles)."""
import base64
import json
import re
import sys
from functools import cache
from pathlib import Path

ROOT = Path(__file__).resolve().parent.parent.parent
sys.path[:0] = [str(ROOT / "tools"), str(ROOT / "tests")]

import battles  # noqa: E402
import log_lines  # noqa: E402


@cache
def cases(name):
    return battles.cases(battles.recorded(f"{name}.jsonl"))


@cache
def traces():
    return battles.traces(battles.recorded("traces.jsonl"))


def lines_of(case):
    return case["stdout"].splitlines()


def lines_in(codes):
    """The lines of events, of which the page has the log bytes as hexadecimal digits."""
    return [log_lines.line(bytes.fromhex(code)) for code in codes]


@cache
def names(heading):
    """The names of docs/TABLES.md under a heading, by their numbers from 1."""
    section = re.search(rf"^## {heading}\n(.*?)(?=^## |\Z)", (ROOT / "docs" / "TABLES.md").read_text(), re.M | re.S)[1]
    return [name.strip() for name in re.findall(r"^\| *\d+ *\|([^|]*)\|", section, re.M)]


def member_bytes(member):
    species, moves = names("Species"), names("Moves")
    known = [(moves.index(name) + 1, ups) for name, ups in member["moves"]] + [(0, 0)] * (4 - len(member["moves"]))
    exp = b"".join(value.to_bytes(2, "little") for value in member["exp"])
    head = [species.index(member["species"]) + 1, member["level"], *member["dvs"]]
    return bytes(head + [number for number, _ in known] + [ups for _, ups in known]) + exp


def address_of(asked, pairs):
    """An input with its first pairs, in the form for an address."""
    limit = asked.get("limit", 1000)
    code = bytes(asked["seed"]) + bytes([asked.get("rules", 0), limit & 255, limit >> 8])
    for side in ("one", "two"):
        code += bytes([len(asked[side])]) + b"".join(map(member_bytes, asked[side]))
    code += bytes(choice for pair in asked["choices"][:pairs] for choice in pair)
    return "i" + base64.urlsafe_b64encode(code).decode().rstrip("=")
