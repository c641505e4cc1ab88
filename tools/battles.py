"""Reads the recorded battles (tests/battles/README.md)."""

import json
import lzma
import re
from pathlib import Path

from repository import ROOT

FOLDER = ROOT / "tests" / "battles"
# The files of cases, and the files of battles with their updates.
CASES = ("first_path", "errors", "print", "calc", "battles", "rules", "limit", "room")
TRACES = ("traces", "corners")


class Unreadable(Exception):
    """A recorded file is missing or wrong: which, in which line, and why."""


def recorded(name, folder=FOLDER):
    """The path of a recorded file such as `calc.jsonl`: the packed one where it exists, else the plain one."""
    packed = Path(folder) / f"{name}.xz"
    return packed if packed.is_file() else Path(folder) / name


def lines(path):
    """The lines of a recorded file, packed or plain, without line feeds."""
    opened = lzma.open if Path(path).suffix == ".xz" else open
    try:
        with opened(path, "rt", encoding="utf-8", newline="\n") as file:
            return [line.rstrip("\n") for line in file]
    except (OSError, EOFError, lzma.LZMAError, UnicodeDecodeError) as fault:
        raise Unreadable(f"{path}: {getattr(fault, 'strerror', None) or fault}") from fault


def objects(path, *keys):
    """The objects of a file of JSON lines, which must have these keys."""
    found = []
    for number, line in enumerate(lines(path), 1):
        try:
            it = json.loads(line)
        except json.JSONDecodeError as fault:
            raise Unreadable(f"{path}:{number}: not JSON: {fault}") from fault
        if not isinstance(it, dict) or not all(key in it for key in keys):
            raise Unreadable(f"{path}:{number}: not an object with {', '.join(keys)}")
        found.append(it)
    return found


def cases(path):
    """The cases of a file."""
    return objects(path, "name", "args", "stdout")


def traces(path):
    """The battles of a file, each with an update for every pair of its choices."""
    found = objects(path, "object", "updates")
    for number, battle in enumerate(found, 1):
        if battle["object"]["choices"] != [update["pair"] for update in battle["updates"]]:
            raise Unreadable(f"{path}:{number}: the pairs of the updates are not the choices of the battle")
    return found


def loads(path):
    """Each byte string of a file with the number of its fault; 0 is none."""
    found = []
    for number, line in enumerate(lines(path), 1):
        fault, _, text = line.partition(" ")
        try:
            found.append((int(fault), bytes.fromhex(text)))
        except ValueError as why:
            raise Unreadable(f"{path}:{number}: {why}") from why
    return found


def in_codes(text):
    """A recorded error with the code of include/gen1.h in place of battle_tool's number, of a refused pair or of a log."""
    firsts = {"refused": 24, "log": 32}
    return re.sub(r"\b(refused|log) ([1-3])\b", lambda it: f"{it[1]} {int(it[2]) + firsts[it[1]] - 1}", text)


def newest_form(given):
    """Bytes of a battle of any version in the form of version 3 (docs/LAYOUT.md, "Versions 1 and 2")."""
    return given if given[0] == 3 else bytes([3, *given[1:20], *(1000).to_bytes(2, "little"), *given[22:]])
