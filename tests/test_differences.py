"""Plays the battles of docs/DIFFERENCES.md and compares them with the expected lines.

Each battle is a line of examples/differences.jsonl, an input of `run` or `calc`. Its key "expected" has the lines that are printed and,
where the input is refused, the first line on standard error. They are played by battle_tool where it is built, or by --program. A
battle with a key "recorded" is a recorded one, from which `tools/gen recorded` writes it. docs/DIFFERENCES.md names each battle; the lines
that it shows below a name are consecutive lines of that battle's file. It names each section of docs/MECHANICS.md that marks a choice as
the project's own.
"""

import json
import re
import subprocess

import pytest
from recorded import DIFFERENCES, differences
from repository import ROOT, program

DOCUMENT = ROOT / "docs" / "DIFFERENCES.md"
# The section that explains the mark.
MARKED = "What is modelled"
PROVED = ROOT / "crates" / "battle_tool" / "out" / "battle_tool"
# A battle's link, and a block of lines below it and before the next link.
SHOWN = re.compile(
    r"\[(\w+)\]\(\.\./examples/differences\.jsonl\)(?:(?!\(\.\./examples/differences).)*?\n```\n(\|.*?)```", re.S
)
LINKED = re.compile(r"\[(\w+)\]\(\.\./examples/differences\.jsonl\)")
BATTLES = {battle["name"]: battle for battle in map(json.loads, DIFFERENCES.read_text().splitlines())}


def expected(name):
    """The lines of a battle, as one text."""
    return "".join(f"{line}\n" for line in BATTLES[name]["expected"])


@pytest.mark.parametrize("name", BATTLES)
def test_battle(name, pytestconfig):
    tool = pytestconfig.getoption("program") or PROVED
    if tool == PROVED and not PROVED.is_file():
        pytest.skip("crates/battle_tool/out/battle_tool is not built, and no --program was named")
    battle = BATTLES[name]
    subcommand = "calc" if "attacker" in battle else "run"
    ran = subprocess.run(
        [program(tool), subcommand], input=json.dumps(battle).encode(), capture_output=True, timeout=60
    )
    got = ran.stdout.decode(errors="replace") + "".join(ran.stderr.decode(errors="replace").splitlines(True)[:1])
    assert got == expected(name)
    assert ran.returncode == int(bool(ran.stderr))


def test_recorded_battles_are_as_recorded():
    assert DIFFERENCES.read_text() == differences(), "run `tools/gen recorded`"


def test_the_document_names_each_battle(compared):
    linked = set(LINKED.findall(DOCUMENT.read_text()))
    faults = [f"docs/DIFFERENCES.md does not name {name}" for name in BATTLES if name not in linked]
    faults += [f"docs/DIFFERENCES.md names {name}, and there is no such line" for name in linked - set(BATTLES)]
    compared(len(linked | set(BATTLES)), faults)


def test_the_document_shows_lines_of_the_battles(compared):
    shown = SHOWN.findall(DOCUMENT.read_text())
    faults = [
        f"{name}: the lines that docs/DIFFERENCES.md shows are not consecutive lines of its file"
        for name, lines in shown
        if f"\n{lines}" not in f"\n{expected(name) if name in BATTLES else ''}"
    ]
    compared(len(shown), faults)


def test_the_document_names_the_own_choices(compared):
    text, sections = DOCUMENT.read_text(), re.split(r"(?m)^##+ ", (ROOT / "docs" / "MECHANICS.md").read_text())
    own = [section.partition("\n")[0] for section in sections[1:] if "*(own" in section]
    names = [name for name in own if name != MARKED]
    compared(len(names), (f'docs/DIFFERENCES.md does not name "{name}"' for name in names if f'"{name}"' not in text))
