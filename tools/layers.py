"""The table of the crates of crates.txt in their layers, between the two marks of docs/ARCHITECTURE.md.

This file says which layer a crate belongs to, and what the layer knows. A crate may depend on crates of its layer and of
those below; one that depends on a crate above, or that is in no layer, is an error. A row has the beginning of the crate's head.
"""

import re
import sys

from calling import link, paragraph
from repository import ROOT, crates

DOCUMENT = ROOT / "docs" / "ARCHITECTURE.md"
BEGIN, END = "<!-- layers -->\n", "<!-- end -->\n"

# From the top down: the title of a layer, what it knows and does not know, and its crates.
LAYERS = (
    (
        "Tests and examples",
        "no crate of the product depends on these",
        ("uses", "test_support", "test_callers", "test_commands"),
    ),
    (
        "Programs and C",
        "files, JSON, command lines, exit statuses and pointers; no rules of battle",
        ("battle_tool", "battle_commands", "battle_input", "gen1_c"),
    ),
    (
        "Battle",
        "the order of a turn, which kind of update is due, refusals, the log of an update; no offsets and no files",
        (
            "gen1_guesses",
            "gen1_host",
            "gen1_player",
            "gen1_room",
            "gen1_random",
            "gen1_playouts",
            "gen1_outcomes",
            "gen1_engine",
            "gen1_turn",
        ),
    ),
    (
        "Operations",
        "one phase of the machine each, over gen1_layout; no offsets, no log bytes, any generator",
        (
            "gen1_words",
            "gen1_switching",
            "gen1_offers",
            "gen1_multiturn",
            "gen1_effects",
            "gen1_status",
            "gen1_odds",
            "gen1_hits",
        ),
    ),
    (
        "Representations",
        "where fields are in the 384 bytes, and which are valid; events as bytes, lines, a view; not what an update does",
        ("gen1_states", "gen1_layout", "gen1_spectator", "gen1_sentences", "gen1_printer", "gen1_events"),
    ),
    (
        "Machine",
        "what a battle and its bytes are, as definitions and laws; the public types; sinks and sources",
        ("gen1_machine", "gen1_devices"),
    ),
    (
        "Numbers",
        "teams, stats, species, moves, types and draws; not the state of a battle",
        ("gen1_writer", "gen1_text", "gen1_stats", "gen1_tables", "gen1_rolls"),
    ),
)


def faults(known):
    """What is wrong with the layers."""
    height = {name: at for at, (_, _, names) in enumerate(reversed(LAYERS)) for name in names}
    for name in sorted(height.keys() - known.keys()):
        yield f"tools/layers.py has {name} in a layer, and crates.txt does not name it"
    for name in sorted(known.keys() - height.keys()):
        yield f"{name} is in no layer; tools/layers.py says which crate is in which"
    for name, used in known.items():
        for it in used:
            if name in height and it in height and height[it] > height[name]:
                yield f"{name} names {it}, which is in a layer above its own"


def purpose(crate):
    """The file that a crate begins with, and the first sentence of its head."""
    folder = ROOT / "crates" / crate / "src"
    file = next(file for name in ("lib.rt", "main.rt") if (file := folder / name).is_file())
    lines = [line[3:].strip() for line in file.read_text().splitlines() if line.startswith("//!")]
    return file, re.match(r".*?\.(?= |$)", paragraph(lines))[0]


def rows():
    """The rows of the table: each layer from the top down, and its crates."""
    yield "| Crate | Purpose |\n|---|---|\n"
    for title, knows, names in LAYERS:
        yield f"| **{title}** | *{knows}* |\n"
        for name in names:
            file, text = purpose(name)
            text = re.match(r".*?(?=: |\.(?: |$)|, through their public)", text)[0]
            yield f"| [{name}]({link(file.parents[1], DOCUMENT.parent)}) | {text} |\n"


def generated():
    """The document with the table in it."""
    text = DOCUMENT.read_text()
    if found := [*faults(crates())]:
        sys.exit("\n".join(found))
    if text.count(BEGIN) != 1 or text.count(END) != 1:
        sys.exit(f"{DOCUMENT.relative_to(ROOT)} has no place for the layers, or several: {BEGIN!r} and then {END!r}")
    before, rest = text.split(BEGIN)
    return {DOCUMENT: before + BEGIN + "".join(rows()) + END + rest.split(END)[1]}
