"""Checks what says where each rule is: the sections that files cite, and the named wrong bodies.

A file of code with a function has to be reached from a section of a document. A section has to have a definition, code, a worked
example, a test and an edit. Each edit has to be applicable. The first line of a file says what it is, and the head of a lib.rt names
each of its modules. `tools/rules` prints what was read. A law of crates/gen1_player/specs/True.antt has to name each field that the log
makes public.
"""

import re

import pytest
from repository import ROOT, crates, edits, named_bodies
from rule_files import collected, unreached, without_a_line


PLAYER = ROOT / "crates" / "gen1_player"


@pytest.fixture(scope="module")
def rules():
    return collected()


def failing(faults):
    if faults := list(faults):
        pytest.fail("\n".join(faults), pytrace=False)


def test_every_section_has_its_files(rules):
    failing(unreached(rules))


def test_every_edit_can_be_applied(rules):
    failing(rules.faults)


def test_the_first_line_of_a_file_says_what_it_is():
    failing(without_a_line())


def test_every_named_wrong_body_is_an_edit_of_every_gate(compared):
    tried, seen, faults = {f"{crate}/{edit.name}" for crate in crates() for edit in edits(crate)}, set(), []
    for body, places in named_bodies().items():
        faults += [] if places else [f'there is no edit for "{body}"']
        faults += [f"{place} is not an edit of crates/*/must-fail" for place in places if place not in tried]
        faults += [f"{place} is named twice" for place in places if place in seen or places.count(place) > 1]
        seen.update(places)
    compared(len(named_bodies()), faults)


def test_every_public_field_has_a_law(compared):
    structs = "".join(
        (PLAYER / "src" / f"{name}.rt").read_text() for name in ("public", "public_side", "announced", "seen")
    )
    fields = re.findall(r"^    pub (\w+): ", structs, re.MULTILINE)
    laws = (PLAYER / "specs" / "True.antt").read_text().partition("-- What a player holds")[0]
    named = set(re.findall(r"(?:^  pub |\.)(\w+)", re.sub(r"--.*", "", laws), re.MULTILINE))
    compared(len(fields), [f"no law names {field}" for field in fields if field not in named])
