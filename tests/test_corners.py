"""Checks each corner of the rules: which worked example computes it, and which recorded update comes to it.

A corner is a combination of rules that battles seldom reach. Whether a recorded update (tests/battles) comes to it is read from its
bytes and its log. Each corner needs a recorded update and a worked example. The checker computes the examples, and test_definitions.py
does so apart from the prover; tests/calls plays the updates by the C library, and test_definitions.py by the definitions. In a file of
recorded battles lines and updates count from 0. `pytest -rP` shows the corners with their updates.
"""

import re

import pytest
from log_lines import (
    BAD_POISON,
    BIDE,
    CHARGING,
    CONFUSED,
    END,
    FAIL,
    FAINT,
    INVULNERABLE,
    MISS,
    MOVE,
    PREPARE,
    RECHARGE,
    START,
    STATUS,
    THRASH,
    TIE,
    updates,
    word,
)
from repository import ROOT

COUNTER, HYPER_BEAM, REST, HIDING = 68, 63, 156, (19, 91)
SLEEP_MOVES, TRAPPING_MOVES = (47, 79, 95, 142, 147), (20, 35, 83, 128)
BURN, LEECH_SEED, CONFUSION = 2, 3, 5

# Branches of effects that fail or do nothing, each with the worked example that enters it.
BRANCHES = (
    (
        "Confuse Ray, Poison Powder: a Substitute; Conversion: an Invulnerable foe; Thunder Wave: a status",
        "early_effects_fail",
    ),
    ("Disable: a move of the foe is disabled", "second_disable_fails"),
    ("a shift up whose net change is 0; a shift down at -6", "shifts_fail"),
    ("the stage of accuracy, which has no stat", "accuracy_falls"),
    ("a side effect on any status, with no thaw", "no_second_status"),
    ("the freeze clause where no member is frozen", "first_freeze_under_the_clause"),
    ("frozen at the gate", "frozen_at_the_gate"),
    ("Haze cures a freeze, and the foe's action is skipped", "haze_skips_the_thawed"),
    ("Dream Eater drains", "dream_eater_drains"),
)


def beamed_anew(u, s, foe, moves, tag):
    going_on = u.before.is_on(s, RECHARGE) and u.before.current_move(s) == HYPER_BEAM and u.pair[s - 1] == 0x10
    return going_on and u.uses(s, HYPER_BEAM) and u.uses(foe, *moves) and u.tells(tag, foe)


def rest_fails(u, s, lost):
    return u.before.lost(s) == lost and u.uses(s, REST) and u.tells(FAIL, s)


def sum_wraps(u, s, foe):
    # The last damage that is added is that of before, where nothing of the foe's action deals or takes any.
    energy = word(u.before.active(s), 27)
    if not u.before.is_on(s, BIDE) or u.hurts(s, 0, 0) or energy + word(u.before.bytes, 3) <= 65535:
        return False
    return u.tells(END, s, 3, 2) and u.hurts(foe, 0, u.place(END, s, 3, 2))


def lands_on_the_invulnerable(u, s, foe):
    out = u.place(END, s, 3, 2)
    hidden = u.before.is_on(foe, INVULNERABLE) or 0 <= u.place(PREPARE, foe) < out
    return out >= 0 and hidden and u.after.is_on(foe, INVULNERABLE) and u.hurts(foe, 0, out)


def countered(u, s, foe):
    at = u.place(MOVE, s, 3, COUNTER)
    return at >= 0 and u.hurts(foe, CONFUSION, 0) and not u.tells(MOVE, foe) and u.hurts(foe, 0, at)


def ends_an_older(u, s):
    both = all(u.before.is_on(s, bit) for bit in (CHARGING, INVULNERABLE))
    neither = not any(u.after.is_on(s, bit) for bit in (CHARGING, INVULNERABLE))
    move = u.before.current_move(s)
    return both and neither and move not in HIDING and u.uses(s, move)


def counts_on(u, s, source):
    rises = u.after.active(s)[25] > u.before.active(s)[25]
    poisoned = 8 in (u.before.member(s)[14], u.after.member(s)[14])
    return u.before.is_on(s, BAD_POISON) and not poisoned and rises and u.hurts(s, source, 0)


def confused_anew(u, s):
    both = u.before.is_on(s, THRASH) and u.before.is_on(s, CONFUSED)
    return both and not u.after.is_on(s, THRASH) and u.tells(START, s, 3, 1)


def limit_as_both_fall(u, s, foe):
    last = word(u.before.bytes, 1) == word(u.before.bytes, 20) and u.events[-1][0] == TIE
    return last and u.tells(FAINT, s) and u.tells(FAINT, foe) and u.after.living(s) > 0 and u.after.living(foe) > 0


def lulled(u, s):
    return u.before.is_on(s, RECHARGE) and u.before.is_on(s, INVULNERABLE) and u.tells(STATUS, s, 3, 1)


# Each corner: its words, its section, its worked example, and whether a side of an update comes to it.
CORNERS = (
    (
        "Hyper Beam used again: a sleep move cleared Recharge and failed by the sleep clause",
        "Action",
        "beam_anew_by_the_clause",
        lambda u, s, foe: beamed_anew(u, s, foe, SLEEP_MOVES, FAIL),
    ),
    (
        "Hyper Beam used again: a trapping move cleared Recharge and missed",
        "Action",
        "beam_anew_by_a_miss",
        lambda u, s, foe: beamed_anew(u, s, foe, TRAPPING_MOVES, MISS),
    ),
    ("Rest at a loss of 255 HP", "Early effects", "rest_at_255", lambda u, s, foe: rest_fails(u, s, 255)),
    ("Rest at a loss of 511 HP", "Early effects", "rest_at_511", lambda u, s, foe: rest_fails(u, s, 511)),
    ("Bide's sum past 65,535", "Going on", "sum_past_65535", sum_wraps),
    ("Bide released on an Invulnerable foe", "Going on", "bide_on_the_invulnerable", lands_on_the_invulnerable),
    ("Counter after the foe hit itself", "Counter", "counter_after_a_hit_on_itself", countered),
    (
        "Charging that ends an older invulnerability",
        "Charging",
        "charge_ends_an_older_invulnerability",
        lambda u, s, foe: ends_an_older(u, s),
    ),
    (
        "The counter of BadPoison without poison",
        "Residual damage",
        "counter_without_poison",
        lambda u, s, foe: counts_on(u, s, LEECH_SEED),
    ),
    (
        "The counter of BadPoison under a burn",
        "Residual damage",
        "counter_under_a_burn",
        lambda u, s, foe: counts_on(u, s, BURN),
    ),
    (
        "Confused again as Thrash ends",
        "Going on",
        "confused_anew_as_thrash_ends",
        lambda u, s, foe: confused_anew(u, s),
    ),
    ("The turn limit in the update in which both fall", "Turn limit", "limit_as_both_fall", limit_as_both_fall),
    (
        "Sleep by way of Recharge on an Invulnerable foe",
        "Late effects",
        "sleep_by_recharge_on_the_invulnerable",
        lambda u, s, foe: lulled(u, s),
    ),
)


@pytest.fixture(scope="module")
def first_updates():
    """For each corner the name of the first recorded update that comes to it, where there is one."""
    found = {}
    for update in updates():
        for words, _, _, comes in CORNERS:
            if words not in found and any(comes(update, side, 3 - side) for side in (1, 2)):
                found[words] = update.name
        if len(found) == len(CORNERS):
            break
    return found


@pytest.fixture(scope="module")
def lemma_names():
    """The names of the worked examples of corners."""
    text = (ROOT / "crates" / "test_support" / "proofs" / "WorkedCorners.antt").read_text(encoding="utf-8")
    return set(re.findall(r"(?m)^(\w+) :", text))


@pytest.mark.parametrize(("words", "section", "lemma"), [it[:3] for it in CORNERS], ids=[it[2] for it in CORNERS])
def test_corner(words, section, lemma, first_updates, lemma_names, compared):
    print(f"{words}\n    {section}: {lemma}; {first_updates.get(words, 'no update')}")
    faults = [] if lemma in lemma_names else [f"no worked example {lemma}: {words}"]
    faults += [] if words in first_updates else [f"no recorded update: {words}"]
    compared(2, faults)


@pytest.mark.parametrize(("words", "lemma"), BRANCHES, ids=[it[1] for it in BRANCHES])
def test_effect_that_fails_or_does_nothing(words, lemma, lemma_names):
    assert lemma in lemma_names, words
