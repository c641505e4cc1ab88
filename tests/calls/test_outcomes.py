"""Exact outcomes and walks of recorded updates (include/gen1.h, "searching"): an update is one of its outcomes, and the sums are right."""

import ctypes
from ctypes import byref, c_uint32
from fractions import Fraction
from struct import Struct
from structs import KEPT, OutcomeList, OutcomeOptions, Way, array_of


SUCCESSOR = Struct("<384sQQ")
PLACES = 65536
WALK, WALK_END = 2312, 36
LEAST = 2**22  # of 2**32: a probability of 1 of 1,024
WALKED = 300  # the ways of every seventh update are compared if it has at most this many outcomes
FOUND, TABLE = ctypes.create_string_buffer(PLACES * SUCCESSOR.size), (c_uint32 * (2 * PLACES))()


def test_outcomes(library, steps, checks):
    """Checks that each recorded update is refused or leads to one of its outcomes, and that the sums of weights and ways are right."""
    for at, (before, update) in enumerate(steps):
        code, of, weights = listed(library, before, update["pair"], 0)
        if update["refused"]:
            checks.same(
                f"outcomes of update {at}",
                (code, of.low, of.left_high, of.count),
                (update["refused"] + 23, KEPT, KEPT, KEPT),
            )
            continue
        after = bytes.fromhex(update["bytes"])
        # The numbers to draw are those from before (docs/LAYOUT.md, "Header").
        after = after[:5] + before[5:16] + after[16:]
        whole = of.high << 64 | of.low
        got = code, len(weights), sum(weights.values()), of.left_low, of.left_high, weights.get(after, 0) > 0
        checks.same(f"outcomes of update {at}", got, (0, of.count, whole, 0, 0, True))
        if at % 7 == 0 and of.count <= WALKED:
            got = walked(library, before, update["pair"], after)
            want = {battle: Fraction(weight, whole) for battle, weight in weights.items()}
            checks.same(f"ways of update {at}", got[0], want)
            checks.same(f"logs of update {at}", bytes.fromhex(update["log"]) in got[1], True)
            code, of, fewer = listed(library, before, update["pair"], LEAST)
            left_out, part = of.left_high << 64 | of.left_low, of.high << 64 | of.low
            are_parts = all(weight * whole <= weights.get(battle, 0) * part for battle, weight in fewer.items())
            got = code, len(fewer), sum(fewer.values()) + left_out, are_parts
            checks.same(f"likely outcomes of update {at}", got, (0, of.count, part, True))


def listed(library, before, pair, least):
    """Lists the outcomes that are not left out: the code, the struct of the list, and the weights of the battles."""
    of = OutcomeList(KEPT, KEPT, KEPT, KEPT, KEPT)
    code = library.calls.gen1_outcomes(
        array_of([before]), *pair, byref(OutcomeOptions(least)), FOUND, PLACES, TABLE, 2 * PLACES, byref(of)
    )
    rows = SUCCESSOR.iter_unpack(ctypes.string_at(FOUND, of.count * SUCCESSOR.size)) if code == 0 else ()
    return code, of, {battle: high << 64 | low for battle, low, high in rows}


def walked(library, before, pair, after):
    """Sums the probabilities of the ways to each battle. Returns the sums, and the logs of the ways to the recorded battle."""
    walk, way, sums, logs = ctypes.create_string_buffer(WALK), Way(), {}, []
    code = library.calls.gen1_walk_begin(array_of([before]), *pair, 0, walk)
    while code == 0:
        code = library.calls.gen1_walk_next(walk, byref(way))
        if code == 0:
            battle, chance = bytes(way.battle), Fraction(way.high << 64 | way.low, way.whole_high << 64 | way.whole_low)
            sums[battle] = sums.get(battle, 0) + chance
            logs += [bytes(way.log[: way.log_length])] * (battle == after)
    return (sums, logs) if code == WALK_END else (code, logs)
