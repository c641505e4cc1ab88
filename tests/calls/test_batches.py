"""Masks, batches, random steps and playouts, with recorded updates and with single calls (include/gen1.h, "searching")."""

from ctypes import byref, c_size_t, c_uint8, c_uint16, c_uint64
from fractions import Fraction

import pytest
from battles import loads, recorded
from structs import BatchUpdate, KEPT, PlayoutOptionsStruct, PlayoutsStruct, array_of, draws, reseeded


def bit_of(choice):
    """The bit of a choice byte in a mask: Pass, Move 0 to 4, Switch 1 to 6."""
    return 0 if choice == 0 else choice - 0x10 + 1 if choice < 0x20 else choice - 0x21 + 6


def test_masks(library, steps, checks):
    """Compares the masks after each recorded update, one by one and in one call."""
    battles = array_of([bytes.fromhex(update["bytes"]) for _, update in steps])
    for side in (1, 2):
        want = [sum(1 << bit_of(choice) for choice in update["offered"][side - 1]) for _, update in steps]
        masks = (c_uint16 * len(steps))(*[KEPT] * len(steps))
        code = library.calls.gen1_offered_many(battles, len(steps), side, masks, len(steps))
        checks.same(f"masks of side {side}", (code, list(masks)), (0, want))
        checks.same(
            f"each mask of side {side}", [library.calls.gen1_offered(byref(battle), side) for battle in battles], want
        )
    masks = (c_uint16 * 3)(*[KEPT] * 3)
    others = [side for side in range(256) if side not in (1, 2)]
    checks.same("no side's mask", {library.calls.gen1_offered(byref(battles[0]), side) for side in others}, {0})
    checks.same(
        "no side's masks", {library.calls.gen1_offered_many(battles, 3, side, masks, 3) for side in others}, {40}
    )
    checks.same(
        "masks of another length",
        {library.calls.gen1_offered_many(battles, size, 1, masks, 3) for size in (0, 2, 4)},
        {45},
    )
    checks.same("masks that were kept", list(masks), [KEPT] * 3)


def test_batches(library, steps, checks):
    """Compares all recorded updates in one call."""
    size = len(steps)
    battles = array_of([before for before, _ in steps])
    updates = (BatchUpdate * size)(*[(*update["pair"], KEPT, KEPT) for _, update in steps])
    before = bytes(battles), bytes(updates)
    for lengths in ((size, size - 1), (size - 1, size)):
        got = library.calls.gen1_update_many(battles, lengths[0], updates, lengths[1])
        checks.same(f"a batch of other lengths, {lengths}", (got, bytes(battles), bytes(updates)), (45, *before))
    checks.same("a batch", library.calls.gen1_update_many(battles, size, updates, size), 0)
    for at, (_, update) in enumerate(steps):
        it = updates[at]
        result = [it.result & 7, it.result >> 3 & 3, it.result >> 5 & 3]
        want = (
            update["pair"],
            update["refused"] + 23 if update["refused"] else 0,
            update["bytes"],
            update["result"] or result,
        )
        checks.same(f"update {at} of a batch", ([it.one, it.two], it.code, bytes(battles[at]).hex(), result), want)


def random_step(library, given, start, seed):
    """A random step by single calls: the choices, the code, the result, the bytes, and the next draw of the generator."""
    draw, battle = draws(seed), library.load(given)
    if start and battle.result()[0]:
        battle = reseeded(library, start, draw)
    offered = [battle.choices(side) for side in (1, 2)]
    pair = [choices[next(draw) % len(choices)] if choices else 0 for choices in offered]
    code = 0 if all(offered) else 24
    if not code:
        battle.update(*pair)
    return pair, code, battle.result(), battle.bytes.hex(), next(draw)


class Stepped:
    """Battles that take a random step each in one call, from starts or none, each with a generator."""

    def __init__(self, library, given, starts, seeds):
        self.call, size = library.calls.gen1_step_random_many, len(given)
        self.battles, self.starts, self.generators = array_of(given), array_of(starts), (c_uint64 * size)(*seeds)
        self.updates, self.over = (BatchUpdate * size)(), c_size_t(KEPT)
        self.code = self.step(size, len(starts), size, size)

    def step(self, battles, starts, seeds, updates):
        """The code of the call with these lengths."""
        arrays = ((self.battles, battles), (self.starts, starts), (self.generators, seeds), (self.updates, updates))
        return self.call(*(word for pair in arrays for word in pair), byref(self.over))

    def rows(self):
        """What `random_step` returns, of each battle."""
        for it, battle, state in zip(self.updates, self.battles, self.generators):
            result = it.result & 7, it.result >> 3 & 3, it.result >> 5 & 3
            yield [it.one, it.two], it.code, result, bytes(battle).hex(), next(draws(state))

    def held(self):
        """Everything that a call may change."""
        return bytes(self.battles), bytes(self.generators), bytes(self.updates), self.over.value


def seeded(steps):
    """The bytes after each recorded update, with a seed for each."""
    seeds = [at * 0x9E3779B97F4A7C15 % 2**64 for at in range(len(steps))]
    return [bytes.fromhex(update["bytes"]) for _, update in steps], seeds


@pytest.mark.parametrize("with_starts", [False, True], ids=["without starts", "with starts"])
def test_random_steps(with_starts, library, steps, checks):
    """Random steps of recorded states: as single calls take them, and the same in two parts."""
    (given, seeds), starts = seeded(steps), [before for before, _ in steps] if with_starts else []
    whole, third = Stepped(library, given, starts, seeds), len(given) // 3
    rows = list(whole.rows())
    for at in range(0, len(rows), 5):
        want = random_step(library, given[at], starts and starts[at], seeds[at])
        checks.same(f"random step {at}", rows[at], want)
    checks.same("random steps", (whole.code, whole.over.value), (0, sum(row[2][0] != 0 for row in rows)))
    parts = [Stepped(library, given[it], starts[it], seeds[it]) for it in (slice(third), slice(third, None))]
    found = [b"".join(each) for each in zip(*(part.held()[:3] for part in parts))]
    checks.same("in parts", (found[0], found[2]), (whole.held()[0], whole.held()[2]))


def test_random_steps_of_other_lengths(library, steps, checks):
    """Arrays whose lengths differ are refused, and nothing changes."""
    given, seeds = seeded(steps)
    stepped, size = Stepped(library, given, [before for before, _ in steps], seeds), len(given)
    kept = stepped.held()
    for shorter in range(4):
        lengths = [size - (place == shorter) for place in range(4)]
        checks.same(f"lengths {lengths}", (stepped.step(*lengths), *stepped.held()), (45, *kept))


def leader(battle):
    """The outcome by the shares of the HP left, from the bytes of the members (docs/LAYOUT.md, "Member")."""
    words = [
        [int.from_bytes(battle[at + 24 * place :][:2], "little") for place in range(6)]
        for at in (24 + 2, 24 + 4, 204 + 2, 204 + 4)
    ]
    one, two = Fraction(sum(words[1]), sum(words[0])), Fraction(sum(words[3]), sum(words[2]))
    return 1 if one > two else 2 if two > one else 3


def copies(battle, side, weights):
    """The offered choices of a side, each as often as its weight says."""
    start = 24 if side == 1 else 204
    # The place of the member that is out is the first byte of the active block. Its moves are bytes 15 to 18 of its block (docs/LAYOUT.md).
    moves = battle.bytes[start + 24 * (battle.bytes[start + 144] - 1) + 15 :][:4]
    number = {0x10: 165, **{0x11 + slot: move for slot, move in enumerate(moves)}}
    offered = battle.choices(side)
    return [choice for choice in offered for _ in range(weights[number.get(choice, 0)])] or offered


def played_out(library, given, options):
    """The ends of playouts, played update by update with the generator that gen1.h describes."""
    ends, draw = [0] * 4, draws(options.seed)
    for _ in range(options.rounds):
        battle, updates = reseeded(library, given, draw), 0
        while (outcome := battle.result()[0]) == 0 and (options.depth == 0 or updates < options.depth):
            offered = [copies(battle, side, options.weights) for side in (1, 2)]
            battle.update(*[choices[next(draw) % len(choices)] for choices in offered])
            updates += 1
        ends[min(outcome or leader(battle.bytes), 4) - 1] += 1
    return ends


def test_playouts(library, steps, battles, checks):
    """Checks that playouts of recorded states add up and leave the battle, and that those of a finished battle end as it did."""
    for at, (_, update) in enumerate(steps[::97]):
        battle, counts = array_of([bytes.fromhex(update["bytes"])])[0], PlayoutsStruct()
        depth = at % 5 * 3
        weights = bytes(at % 2 * (number * at % 11) for number in range(166))
        options = PlayoutOptionsStruct(at, 20, depth, (c_uint8 * 166)(*weights))
        code = library.calls.gen1_playout(byref(battle), byref(options), byref(counts))
        got = [counts.wins_one, counts.wins_two, counts.ties, counts.faults]
        checks.same(f"playouts {at}", (code, sum(got), bytes(battle).hex()), (0, 20, update["bytes"]))
        if at % 7 == 0:
            want = played_out(library, bytes(battle), options)
            checks.same(f"playouts {at}, update by update", got, want)
        again = PlayoutsStruct()
        library.calls.gen1_playout(byref(battle), byref(options), byref(again))
        checks.same(f"playouts {at}, again", bytes(again), bytes(counts))
        outcome = (update["result"] or [0])[0]
        if outcome:
            checks.same(f"playouts {at}, over", got[min(outcome, 4) - 1], 20)
    for number, (test, given) in enumerate(loads(recorded("loads.txt", battles)), 1):
        if test and len(given) == 384:
            counts = PlayoutsStruct(KEPT, KEPT, KEPT, KEPT)
            code = library.calls.gen1_playout(
                byref(array_of([given])[0]), byref(PlayoutOptionsStruct(1, 3, 0)), byref(counts)
            )
            checks.same(
                f"playouts of byte string {number}", (code, counts.wins_one, counts.faults), (test + 15, KEPT, KEPT)
            )
