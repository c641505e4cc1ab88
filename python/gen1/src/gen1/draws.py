"""The numbers that an update drew (docs/MECHANICS.md, "Link numbers"), and the
effect of each of them.

The effect of a draw is found by trial: copies of the battle, each with
another byte in place of the draw, are updated with the same choices, and the
differences are reported. The library doesn't report the drawn bytes, so this
module steps the generator of link numbers, from the numbers before an update
to those after it. This is the only rule that is implemented in Python; the
tests compare it with the recorded draws.
"""

from __future__ import annotations

from collections import defaultdict
from collections.abc import Iterator
from dataclasses import dataclass
from itertools import groupby, takewhile

from gen1.battle import Battle
from gen1.errors import Refused
from gen1._events import DamageEvent, Event, HealEvent
from gen1.sentences import Narrator

# How many numbers are drawn in turn; and a limit above the number of draws of any update.
NUMBERS, MOST = 9, 4700
_HP = DamageEvent, HealEvent


@dataclass(frozen=True)
class Draw:
    """A draw: its number in the update from 1, the byte that was drawn, and
    the effects that other bytes would have had.

    `others` are ranges of bytes, each with a sentence for the first event
    that would have been different; empty if no byte changes the events.
    `again` is true if the byte is computed from that of an earlier draw in
    the same update, so that it can't be changed on its own.
    """

    number: int
    byte: int
    others: tuple[tuple[str, str], ...]
    again: bool


def drawn(before: Battle, after: Battle) -> bytes:
    """The bytes that were drawn between a battle and the same battle after one
    update.
    """
    (index, numbers), goal, found = _drawing(before), _drawing(after), bytearray()
    while (index, numbers) != goal and len(found) <= MOST:
        found.append(numbers[index])
        index += 1
        if index == len(numbers):
            index, numbers = 0, [(5 * it + 1) % 256 for it in numbers]
    return bytes(found)


def _drawing(battle: Battle) -> tuple[int, list[int]]:
    """The index of the number that is drawn next, and the nine numbers."""
    state = battle.state
    return state.index, list(state.numbers[:NUMBERS])


def explained(
    before: Battle, one: int, two: int, narrator: Narrator | None = None
) -> tuple[Battle, list[Event], list[Draw]]:
    """Makes an update on a copy: the battle after it, its events, and its
    draws. `narrator` has said all events before, and is not changed;
    without it, sentences don't say how much HP is lost. Raises `Refused`.
    """
    after = before.copy()
    told = list(after.update(one, two).events)
    drawing, narrator = _Drawing(before, one, two, told), narrator or Narrator()
    draws = []
    for at, byte in enumerate(drawn(before, after)):
        others = () if at >= NUMBERS else tuple(drawing.others(at, narrator))
        draws.append(Draw(at + 1, byte, others, at >= NUMBERS))
    return after, told, draws


@dataclass(frozen=True)
class _Drawing:
    """An update whose draws are replaced: the battle before it, its choices,
    and its events.
    """

    before: Battle
    one: int
    two: int
    told: list[Event]

    def others(self, at: int, narrator: Narrator) -> Iterator[tuple[str, str]]:
        """The effects that other bytes at a draw would have had, by ranges."""
        ways = defaultdict(list)
        for byte in range(256):
            copy = self.before.copy()
            copy.reseed(*self._with_draw(at, byte))
            try:
                events = list(copy.update(self.one, self.two).events)
                ways[_difference(self.told, events, narrator.copy())].append(byte)
            except Refused:
                ways["the update is refused"].append(byte)
        for said, found in ways.items():
            if said:
                yield ranges(found), said

    def _with_draw(self, at: int, byte: int) -> tuple[bytes, int]:
        """The seed and index from which a draw gives this byte."""
        state = self.before.state
        index, seed = state.index, bytearray(state.numbers)
        # Draws after the ninth number are renewed. This inverts the renewal, to find the byte that becomes `byte` there.
        renewed = index + at >= NUMBERS
        seed[(index + at) % NUMBERS] = (byte - 1) * 205 % 256 if renewed else byte
        return bytes(seed), index


def _difference(told: list[Event], other: list[Event], narrator: Narrator) -> str:
    """The first difference between two lists of events; empty if they are the same."""
    same = [one for one, _ in takewhile(lambda pair: pair[0] == pair[1], zip(told, other))]
    for event in same:
        narrator.say(event)
    one, two = (of[len(same)] if len(same) < len(of) else None for of in (told, other))
    if one and two:
        if isinstance(one, _HP) and isinstance(two, _HP) and one.who == two.who:
            return f"{one.who} has other HP"
        return f'instead of "{narrator.copy().say(one)}": {narrator.say(two)}'
    if one:
        return f'without "{narrator.say(one)}"'
    return f"then also: {narrator.say(two)}" if two else ""


def ranges(numbers: list[int]) -> str:
    """Numbers in rising order as ranges, "0-56, 60"; of many ranges only the
    first few.
    """
    runs = [[it for _, it in run] for _, run in groupby(enumerate(numbers), lambda it: it[1] - it[0])]
    texts = [f"{run[0]}-{run[-1]}" if len(run) > 1 else str(run[0]) for run in runs]
    return ", ".join(texts) if len(texts) <= 8 else f"{', '.join(texts[:4])}, .. ({len(numbers)} of 256)"
