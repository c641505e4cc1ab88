"""All battles that an update of each of many battles can lead to, in arrays
of numpy.
"""

from __future__ import annotations

from collections.abc import Iterator
from ctypes import byref, c_size_t, c_uint8, c_void_p
from functools import cached_property
from typing import TypeAlias

import numpy as np
from numpy.typing import NDArray

from gen1 import _library
from gen1._check import place
from gen1._outcomes import MORE, PLACES, SIZE, Outcomes, sums_of
from gen1._structs import OutcomeListStruct, OutcomeOptionsStruct
from gen1._threads import in_parts
from gen1.errors import Error

Bytes: TypeAlias = NDArray[np.uint8]
# The outcomes of consecutive battles: all rows, and for each battle the number of outcomes, the sum of all weights, the weight that is
# left out, and the code.
_Part: TypeAlias = tuple[Bytes, list[int], list[int], list[int], list[int]]

_list = _library.bind(
    "gen1_outcomes",
    c_uint8,
    c_void_p,
    c_uint8,
    c_uint8,
    c_void_p,
    c_void_p,
    c_size_t,
    c_void_p,
    c_size_t,
    c_void_p,
    of=_library.LONG,
)
_WORD = 2.0**64


class OutcomeArray:
    """All battles that an update of each of n battles can lead to, each with
    its exact probability. `BattleArray.outcomes_many` makes it.

    The outcomes of the battle at a place are those from `offsets[place]`
    to `offsets[place + 1] - 1`. `array[place]` and a loop over the array
    return them as `Outcomes`, whose documentation says for which draws the
    probabilities are exact.
    """

    def __init__(
        self, rows: Bytes, offsets: NDArray[np.int64], wholes: list[int], left_out: list[int], codes: Bytes
    ) -> None:
        self._rows = rows
        self.offsets = offsets
        """The index of the first outcome of each battle, and the end of the
        last battle's outcomes, (n + 1).
        """
        self.wholes = wholes
        """The sum of the weights of each battle's outcomes and of the weight
        left out, n whole numbers.
        """
        self.left_out = left_out
        """The exact weight left out of each battle's outcomes, n whole
        numbers; 0 without a `least_probability`.
        """
        self.codes = codes
        """0, or for a refused pair the number of its `Refusal`, (n). A
        refused pair has no outcomes.
        """

    def __len__(self) -> int:
        return len(self.codes)

    def __getitem__(self, at: int) -> Outcomes:
        """The outcomes of the battle at a place. Raises `BadPlace`, which is
        an `IndexError` too.
        """
        of = place(at, len(self))
        return Outcomes(
            self._rows[self.offsets[of] : self.offsets[of + 1]].tobytes(), self.wholes[of], self.left_out[of]
        )

    def __iter__(self) -> Iterator[Outcomes]:
        return (self[at] for at in range(len(self)))

    def __repr__(self) -> str:
        return f"<OutcomeArray of {len(self):,}, {len(self._rows):,} outcomes>"

    @cached_property
    def states(self) -> Bytes:
        """The 384 bytes of each outcome, (m, 384)."""
        return self._rows[:, : _library.BATTLE_BYTES].copy()

    @cached_property
    def probabilities(self) -> NDArray[np.float64]:
        """The probability of each outcome, (m)."""
        words = self._words()
        wholes = np.array([float(whole) for whole in self.wholes])
        found: NDArray[np.float64] = (words[:, 1] * _WORD + words[:, 0]) / wholes.repeat(np.diff(self.offsets))
        return found

    @cached_property
    def left_out_probabilities(self) -> NDArray[np.float64]:
        """The probability left out of each battle's outcomes, (n). It is 0
        for a refused pair.
        """
        return np.array([left / whole if whole else 0.0 for left, whole in zip(self.left_out, self.wholes)])

    @cached_property
    def weights(self) -> list[int]:
        """The exact weight of each outcome. Its probability is the weight
        divided by the `wholes` of its battle.
        """
        return [high << 64 | low for low, high in self._words().tolist()]

    def _words(self) -> NDArray[np.uint64]:
        """The low and the high 64 bits of each weight."""
        return self._rows[:, _library.BATTLE_BYTES :].copy().view("<u8")


def outcomes_of_array(
    battles: Bytes, ones: Bytes, twos: Bytes, options: OutcomeOptionsStruct, threads: int
) -> OutcomeArray:
    """The outcomes of an update of each of the battles by a choice of each
    side.
    """
    found: dict[int, _Part] = {}

    def part(first: int, past: int) -> None:
        found[first] = _listed(battles[first:past], ones[first:past].tolist(), twos[first:past].tolist(), options)

    in_parts(part, len(battles), threads)
    parts = [found[first] for first in sorted(found)]
    counts, wholes, left_out, codes = ([it for part in parts for it in part[at]] for at in (1, 2, 3, 4))
    rows = parts[0][0] if len(parts) == 1 else np.concatenate([part[0] for part in parts])
    return OutcomeArray(rows, np.cumsum([0, *counts], dtype=np.int64), wholes, left_out, np.array(codes, np.uint8))


def _listed(battles: Bytes, ones: list[int], twos: list[int], options: OutcomeOptionsStruct) -> _Part:
    """The outcomes of consecutive battles, written one after the other to
    one array, which grows.
    """
    held, used = _Held(PLACES * len(ones)), 0
    of, first = OutcomeListStruct(), battles.ctypes.data
    counts, wholes, left_out, codes = [], [], [], []
    for at, (one, two) in enumerate(zip(ones, twos)):
        places, code = PLACES // MORE, _library.FEW_PLACES[0]
        while code in _library.FEW_PLACES:
            places *= MORE
            into, table = held.room(used, places)
            battle = first + at * _library.BATTLE_BYTES
            code = _list(battle, one, two, byref(options), into, places, table, 2 * places, byref(of))
        if code == _library.TOO_MANY_DRAWS:  # no such update is known
            raise Error("the update has too many draws to list its outcomes")
        count, (whole, left) = (0, (0, 0)) if code else (of.count, sums_of(of))
        counts.append(count)
        wholes.append(whole)
        left_out.append(left)
        codes.append(code)
        used += count
    return held.rows[:used], counts, wholes, left_out, codes


class _Held:
    """Memory for rows of outcomes and for the table of a call."""

    def __init__(self, places: int) -> None:
        self._take(np.empty((places, SIZE), np.uint8), np.empty(2 * PLACES, np.uint32))

    def _take(self, rows: Bytes, table: NDArray[np.uint32]) -> None:
        self.rows, self._table = rows, table
        self._first, self._of_table = rows.ctypes.data, table.ctypes.data

    def room(self, used: int, places: int) -> tuple[int, int]:
        """The addresses of that many free places, after the used ones, and of
        a table of twice as many.
        """
        if used + places > len(self.rows):
            rows = np.empty((2 * (used + places), SIZE), np.uint8)
            rows[:used] = self.rows[:used]
            self._take(rows, self._table)
        if 2 * places > len(self._table):
            self._take(self.rows, np.empty(2 * places, np.uint32))
        return self._first + used * SIZE, self._of_table


__all__ = ["OutcomeArray"]
