"""All battles that an update can lead to, with their exact probabilities."""

from __future__ import annotations

from collections.abc import Iterator
from ctypes import byref, c_uint32, string_at
from functools import cached_property
from importlib.util import find_spec
from struct import iter_unpack
from typing import TYPE_CHECKING, Any

from gen1 import _library
from gen1._check import probability, within
from gen1._structs import OutcomeListStruct, OutcomeOptionsStruct, SuccessorStruct
from gen1.errors import Error

if TYPE_CHECKING:
    from gen1.battle import Battle

# How many outcomes there is space for at first; where there are more, the call is repeated with more space.
PLACES, MORE = 256, 8
SIZE = 400


class Outcomes:
    """All battles that an update can lead to, each once, with its exact
    probability. `Battle.outcomes` makes it; iterating gives pairs of a
    battle and its probability.

    The probabilities are exact for draws that are independent uniform
    bytes. A link battle draws other numbers (docs/MECHANICS.md, "Link
    numbers"): if its seed is unknown, they are an approximation, off by
    about 0.01 in total variation; if its seed is known, there is one
    outcome, that of `Battle.update`. The battles keep the numbers to draw
    of the battle before the update, so reseed one before you play it
    further.
    """

    def __init__(self, rows: bytes, whole: int, left_out: int) -> None:
        self._rows = rows
        self.whole = whole
        """The sum of all weights and of `left_out`."""
        self.left_out = left_out
        """The exact weight left out; 0 without a `least_probability`."""

    def __len__(self) -> int:
        return len(self._rows) // SIZE

    def __iter__(self) -> Iterator[tuple[Battle, float]]:
        return zip(self._battles(), map(float, self.probabilities))

    def __repr__(self) -> str:
        return f"<Outcomes, {len(self)}>"

    def _held(self) -> Iterator[bytes]:
        return (held for (held,) in iter_unpack("<384s16x", self._rows))

    def _battles(self) -> Iterator[Battle]:
        from gen1.battle import battle_of

        return (battle_of(held) for held in self._held())

    @cached_property
    def battles(self) -> list[Battle]:
        """The battles, which are created on first use."""
        return list(self._battles())

    @cached_property
    def weights(self) -> list[int]:
        """The exact weights: the probability of a battle is its weight
        divided by `whole`.
        """
        return [high << 64 | low for low, high in iter_unpack("<384xQQ", self._rows)]

    @cached_property
    def probabilities(self) -> Any:
        """The probabilities as float64, in an array of numpy if it is
        installed, else in a list.
        """
        found = [weight / self.whole for weight in self.weights]
        return _numpy().array(found) if find_spec("numpy") else found

    @property
    def left_out_probability(self) -> float:
        """The probability left out: `left_out` divided by `whole`."""
        return self.left_out / self.whole

    @cached_property
    def states(self) -> Any:
        """The 384 bytes of each battle: an array of uint8 with a row for each,
        or without numpy one `bytes`.
        """
        if find_spec("numpy"):
            rows = _numpy().frombuffer(self._rows, dtype="u1").reshape(-1, SIZE)
            return rows[:, : _library.BATTLE_BYTES].copy()
        return b"".join(self._held())


def sums_of(of: OutcomeListStruct) -> tuple[int, int]:
    """The sum of all weights, and the part that is left out."""
    return of.high << 64 | of.low, of.left_high << 64 | of.left_low


def _numpy() -> Any:
    import numpy

    return numpy


def options_of(damage_classes: object, least_probability: object) -> OutcomeOptionsStruct:
    """The options of a list of outcomes, as the caller passes them."""
    classes = within(damage_classes, "damage_classes", 0, 39)
    # In units of 2^-32, rounded down. The greatest number is 2^32 - 1, which also represents 1.
    least = int(probability(least_probability, "least_probability") * 2.0**32)
    return OutcomeOptionsStruct(min(least, 2**32 - 1), classes)


def outcomes_of(held: Any, one: int, two: int, options: OutcomeOptionsStruct) -> tuple[int, Outcomes | None]:
    """The outcomes of an update of the battle with these 384 bytes, or the
    code of the refusal.
    """
    places = PLACES
    while True:
        rows, table, of = (SuccessorStruct * places)(), (c_uint32 * (2 * places))(), OutcomeListStruct()
        code = _library.outcomes(byref(held), one, two, byref(options), rows, places, table, 2 * places, byref(of))
        if code == 0:
            return code, Outcomes(string_at(rows, SIZE * of.count), *sums_of(of))
        if code == _library.TOO_MANY_DRAWS:  # no such update is known
            raise Error("the update has too many draws to list its outcomes")
        if code not in _library.FEW_PLACES:
            return code, None
        places *= MORE


__all__ = ["Outcomes"]
