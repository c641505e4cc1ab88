"""Many battles at once in one numpy array, without a Python loop."""

from __future__ import annotations

from collections.abc import Iterable, Iterator
from ctypes import byref, c_size_t, c_uint8, c_void_p
from enum import Enum
from typing import Any, TypeAlias

import numpy as np
from numpy.typing import ArrayLike, NDArray

from gen1 import _library
from gen1._check import listed, place, shown, whole, within
from gen1._outcomes import options_of
from gen1._threads import in_parts
from gen1.battle import Battle
from gen1.choices import Choice, a_side
from gen1.errors import BadArgument, BadPlace, BadType
from gen1.layout import BATTLE
from gen1.observations import observe
from gen1.outcome_arrays import OutcomeArray, outcomes_of_array

Bytes: TypeAlias = NDArray[np.uint8]
Masks: TypeAlias = NDArray[np.uint16]

_offered = _library.bind(
    "gen1_offered_many", c_uint8, c_void_p, c_size_t, c_uint8, c_void_p, c_size_t, of=_library.LONG
)
_update = _library.bind("gen1_update_many", c_uint8, c_void_p, c_size_t, c_void_p, c_size_t, of=_library.LONG)
_ARRAYS = 4 * (c_void_p, c_size_t)
_step_random = _library.bind("gen1_step_random_many", c_uint8, *_ARRAYS, c_void_p, of=_library.LONG)

# The number of each choice in the order of the bits of a mask: bit 0 is `PASS`, bits 1 to 5 moves 0 to 4, bits 6 to 11 switches.
CHOICES: Bytes = np.array([int(it) for it in Choice], np.uint8)
ACTIONS = len(CHOICES)
ALIGNED = 64
UPDATE_BYTES = 4
MOST_THREADS = 256
# For each mask, how many bits are set; and at the index 16 * mask + n, the number of the choice of its n-th set bit.
COUNTS: NDArray[np.uint32] = np.array([bin(mask).count("1") for mask in range(1 << ACTIONS)], np.uint32)
NTH: Bytes = np.zeros(16 << ACTIONS, np.uint8)
for _mask in range(1 << ACTIONS):
    NTH[16 * _mask : 16 * _mask + COUNTS[_mask]] = CHOICES[[_bit for _bit in range(ACTIONS) if _mask >> _bit & 1]]


class BattleArray:
    """Battles in one array of (n, 384) bytes that begins at a multiple of 64.

    `bytes` is the array itself. `fields` is the same array with the field
    names of docs/LAYOUT.md: `array.fields["sides"]["members"]["hp"]` has
    shape (n, 2, 6). `results` (n) are the result bytes of the battles.
    `codes` (n) is 0 for each battle that the last step updated, else the
    number of its `Refusal`. All four are read-only and show the current
    battles, so copy the parts that are needed after the next step. Battles
    are changed by `array[place] = battle`, `step`, `random_step`, `reseed`
    and `reset`.

    An array must be used by one thread at a time. Steps and masks let other
    threads run, so that different arrays can step in parallel. With
    `threads`, steps and masks of one array run in that many threads, each
    for a part of the battles. The results do not depend on their number.
    """

    def __init__(self, n: int, battle: Battle, seeds: ArrayLike | None = None, *, threads: int = 1) -> None:
        """Creates `n` copies of a battle, at least 1. With `seeds`, (n, 10)
        bytes, each copy draws its own numbers.

        Without seeds all copies draw the same numbers as the battle.
        `threads` is 1 to 256.
        """
        count, row = within(n, "n", 1, 1 << 40), _row(battle, "battle")
        self._threads = within(threads, "threads", 1, MOST_THREADS)
        self._allot(count)
        self._bytes[:] = row
        if seeds is not None:
            self.reseed(seeds)
        self._begin()

    @classmethod
    def of(cls, battles: Iterable[Battle], *, threads: int = 1) -> "BattleArray":
        """An array of these battles, at least one."""
        known = within(threads, "threads", 1, MOST_THREADS)
        rows = [_row(it, f"battles[{at}]") for at, it in enumerate(listed(battles, "battles"))]
        if not rows:
            raise BadArgument("battles must have at least one battle, but is empty")
        return cls._holding(np.stack(rows), known)

    def take(self, places: ArrayLike) -> "BattleArray":
        """A new array with copies of the battles at these places: (m) numbers
        from -n to n - 1, at least one, which may repeat.

        A search makes copies of each battle with
        `array.take(np.repeat(np.arange(n), 4))` and reseeds them. `reset`
        on the new array restores these copies.
        """
        at = _array(places, "places")
        if at.ndim != 1 or not len(at):
            raise BadArgument(f"places must be (m,) numbers, at least one, not {at.shape}")
        if at.dtype.kind not in "ui":
            raise BadType(f"places must be whole numbers, not {at.dtype}")
        wrong = (at < -len(self)) | (at >= len(self))
        if wrong.any():
            raise BadPlace(
                f"places[{wrong.argmax()}] must be {-len(self):,} to {len(self) - 1:,}, not {at[wrong.argmax()]}"
            )
        return self._holding(self._bytes[at], self._threads)

    @property
    def threads(self) -> int:
        """The maximum number of threads that its steps and masks run in."""
        return self._threads

    def __len__(self) -> int:
        return len(self._bytes)

    def __getitem__(self, at: int) -> Battle:
        """A copy of the battle at a place. Raises `BadPlace`, which is an
        `IndexError` too.
        """
        return Battle.load(self._bytes[place(at, len(self))].tobytes())

    def __setitem__(self, at: int, battle: Battle) -> None:
        self._bytes[place(at, len(self))] = _row(battle, "battle")
        self._see()

    def __iter__(self) -> Iterator[Battle]:
        """A copy of each battle."""
        return (self[at] for at in range(len(self)))

    def __repr__(self) -> str:
        return f"<BattleArray of {len(self):,}, {int(self.over.sum()):,} over>"

    def __eq__(self, other: object) -> bool:
        if not isinstance(other, BattleArray):
            return NotImplemented
        return np.array_equal(self._bytes, other._bytes)

    __hash__ = None  # type: ignore[assignment]

    def copy(self) -> "BattleArray":
        """An independent array with the same battles, results and codes."""
        made = self._holding(self._first, self._threads)
        made._bytes[:], made._results[:], made._codes[:] = self._bytes, self._results, self._codes
        return made

    __copy__ = copy

    def __deepcopy__(self, _: object) -> "BattleArray":
        return self.copy()

    def __reduce__(self) -> tuple[object, ...]:
        return _restored, (self._bytes.tobytes(), self._first.tobytes(), self._codes.tobytes(), self._threads)

    @property
    def outcomes(self) -> Bytes:
        """The number of each battle's `Outcome`, (n), as a new array."""
        return self._results & np.uint8(7)

    @property
    def over(self) -> NDArray[np.bool_]:
        """Which battles are over, (n) bools, as a new array."""
        over: NDArray[np.bool_] = self.outcomes != 0
        return over

    def masks(self) -> Masks:
        """The offered choices of each side of each battle as masks, (2, n):
        first side 1, then side 2.

        Bit b of a mask is 1 exactly if `CHOICES[b]` is offered; `bits`
        converts masks to bools. The mask of a battle that is over is 0.
        """
        masks = np.empty((2, len(self)), np.uint16)
        battles, (ones, twos) = self._bytes.ctypes.data, (it.ctypes.data for it in masks)

        def part(first: int, past: int) -> None:
            count = past - first
            for side, into in ((1, ones), (2, twos)):
                _done(
                    _offered(battles + first * _library.BATTLE_BYTES, count, side, into + first * masks.itemsize, count)
                )

        in_parts(part, len(self), self._threads)
        return masks

    def step(self, ones: ArrayLike, twos: ArrayLike) -> Bytes:
        """Updates each battle with a choice of each side, (n) numbers from 0
        to 255 each, and returns a copy of the results, (n).

        A battle that refuses its pair is unchanged, and `codes` says why. A
        battle that is over is unchanged for any choices. Raises
        `BadArgument` or `BadType` for choices of another length, range or
        type, and then nothing has changed.
        """
        pair = self._choices(ones, "ones"), self._choices(twos, "twos")
        self._update(*pair)
        return self._results.copy()

    def outcomes_many(
        self, ones: ArrayLike, twos: ArrayLike, *, damage_classes: int = 0, least_probability: float = 0.0
    ) -> OutcomeArray:
        """Lists all battles that an update of each battle by a choice of
        each side can lead to, as `Battle.outcomes` does for one battle.
        The choices are as for `step`.

        No battle is changed. A battle that refuses its pair has no
        outcomes, and `codes` of the result says why. An update can have
        thousands of outcomes, of 400 bytes each; `damage_classes` and
        `least_probability` reduce their number. Raises `BadArgument` or
        `BadType` for choices of another length, range or type, and for
        options that are out of range.
        """
        pair = self._choices(ones, "ones"), self._choices(twos, "twos")
        return outcomes_of_array(self._bytes, *pair, options_of(damage_classes, least_probability), self._threads)

    def random_step(self, dice: np.random.Generator, *, reset: bool = False) -> tuple[Bytes, Bytes]:
        """Makes a step with a random choice of each side, all equally
        likely, and returns these choices.

        A battle that is over is unchanged. With `reset` it is first
        restored to its state when the array was created, with random
        numbers to draw. All battles are then updated, and one that ends can
        be read until the next step. Raises `BadType` if `dice` is not a
        numpy generator.
        """
        if not isinstance(dice, np.random.Generator):
            raise BadType(f"dice must be a numpy.random.Generator, not {shown(dice)}")
        draws = dice.integers(0, 1 << 64, len(self), np.uint64)
        held: tuple[NDArray[Any], ...] = self._bytes, self._first, draws, self._updates
        battles, starts, of_draws, updates = (it.ctypes.data for it in held)

        def part(first: int, past: int) -> None:
            count, over, row = past - first, c_size_t(), first * _library.BATTLE_BYTES
            begins = (starts + row, count) if reset else (None, 0)
            parts = (
                battles + row,
                count,
                *begins,
                of_draws + first * draws.itemsize,
                count,
                updates + first * UPDATE_BYTES,
                count,
            )
            _done(_step_random(*parts, byref(over)))

        in_parts(part, len(self), self._threads)
        return self._updates[:, 0].copy(), self._updates[:, 1].copy()

    def observe(self, side: int) -> NDArray[np.float32]:
        """The observation of a side for each battle, (n, `len(COLUMNS)`)
        numbers; `gen1.observations` describes the columns.
        """
        known = a_side(side)
        return observe(self._fields, known, self.masks()[known - 1])

    def reseed(self, seeds: ArrayLike) -> None:
        """Replaces the numbers that each battle draws by (n, 10) bytes, of
        which the first is drawn next; nothing else changes.
        """
        self._fields["numbers"], self._fields["index"] = self._seeds(seeds), 0

    def reset(self, which: ArrayLike | None = None, seeds: ArrayLike | None = None) -> None:
        """Restores battles to their state when the array was created: all, or
        those where `which`, (n) bools, is true.

        With `seeds`, (n, 10) bytes, the restored battles draw these
        numbers.
        """
        chosen = np.ones(len(self), bool) if which is None else _array(which, "which")
        if chosen.shape != (len(self),) or chosen.dtype != bool:
            raise BadArgument(f"which must be ({len(self)},) bools, not {chosen.shape} of {chosen.dtype}")
        fresh = None if seeds is None else self._seeds(seeds)
        self._bytes[chosen] = self._first[chosen]
        if fresh is not None:
            self._fields["numbers"][chosen], self._fields["index"][chosen] = fresh[chosen], 0
        self._see()

    @classmethod
    def _holding(cls, rows: Bytes, threads: int = 1) -> "BattleArray":
        """An array of battles that begin with these bytes, (n, 384)."""
        made = cls.__new__(cls)
        made._threads = threads
        made._allot(len(rows))
        made._bytes[:] = rows
        made._begin()
        return made

    def _allot(self, n: int) -> None:
        room = np.zeros(n * _library.BATTLE_BYTES + ALIGNED, np.uint8)
        begin = -room.ctypes.data % ALIGNED
        self._bytes: Bytes = room[begin : begin + n * _library.BATTLE_BYTES].reshape(n, _library.BATTLE_BYTES)
        self._fields = self._bytes.view(BATTLE)[:, 0]
        # The columns of gen1_batch_update: the choices of both sides, the result, and the code.
        self._updates: Bytes = np.zeros((n, 4), np.uint8)
        self._results, self._codes = self._updates[:, 2], self._updates[:, 3]
        self.bytes, self.fields = _to_read(self._bytes), _to_read(self._fields)
        self.results, self.codes = _to_read(self._results), _to_read(self._codes)

    def _begin(self) -> None:
        self._first = self._bytes.copy()
        self._see()

    def _see(self) -> None:
        """Computes the results of the current battles from their outcomes and requests."""
        requests = self._fields["requests"]
        self._results[:] = self._fields["outcome"] | requests[:, 0] << 3 | requests[:, 1] << 5

    def _seeds(self, seeds: ArrayLike) -> Bytes:
        given = _array(seeds, "seeds")
        if given.dtype.kind not in "ui" or given.shape != (len(self), 10):
            raise BadArgument(
                f"seeds must be ({len(self)}, 10) numbers from 0 to 255, not {given.shape} of {given.dtype}"
            )
        return _all_bytes(given, "seeds")

    def _choices(self, given: ArrayLike, name: str) -> Bytes:
        if isinstance(given, (list, tuple)):
            for at, it in enumerate(given):
                if isinstance(it, Enum):
                    whole(it, f"{name}[{at}]", Choice)
        taken = _array(given, name)
        if taken.dtype.kind not in "ui":
            raise BadType(f"{name} must be whole numbers, not {taken.dtype}")
        if taken.shape != (len(self),):
            raise BadArgument(f"{name} must be ({len(self)},) numbers, not {taken.shape}")
        return _all_bytes(taken, name)

    def _update(self, ones: Bytes, twos: Bytes) -> None:
        self._updates[:, 0], self._updates[:, 1] = ones, twos
        battles, updates = self._bytes.ctypes.data, self._updates.ctypes.data

        def part(first: int, past: int) -> None:
            count = past - first
            _done(_update(battles + first * _library.BATTLE_BYTES, count, updates + first * UPDATE_BYTES, count))

        in_parts(part, len(self), self._threads)


def bits(masks: Masks) -> NDArray[np.bool_]:
    """Converts masks of any shape to bools, with one more axis of length 12:
    the choices in the order of `CHOICES`.
    """
    return (masks[..., None] >> np.arange(ACTIONS, dtype=np.uint16) & 1).astype(bool)


def nth_choices(masks: Masks, nth: NDArray[Any]) -> Bytes:
    """The number of the n-th choice that each mask offers; 0, which is `PASS`,
    for a mask of 0.
    """
    taken: Bytes = NTH.take(np.left_shift(masks, 4, dtype=np.uint32) + nth)
    return taken


def _done(code: int) -> None:
    """Raises an error if a call failed. A call fails if an array does not have the length of the battles, which this class rules out."""
    if code:
        raise BadArgument(f"an array does not have the length of the battles, or the side is not 1 or 2 (code {code})")


def _array(given: ArrayLike, name: str) -> NDArray[Any]:
    try:
        return np.asarray(given)
    except ValueError:
        raise BadType(f"{name} must be an array, but its rows have different lengths: {shown(given)}") from None


def _all_bytes(given: NDArray[Any], name: str) -> Bytes:
    """An array of whole numbers as contiguous bytes. Raises `BadArgument` with the first number that is not a byte."""
    if given.dtype != np.uint8:
        wrong = (given < 0) | (given > 255)
        if wrong.any():
            at = np.unravel_index(int(wrong.argmax()), given.shape)
            raise BadArgument(f"{name}[{', '.join(map(str, at))}] must be 0 to 255, not {given[at]}")
    return np.ascontiguousarray(given, np.uint8)


def _row(battle: object, name: str) -> Bytes:
    """The 384 bytes of a value that must be a `Battle`."""
    if not isinstance(battle, Battle):
        raise BadType(f"{name} must be a Battle, not {shown(battle)}")
    return np.frombuffer(battle.bytes, np.uint8)


def _to_read(of: NDArray[Any]) -> NDArray[Any]:
    """A view of an array that cannot be made writable."""
    held = np.asarray(of.reshape(-1).view(np.uint8).data.toreadonly())
    return held.view(of.dtype).reshape(of.shape)


def _restored(whole: bytes, first: bytes, codes: bytes, threads: int = 1) -> BattleArray:
    """The array that was pickled."""
    made = BattleArray._holding(np.frombuffer(first, np.uint8).reshape(-1, _library.BATTLE_BYTES), threads)
    made._bytes[:] = np.frombuffer(whole, np.uint8).reshape(made._bytes.shape)
    made._see()
    made._codes[:] = np.frombuffer(codes, np.uint8)
    return made
