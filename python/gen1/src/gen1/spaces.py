"""Spaces and modes of the environments: Gymnasium's if that package is
installed, else these classes with the same methods.
"""

from collections.abc import Sequence
from enum import Enum
from importlib.util import find_spec
from typing import Any

import numpy as np
from numpy.typing import NDArray

from gen1._check import shown
from gen1.errors import BadArgument


class Discrete:
    """The whole numbers from 0 to `n` - 1."""

    def __init__(self, n: int) -> None:
        self.n, self.start = n, 0
        self.shape: tuple[int, ...] = ()
        self.dtype = np.dtype(np.int64)
        self._dice = np.random.default_rng()

    def seed(self, seed: int | None = None) -> list[int]:
        """Restarts the random numbers of `sample`."""
        self._dice = np.random.default_rng(seed)
        return [0 if seed is None else seed]

    def sample(self, mask: NDArray[Any] | None = None) -> np.int64:
        """A random number; with a mask, (n), one at which it is true, or 0 if
        it is nowhere true.
        """
        allowed = np.arange(self.n) if mask is None else np.flatnonzero(mask)
        return np.int64(self._dice.choice(allowed) if len(allowed) else 0)

    def contains(self, x: object) -> bool:
        """Whether it is one of the numbers."""
        return isinstance(x, (int, np.integer)) and not isinstance(x, bool) and 0 <= int(x) < self.n

    __contains__ = contains

    def __eq__(self, other: object) -> bool:
        return isinstance(other, Discrete) and self.n == other.n

    def __repr__(self) -> str:
        return f"Discrete({self.n})"


class MultiDiscrete:
    """Arrays of whole numbers, the number at each place from 0 to `nvec` there
    - 1.
    """

    def __init__(self, nvec: Sequence[int] | NDArray[Any]) -> None:
        self.nvec = np.array(nvec, np.int64)
        self.shape, self.dtype = self.nvec.shape, np.dtype(np.int64)
        self._dice = np.random.default_rng()

    def seed(self, seed: int | None = None) -> list[int]:
        """Restarts the random numbers of `sample`."""
        self._dice = np.random.default_rng(seed)
        return [0 if seed is None else seed]

    def sample(self, mask: Sequence[NDArray[Any]] | None = None) -> NDArray[np.int64]:
        """An array of random numbers; with a mask for each place, a number at
        which the mask is true, or 0 if it is nowhere true.
        """
        if mask is None:
            return self._dice.integers(0, self.nvec, dtype=np.int64)
        allowed = [np.flatnonzero(it) for it in mask]
        return np.array([self._dice.choice(it) if len(it) else 0 for it in allowed], np.int64)

    def contains(self, x: object) -> bool:
        """Whether it is one of the arrays."""
        if not isinstance(x, np.ndarray) or x.shape != self.shape or x.dtype.kind not in "ui":
            return False
        return bool(((x >= 0) & (x < self.nvec)).all())

    __contains__ = contains

    def __eq__(self, other: object) -> bool:
        return isinstance(other, MultiDiscrete) and np.array_equal(self.nvec, other.nvec)

    def __repr__(self) -> str:
        return f"MultiDiscrete({self.nvec})"


class Box:
    """Arrays of one shape and type, each number from `low` to `high`, which
    are numbers or arrays of that shape.
    """

    def __init__(
        self,
        low: float | NDArray[Any],
        high: float | NDArray[Any],
        shape: tuple[int, ...],
        dtype: Any = np.float32,
    ) -> None:
        self.shape, self.dtype = shape, np.dtype(dtype)
        self.low, self.high = np.full(shape, low, dtype), np.full(shape, high, dtype)
        self._dice = np.random.default_rng()

    def seed(self, seed: int | None = None) -> list[int]:
        """Restarts the random numbers of `sample`."""
        self._dice = np.random.default_rng(seed)
        return [0 if seed is None else seed]

    def sample(self) -> NDArray[Any]:
        """A random array."""
        return self._dice.uniform(self.low, self.high).astype(self.dtype)

    def contains(self, x: object) -> bool:
        """Whether it is one of the arrays."""
        if not isinstance(x, np.ndarray) or x.shape != self.shape or not np.can_cast(x.dtype, self.dtype):
            return False
        return bool(((x >= self.low) & (x <= self.high)).all())

    __contains__ = contains

    def __eq__(self, other: object) -> bool:
        if not isinstance(other, Box) or (self.shape, self.dtype) != (other.shape, other.dtype):
            return False
        return np.array_equal(self.low, other.low) and np.array_equal(self.high, other.high)

    def __repr__(self) -> str:
        return f"Box({self.low.min()}, {self.high.max()}, {self.shape}, {self.dtype})"


class AutoresetMode(Enum):
    """How a vector environment treats a battle that is over, as in
    `gymnasium.vector`.

    `NEXT_STEP`: the next step starts a new battle in its place, and ignores
    its action. `SAME_STEP`: the step that ends it starts a new battle at
    once, and the info has the last observation. `DISABLED`: the battle is
    unchanged until `reset` is called with a mask.
    """

    NEXT_STEP = "NextStep"
    SAME_STEP = "SameStep"
    DISABLED = "Disabled"


def made() -> tuple[Any, Any, Any]:
    """The classes Discrete and Box, and the base class of an environment."""
    if find_spec("gymnasium"):
        import gymnasium  # type: ignore[import]

        return gymnasium.spaces.Discrete, gymnasium.spaces.Box, gymnasium.Env
    return Discrete, Box, object


def made_for_pairs() -> Any:
    """The base class of an environment of two players."""
    if find_spec("pettingzoo"):
        import pettingzoo  # type: ignore[import]

        return pettingzoo.ParallelEnv
    return object


def made_for_vectors() -> tuple[Any, Any, Any]:
    """The class MultiDiscrete, the base class of a vector environment, and the
    enum of its modes.
    """
    if find_spec("gymnasium"):
        import gymnasium

        vector = gymnasium.vector
        return gymnasium.spaces.MultiDiscrete, vector.VectorEnv, getattr(vector, "AutoresetMode", AutoresetMode)
    return MultiDiscrete, object, AutoresetMode


def mode_of(given: object) -> AutoresetMode:
    """The mode that a name, a value, or Gymnasium's own mode means."""
    wanted = getattr(given, "value", given)
    for it in AutoresetMode:
        if wanted in (it.value, it.name, it.name.lower()):
            return it
    raise BadArgument(f"autoreset must be 'next_step', 'same_step' or 'disabled', not {shown(given)}")
