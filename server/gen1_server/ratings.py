"""Glicko-2 ratings (Glickman, "Example of the Glicko-2 system"). A rating period is one battle."""

from collections.abc import Iterable
from dataclasses import dataclass
from math import exp, log, pi, sqrt

# Glickman's system constant, his factor between both scales, and the middle of the rating scale.
TAU, SCALE, BASE = 0.5, 173.7178, 1500.0
# How close step 5 comes to its root.
TOLERANCE = 1e-6


@dataclass(frozen=True, slots=True)
class Rating:
    """A rating with its deviation and volatility. The defaults are those of a
    new player.
    """

    rating: float = BASE
    deviation: float = 350.0
    volatility: float = 0.06


def rated(own: Rating, results: Iterable[tuple[Rating, float]]) -> Rating:
    """The rating after a period with these foes, and the score against each:
    1, 0.5 or 0.
    """
    mu, phi = (own.rating - BASE) / SCALE, own.deviation / SCALE
    inverse, gained = 0.0, 0.0
    for foe, score in results:
        weight = 1 / sqrt(1 + 3 * (foe.deviation / SCALE) ** 2 / pi**2)
        expected = 1 / (1 + exp(-weight * (mu - (foe.rating - BASE) / SCALE)))
        inverse += weight**2 * expected * (1 - expected)
        gained += weight * (score - expected)
    if not inverse:
        return Rating(own.rating, sqrt(phi**2 + own.volatility**2) * SCALE, own.volatility)
    variance = 1 / inverse
    volatility = _volatility(own.volatility, phi, variance, variance * gained)
    new_phi = 1 / sqrt(1 / (phi**2 + volatility**2) + inverse)
    return Rating((mu + new_phi**2 * gained) * SCALE + BASE, min(new_phi * SCALE, 350.0), volatility)


def _volatility(sigma: float, phi: float, variance: float, delta: float) -> float:
    """The new volatility: the root of step 5, by the Illinois algorithm."""
    start, spread = log(sigma**2), phi**2 + variance

    def off(x: float) -> float:
        e = exp(x)
        return e * (delta**2 - spread - e) / (2 * (spread + e) ** 2) - (x - start) / TAU**2

    low = start
    if delta**2 > spread:
        high = log(delta**2 - spread)
    else:
        steps = 1
        while off(start - steps * TAU) < 0:
            steps += 1
        high = start - steps * TAU
    at_low, at_high = off(low), off(high)
    while abs(high - low) > TOLERANCE:
        middle = low + (low - high) * at_low / (at_high - at_low)
        at_middle = off(middle)
        if at_middle * at_high <= 0:
            low, at_low = high, at_high
        else:
            at_low /= 2
        high, at_high = middle, at_middle
    return exp(low / 2)
