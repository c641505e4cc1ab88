#!/usr/bin/env python3
"""Trains a linear value function for battles by self-play, and shows how often it then beats random choices.

    python3 examples/python/linear_value --out curve

It plays battles against itself, and after each step moves the value of a side's previous observation toward the value of its current one
(TD(0)). From time to time it plays test battles against random choices. OUT becomes a folder with curve.csv, curve.png (curve.svg
without matplotlib) and weights.csv. The same arguments give the same curve, on the same machine with the same numpy.
"""

import argparse
import os
import sys
import time
from pathlib import Path

# One core, so that sums do not depend on the number of cores.
os.environ.setdefault("OPENBLAS_NUM_THREADS", "1")
try:
    import numpy as np
except ImportError:
    sys.exit(
        f"linear_value: {sys.executable} has no numpy (tools/setup python installs Debian's, for /usr/bin/python3)"
    )
try:
    from gen1 import Error
except ImportError:
    sys.exit("linear_value: gen1 is not installed; see README.md")

import curve


def at_least(least):
    """A whole number from `least` on, for argparse."""

    def number(text):
        value = int(text)
        if value < least:
            raise argparse.ArgumentTypeError(f"must be {least} or more, not {value}")
        return value

    return number


def parser():
    made = argparse.ArgumentParser(
        prog="linear_value", description=__doc__, formatter_class=argparse.RawDescriptionHelpFormatter
    )
    made.add_argument("--rounds", type=at_least(1), default=120, metavar="N", help="rounds of self-play (%(default)s)")
    made.add_argument("--battles", type=at_least(1), default=16, metavar="N", help="battles of a round (%(default)s)")
    made.add_argument(
        "--every", type=at_least(1), default=4, metavar="N", help="rounds between two tests (%(default)s)"
    )
    made.add_argument("--tested", type=at_least(2), default=400, metavar="N", help="battles of a test (%(default)s)")
    made.add_argument("--rate", type=float, default=0.02, metavar="R", help="the learning rate (%(default)s)")
    made.add_argument(
        "--chance",
        type=float,
        default=0.1,
        metavar="P",
        help="the chance of a random choice in self-play (%(default)s)",
    )
    made.add_argument(
        "--seed", type=at_least(0), default=1, metavar="N", help="another seed gives another curve (%(default)s)"
    )
    made.add_argument("--out", type=Path, metavar="OUT", help="the folder for the files; none is written without it")
    return made


def trained(asked, each):
    """Trains: the weights, and the points of the curve. Calls a function with each point."""
    import value

    learning, testing = (np.random.default_rng((asked.seed, which)) for which in (0, 1))
    weights, points, steps = np.zeros(len(value.NAMES)), [], 0
    for done in range(asked.rounds + 1):
        if done % asked.every == 0 or done == asked.rounds:
            won = value.against_random(weights, asked.tested, testing)
            points.append(curve.point(done * asked.battles, steps, asked.tested, *won))
            each(points[-1])
        if done < asked.rounds:
            steps += value.learn(weights, asked.battles, learning, asked.rate, asked.chance)
    return dict(zip(value.NAMES, weights)), points


def shown(point):
    """Prints a point."""
    print(
        f"{point.battles:7} {point.won:5} of {point.tested}  {point.share:6.1%}  {point.low:.1%} to {point.high:.1%}",
        flush=True,
    )


def write(weights, points, out):
    """Writes the files."""
    out.mkdir(parents=True, exist_ok=True)
    (out / "curve.csv").write_text(curve.as_csv(points))
    (out / "weights.csv").write_text(
        "feature,weight\n" + "".join(f"{name},{weight:.6f}\n" for name, weight in weights.items())
    )
    print(curve.draw(points, out))


def main():
    asked, begun = parser().parse_args(), time.monotonic()
    try:
        print("battles    won          share  95 % interval")
        weights, points = trained(asked, shown)
        if asked.out:
            write(weights, points, asked.out)
        most = sorted(weights, key=lambda name: -abs(weights[name]))[:6]
        print("what it values most: " + ", ".join(f"{name} {weights[name]:+.2f}" for name in most), flush=True)
    except (Error, OSError) as fault:
        print(f"linear_value: {fault}", file=sys.stderr)
        return 1
    except KeyboardInterrupt:
        return 130
    print(f"{time.monotonic() - begun:.0f} s", file=sys.stderr)
    return 0


if __name__ == "__main__":
    sys.exit(main())
