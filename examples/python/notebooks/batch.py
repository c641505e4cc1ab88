"""A batch: thousands of battles at once with numpy, how long they last, and the speed.

    python3 examples/python/notebooks/batch.py [PICTURE]

A notebook as a script: many editors can run the cells below (# %%) one by one. It needs numpy, and matplotlib for the plot.
"""

# %% One battle, ten thousand seeds
import sys
import time

import matplotlib

matplotlib.use("Agg" if len(sys.argv) > 1 else matplotlib.get_backend())
import matplotlib.pyplot as plt
import numpy as np
from gen1 import Battle, BattleArray, Member, Outcome

team = [
    Member("Starmie", ["Surf", "Thunderbolt", "Recover"]),
    Member("Tauros", ["Body Slam", "Hyper Beam", "Earthquake"]),
]
dice = np.random.default_rng(1)
count = 10_000
battles = BattleArray(count, Battle(team, team, bytes(10)), dice.integers(0, 256, (count, 10), np.uint8))

# %% All of them to their end, with random choices
steps, begun = 0, time.perf_counter()
while not battles.over.all():
    battles.random_step(dice)
    steps += int((battles.codes == 0).sum())
seconds = time.perf_counter() - begun
print(f"{steps} updates in {seconds:.2f} s: {steps / seconds / 1e6:.2f} million a second, choices and masks included")

# %% How they ended
for outcome in (Outcome.WIN_ONE, Outcome.WIN_TWO, Outcome.TIE):
    print(f"{outcome.label:8} {(battles.outcomes == outcome).mean():6.1%}")
assert abs((battles.outcomes == Outcome.WIN_ONE).mean() - 0.5) < 0.05

# %% How long they lasted
turns = battles.fields["turn"]
figure, axes = plt.subplots(figsize=(8, 3), layout="constrained")
axes.hist(turns, bins=range(0, int(turns.max()) + 2))
axes.set_xlabel("turns")
axes.set_ylabel("battles")
if len(sys.argv) > 1:
    figure.savefig(sys.argv[1], dpi=120)
else:
    plt.show()
