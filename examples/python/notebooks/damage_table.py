"""A damage table as a plot: the damage of several moves to a defender, from the 39 numbers of each.

    python3 examples/python/notebooks/damage_table.py [PICTURE]

A notebook as a script: many editors can run the cells below (# %%) one by one. It needs matplotlib.
"""

# %% The members
import sys

import matplotlib

matplotlib.use("Agg" if len(sys.argv) > 1 else matplotlib.get_backend())
import matplotlib.pyplot as plt
from gen1 import Battle, Choice, Member, odds

attacker = Member("Tauros", ["Body Slam", "Hyper Beam", "Blizzard", "Earthquake"])
defender = Member("Starmie", ["Surf"])

# %% The numbers: for each move without and with a critical hit, and the defender's HP
told = {move.label: odds(attacker, defender, move) for move in attacker.moves}
rows = {
    (name, critical): (it.critical if critical else it.usual).numbers
    for name, it in told.items()
    for critical in (False, True)
}
battle = Battle([attacker], [defender], bytes(10))
hp = battle.update(Choice.PASS, Choice.PASS).events[1].health.max_hp
for (name, critical), numbers in rows.items():
    hits = -(-hp // max(numbers)), -(-hp // min(numbers))
    chance = told[name].critical_chance if critical else 1 - told[name].critical_chance
    kind = "critical" if critical else "usual"
    of = f"{name:12} {kind:8} {float(chance):6.1%}"
    print(f"{of} {min(numbers):4} to {max(numbers):4} of {hp} HP: {hits[0]} to {hits[1]} hits")

# %% The plot
figure, axes = plt.subplots(figsize=(8, 4), layout="constrained")
labels = [f"{name}{', critical' * critical}" for name, critical in rows]
axes.boxplot(list(rows.values()), vert=False, labels=labels, whis=(0, 100))
axes.axvline(hp, color="tab:red", label=f"{defender.species}'s {hp} HP")
axes.set_xlabel("damage, over the factors from 217 to 255")
axes.set_title(f"{attacker.species} hits {defender.species}")
axes.legend()
if len(sys.argv) > 1:
    figure.savefig(sys.argv[1], dpi=120)
else:
    plt.show()
