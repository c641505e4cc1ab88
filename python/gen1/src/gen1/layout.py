"""The 384 bytes of a battle as a numpy type, field by field (docs/LAYOUT.md)."""

import numpy as np

# The fields of docs/LAYOUT.md, in its order; "<u2" is little-endian.
MEMBER = np.dtype(
    [
        ("species", "u1"),
        ("level", "u1"),
        ("max_hp", "<u2"),
        ("hp", "<u2"),
        ("stats", "<u2", 4),
        ("status", "u1"),
        ("moves", "u1", 4),
        ("pp", "u1", 4),
        ("mark", "u1"),
    ]
)
ACTIVE = np.dtype(
    [
        ("place", "u1"),
        ("types", "u1", 2),
        ("stages", "u1", 6),
        ("stats", "<u2", 4),
        ("conditions", "<u4"),
        ("substitute", "u1"),
        ("confusion", "u1"),
        ("disabled_slot", "u1"),
        ("disabled_turns", "u1"),
        ("bad_poison", "u1"),
        ("turns", "u1"),
        ("energy", "<u2"),
        ("current_move", "u1"),
        ("picked_move", "u1"),
        ("kept_accuracy", "u1"),
        ("zeros", "u1", 4),
    ]
)
SIDE = np.dtype([("members", MEMBER, 6), ("active", ACTIVE)])
BATTLE = np.dtype(
    [
        ("version", "u1"),
        ("turn", "<u2"),
        ("last_damage", "<u2"),
        ("index", "u1"),
        ("numbers", "u1", 10),
        ("outcome", "u1"),
        ("requests", "u1", 2),
        ("rules", "u1"),
        ("limit", "<u2"),
        ("zeros", "u1", 2),
        ("sides", SIDE, 2),
    ]
)
