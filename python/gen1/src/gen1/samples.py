"""Sample teams, and random teams.

The sample teams are those of examples/teams, whose README says where
they come from: well-known sets, put together for this project. To
general knowledge a cartridge allows them. Nothing checks that, since the
repository has no table of the moves that each species can learn.
"""

from __future__ import annotations

import os
import sys
from ctypes import byref
from functools import cache, lru_cache
from random import Random
from typing import TYPE_CHECKING

from gen1 import _library
from gen1._check import shown, truth, within
from gen1.errors import BadType
from gen1.names import Species
from gen1.rows import SAMPLE_TEAMS
from gen1.team_text import dict_of
from gen1.teams import Member, Team

if TYPE_CHECKING:
    from numpy.random import Generator


def sample_teams() -> dict[str, Team]:
    """Twelve teams of six by their names, such as "starmie_lead".

    They are those of examples/teams: well-known sets, put together for
    this project. To general knowledge a cartridge allows them; that was
    not checked against a table of the moves that species can learn.
    """
    return dict(_teams())


@cache
def _teams() -> dict[str, Team]:
    found = {}
    for number, name in enumerate(SAMPLE_TEAMS, 1):
        made = _library.TeamStruct()
        _library.sample_team(number, byref(made))
        found[name] = _team(made)
    return found


def _team(made: _library.TeamStruct) -> Team:
    """The team of a struct that the library wrote."""
    return Team(_member(bytes(made.members[at])) for at in range(made.count))


@lru_cache(maxsize=256)
def _member(data: bytes) -> Member:
    """The member with the bytes of a struct. Those of the sample teams are made once."""
    return Member.from_dict(dict_of(_library.MemberStruct.from_buffer_copy(data)))


def sample_sets(species: Species | str | int | None = None) -> tuple[Member, ...]:
    """The distinct members of the sample teams, or those of a species.

    The result is empty for a species that no sample team has. Raises
    `BadTeam` for an unknown species.
    """
    known = None if species is None else Member(species, ["Pound"]).species
    found = dict.fromkeys(it for team in _teams().values() for it in team)
    return tuple(it for it in found if known in (None, it.species))


def random_team(seed: int | Random | Generator | None = None, legal: bool = True, count: int = 6) -> Team:
    """A random team of `count` members, 1 to 6, of different species at level
    100. `seed` is a number from 0 to 2 ** 64 - 1, or a `random.Random` or a
    generator of numpy, such as an environment passes, that draws one; None
    takes one of the operating system.

    With `legal`, each member comes from the sample teams, `sample_sets()`.
    Without it, species and moves are any that the engine accepts, and a
    cartridge need not allow them.

    Equal seeds make equal teams, in every language; so do equal generators.
    Raises `BadArgument`, `BadType`.
    """
    number, made = _number(seed), _library.TeamStruct()
    size = within(count, "count", 1, 6)
    _library.random_team(number, size, not truth(legal, "legal"), byref(made))
    return _team(made)


def _number(seed: object) -> int:
    """The number of a seed. The package also runs without numpy."""
    if seed is None:
        return int.from_bytes(os.urandom(8), "little")
    if isinstance(seed, Random):
        return seed.getrandbits(64)
    numpy = sys.modules.get("numpy")
    if numpy is not None and isinstance(seed, numpy.random.Generator):
        return int(seed.integers(1 << 63))
    if not hasattr(seed, "__index__") or isinstance(seed, bool):
        raise BadType(f"seed must be an int, a random.Random or a numpy.random.Generator, not {shown(seed)}")
    return within(seed, "seed", 0, (1 << 64) - 1)
