"""Members and teams (docs/MECHANICS.md, "Teams"), and their conversion from
and to dicts. The library checks the rules of teams.
"""

from __future__ import annotations

from collections.abc import Iterable, Iterator, Mapping
from ctypes import byref, c_uint16
from dataclasses import dataclass, field
from typing import Any, overload

from gen1 import _library
from gen1._check import byte, count_text, cut, digits, listed, move, nearest, place, shown, whole
from gen1._check import species as a_species
from gen1._structs import BattleBytes
from gen1.errors import BadTeam, BadType
from gen1.names import Move, Named, NewFault, Species
from gen1.team_text import packed_of, read_packed, read_text, text_of

STATS = c_uint16 * 5
KEYS = ("species", "level", "dvs", "exp", "moves")
FIELDS = {
    NewFault.LEVEL: "level",
    NewFault.DV: "dvs",
    NewFault.PP_UPS: "pp_ups",
    NewFault.NO_SUCH_SPECIES: "species",
    NewFault.EMPTY: "members",
    NewFault.TOO_MANY: "members",
}
# The rule of the field that a fault is about, in words.
MUST = {
    NewFault.LEVEL: "must be 1 to 100",
    NewFault.DV: "must be 0 to 15 each",
    NewFault.NO_MOVE: "must be one to four",
    NewFault.MOVE_LEFT_OUT: "must be without Mimic, Metronome, Mirror Move and Transform",
    NewFault.STRUGGLE: "must be without Struggle",
    NewFault.REPEATED_MOVE: "must be different",
    NewFault.PP_UPS: "must be 0 to 3 each",
}


@dataclass(frozen=True, init=False, repr=False)
class Member:
    """A member of a team. Every way to create one checks it by the rules of
    teams, and raises `BadTeam` or `BadType`.

    `species` is 1 to 151, `level` 1 to 100. `moves` are one to four
    different moves, each with 0 to 3 `pp_ups`. `dvs` are four numbers from
    0 to 15: Attack, Defense, Speed, Special. `exp` are five from 0 to
    65,535: HP, Attack, Defense, Speed, Special.
    """

    species: Species
    moves: tuple[Move, ...]
    level: int
    dvs: tuple[int, int, int, int]
    exp: tuple[int, int, int, int, int]
    pp_ups: tuple[int, ...]

    def __init__(
        self,
        species: Species | str | int,
        moves: Iterable[Move | str | int],
        level: int = 100,
        dvs: Iterable[int] = (15, 15, 15, 15),
        exp: Iterable[int] = (65535, 65535, 65535, 65535, 65535),
        pp_ups: Iterable[int] | None = None,
    ) -> None:
        known = tuple(move(it, f"moves[{at}]") for at, it in enumerate(listed(moves, "moves", 4)))
        if len(known) > 4:
            raise BadTeam(f"a member has at most 4 moves, not {count_text(moves, known, 4)}", field="moves")
        ups = (3,) * len(known) if pp_ups is None else numbers(pp_ups, "pp_ups", len(known))
        values = (a_species(species), known, whole(level, "level"), numbers(dvs, "dvs", 4), numbers(exp, "exp", 5), ups)
        for name, value in zip(("species", "moves", "level", "dvs", "exp", "pp_ups"), values):
            object.__setattr__(self, name, value)
        for at, it in enumerate(self.exp):
            if not 0 <= it <= 65535:
                raise BadTeam(f"exp[{at}] must be 0 to 65,535, not {digits(it)}", field="exp")
        _test([self])

    @property
    def stats(self) -> tuple[int, ...]:
        """Its maximum HP, 11 to 999, and its own Attack, Defense, Speed and
        Special, 5 to 999.
        """
        found = STATS()
        _library.member_stats(byref(struct_of([self]).members[0]), found)
        return tuple(found)

    @classmethod
    def from_dict(cls, given: Mapping[str, Any]) -> Member:
        """The member that a dict describes: "species", "moves", and optionally
        "level", "dvs" and "exp", as in `Member(..)`.

        Each move is a name, with three PP ups, or a pair of a name and its
        PP ups. An unknown key raises `BadTeam` too.
        """
        if not isinstance(given, Mapping):
            raise BadType(f"it must be a Member or a dict, not {shown(given)}")
        for key in given:
            if key not in KEYS:
                near = nearest(key, KEYS) if isinstance(key, str) else None
                meant = f"; did you mean {near!r}?" if near else f"; a member has {', '.join(KEYS)}"
                raise BadTeam(f"unknown key {cut(repr(key))}{meant}", field=cut(str(key)))
        for key in ("species", "moves"):
            if key not in given:
                raise BadTeam(f"the key {key!r} is missing; a member needs species and moves", field=key)
        pairs = [_pair(it, f"moves[{at}]") for at, it in enumerate(listed(given["moves"], "moves", 4))]
        others = {key: given[key] for key in ("level", "dvs", "exp") if key in given}
        return cls(given["species"], [it for it, _ in pairs], pp_ups=[ups for _, ups in pairs], **others)

    def to_dict(self) -> dict[str, Any]:
        """The dict from which `from_dict` creates this member. It can be
        written as JSON.
        """
        moves = [[it.label, ups] for it, ups in zip(self.moves, self.pp_ups)]
        return {
            "species": self.species.label,
            "level": self.level,
            "dvs": list(self.dvs),
            "exp": list(self.exp),
            "moves": moves,
        }

    def __repr__(self) -> str:
        """The call that creates it, without the arguments that have default
        values.
        """
        named = [f"{self.species.label!r}", f"{[it.label for it in self.moves]!r}"]
        for name, usual in (
            ("level", 100),
            ("dvs", (15,) * 4),
            ("exp", (65535,) * 5),
            ("pp_ups", (3,) * len(self.moves)),
        ):
            if getattr(self, name) != usual:
                named.append(f"{name}={getattr(self, name)!r}")
        return f"Member({', '.join(named)})"

    def _text(self, name: str) -> str:
        """A field as text for an error message."""
        found = getattr(self, name)
        return _shown(found) if not isinstance(found, tuple) else f"[{', '.join(map(_shown, found))}]"


@dataclass(frozen=True, init=False)
class Team:
    """One to six members. Every way to create a team checks it by the rules of
    teams, and raises `BadTeam` or `BadType`.
    """

    members: tuple[Member, ...]
    _struct: _library.TeamStruct = field(init=False, repr=False, compare=False)

    def __init__(self, members: Iterable[Member | Mapping[str, Any]]) -> None:
        given = listed(members, "a team", 6)
        _test_count(len(given), count_text(members, given, 6))
        found = tuple(_member(at, it) for at, it in enumerate(given, 1))
        object.__setattr__(self, "members", found)
        object.__setattr__(self, "_struct", struct_of(found))

    @classmethod
    def from_dicts(cls, given: Iterable[Mapping[str, Any]]) -> Team:
        """The team of these dicts, each as in `Member.from_dict`."""
        return cls(given)

    def to_dicts(self) -> list[dict[str, Any]]:
        """The dicts of the members, which can be written as JSON."""
        return [it.to_dict() for it in self.members]

    @classmethod
    def from_text(cls, text: str) -> Team:
        """The team in a text of Pokemon Showdown's team builder
        (docs/TEAM_TEXT.md).

        The defaults are level 100, DVs of 15 and experience of 63,504; each
        move has three PP ups. Raises `BadText` with the line, and the form
        that was expected there.
        """
        return cls(read_text(text))

    @classmethod
    def from_packed(cls, line: str) -> Team:
        """The team in a packed line of the team builder. Raises `BadText` with
        the member and its field, from 1.
        """
        return cls(read_packed(line))

    def to_text(self) -> str:
        """A text that `from_text` reads as a team with the same stats, moves
        and PP.

        Texts have EVs instead of experience, so the experience that is read
        may differ. In texts each move has three PP ups; a team with other
        PP ups raises `BadArgument`.
        """
        return text_of(self._struct)

    def to_packed(self) -> str:
        """A packed line with a line feed, which `from_packed` reads, and which
        raises as `to_text` does.
        """
        return packed_of(self._struct)

    def __len__(self) -> int:
        return len(self.members)

    @overload
    def __getitem__(self, at: int) -> Member:
        ...

    @overload
    def __getitem__(self, at: slice) -> tuple[Member, ...]:
        ...

    def __getitem__(self, at: int | slice) -> Member | tuple[Member, ...]:
        """The member at an index from 0, or those of a slice. Raises
        `BadPlace`, which is also an `IndexError`.
        """
        return self.members[at] if isinstance(at, slice) else self.members[place(at, len(self))]

    def __iter__(self) -> Iterator[Member]:
        return iter(self.members)

    def __reduce__(self) -> tuple[Any, ...]:
        return Team, (self.members,)


def as_team(given: Team | Iterable[Member | Mapping[str, Any]]) -> Team:
    """A team, or the team of these members or dicts."""
    return given if isinstance(given, Team) else Team(given)


def numbers(value: object, what: str, count: int) -> tuple[Any, ...]:
    """Exactly `count` whole numbers, of any size."""
    found = tuple(whole(it, f"{what}[{at}]") for at, it in enumerate(listed(value, what, count)))
    if len(found) != count:
        raise BadTeam(f"{what} must be {count} numbers, not {count_text(value, found, count)}", field=what)
    return found


def _pair(given: object, what: str) -> tuple[Any, Any]:
    """A move and its PP ups, from a name or a pair."""
    if isinstance(given, (str, int)):
        return given, 3
    pair = listed(given, what, 2)
    if len(pair) != 2:
        raise BadTeam(f"{what} must be a move, or a move and its PP ups, not {shown(given)}", field="moves")
    return pair[0], pair[1]


def _member(at: int, given: object) -> Member:
    """The member at a place of a team."""
    try:
        return given if isinstance(given, Member) else Member.from_dict(given)  # type: ignore[arg-type]
    except BadTeam as fault:
        raise fault.at(at) from None
    except BadType as fault:
        raise BadType(f"member {at}: {fault}") from None


def struct_of(members: Iterable[Member]) -> _library.TeamStruct:
    """The library's struct of a team. A number that does not fit in a byte
    becomes one that the library refuses.
    """
    made = _library.TeamStruct()
    for it in members:
        to = made.members[made.count]
        to.species, to.level = it.species, byte(it.level)
        to.dvs[:], to.exp[:] = [byte(dv) for dv in it.dvs], it.exp
        to.moves[: len(it.moves)] = it.moves
        to.pp_ups[: len(it.moves)] = [byte(ups) for ups in it.pp_ups]
        made.count += 1
    return made


def _fault_of(team: _library.TeamStruct) -> NewFault | None:
    """Why the library refuses a team; None if it accepts it."""
    scratch = BattleBytes()
    answer = _library.new(byref(scratch), byref(team), byref(team), _library.SeedBytes(), 0, 1000)
    return NewFault(answer & 0xFF) if answer else None


def _shown(value: int) -> str:
    """A species or a move by its name, else the number."""
    return value.label if isinstance(value, Named) else digits(value)


def _test_count(count: int, shown_count: str) -> None:
    """Checks the number of members by the library's rules."""
    fault = _fault_of(_library.TeamStruct(count=byte(count)))
    if fault in (NewFault.EMPTY, NewFault.TOO_MANY):
        raise BadTeam(f"a team has 1 to 6 members, not {shown_count}", field="members", code=fault)


def _test(members: list[Member]) -> None:
    fault = _fault_of(struct_of(members))
    if fault is not None:
        name = FIELDS.get(fault, "moves")
        said = MUST.get(fault, fault.label)
        raise BadTeam(f"{name} {said}, not {members[0]._text(name)}", field=name, code=fault)
