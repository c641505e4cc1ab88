"""The knowledge that one side of a battle may have, and the teller that
reports the battle to it (docs/MECHANICS.md, "Player's view").
"""

from __future__ import annotations

from collections.abc import Iterable
from ctypes import byref, c_size_t, create_string_buffer, sizeof
from dataclasses import dataclass
from functools import lru_cache
from struct import Struct
from typing import TYPE_CHECKING, Any

from gen1 import _library
from gen1._check import a_form, by_number, digits, first_false, listed, octets, shown, struct_from, truth, whole, within
from gen1._structs import (
    ANNOUNCED,
    LOG_ROOM,
    OwnMemberStruct,
    PlayerStruct,
    PlayerTermsStruct,
    PublicSideStruct,
    SeenStruct,
    TellerStruct,
    reader,
)
from gen1.battle import Battle, TeamLike
from gen1.choices import Choice, Rules, Side, a_side
from gen1.errors import BadArgument, BadLog, BadTeam, BadType
from gen1.messages import Message, a_message
from gen1.names import AsleepBy, HpForm, LogFault, Move, NewFault, Outcome, Request, Species, Stat, Status, Type
from gen1.own_sides import OwnSide, mask_fault, own_fault, own_side_from
from gen1.spectators import fault_place, held_fault
from gen1.states import KEPT, stage_in, stages_of, struct_of_state
from gen1.teams import as_team

if TYPE_CHECKING:
    from _typeshed import ReadableBuffer

CHOICES = tuple(Choice)
# The bit of each choice in a mask, by the choice's number.
_BITS = {int(it): 1 << bit for bit, it in enumerate(CHOICES)}


@dataclass(frozen=True)
class SeenMove:
    """A move that a member was seen to prepare or to use, and how often
    it used it: 0 to 255, where 255 means 255 or more. A use that may be
    the continuation of an earlier one, without PP, is not counted.
    """

    move: Move
    uses: int


@dataclass(frozen=True)
class Seen:
    """A member as the log last showed it.

    `hp` is 0 to `max_hp`, which is 48 or 100 for a foe whose HP is given as
    the bar or in hundredths. `asleep_by` is what put it to sleep, None
    while it is awake, and `slept` how many turns it has slept so far: 0 to
    6, by its own Rest 0 or 1. `moves` are those that it was seen to prepare
    or to use, at most five (four and Struggle), in the order in which they
    were first seen.
    """

    species: Species
    level: int
    hp: int
    max_hp: int
    status: Status
    moves: tuple[SeenMove, ...]
    asleep_by: AsleepBy | None = None
    slept: int = 0


@dataclass(frozen=True)
class Announced:
    """The conditions of the active member that the log has announced and not
    ended.

    `seeded` is Leech Seed, and `toxic` says that its poison is that of
    Toxic. `toxic_count` is the counter of that poison, 0 to 64: the next
    damage by poison, a burn or Leech Seed is multiplied by one more. The
    move of `charging` is the last move. `invulnerable` is out of reach by
    Fly or Dig, which may outlast the move.
    """

    substitute: bool
    confused: bool
    mist: bool
    focus_energy: bool
    light_screen: bool
    reflect: bool
    seeded: bool
    toxic: bool
    disabled: bool
    rage: bool
    bide: bool
    charging: bool
    recharging: bool
    invulnerable: bool
    toxic_count: int = 0


@dataclass(frozen=True)
class PublicSide:
    """The information about a side that the log has made public.

    `members` of a player's own side are in the order of their places; those
    of the foe are the ones that have appeared, in the order in which they
    did. `place` is that of the active member in this order, from 1, or 0
    before the first comes out. `active` is the active member, or None. All
    later fields belong to it: `stages`, -6 to 6, of Attack, Defense, Speed,
    Special, accuracy and evasion; its types, the first twice for a member
    of one type; the move that it used or prepared last, None if none since
    it came out; and the announced conditions.
    """

    members: tuple[Seen, ...]
    place: int
    active: Seen | None
    stages: tuple[int, ...]
    types: tuple[Type, Type]
    last_move: Move | None
    announced: Announced

    def stage(self, stat: Stat) -> int:
        """The stage of a stat, -6 to 6. Raises `BadArgument`, `BadType`."""
        return stage_in(self.stages, stat)


class Player:
    """The knowledge that one side of a battle may have: its own side in full,
    and the part of the foe's side that the battle has shown.

    A player is computed from its own team, the rules and turn limit of the
    battle, the log that the `Teller` of its side returns, its own side as
    it is shown (`Battle.own_side`) and its choices, and from nothing else.
    No stat, DV, PP or hidden count of the foe, and no number to be drawn,
    reaches it. Pass it to a bot in place of the `Battle`.

    Two players are equal if they know the same and hold the same bytes of
    an incomplete event. A player has no hash, and is used by one thread at
    a time. `bytes` are the 488 of a `gen1_player`; `from_bytes` reads them.
    """

    __slots__ = ("_held",)
    _held: PlayerStruct

    def __init__(
        self,
        side: Side | int,
        team: TeamLike,
        foes: int | None = None,
        *,
        hp_form: HpForm | None = None,
        rules: int = 0,
        limit: int = 1000,
    ) -> None:
        """Creates the player of a side before the first update. It knows its
        own team, at full HP, and nothing about the foe.

        `foes` is how many members the foe has, 1 to 6, or None if the
        player should not know it. `hp_form` is that of its teller or host,
        the bar if it is not given; `rules` and `limit` are those of the
        battle. Raises `BadTeam`, `BadArgument`, `BadType`.
        """
        known, own, form = a_side(side), as_team(team), a_form(hp_form, HpForm.BAR)
        count = 0 if foes is None else within(foes, "foes", 1, 6)
        last, clauses = within(limit, "limit", 1, 9999), within(rules, "rules", 0, 3, Rules)
        terms = PlayerTermsStruct(limit=last, rules=clauses, foes=count, hp_form=form)
        self._held = PlayerStruct()
        answer = _library.player_begin(byref(self._held), known, byref(own._struct), byref(terms))
        if answer:
            code = NewFault(answer & 0xFF)
            raise BadTeam(code.label, member=answer >> 8 & 0xFF, code=code)

    def feed(self, told: ReadableBuffer) -> None:
        """Reads the next bytes of the log of its side's teller, in pieces of
        any size. An event counts as soon as its last byte is read.

        Raises `BadLog` if these bytes, after the held ones, are not a log,
        and `BadType`; then the player is unchanged.
        """
        given = octets(told, "told")
        code = _library.player_feed(byref(self._held), given, len(given))
        if code:
            raise BadLog(LogFault(code), fault_place(self.held + given) - len(self.held))

    def show(self, own: OwnSide, offered: Iterable[Choice | int]) -> None:
        """Replaces what the player was last shown of its side, and its
        choices, which may be in any order. Raises `BadType`, and
        `BadArgument` for the side of another team, and for no choices.
        """
        if not isinstance(own, OwnSide):
            raise BadType(f"own must be an OwnSide, not {shown(own)}")
        mask = 0
        for at, it in enumerate(listed(offered, "offered", len(CHOICES))):
            if at == len(CHOICES):
                raise BadArgument(f"offered must have at most {len(CHOICES)} choices")
            number = it if type(it) is Choice else whole(it, f"offered[{at}]", Choice)
            if number not in _BITS:
                raise BadArgument(f"offered[{at}] must be a choice, not {digits(number)}")
            mask |= _BITS[number]
        self._show(own, mask)

    def receive(self, message: Message) -> None:
        """Reads the message that the player's host sent it: its log, and what
        it is shown of itself. Call it once for each message, in order.

        Raises `BadArgument` for a message to another team, and for one that
        does not begin a later turn than the last one, such as one that was
        read before; `BadLog`, `BadType`. Then the player is unchanged.
        """
        told, own = a_message(message), message.own
        informed = self.copy()
        informed._show(own, told._held.offered)
        informed.feed(told.log)
        if own.request is Request.MOVE and not self.turn < informed.turn == own.turn:
            raise BadArgument(
                "message must be the next one: the player was at turn "
                f"{self.turn:,}, is at {informed.turn:,} after its log, and the message is of turn {own.turn:,}"
            )
        self._held = informed._held

    def _show(self, own: OwnSide, mask: int) -> None:
        if self._team != _OWN_TEAM(own._held):
            raise BadArgument(
                f"own must be the side of the player's team, {_names(self._team)}, not {_names(_OWN_TEAM(own._held))}"
            )
        _library.player_show(byref(self._held), byref(own._held), mask)

    @property
    def _team(self) -> tuple[int, ...]:
        """The species and level of each member of the player's side, by the log."""
        return _TEAM(self._held, _MEMBERS[self._held.side - 1])

    @property
    def side(self) -> Side:
        """The side that the player plays."""
        return Side(self._held.side)

    @property
    def foes(self) -> int | None:
        """How many members the foe has, 1 to 6; None if that is unknown."""
        return int(self._held.foes) or None

    @property
    def hp_form(self) -> HpForm:
        """The form in which the foe's HP is reported to it."""
        return HpForm(self._held.hp_form)

    @property
    def rules(self) -> Rules:
        """The rules of the battle."""
        return Rules(self._held.rules)

    @property
    def limit(self) -> int:
        """The last turn of the battle, 1 to 9,999."""
        return int(self._held.limit)

    @property
    def own(self) -> OwnSide:
        """Its side as it was last shown; at first it has no members."""
        return own_side_from(bytes(self._held.own))

    def public(self, side: Side | int) -> PublicSide:
        """The information about a side that the log has made public."""
        return _public(_SIDE(self._held, _MEMBERS[a_side(side) - 1])[0])

    @property
    def foe(self) -> PublicSide:
        """The information about the foe that the log has made public."""
        return _public(_SIDE(self._held, _MEMBERS[2 - self._held.side])[0])

    @property
    def choices(self) -> tuple[Choice, ...]:
        """The choices that the side is offered, in rising order; none before
        `show`, and none once the battle is over.
        """
        return _choices_in(self._held.offered)

    @property
    def turn(self) -> int:
        """The turn, 1 to 9,999; 0 before the first."""
        return int(self._held.known.turn)

    @property
    def outcome(self) -> Outcome:
        """The outcome so far, from the log."""
        return Outcome(self._held.known.outcome)

    @property
    def held(self) -> bytes:
        """The bytes, at most 9, of an incomplete event."""
        return bytes(self._held.held[: self._held.held_count])

    def copy(self) -> Player:
        """An independent copy that knows the same."""
        return _player(bytes(self._held))

    __copy__ = copy

    def __deepcopy__(self, _: object) -> Player:
        return self.copy()

    @classmethod
    def from_bytes(cls, data: ReadableBuffer) -> Player:
        """The player with these bytes. Raises `BadArgument` for a field that
        is out of its range, and `BadType`.
        """
        return _player(bytes(struct_from(data, PlayerStruct, "a player", _player_fault)))

    def __bytes__(self) -> bytes:
        return bytes(self._held)

    def __reduce__(self) -> tuple[Any, ...]:
        return _player, (bytes(self._held),)

    def __eq__(self, other: object) -> bool:
        if not isinstance(other, Player):
            return NotImplemented
        return bytes(self._held) == bytes(other._held)

    __hash__ = None  # type: ignore[assignment]

    def __repr__(self) -> str:
        return f"<Player of {self.side.label}, turn {self.turn}, {self.outcome.label}>"


class Teller:
    """Reports the events of a battle to one side. The host of the battle keeps
    a teller for each side.

    A side must not see the foe's places, so its log numbers the foe's
    members in the order in which they appeared. The foe's HP is reported
    as the bar shows it, or in another form. Everything else is reported
    unchanged. Two tellers are equal if they report the same; a teller has
    no hash. A teller must be used by one thread at a time. `bytes` of a
    teller are the 8 bytes of a `gen1_teller`.
    """

    __slots__ = ("_held",)
    _held: TellerStruct

    def __init__(self, side: Side | int, pixels: bool = True, *, hp_form: HpForm | None = None) -> None:
        """Creates the teller of a side before the first event of a battle.

        The foe's HP is reported in the form `hp_form`; without it as the
        bar of 48 pixels, or as it is if `pixels` is False. Raises
        `BadArgument`, `BadType`.
        """
        known, form = a_side(side), a_form(hp_form, HpForm(truth(pixels, "pixels")))
        self._held = TellerStruct()
        _library.teller_begin(byref(self._held), known, form)

    @property
    def side(self) -> Side:
        """The side to which it reports."""
        return Side(self._held.side)

    @property
    def hp_form(self) -> HpForm:
        """The form in which the foe's HP is reported."""
        return HpForm(self._held.pixels)

    @property
    def pixels(self) -> bool:
        """Whether the foe's HP is reported as the bar of 48 pixels."""
        return self.hp_form is HpForm.BAR

    @property
    def places(self) -> tuple[int, ...]:
        """The places of the foe's members that have appeared, in that order."""
        return tuple(it for it in self._held.places if it)

    def tell(self, log: ReadableBuffer) -> bytes:
        """The log of an update as it is reported to the side: as many log
        bytes. Call it once for each update, in order.

        Raises `BadLog`, `BadArgument` for more than 512 bytes, `BadType`;
        then the teller is unchanged.
        """
        given = octets(log, "log")
        if len(given) > LOG_ROOM:
            raise BadArgument(f"log must be the log of one update, at most {LOG_ROOM} bytes, not {len(given):,}")
        told, length = create_string_buffer(LOG_ROOM), c_size_t(0)
        code = _library.tell(byref(self._held), given, len(given), told, LOG_ROOM, byref(length))
        if code:
            raise BadLog(LogFault(code), fault_place(given))
        return told.raw[: length.value]

    def report(self, battle: Battle, log: ReadableBuffer, player: Player) -> None:
        """Reports the log of an update to a player, and shows it its own side
        and its choices in the current battle. The player's form of HP
        becomes the teller's, and its rules and limit the battle's.

        For a room, whose battle a forfeit does not change, use `tell`,
        `Player.feed` and `Player.show` with `room.choices`. Raises
        `BadLog`, `BadType`, and `BadArgument` for a player of the other
        side or with another team, and for a log that does not end at the
        battle's turn, such as one that was skipped or repeated; then
        teller and player are unchanged.
        """
        for value, kind, name in ((battle, Battle, "battle"), (player, Player, "player")):
            if not isinstance(value, kind):
                raise BadType(f"{name} must be a {kind.__name__}, not {shown(value)}")
        if player.side is not self.side:
            raise BadArgument(f"player must be of {self.side.label}, like the teller, not of {player.side.label}")
        teller, informed, own = self.copy(), player.copy(), battle.own_side(self.side)
        informed.show(own, battle.choices(self.side))
        informed.feed(teller.tell(log))
        informed._held.hp_form = self.hp_form
        terms = struct_of_state(battle._held)
        informed._held.rules, informed._held.limit = terms.rules, terms.limit
        begins = own.request is Request.MOVE
        if informed._team != _OWN_TEAM(own._held) or begins and not player.turn < informed.turn == own.turn:
            raise BadArgument(
                "log is not that of the battle's last update, or was reported before: the player was at turn "
                f"{player.turn:,}, is at {informed.turn:,} after the log, and the battle at {own.turn:,}"
            )
        self._held, player._held = teller._held, informed._held

    def copy(self) -> Teller:
        """An independent copy that reports the same."""
        return _teller(bytes(self._held))

    __copy__ = copy

    def __deepcopy__(self, _: object) -> Teller:
        return self.copy()

    @classmethod
    def from_bytes(cls, data: ReadableBuffer) -> Teller:
        """The teller with these bytes, which are the host's. Raises
        `BadArgument` for a field that is out of its range, and `BadType`.
        """
        return _teller(bytes(struct_from(data, TellerStruct, "a teller", _teller_fault)))

    def __bytes__(self) -> bytes:
        return bytes(self._held)

    def __reduce__(self) -> tuple[Any, ...]:
        return _teller, (bytes(self._held),)

    def __eq__(self, other: object) -> bool:
        if not isinstance(other, Teller):
            return NotImplemented
        return bytes(self._held) == bytes(other._held)

    __hash__ = None  # type: ignore[assignment]

    def __repr__(self) -> str:
        forms = {HpForm.EXACT: "", HpForm.BAR: ", in pixels", HpForm.HUNDREDTHS: ", in hundredths"}
        return f"<Teller of {self.side.label}{forms[self.hp_form]}>"


@lru_cache(KEPT)
def _choices_in(mask: int) -> tuple[Choice, ...]:
    return tuple(it for at, it in enumerate(CHOICES) if mask >> at & 1)


@lru_cache(KEPT)
def _seen(held: bytes) -> Seen:
    """The member with these bytes. Most members did not change since they were last asked for."""
    of = _SEEN(held)
    pairs = zip(of["moves"][::2], of["moves"][1::2])
    moves = tuple([SeenMove(_MOVE[number], uses) for number, uses in pairs if number])
    by = _ASLEEP_BY.get(of["asleep_by"])
    return Seen(
        _SPECIES[of["species"]], of["level"], of["hp"], of["max"], _STATUS[of["status"]], moves, by, of["slept"]
    )


@lru_cache(KEPT)
def _public(held: bytes) -> PublicSide:
    """The public side with these bytes, which is asked for more than once a turn."""
    of = _PUBLIC(held)
    seen = [_seen(it) if it != _NOBODY else None for it in _SEEN_BY_PLACE(of["members"])]
    told = dict(zip(ANNOUNCED, of["announced"]))
    count = told.pop("toxic_count")
    flags = {name: bool(flag) for name, flag in told.items()}
    return PublicSide(
        members=tuple([it for it in seen if it]),
        place=of["place"],
        active=seen[of["place"] - 1] if of["place"] else None,
        stages=stages_of(of["stages"]),
        types=(_TYPE[of["first_type"]], _TYPE[of["second_type"]]),
        last_move=_MOVE[of["last_move"]] if of["last_move"] else None,
        announced=Announced(**flags, invulnerable=bool(of["invulnerable"]), toxic_count=count),
    )


def _player_fault(of: PlayerStruct) -> str | None:
    """The field of a player that does not fit the others."""
    return (
        _public_fault(of.known.sides[0])
        or _public_fault(of.known.sides[1])
        # Before the first time nothing is shown.
        or (own_fault(of.own) if any(bytes(of.own)) else None)
        or mask_fault(of)
        or first_false([("limit", of.limit), ("side", of.side)])
        or held_fault(of)
    )


def _public_fault(of: PublicSideStruct) -> str | None:
    tests: list[tuple[str, object]] = []
    for it in of.members:
        if any(bytes(it)):
            tests += [("species", it.species), ("level", it.level), ("hp", it.hp <= it.max), ("max", it.max >= 11)]
            tests.append(("uses", all(move.id or not move.uses for move in it.moves)))
    return first_false([*tests, ("place", not of.place or of.members[of.place - 1].species)])


def _teller_fault(of: TellerStruct) -> str | None:
    places = [it for it in of.places if it]
    is_teller = places == of.places[: len(places)] and len(places) == len(set(places))
    return first_false([("side", of.side), ("places", is_teller)])


def _names(team: tuple[int, ...]) -> str:
    """The members of a team, from the species and level of each."""
    pairs = zip(team[::2], team[1::2])
    return ", ".join(f"{Species(species)} at level {level}" for species, level in pairs if species) or "nobody"


# Reads the species and level of each member of a side: of a player's team, from the place of its side, and of an own side.
_TEAM = Struct(6 * f"{SeenStruct.species.offset}x2B{sizeof(SeenStruct) - SeenStruct.species.offset - 2}x").unpack_from
_OWN_TEAM = Struct(6 * f"2B{sizeof(OwnMemberStruct) - 2}x").unpack_from
_MEMBERS = [PlayerStruct.known.offset + at * sizeof(PublicSideStruct) for at in range(2)]
# Reads the bytes of a public side from the same places, and of such a side the bytes of each member.
_SIDE = Struct(f"{sizeof(PublicSideStruct)}s").unpack_from
_SEEN_BY_PLACE = Struct(6 * f"{sizeof(SeenStruct)}s").unpack
_SEEN, _PUBLIC = reader(SeenStruct), reader(PublicSideStruct)
_NOBODY = bytes(sizeof(SeenStruct))
_SPECIES, _MOVE, _STATUS, _TYPE = by_number(Species), by_number(Move), by_number(Status), by_number(Type)
_ASLEEP_BY = by_number(AsleepBy)


def _player(held: bytes) -> Player:
    made = Player.__new__(Player)
    made._held = PlayerStruct.from_buffer_copy(held)
    return made


def _teller(held: bytes) -> Teller:
    made = Teller.__new__(Teller)
    made._held = TellerStruct.from_buffer_copy(held)
    return made
