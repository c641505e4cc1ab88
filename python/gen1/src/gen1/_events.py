"""The events of a log as dataclasses (docs/MECHANICS.md, "Events"), its lines,
and the bytes of events.
"""

from __future__ import annotations

from collections.abc import Callable, Iterable, Iterator
from ctypes import c_size_t, c_uint8, create_string_buffer
from dataclasses import dataclass, fields
from functools import cache, lru_cache
from typing import TYPE_CHECKING, Any, ClassVar, TypeAlias, TypeVar

from gen1 import _library
from gen1._check import by_number, cut, listed, octets, shown, whole
from gen1.choices import Side
from gen1.errors import BadArgument, BadLog, BadType
from gen1.names import EventKind, LogFault, Move, Reason, Source, Species, Stat, Status, Volatile

if TYPE_CHECKING:
    from _typeshed import ReadableBuffer

T = TypeVar("T")
# How many events and lines are cached, by their bytes: most of those of a battle occurred before.
KEPT = 1 << 13


@dataclass(frozen=True)
class Who:
    """The active member of a side."""

    side: Side
    species: Species

    def __str__(self) -> str:
        return f"{self.side.label}'s {self.species.label}"


@dataclass(frozen=True)
class Health:
    """HP, 0 to `max_hp`; the maximum, 11 to 999; and the kind of status."""

    hp: int
    max_hp: int
    status: Status


@dataclass(frozen=True)
class Event:
    """The base class of events, which all have a kind."""

    kind: ClassVar[EventKind]


@dataclass(frozen=True)
class OfOne(Event):
    """An event about `who`."""

    who: Who


@dataclass(frozen=True)
class TurnEvent(Event):
    """A turn begins, 1 to 9,999."""

    kind = EventKind.TURN
    turn: int


@dataclass(frozen=True)
class SwitchEvent(OfOne):
    """`who` is sent out from its place, 1 to 6, at its level."""

    kind = EventKind.SWITCHED
    place: int
    level: int
    health: Health


@dataclass(frozen=True)
class MoveEvent(OfOne):
    """`who` uses a move; `foe` is the active member of the other side, even
    if it is not the target.
    """

    kind = EventKind.MOVED
    move: Move
    foe: Who


@dataclass(frozen=True)
class CantEvent(OfOne):
    """`who` cannot act."""

    kind = EventKind.CANT
    reason: Reason


@dataclass(frozen=True)
class DamageEvent(OfOne):
    """`who` lost HP; the health after it."""

    kind = EventKind.DAMAGE
    health: Health
    source: Source


@dataclass(frozen=True)
class HealEvent(OfOne):
    """`who` gained HP; the health after it."""

    kind = EventKind.HEAL
    health: Health


@dataclass(frozen=True)
class CritEvent(OfOne):
    """The hit on `who` is critical."""

    kind = EventKind.CRIT


@dataclass(frozen=True)
class SuperEffectiveEvent(OfOne):
    """The hit on `who` is super effective."""

    kind = EventKind.SUPER_EFFECTIVE


@dataclass(frozen=True)
class ResistedEvent(OfOne):
    """`who` resists the hit."""

    kind = EventKind.RESISTED


@dataclass(frozen=True)
class ImmuneEvent(OfOne):
    """`who` is immune."""

    kind = EventKind.IMMUNE


@dataclass(frozen=True)
class MissEvent(OfOne):
    """`who` missed."""

    kind = EventKind.MISS


@dataclass(frozen=True)
class FailEvent(OfOne):
    """The action of `who` fails."""

    kind = EventKind.FAIL


@dataclass(frozen=True)
class StatusEvent(OfOne):
    """`who` gets a status."""

    kind = EventKind.STATUS
    status: Status


@dataclass(frozen=True)
class CureEvent(OfOne):
    """`who` loses a status."""

    kind = EventKind.CURE
    status: Status


@dataclass(frozen=True)
class BoostEvent(OfOne):
    """A stat of `who` rises by 1 or 2 stages."""

    kind = EventKind.BOOST
    stat: Stat
    stages: int


@dataclass(frozen=True)
class UnboostEvent(OfOne):
    """A stat of `who` falls by 1 or 2 stages."""

    kind = EventKind.UNBOOST
    stat: Stat
    stages: int


@dataclass(frozen=True)
class ClearAllEvent(Event):
    """Haze resets the stages of both sides."""

    kind = EventKind.CLEAR_ALL


@dataclass(frozen=True)
class StartEvent(OfOne):
    """A condition of `who` begins."""

    kind = EventKind.START
    volatile: Volatile


@dataclass(frozen=True)
class EndEvent(OfOne):
    """A condition of `who` ends."""

    kind = EventKind.END
    volatile: Volatile


@dataclass(frozen=True)
class ActivateEvent(OfOne):
    """A condition of `who` takes effect."""

    kind = EventKind.ACTIVATE
    volatile: Volatile


@dataclass(frozen=True)
class PrepareEvent(OfOne):
    """`who` charges a move."""

    kind = EventKind.PREPARE
    move: Move


@dataclass(frozen=True)
class MustRechargeEvent(OfOne):
    """`who` loses its next turn."""

    kind = EventKind.MUST_RECHARGE


@dataclass(frozen=True)
class HitCountEvent(OfOne):
    """`who` was hit 1 to 5 times."""

    kind = EventKind.HIT_COUNT
    hits: int


@dataclass(frozen=True)
class OneHitEvent(Event):
    """A one-hit move landed."""

    kind = EventKind.ONE_HIT


@dataclass(frozen=True)
class FaintEvent(OfOne):
    """`who` faints."""

    kind = EventKind.FAINT


@dataclass(frozen=True)
class WinEvent(Event):
    """A side wins."""

    kind = EventKind.WIN
    side: Side


@dataclass(frozen=True)
class TieEvent(Event):
    """The battle is a tie."""

    kind = EventKind.TIED


@dataclass(frozen=True)
class FaultEvent(Event):
    """The battle ends by a fault, 1 or 2."""

    kind = EventKind.FAULT
    fault: int


def _bytes_of(of: _library.EventStruct) -> bytes:
    """The bytes of an event in a log; none if a field is out of range."""
    room, length = _EVENT_BYTES(), c_size_t(0)
    return b"" if _library.event_bytes(of, room, length) else bytes(room[: length.value])


def _length(tag: int) -> int:
    """How many bytes an event with a tag has in a log; 1 if no event has it."""
    ones = {name: 1 for name, *_ in _library.EventStruct._fields_}
    return len(_bytes_of(_library.EventStruct(**{**ones, "tag": tag, "max_hp": 11}))) or 1


def _read(log: bytes, read: Callable[[bytes], T]) -> list[T]:
    """The results of `read` for the bytes of each event of a log. Raises `BadLog`."""
    found, at = [], 0
    while at < len(log):
        end = at + _LENGTHS[log[at]]
        try:
            found.append(read(log[at:end]))
        except BadLog as fault:
            raise BadLog(fault.code, at) from None
        at = end
    return found


@lru_cache(KEPT)
def _event(code: bytes) -> Event:
    """The event with these bytes. Raises `BadLog`."""
    of = _library.EventStruct()
    fault = _library.next_event(code, len(code), c_size_t(0), of)
    if fault:
        raise BadLog(LogFault(fault), 0)
    return _EVENTS[of.tag](of)


@lru_cache(KEPT)
def _line(code: bytes) -> str:
    """The line of the event with these bytes. Raises `BadLog`."""
    text, length = create_string_buffer(_library.LINE_ROOM), c_size_t(0)
    fault = _library.next_line(code, len(code), c_size_t(0), text, _library.LINE_ROOM, length)
    if fault:
        raise BadLog(LogFault(fault), 0)
    return text.raw[: length.value - 1].decode("ascii")


@cache
def _who(side: int, species: int) -> Who:
    return Who(Side(side), Species(species))


def _of(of: _library.EventStruct) -> Who:
    """The member that an event is about."""
    return _who(of.side, of.species)


def _health(of: _library.EventStruct) -> Health:
    return Health(of.hp, of.max_hp, _STATUS[of.status])


def _alone(kind: type[Event]) -> _Reader:
    return lambda of: kind()


def _of_one(kind: type[OfOne]) -> _Reader:
    return lambda of: kind(_of(of))


_Reader: TypeAlias = Callable[[_library.EventStruct], Event]
_EVENT_BYTES = c_uint8 * 10
# The length of an event by its tag, which the library computes.
_LENGTHS = bytes(_length(tag) for tag in range(256))
_MOVE, _STATUS, _STAT = by_number(Move), by_number(Status), by_number(Stat)
_VOLATILE, _SOURCE, _REASON = by_number(Volatile), by_number(Source), by_number(Reason)
# The function that makes an event from a struct, by its tag.
_EVENTS: dict[int, _Reader] = {
    EventKind.TURN: lambda of: TurnEvent(of.turn),
    EventKind.WIN: lambda of: WinEvent(Side(of.side)),
    EventKind.FAULT: lambda of: FaultEvent(of.detail),
    EventKind.SWITCHED: lambda of: SwitchEvent(_of(of), of.place, of.level, _health(of)),
    EventKind.MOVED: lambda of: MoveEvent(_of(of), _MOVE[of.move], _who(of.target_side, of.target_species)),
    EventKind.CANT: lambda of: CantEvent(_of(of), _REASON[of.detail]),
    EventKind.DAMAGE: lambda of: DamageEvent(_of(of), _health(of), _SOURCE[of.detail]),
    EventKind.HEAL: lambda of: HealEvent(_of(of), _health(of)),
    EventKind.STATUS: lambda of: StatusEvent(_of(of), _STATUS[of.status]),
    EventKind.CURE: lambda of: CureEvent(_of(of), _STATUS[of.status]),
    EventKind.BOOST: lambda of: BoostEvent(_of(of), _STAT[of.detail], of.amount),
    EventKind.UNBOOST: lambda of: UnboostEvent(_of(of), _STAT[of.detail], of.amount),
    EventKind.START: lambda of: StartEvent(_of(of), _VOLATILE[of.detail]),
    EventKind.END: lambda of: EndEvent(_of(of), _VOLATILE[of.detail]),
    EventKind.ACTIVATE: lambda of: ActivateEvent(_of(of), _VOLATILE[of.detail]),
    EventKind.PREPARE: lambda of: PrepareEvent(_of(of), _MOVE[of.move]),
    EventKind.HIT_COUNT: lambda of: HitCountEvent(_of(of), of.amount),
    **{it.kind: _alone(it) for it in (ClearAllEvent, OneHitEvent, TieEvent)},
    **{
        it.kind: _of_one(it)
        for it in (
            CritEvent,
            SuperEffectiveEvent,
            ResistedEvent,
            ImmuneEvent,
            MissEvent,
            FailEvent,
            MustRechargeEvent,
            FaintEvent,
        )
    },
}


def events(log: ReadableBuffer) -> tuple[Event, ...]:
    """The events of a log, of any number of updates one after the other.
    Raises `BadLog`.
    """
    return tuple(_read(octets(log, "log"), _event))


def lines(log: ReadableBuffer) -> list[str]:
    """The line of each event of a log (docs/MECHANICS.md, "Lines"), without
    line feeds. Raises `BadLog`.
    """
    return _read(octets(log, "log"), _line)


def log_bytes(given: Iterable[Event]) -> bytes:
    """The log bytes of events (docs/MECHANICS.md, "Log bytes"), from which
    `events` reads the same events.

    Raises `BadArgument` for an event with a field that is out of range,
    `BadType`.
    """
    found = []
    for at, it in enumerate(listed(given, "events")):
        if not isinstance(it, Event) or not hasattr(it, "kind"):
            raise BadType(f"events[{at}] must be an event, not {shown(it)}")
        of = _library.EventStruct(tag=it.kind)
        for name, value in _numbers(it, f"events[{at}]"):
            most = 65_535 if name in ("hp", "max_hp", "turn") else 255
            number = whole(value, f"events[{at}]: {name}", _KINDS.get(name.removeprefix("target_")))
            name = _DETAILS.get(name, name)
            setattr(of, name, number if 0 <= number <= most else most)
        code = _bytes_of(of)
        if not code:
            raise BadArgument(f"events[{at}] has a field that is out of range: {cut(shown(it))}")
        found.append(code)
    return b"".join(found)


def _numbers(event: Event, what: str) -> Iterator[tuple[str, Any]]:
    """The fields of an event by name; those of its foe begin with "target_"."""
    for name in (it.name for it in fields(event)):
        value = getattr(event, name)
        for part, kind in (("who", Who), ("foe", Who), ("health", Health)):
            if name == part and not isinstance(value, kind):
                raise BadType(f"{what}: {name} must be a {kind.__name__}, not {shown(value)}")
        if isinstance(value, Who):
            before = "target_" if name == "foe" else ""
            yield from ((f"{before}side", value.side), (f"{before}species", value.species))
        elif isinstance(value, Health):
            yield from (("hp", value.hp), ("max_hp", value.max_hp), ("status", value.status))
        else:
            yield name, value


_KINDS = {
    "side": Side,
    "species": Species,
    "status": Status,
    "move": Move,
    "reason": Reason,
    "source": Source,
    "volatile": Volatile,
    "stat": Stat,
}
# The names of fields in the library's struct where they differ.
_DETAILS = {
    **dict.fromkeys(("reason", "source", "volatile", "stat", "fault"), "detail"),
    **dict.fromkeys(("stages", "hits"), "amount"),
}
