"""What a host sends: a message to each side, and a notice to the audience
(docs/MECHANICS.md, "Hosts").
"""

from __future__ import annotations

from collections.abc import Callable, Iterable, Mapping, Sequence
from ctypes import Array, Structure, sizeof
from typing import TYPE_CHECKING, Any

from gen1._check import shown, struct_from, within
from gen1._structs import LOG_ROOM, MessageStruct, NoticeStruct, OwnSideStruct
from gen1.choices import Choice, Side, a_side
from gen1.errors import BadArgument, BadLog, BadType
from gen1._events import Event, events
from gen1.names import Outcome
from gen1.own_sides import OwnSide, mask_fault, own_fault, own_side_from

if TYPE_CHECKING:
    from _typeshed import ReadableBuffer

_CHOICES = tuple(Choice)


class _Sent:
    """What a message and a notice have in common."""

    __slots__ = ("_held",)
    _held: Any

    @property
    def number(self) -> int:
        """The number of the current pair: how many have ended."""
        return int(self._held.number)

    @property
    def log(self) -> bytes:
        """The log bytes of the last pair as reported; at the beginning
        those of the start.
        """
        return bytes(self._held.log[: self._held.log_length])

    @property
    def events(self) -> tuple[Event, ...]:
        """The events of `log`."""
        return events(self.log)

    @property
    def draw(self) -> Side | None:
        """The side that offers a draw, or None."""
        return Side(self._held.draw) if self._held.draw else None

    def to_json(self) -> dict[str, Any]:
        """The object that docs/HOST.schema.json describes, for `json.dumps`:
        the same as in Rust and JavaScript. `from_json` is the way back.
        """
        return {"number": self.number, "log": list(self.log), **self._fields(), "draw": self._held.draw or None}

    def _fields(self) -> dict[str, Any]:
        raise NotImplementedError

    def __bytes__(self) -> bytes:
        return bytes(memoryview(self._held))

    def __reduce__(self) -> tuple[Any, ...]:
        return type(self).from_bytes, (bytes(self),)  # type: ignore[attr-defined]

    def __eq__(self, other: object) -> bool:
        if not isinstance(other, type(self)):
            return NotImplemented
        return bytes(self) == bytes(other)

    def __hash__(self) -> int:
        return hash(bytes(self))


class Message(_Sent):
    """All that a host sends a side after a pair has ended, and at the
    beginning. `Player.receive` reads it.

    `bytes` of a message are the 696 bytes of a `gen1_message`, and
    `from_bytes` is the way back, for a client on another machine.
    """

    __slots__ = ()
    _held: MessageStruct

    @property
    def own(self) -> OwnSide:
        """What the side is shown of itself. Once the battle is over it is
        asked nothing.
        """
        return own_side_from(bytes(self._held.own))

    @property
    def choices(self) -> tuple[Choice, ...]:
        """The choices that the side is offered, in rising order; none once the
        battle is over.
        """
        return tuple([it for at, it in enumerate(_CHOICES) if self._held.offered >> at & 1])

    @property
    def outcome(self) -> Outcome:
        """The outcome so far."""
        return Outcome(self._held.own.outcome)

    @classmethod
    def from_bytes(cls, data: ReadableBuffer) -> Message:
        """The message with these bytes. Raises `BadArgument` for bytes that no
        host sends, as far as one can see without the battle, and `BadType`.
        """
        return message_of(_struct(data, MessageStruct, "a message", _message_fault))

    def _fields(self) -> dict[str, Any]:
        own = _object(self._held.own)
        own["members"] = own["members"][: own.pop("count")]
        return {"own": own, "choices": [int(it) for it in self.choices]}

    @classmethod
    def from_json(cls, value: Mapping[str, Any]) -> Message:
        """The message of an object that `to_json` returned. Raises
        `BadArgument`, `BadType`.
        """
        held, given = _sent(MessageStruct, value, ("own", "choices"))
        own = record(given["own"], "value['own']", [it for it in _names(OwnSideStruct) if it != "count"])
        count = len(_items(own["members"], "value['own']['members']"))
        _fill(held.own, {**own, "count": min(count, 255)}, "value['own']")
        for at, it in enumerate(_items(given["choices"], "value['choices']")):
            if within(it, f"value['choices'][{at}]", 0, 255) not in _CHOICES:
                raise BadArgument(f"value['choices'][{at}] must be the byte of a choice, not {it}")
            held.offered |= 1 << _CHOICES.index(it)
        return cls.from_bytes(bytes(held))

    def __repr__(self) -> str:
        return f"<Message, pair {self.number}, {self.outcome.label}>"


class Notice(_Sent):
    """All that a host sends the audience after a pair has ended, and at the
    beginning.

    Both sides' members are numbered in the order in which they appeared,
    and their HP is as reported to each foe. `bytes` of a notice are the
    520 bytes of a `gen1_notice`.
    """

    __slots__ = ()
    _held: NoticeStruct

    @property
    def outcome(self) -> Outcome:
        """The outcome so far."""
        return Outcome(self._held.outcome)

    @classmethod
    def from_bytes(cls, data: ReadableBuffer) -> Notice:
        """The notice with these bytes. Raises `BadArgument` for bytes that no
        host sends, as far as one can see without the battle, and `BadType`.
        """
        return notice_of(_struct(data, NoticeStruct, "a notice"))

    def _fields(self) -> dict[str, Any]:
        return {"outcome": self._held.outcome}

    @classmethod
    def from_json(cls, value: Mapping[str, Any]) -> Notice:
        """The notice of an object that `to_json` returned. Raises
        `BadArgument`, `BadType`.
        """
        held, given = _sent(NoticeStruct, value, ("outcome",))
        held.outcome = within(given["outcome"], "value['outcome']", 0, int(max(Outcome)))
        return cls.from_bytes(bytes(held))

    def __repr__(self) -> str:
        return f"<Notice, pair {self.number}, {self.outcome.label}>"


def _struct(data: ReadableBuffer, kind: Any, what: str, fault: Callable[[Any], str | None] = lambda _: None) -> Any:
    """The struct with these bytes, whose log is one."""
    held = struct_from(data, kind, what, fault)
    try:
        events(bytes(held.log[: held.log_length]))
    except BadLog as why:
        raise BadArgument(f"data is not {what}: its log is {why}") from None
    return held


def _message_fault(of: MessageStruct) -> str | None:
    return own_fault(of.own) or mask_fault(of)


def record(value: object, what: str, names: Iterable[str]) -> Mapping[str, Any]:
    """The value, which must be a mapping with exactly these names."""
    if not isinstance(value, Mapping):
        raise BadType(f"{what} must be a dict, not {shown(value)}")
    if set(value) != set(names):
        raise BadArgument(f"{what} must have the keys {', '.join(names)}, not {', '.join(map(str, value))}")
    return value


def _items(value: object, what: str) -> Sequence[Any]:
    if not isinstance(value, (list, tuple)):
        raise BadType(f"{what} must be a list, not {shown(value)}")
    return value


def _names(kind: type[Structure]) -> list[str]:
    """The fields of a struct that have information."""
    return [field[0] for field in kind._fields_ if field[0] != "unused"]


def _object(held: Any) -> Any:
    """A struct, array or number as JSON."""
    if isinstance(held, Structure):
        return {name: _object(getattr(held, name)) for name in _names(type(held))}
    return [_object(it) for it in held] if isinstance(held, Array) else held


def _fill(held: Any, value: object, what: str) -> None:
    """Writes an object that `_object` returned to a struct; a list of structs may have fewer of them."""
    given = record(value, what, _names(type(held)))
    for name, kind in [field[:2] for field in held._fields_ if field[0] != "unused"]:
        path, field = f"{what}[{name!r}]", getattr(held, name)
        if not isinstance(field, Array):
            setattr(held, name, within(given[name], path, 0, 256 ** sizeof(kind) - 1))
            continue
        items, most = _items(given[name], path), 256 ** sizeof(field._type_) - 1
        if len(items) > len(field) or (len(items) < len(field) and not issubclass(field._type_, Structure)):
            raise BadArgument(f"{path} must have {len(field)} items, not {len(items)}")
        for at, it in enumerate(items):
            if issubclass(field._type_, Structure):
                _fill(field[at], it, f"{path}[{at}]")
            else:
                field[at] = within(it, f"{path}[{at}]", 0, most)


def _sent(kind: Any, value: object, more: tuple[str, ...]) -> tuple[Any, Mapping[str, Any]]:
    """A struct with the number, the log and the draw of its JSON, and the JSON, which also has these fields."""
    given, held = record(value, "value", ("number", "log", *more, "draw")), kind()
    held.number = within(given["number"], "value['number']", 0, (1 << 32) - 1)
    log = _items(given["log"], "value['log']")
    if len(log) > LOG_ROOM:
        raise BadArgument(f"value['log'] must have at most {LOG_ROOM} bytes")
    held.log_length = len(log)
    held.log[: len(log)] = [within(it, f"value['log'][{at}]", 0, 255) for at, it in enumerate(log)]
    held.draw = 0 if given["draw"] is None else a_side(given["draw"])
    return held, given


def message_of(held: MessageStruct) -> Message:
    """The message that a host wrote."""
    made = Message.__new__(Message)
    made._held = held
    return made


def notice_of(held: NoticeStruct) -> Notice:
    """The notice that a host wrote."""
    made = Notice.__new__(Notice)
    made._held = held
    return made


def a_message(value: object) -> Message:
    """The value, which must be a message."""
    if not isinstance(value, Message):
        raise BadType(f"message must be a Message, not {shown(value)}")
    return value
