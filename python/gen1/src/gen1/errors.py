"""The package's errors. Each message names the error and the expected
value.
"""

from __future__ import annotations

from typing import Any

from gen1.names import (
    DamageFault,
    HostFault,
    HostRefusal,
    LoadFault,
    LogFault,
    NewFault,
    Refusal,
    RoomRefusal,
    StateField,
    TextFault,
)


class Error(Exception):
    """The base class of this package's errors. A call that raises one has
    changed nothing. Errors can be pickled, for worker processes.
    """

    def __reduce__(self) -> tuple[Any, ...]:
        return _restored, (type(self), self.args, self.__dict__)


class LibraryMissing(Error, ImportError):
    """The shared library libgen1.so was not found, has another major version,
    or lacks a call.
    """


class NumpyMissing(Error, ModuleNotFoundError):
    """A class that needs numpy was used, and numpy is not installed."""

    def __init__(self, what: str) -> None:
        super().__init__(
            f"{what} needs numpy: install numpy, or gen1 with its extra arrays: gen1[arrays]", name="numpy"
        )


class ResetNeeded(Error, RuntimeError):
    """An environment was used before its first reset."""


class BadType(Error, TypeError):
    """An argument has the wrong type."""


class BadArgument(Error, ValueError):
    """An argument is out of range."""


class BadPlace(BadArgument, IndexError):
    """An index is past the last battle of an array, or past the last member of
    a team.
    """


class BadTeam(BadArgument):
    """A team or a member breaks the rules of teams (docs/MECHANICS.md,
    "Teams").

    `side` is 1 or 2, or 0 for a team outside a battle. `member` is the
    place from 1 to 6, or 0 if the error is not about one member, or the
    member is not in a team. `field` is the wrong field ("level",
    "moves[2]"). `code` is the library's number, or None if the value was
    refused before the library was called. `said` is the message without
    side and place.
    """

    def __init__(
        self, said: str, *, side: int = 0, member: int = 0, field: str = "", code: NewFault | None = None
    ) -> None:
        where = [f"side {side}"] * bool(side) + [f"member {member}"] * bool(member)
        super().__init__(f"{', '.join(where)}: {said}" if where else said)
        self.said, self.side, self.member, self.field, self.code = said, side, member, field, code

    def at(self, member: int) -> BadTeam:
        """A copy of the error, for the member at this place."""
        return BadTeam(self.said, side=self.side, member=member, field=self.field, code=self.code)

    def of(self, side: int) -> BadTeam:
        """A copy of the error, for the team of this side."""
        return BadTeam(self.said, side=side, member=self.member, field=self.field, code=self.code)


class BadBytes(BadArgument):
    """The bytes are not a battle. `code` is the first test that they fail
    (docs/LAYOUT.md, "Loading").
    """

    def __init__(self, code: LoadFault, said: str) -> None:
        super().__init__(said)
        self.code = code


class BadHost(BadArgument):
    """The bytes are not a host's. `code` is the first test that they fail,
    after those of the battle.
    """

    def __init__(self, code: HostFault) -> None:
        super().__init__(f"data is not a host: {code.label}")
        self.code = code


class BadState(BadArgument):
    """A field of a state is wrong.

    `code` is the library's number of the field, and `field` its name in the
    dataclasses ("hp", "active.stages[2]"). `side` is 1 or 2, or 0 for a
    field of the whole battle. `place` is that of the member, 1 to 6, or 0
    for a field of an active member or of the whole battle. `index` is the
    index in a field with several values, from 0; otherwise None. `value` is
    the value of the field, and `low` and `high` are the least and the
    greatest valid value. A value from `low` to `high` does not fit the
    other fields.
    """

    def __init__(
        self,
        said: str,
        *,
        code: StateField,
        field: str,
        side: int = 0,
        place: int = 0,
        index: int | None = None,
        value: int,
        low: int,
        high: int,
    ) -> None:
        where = [f"side {side}"] * bool(side) + [f"member {place}"] * bool(place)
        super().__init__(f"{', '.join(where)}: {said}" if where else said)
        self.code, self.field, self.side, self.place, self.index = code, field, side, place, index
        self.value, self.low, self.high = value, low, high


class BadLog(BadArgument):
    """The bytes are not a log (docs/MECHANICS.md, "Log bytes").

    `at` is the offset of the wrong event, from 0. It is below 0 if the
    event began in bytes that a spectator was fed before.
    """

    def __init__(self, code: LogFault, at: int) -> None:
        where = f"at byte {at}" if at >= 0 else f"{-at} bytes before these"
        super().__init__(f"not a log: {code.label}, in the event that begins {where}")
        self.code, self.at = code, at


class Refused(Error):
    """An update was refused; the battle is unchanged.

    `side` is the side whose choice was not offered, or 0 if the battle is
    over; `choice` is its byte, or None for words; and `offered` has the
    choices that the side is offered.
    """

    code: Refusal | RoomRefusal | HostRefusal

    def __init__(
        self,
        code: Refusal | RoomRefusal | HostRefusal,
        said: str,
        side: int = 0,
        choice: int | None = None,
        offered: tuple[int, ...] = (),
    ) -> None:
        super().__init__(said)
        self.code, self.side, self.choice, self.offered = code, side, choice, offered


class RoomRefused(Refused):
    """A room refused a choice or a forfeit (docs/MECHANICS.md, "Rooms"); the
    room is unchanged.

    `side` is the side that submitted it, `number` the pair for which it was
    submitted, `current` the number of the current pair, `choice` the byte
    (None for a forfeit), and `offered` has the choices that the side may
    submit. None of them reveals the foe's choice.
    """

    code: RoomRefusal

    def __init__(
        self,
        code: RoomRefusal,
        said: str,
        *,
        side: int,
        number: int,
        current: int,
        choice: int | None,
        offered: tuple[int, ...],
    ) -> None:
        super().__init__(code, said, side, choice, offered)
        self.number, self.current = number, current


class HostRefused(Refused):
    """A host refused a row (docs/MECHANICS.md, "Hosts"); the host is
    unchanged.

    `side` is the side of the row and `choice` the byte that it submitted,
    or None. `current` is the number of the current pair, and `offered` has
    the choices that the side may submit. None of them reveals whether the
    foe has chosen.
    """

    code: HostRefusal

    def __init__(
        self,
        code: HostRefusal,
        said: str,
        *,
        side: int,
        current: int,
        choice: int | None,
        offered: tuple[int, ...],
    ) -> None:
        super().__init__(code, said, side, choice, offered)
        self.current = current


class NoDamage(Error, ValueError):
    """A move has no damage; `code` says why."""

    def __init__(self, code: DamageFault, said: str) -> None:
        super().__init__(said)
        self.code = code


class BadText(BadTeam):
    """The text is not a team (docs/TEAM_TEXT.md).

    `line` is the wrong line, from 1, or 0 if the error is not about one
    line. `member` and `column` are the member and its field in a packed
    line, from 1, else 0. `text_code` is the form that was expected there.
    `found` is the name, line or field that is wrong, or empty if the error
    is about several, and `near` the name nearest to it, or None.
    """

    def __init__(
        self,
        said: str,
        text_code: TextFault,
        *,
        line: int,
        member: int,
        column: int,
        code: NewFault | None,
        found: str = "",
        near: str | None = None,
    ) -> None:
        super().__init__(said, member=member, code=code)
        self.text_code, self.line, self.column = text_code, line, column
        self.found, self.near = found, near


def _restored(kind: type[Error], args: tuple[Any, ...], held: dict[str, Any]) -> Error:
    """The exception that was pickled."""
    made = kind.__new__(kind, *args)
    made.__dict__.update(held)
    return made
