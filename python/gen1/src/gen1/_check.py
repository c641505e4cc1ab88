"""Checks and converts the caller's arguments before the library is called, whose numbers are bytes."""

from __future__ import annotations

import operator
import os
from collections.abc import Callable, Iterable, Sequence
from ctypes import sizeof
from enum import Enum
from itertools import islice
from math import inf
from numbers import Real
from typing import Any, TypeVar

from gen1 import _library
from gen1._structs import first_above
from gen1.errors import BadArgument, BadPlace, BadTeam, BadType
from gen1.names import HpForm, Move, Named, NamedType, NewFault, Species

N = TypeVar("N", bound=Named)


def whole(value: object, what: str, kind: type[Enum] | None = None) -> int:
    """A whole number of any size; not a bool, which Python counts as one.

    With `kind` it may be a member of that enum, but of no other; without, it may be of none of this package.
    """
    if isinstance(value, bool):
        raise BadType(f"{what} must be {_lawful(kind)}, not {value}")
    if isinstance(value, Enum) and not _counts(value, kind):
        raise BadType(f"{what} must be {_lawful(kind)}, not {shown(value)}")
    try:
        return operator.index(value)  # type: ignore[arg-type]
    except TypeError:
        raise BadType(f"{what} must be {_lawful(kind)}, not {shown(value)}") from None


def _lawful(kind: type[Enum] | None) -> str:
    return (
        f"{'an' * (kind.__name__[0] in 'AEIOU') or 'a'} {kind.__name__} or a whole number" if kind else "a whole number"
    )


def _counts(value: Enum, kind: type[Enum] | None) -> bool:
    """Whether a member of an enum may be used as its number."""
    return isinstance(value, kind) if kind else not isinstance(type(value), NamedType)


def within(value: object, what: str, low: int, high: int, kind: type[Enum] | None = None) -> int:
    """A whole number from `low` to `high`; `kind` is as in `whole`."""
    number = whole(value, what, kind)
    if not low <= number <= high:
        raise BadArgument(f"{what} must be {low:,} to {high:,}, not {digits(number)}")
    return number


def probability(value: object, what: str) -> float:
    """A number from 0 to 1."""
    if isinstance(value, bool) or not isinstance(value, Real):
        raise BadType(f"{what} must be a number, not {shown(value)}")
    try:
        number = float(value)
    except OverflowError:  # it is a whole number that no float holds
        number = inf
    if not 0 <= number <= 1:
        raise BadArgument(f"{what} must be 0 to 1, not {shown(value)}")
    return number


def place(value: object, count: int) -> int:
    """An index into `count` items, from 0, or from -1 for the last one."""
    number = whole(value, "place")
    if not -count <= number < count:
        raise BadPlace(f"place must be {-count:,} to {count - 1:,}, not {digits(number)}")
    return number


def truth(value: object, what: str) -> bool:
    """True or False; a value that only converts to one is refused."""
    if not isinstance(value, bool):
        raise BadType(f"{what} must be True or False, not {shown(value)}")
    return value


def a_form(value: object, otherwise: HpForm) -> HpForm:
    """The form of HP that `hp_form` names, or that of other arguments."""
    return otherwise if value is None else HpForm(within(value, "hp_form", 0, 2, HpForm))


def byte(number: int) -> int:
    """A number as a byte; 255 if it is out of range, which the library then refuses."""
    return number if 0 <= number <= 255 else 255


def listed(value: object, what: str, most: int | None = None) -> list[object]:
    """The items of a list, tuple or other iterable, except a str or bytes.

    With `most`, at most one more item than that is read, so that an endless iterable is refused instead of read forever.
    """
    if isinstance(value, (str, bytes, bytearray)) or not isinstance(value, Iterable):
        raise BadType(f"{what} must be a list, not {shown(value)}")
    return list(value if most is None else islice(value, most + 1))


def count_text(value: object, found: Sequence[object], most: int) -> str:
    """How many items an iterable has; `found` are those that `listed` returned. "more than `most`" if it has no length."""
    try:
        return digits(len(value))  # type: ignore[arg-type]
    except (TypeError, OverflowError):
        return str(len(found)) if len(found) <= most else f"more than {most}"


def octets(value: object, what: str) -> bytes:
    """The bytes of an object with the buffer protocol: a `bytearray`, an mmap, a numpy array whose items are bytes."""
    try:
        view = memoryview(value)  # type: ignore[arg-type]
    except TypeError:
        raise BadType(f"{what} must be bytes, not {shown(value)}") from None
    if view.itemsize != 1:
        raise BadType(f"{what} must be bytes, not items of {view.itemsize} bytes: {shown(value)}")
    return view.tobytes()


def struct_from(data: object, kind: Any, what: str, fault: Callable[[Any], str | None] = lambda _: None) -> Any:
    """The struct with these bytes. `fault` names a field that does not fit the others. Raises `BadArgument`, `BadType`."""
    given = octets(data, "data")
    if len(given) != sizeof(kind):
        raise BadArgument(f"data must be the {sizeof(kind)} bytes of {what}, not {len(given):,}")
    held = kind.from_buffer_copy(given)
    wrong = first_above(kind, given) or fault(held)
    if wrong:
        raise BadArgument(f"data is not {what}: {wrong} is out of its range")
    return held


def first_false(tests: Iterable[tuple[str, object]]) -> str | None:
    """The name of the first test that fails."""
    return next((name for name, passes in tests if not passes), None)


def seed_bytes(value: object) -> bytes:
    """The ten bytes of a seed: those of `ten_bytes`, those that a whole number determines, or fresh ones for None."""
    if value is None:
        return os.urandom(10)
    if isinstance(value, Iterable):
        return ten_bytes(value)
    made = _library.SeedBytes()
    _library.seed_from_number(within(value, "seed", 0, (1 << 64) - 1), made)
    return bytes(made)


def ten_bytes(value: object) -> bytes:
    """The ten bytes of a seed: bytes, or a list of ten numbers from 0 to 255."""
    if isinstance(value, (bytes, bytearray, memoryview)):
        given = list(bytes(value))
    else:
        given = [within(it, f"seed[{at}]", 0, 255) for at, it in enumerate(listed(value, "seed", 10))]
    if len(given) != 10:
        raise BadArgument(f"seed must be 10 bytes, not {count_text(value, given, 10)}")
    return bytes(given)


def named(kind: type[N], value: object, field: str) -> N:
    """A species or a move from its name, its number, or itself. Raises `BadTeam` for an unknown one, `BadType`."""
    if isinstance(value, kind):
        return value
    code = NewFault.NO_SUCH_SPECIES if issubclass(kind, Species) else NewFault.NO_SUCH_MOVE
    if isinstance(value, str):
        found = _called(kind, value)
        if found:
            return kind(found)
        near = nearest(value, [it.label for it in kind])
        meant = f"; did you mean {near!r}?" if near else ""
        raise BadTeam(f"{field}: there is no {cut(repr(value))}{meant}", field=field, code=code)
    try:
        number = whole(value, field, kind)
    except BadType:
        raise BadType(f"{field} must be a {kind.__name__}, its name or its number, not {shown(value)}") from None
    try:
        return kind(number)
    except ValueError:
        said = f"{field} must be {int(min(kind))} to {int(max(kind))} or a name, not {digits(number)}"
        raise BadTeam(said, field=field, code=code) from None


def _called(kind: type[N], name: str) -> int:
    """The number of the species or move with a name; 0 if none has it (docs/TEAM_TEXT.md, "Names")."""
    text = with_genders(name).encode("utf-8", "surrogatepass")
    call = _library.species_from_name if issubclass(kind, Species) else _library.move_from_name
    return int(call(text, len(text)))


def with_genders(text: str) -> str:
    """A text with the signs of Nidoran's names as letters, since the library compares only letters and digits."""
    return text.replace("\N{FEMALE SIGN}", "-F").replace("\N{MALE SIGN}", "-M")


def nearest(text: str, names: Iterable[str]) -> str | None:
    """The name that differs from a text in the fewest letters; None if that is more than a third of them."""
    wanted = _letters(text)
    rated = ((_distance(wanted, _letters(it)), it) for it in names)
    away, name = min(rated, key=operator.itemgetter(0), default=(len(wanted) + 1, ""))
    return name if away * 3 <= len(wanted) else None


def _letters(text: str) -> str:
    """The first letters and digits of a text, in lower case, as many as the longest name has."""
    return "".join(it for it in text[:200].lower() if it.isascii() and it.isalnum())[:24]


def _distance(one: str, two: str) -> int:
    """The edit distance of two texts: how many letters must be inserted, removed or replaced."""
    row = list(range(len(two) + 1))
    for place, letter in enumerate(one, 1):
        diagonal, row[0] = row[0], place
        for at, other in enumerate(two, 1):
            diagonal, row[at] = row[at], min(diagonal + (letter != other), row[at] + 1, row[at - 1] + 1)
    return row[-1]


def by_number(kind: type[N]) -> dict[int, N]:
    """The members of an enum by their numbers. Looking up is faster than calling the enum."""
    return {int(it): it for it in kind}


def species(value: object, field: str = "species") -> Species:
    """A species from its name, its number, or itself."""
    return named(Species, value, field)


def move(value: object, field: str = "move") -> Move:
    """A move from its name, its number, or itself."""
    return named(Move, value, field)


def shown(value: object) -> str:
    """A value as text for an error message, cut to a screen's width."""
    try:
        text = cut(repr(value))
    except Exception:  # a caller's class may raise anything, and Python refuses to print a number that is too long
        text = "a value that cannot be shown"
    return f"{text} ({type(value).__name__})"


def digits(number: int) -> str:
    """A number as text for an error message; its length if it is too long, since Python refuses to print such numbers."""
    return str(int(number)) if number.bit_length() <= 192 else f"a number of {number.bit_length():,} bits"


def cut(text: str) -> str:
    """A text, shortened for an error message."""
    return text if len(text) <= 60 else text[:57] + "..."
