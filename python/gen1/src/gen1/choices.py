"""Sides, rules and choices (docs/MECHANICS.md, "Offered choices")."""

from __future__ import annotations

from collections.abc import Iterable
from enum import IntFlag

from gen1._check import digits, whole, within
from gen1.errors import BadArgument
from gen1.names import Named, NamedType


class Side(Named):
    """A side of a battle."""

    ONE = 1, "side 1"
    TWO = 2, "side 2"

    @property
    def foe(self) -> Side:
        """The other side."""
        return Side(3 - self)


class Rules(IntFlag, metaclass=NamedType):
    """The rules of a battle, which can be combined (docs/MECHANICS.md, "Rules
    (sleep clause, freeze clause)").
    """

    NONE = 0
    SLEEP_CLAUSE = 1
    FREEZE_CLAUSE = 2


class Choice(Named):
    """A side's choice for an update, with its number.

    `MOVE_0` is the only move that is offered if no slot can be chosen: if
    the member must recharge; if its move continues (Rage, Thrash, a move
    that charges, Bide, trapping); if it is asleep, frozen or held by the
    foe's trapping move; and if every slot is out of PP or disabled, so that
    it uses Struggle.

    Any other number is refused as not offered.
    """

    PASS = 0x00, "pass"
    MOVE_0 = 0x10, "move 0"
    MOVE_1 = 0x11, "move 1"
    MOVE_2 = 0x12, "move 2"
    MOVE_3 = 0x13, "move 3"
    MOVE_4 = 0x14, "move 4"
    SWITCH_1 = 0x21, "switch 1"
    SWITCH_2 = 0x22, "switch 2"
    SWITCH_3 = 0x23, "switch 3"
    SWITCH_4 = 0x24, "switch 4"
    SWITCH_5 = 0x25, "switch 5"
    SWITCH_6 = 0x26, "switch 6"

    @classmethod
    def move(cls, slot: int) -> Choice:
        """The move in a slot, 1 to 4, or `MOVE_0` for 0."""
        return cls(0x10 + within(slot, "slot", 0, 4))

    @classmethod
    def switch(cls, place: int) -> Choice:
        """The member at a place, 1 to 6."""
        return cls(0x20 + within(place, "place", 1, 6))

    @property
    def is_move(self) -> bool:
        """Whether it is one of `MOVE_0` to `MOVE_4`."""
        return 0x10 <= self < 0x20

    @property
    def is_switch(self) -> bool:
        """Whether it is one of `SWITCH_1` to `SWITCH_6`."""
        return self > 0x20

    @property
    def slot(self) -> int:
        """The slot of a move, 0 to 4, or the place of a switch, 1 to 6; 0 for
        `PASS`.
        """
        return self & 0x0F


def a_side(value: object) -> int:
    """A side, 1 or 2."""
    number = whole(value, "side", Side)
    if number not in (1, 2):
        raise BadArgument(f"side must be 1 or 2, not {digits(number)}")
    return number


def a_choice(value: object, side: int) -> int:
    """The byte of a choice, whether offered or not."""
    if type(value) is Choice:
        return int(value)
    return within(value, f"side {side}'s choice", 0, 255, Choice)


def choice_text(byte: int) -> str:
    """The name of a choice's byte, or a text that says that the byte is not a
    choice.
    """
    try:
        return Choice(byte).label
    except ValueError:
        return f"{byte}, which is not a choice"


def explained(choice: Choice, words: str) -> str:
    """The words for a choice; for move 0 with the reason."""
    return f"{words} (no slot can be chosen)" if choice is Choice.MOVE_0 else words


def not_offered(side: int, byte: int, offered: Iterable[Choice]) -> str:
    """Why a choice that is not offered is refused."""
    names = [explained(it, it.label) for it in offered]
    return f"side {side}'s choice is not offered: {choice_text(byte)}; it can choose {', '.join(names)}"
