"""Events in sentences, to a spectator or to a side.

>>> from gen1 import Battle, Member, Narrator
>>> tauros = Member("Tauros", ["Body Slam"])
>>> update = Battle([tauros], [tauros], seed=7).update(0, 0)
>>> Narrator().sentences(update.log)[0]
'Side 1 sends out Tauros.'
>>> Narrator(1).sentences(update.log)[:2]
['You send out Tauros.', 'The foe sends out Tauros.']
"""

from __future__ import annotations

from ctypes import byref, c_size_t, create_string_buffer
from typing import TYPE_CHECKING

from gen1 import _library
from gen1._check import listed, octets, truth
from gen1._events import Event, log_bytes
from gen1._structs import NarratorStruct
from gen1.choices import Side, a_side
from gen1.errors import BadArgument, BadLog
from gen1.names import LogFault

if TYPE_CHECKING:
    from collections.abc import Iterable

    from _typeshed import ReadableBuffer


class Narrator:
    """Says the events of a battle in sentences.

    It keeps which members are active, and their HP, so that a sentence can
    say how much HP is lost and who is withdrawn: pass it all events of a
    battle, in their order. A narrator must be used by one thread at a time.
    """

    __slots__ = ("_held",)

    def __init__(self, you: Side | int | None = None, in_percent: Iterable[bool] = (False, False)) -> None:
        """Creates a narrator before a battle.

        `you` is the side that reads the sentences: "Your Tauros", "The
        foe's Tauros"; with None, a spectator does: "Side 1's Tauros".
        `in_percent` says for side 1 and side 2 whether sentences have its
        HP in per cent: those of the foe in a log of `Teller.tell`, which
        reports them in 48ths. Raises `BadArgument`, `BadType`.
        """
        given = [truth(it, "in_percent") for it in listed(in_percent, "in_percent", 2)]
        if len(given) != 2:
            raise BadArgument(f"in_percent must have 2 items, for side 1 and side 2, not {len(given)}")
        self._held = NarratorStruct(you=0 if you is None else a_side(you))
        self._held.one.in_percent, self._held.two.in_percent = given

    def say(self, event: Event) -> str:
        """The sentence of the next event, with its full stop. Raises
        `BadArgument` for a field that is out of its range, `BadType`.
        """
        return self.sentences(log_bytes([event]))[0]

    def sentences(self, log: ReadableBuffer) -> list[str]:
        """The sentence of each event of the log of one or more updates.
        Raises `BadLog`, `BadType`; then the narrator is unchanged.
        """
        given, held = octets(log, "log"), NarratorStruct.from_buffer_copy(self._held)
        text, length, at = create_string_buffer(_library.SENTENCE_ROOM), c_size_t(0), c_size_t(0)
        found = []
        while at.value < len(given):
            code = _library.next_sentence(given, len(given), at, byref(held), text, len(text), length)
            if code:
                raise BadLog(LogFault(code), at.value)
            found.append(text.raw[: length.value].decode("ascii"))
        self._held = held
        return found

    def copy(self) -> Narrator:
        """An independent copy."""
        made = Narrator.__new__(Narrator)
        made._held = NarratorStruct.from_buffer_copy(self._held)
        return made

    __copy__ = copy

    def __deepcopy__(self, _: object) -> Narrator:
        return self.copy()


def sentence(event: Event) -> str:
    """The sentence of an event alone, to a spectator. Raises as
    `Narrator.say`.
    """
    return Narrator().say(event)
