"""A battle of two accounts: its start and its rows, and the view of each side.

This module uses no socket, no SQL and no clock of the machine. The same
start and entries make the same match, in the process that committed them and
in one that reads them back. What happens in a battle, and what each side may
know, is decided by `gen1.Host`.
"""

import json
from collections.abc import Iterable
from dataclasses import dataclass
from typing import ClassVar, NamedTuple

from gen1 import Battle, Host, HpForm, Message, Notice, Row, RowKind, Side
from gen1_server.clock import Clock

# Who made a row: its player, or the server since the player's time had run out.
PLAYER, CLOCK = "player", "clock"


class Refused(Exception):
    """A request that is refused; nothing has changed. `code` is for programs."""

    def __init__(self, code: str, said: str) -> None:
        super().__init__(said)
        self.code = code


@dataclass(frozen=True, slots=True)
class Options:
    """The options of a room. Times are milliseconds."""

    exact_hp: bool = False
    may_cancel: bool = False
    choice: int = 90_000
    total: int = 1_200_000
    lapses: int = 2
    audience_delay: int = 0


@dataclass(frozen=True, slots=True)
class Start:
    """The beginning of a room. `teams` are JSON; they and `battle` are secret."""

    id: int
    format: str
    rated: bool
    accounts: tuple[int, int]
    names: tuple[str, str]
    teams: tuple[str, str]
    battle: bytes
    options: Options
    season: str
    created: int

    def side_of(self, account: int) -> Side | None:
        """The side that an account plays; None for the audience."""
        return Side(self.accounts.index(account) + 1) if account in self.accounts else None


class Entry(NamedTuple):
    """A row, when it was made (milliseconds), and its cause."""

    row: Row
    at: int
    cause: str = PLAYER


@dataclass(frozen=True, slots=True)
class Ending:
    """How a battle ended. `reason` is "battle", "forfeit", "time" or "draw".
    `ratings` are those of side 1 before and after, then those of side 2; none
    if the battle was not rated.
    """

    outcome: int
    reason: str
    ratings: tuple[float, ...] = ()


@dataclass(frozen=True, slots=True)
class View:
    """All that a side, or the audience, may know of a room. Protocols are made
    of it and of nothing else.

    `side` is None for the audience. `sent` is what the host sends it, and
    `logs` are the log bytes that it received for the start and each pair, of
    which the last is that of `sent`; do not keep the list, as it grows.
    `sizes` are how many members the teams have, and `hp_form` is the form of
    a foe's HP. `team` is the side's team as
    JSON, and `due` when its time runs out; both are empty for the audience.
    `awaited` says whether its choice is missing.
    """

    room: int
    format: str
    rated: bool
    names: tuple[str, str]
    sizes: tuple[int, int]
    hp_form: HpForm
    side: Side | None
    team: str
    number: int
    logs: list[bytes]
    sent: Message | Notice
    awaited: bool
    due: int
    ending: Ending | None


class After(NamedTuple):
    """The host after an entry, whether that ends the pair, and the outcome and
    its reason if it ends the battle.
    """

    host: Host
    ended: bool
    end: tuple[int, str] | None


class Watcher:
    """A connection, or the computer, as rooms see it. A method that a subclass
    does not define does nothing.
    """

    # Whether its client continues at another process if the server names one.
    follows: ClassVar[bool] = False

    def joined(self, view: View) -> None:
        """Shows a whole room."""

    def updated(self, view: View) -> None:
        """Shows the pair that has just ended."""

    def draw_offered(self, room: int, side: Side) -> None:
        """Says that a side offers a draw."""

    def challenged(self, name: str, format: str, code: str) -> None:
        """Says that somebody challenges the account."""

    def failed(self, fault: Refused) -> None:
        """Says that a challenge that was made, or its acceptance, has failed."""

    def searches(self, formats: list[str]) -> None:
        """Says in which formats the account waits for a foe, after a change."""

    def moved(self, room: int, address: str) -> None:
        """Says that another process has the room."""


class Match:
    """A room's host, the logs that were sent, and the clock."""

    __slots__ = "start host clock count lapses ending audience_moved _sizes _logs _notices".split()

    def __init__(self, start: Start) -> None:
        options = start.options
        self.start, self.count, self.lapses = start, 0, [0, 0]
        self.host = Host(Battle.load(start.battle), exact_hp=options.exact_hp, may_cancel=options.may_cancel)
        self.clock = Clock(start.created, options.choice, options.total)
        # How the battle ended, as it was committed.
        self.ending: Ending | None = None
        self._sizes = len(json.loads(start.teams[0])), len(json.loads(start.teams[1]))
        self._logs: tuple[list[bytes], list[bytes], list[bytes]] = ([], [], [])
        # The notices from the one that the audience is shown, which is late if the options say so.
        self._notices: list[Notice] = []
        self.audience_moved = True
        self._tell()

    def after(self, entry: Entry) -> After:
        """The host after an entry, if it were committed. Raises `HostRefused` if
        the host would refuse it.
        """
        host = self.host.copy()
        ended = host.apply(entry.row)
        if not ended or not host.is_closed:
            return After(host, ended, None)
        if entry.row.kind is RowKind.FORFEIT:
            reason = "time" if entry.cause == CLOCK else "forfeit"
        else:
            reason = "draw" if entry.row.kind is RowKind.OFFER_DRAW else "battle"
        return After(host, ended, (host.result.outcome, reason))

    def take(self, entry: Entry, after: After | None = None) -> bool:
        """Applies an entry that is committed; `after` is what the method `after`
        returned for it. Returns whether it ended the pair. Raises `HostRefused`
        for one that the host refuses; nothing has changed.
        """
        row = entry.row
        if after is None:
            ended = self.host.apply(row)
        else:
            self.host, ended = after.host, after.ended
        self.count += 1
        if row.kind is RowKind.CANCEL:
            self.clock.cancelled(row.side)
        elif row.kind in (RowKind.SUBMIT, RowKind.EXPIRE):
            self.clock.chose(row.side, entry.at)
            self.lapses[row.side - 1] += row.kind is RowKind.EXPIRE
        if ended:
            self.clock.ended(entry.at)
            self._tell()
        return ended

    def view(self, side: Side | None) -> View:
        """What a side, or the audience, may know now."""
        start, host = self.start, self.host
        logs = self._logs[side or 0]
        sent: Message | Notice = host.message(side) if side else self._notices[0]
        if side is None and len(self._notices) > 1:
            logs = logs[: 1 - len(self._notices)]
        fixed = start.id, start.format, start.rated, start.names, self._sizes, host.hp_form, side
        team, is_awaited = (start.teams[side - 1], host.awaits(side)) if side else ("", False)
        due = self.clock.due(side) if side and not self.ending else 0
        ending = self.ending if side or len(self._notices) == 1 else None
        return View(*fixed, team, sent.number, logs, sent, is_awaited, due, ending)

    def catch_up(self) -> bool:
        """Lets the audience of a battle that is over see one more pair. Returns
        whether there was one.
        """
        if len(self._notices) < 2:
            return False
        del self._notices[0]
        return True

    def _tell(self) -> None:
        audience, one, two = self._logs
        one.append(self.host.message(Side.ONE).log)
        two.append(self.host.message(Side.TWO).log)
        notice = self.host.notice()
        audience.append(notice.log)
        self._notices.append(notice)
        self.audience_moved = len(self._notices) > self.start.options.audience_delay + 1
        if self.audience_moved:
            del self._notices[0]


def replayed(start: Start, entries: Iterable[Entry]) -> Match:
    """The match that these entries make."""
    match = Match(start)
    for entry in entries:
        match.take(entry)
    return match
