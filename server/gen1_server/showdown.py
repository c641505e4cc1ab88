"""Protocol 2: Showdown's lines over a websocket, for clients that are written for its servers.

A message of the server is `>ROOM`, a line feed and lines, or outside of rooms
the lines alone. One of a client is `ROOM|TEXT`. All that a client is shown of
a battle is made of its `View`, by gen1.showdown. A request comes before the
lines of its turn, which is the order that clients expect.
"""

import json
import secrets
from collections.abc import Awaitable, Callable, Mapping
from contextlib import suppress
from dataclasses import dataclass
from functools import partial
from time import time
from typing import Any

from gen1 import Error, Message, Row, Side
from gen1.showdown import ChoiceRefused, Formats, Hp, Lines, Members, Seat, Viewer
from gen1_server.accounts import LONGEST_NAME, Account, folded
from gen1_server.connections import Connection, Services
from gen1_server.core import Refused, View
from gen1_server.formats import FORMATS, format_named

# The clauses of a format without a checker: those of the engine.
CLAUSES = Formats().clauses("gen1ou")[:2]
MOST_LINES = 8
PASSED_OVER = "avatar autojoin away back blockchallenges cmd crq ip noreply query status unblockchallenges".split()
# The text of a refusal in a room, as Showdown's server sends it.
SAID = {
    "stale": "Sorry, too late to make a different move; the next turn has already started",
    "chosen": "There's nothing to choose",
    "nothing chosen": "There's nothing to cancel",
    "no cancel": "There's nothing to cancel",
    "over": "Can't do anything: The game is over",
}


@dataclass(slots=True)
class Shown:
    """A room as a client is shown it. `seat` is None for the audience."""

    number: int
    id: str
    title: str
    viewer: Viewer
    lines: Lines
    seat: Seat | None
    pair: int
    due: int


class ShowdownConnection(Connection):
    """A client of protocol 2."""

    protocol = "showdown"

    def __init__(self, *args: Any) -> None:
        super().__init__(*args)
        self._challenge = f"4|{secrets.token_hex(64)}"
        self._name, self._team, self._where = "", "", ""
        self._rooms: dict[int, Shown] = {}

    def greet(self) -> None:
        self._say("", f"|updateuser| Guest {secrets.randbelow(10**7)}|0|1|{{}}")
        # With a team (e), or a random one (f).
        formats = (f"|{it.title},{'e' if it.checker else 'f'}" for it in FORMATS.values())
        self._say("", f"|formats|,1|First generation{''.join(formats)}")
        self._say("", f"|challstr|{self._challenge}")

    async def asked(self, text: str) -> None:
        where, bar, said = text.partition("|")
        # A refusal is reported there.
        self._where = where if bar and _number(where) is not None else ""
        if not bar:
            raise Refused("message", "a message is ROOM|TEXT")
        for line in said.split("\n")[:MOST_LINES]:
            await self._command(line.strip())

    async def _command(self, line: str) -> None:
        word, _, rest = line.removeprefix("/").partition(" ")
        if not line.startswith("/"):
            raise Refused("chat", "Chat is off here.")
        if word in PASSED_OVER:
            return
        act: Callable[[str], Awaitable[None]] | None = getattr(self, f"do_{word}", None)
        if act is None:
            raise Refused("command", f'The command "/{word[:40]}" does not exist.')
        if self.account is None and word not in ("trn", "join", "leave"):
            raise Refused("account", "Choose a name first.")
        await act(rest.strip())

    def refused(self, fault: Refused) -> None:
        if self._where:
            said = SAID.get(fault.code, _line(str(fault)))
            of_choice = "[Invalid choice] " if fault.code in (*SAID, "choice", "no room", "not yours") else ""
            self._say(self._where, f"|error|{of_choice}{said}")
        else:
            self._say("", f"|popup|{_line(str(fault))}")

    def closing(self) -> None:
        self._say("", "|popup|The server is about to stop. Battles go on when it is back.")

    # ---- rooms ----

    def joined(self, view: View) -> None:
        room = self._opened(view)
        names = self._names(view)
        self._say(room.id, "|init|battle", f"|title|{room.title}", *(f"|j|☆{it}" for it in names))
        if not view.ending:
            self._rooms[view.room] = room
            self._search_again()
        is_new = len(view.logs) == 1
        if is_new:
            self._write(room, view)
        for log in view.logs[:-1]:
            room.lines.hear(log)
            if room.seat:
                room.seat.hear(log)
        self._take(room, view, is_new)

    def updated(self, view: View) -> None:
        if view.room in self._rooms:
            with suppress(Error):
                return self._take(self._rooms[view.room], view, True)
        # It is not shown yet, or a pair is missing.
        self.joined(view)

    def draw_offered(self, room: int, side: Side) -> None:
        shown = self._rooms.get(room)
        if shown:
            self._say(shown.id, f"|-message|Player {side:d} offers a draw (/offertie).")

    def moved(self, room: int, address: str) -> None:
        shown = self._rooms.pop(room, None)
        if shown:
            self._say(shown.id, "|deinit")
            self._say("", f"|popup|{shown.title} goes on at {address or 'another address'}.")

    def _opened(self, view: View) -> Shown:
        names, format = self._names(view), format_named(view.format)
        clauses = format.checker.clauses(format.id) if format.checker else CLAUSES
        members: list[Members | int] = list(view.sizes)
        seat, viewer = None, Viewer.SPECTATOR
        if view.side:
            own = members[view.side - 1] = Members(view.team)
            viewer = Viewer(f"p{view.side:d}")
            seat = Seat(view.side, names[view.side - 1], own, foes=view.sizes[2 - view.side], hp=Hp.PERCENT)
        lines = Lines(names, members, tier=format.title, rules=clauses, hp=Hp.PERCENT)
        id, title = f"battle-{view.format}-{view.room}", f"{names[0]} vs. {names[1]}"
        return Shown(view.room, id, title, viewer, lines, seat, view.number, view.due)

    def _take(self, room: Shown, view: View, is_new: bool) -> None:
        """Takes in the last pair. Its request comes first, except in a room that
        is shown again.
        """
        room.pair, room.due = view.number, view.due
        room.lines.receive(view.sent, int(time()) if is_new else None)
        if room.seat and isinstance(view.sent, Message):
            room.seat.receive(view.sent)
        asked = ""
        # A client that comes back is not asked again for what it has chosen.
        if room.seat and not view.ending and (view.awaited or room.seat.waits):
            asked = f"|request|{room.seat.request(room.pair + 1)}"
        if asked and is_new:
            self._say(room.id, asked)
        self._write(room, view)
        if asked and not is_new:
            self._say(room.id, asked)

    def _write(self, room: Shown, view: View) -> None:
        text = room.lines.text(room.viewer)
        room.lines.clear()
        ending = view.ending
        if ending and ending.reason == "time":
            text = text.replace(" forfeited.\n", " lost due to inactivity.\n")
        lines = text.splitlines()
        if ending and ending.ratings:
            before_one, one, before_two, two = ending.ratings
            for name, before, after in zip(self._names(view), (before_one, before_two), (one, two)):
                lines.append(f"|raw|{name}'s rating: {before:.0f} &rarr; <strong>{after:.0f}</strong>")
        self._say(room.id, *lines)
        if ending and self._rooms.pop(view.room, None):
            self._search_again()

    def _names(self, view: View) -> tuple[str, str]:
        """The names of the players; the client's as the client wrote it."""
        one, two = view.names
        if view.side is Side.ONE:
            return self._name, two
        return (one, self._name) if view.side else (one, two)

    def _here(self) -> Shown:
        found = self._rooms.get(_number(self._where) or 0)
        if found is None:
            raise Refused("no room", "You are in no battle of this name")
        return found

    # ---- the lobby ----

    def failed(self, fault: Refused, where: str = "") -> None:
        before, self._where = self._where, where
        self.turn_down(fault)
        self._where = before

    def challenged(self, name: str, format: str, code: str) -> None:
        said = f"/challenge {format}|{format}|||" if code else "/text I would like a rematch."
        self._say("", f"|pm| {name}| {self._name}|{said}")

    def searches(self, formats: list[str]) -> None:
        games = {it.id: it.title for it in self._rooms.values() if it.seat}
        self._say("", f"|updatesearch|{json.dumps({'searching': formats, 'games': games or None})}")

    def _search_again(self) -> None:
        self.searches(self.services.lobby.searching(self.account.id if self.account else 0))

    async def do_trn(self, rest: str) -> None:
        name, _, more = rest.partition(",")
        name, assertion = name.strip(), more.partition(",")[2].strip()
        self.may_login()
        of = self.services.accounts
        entered = of.asserted(name, self._challenge, assertion) if assertion else of.guest(name, self.address)
        try:
            account = await entered
        except Refused as fault:
            self._say("", f"|nametaken|{_line(name)}|{_line(str(fault))}")
            return
        is_plain = folded(name) == folded(account.name) and name.isprintable() and "|" not in name
        self._name = name if is_plain and len(name) <= LONGEST_NAME else account.name
        self._rooms.clear()
        self.enter(account)
        self._say("", f"|updateuser| {self._name}|1|1|{{}}")
        self.searches([])
        self.services.rooms.arrive(account.id, self)

    async def do_utm(self, rest: str) -> None:
        self._team = "" if rest == "null" else rest

    async def do_search(self, rest: str) -> None:
        await self.services.lobby.search(self.seeker(rest.partition(",")[0].strip(), self._team))

    async def do_cancelsearch(self, rest: str) -> None:
        self.services.lobby.cancel(self.known)

    async def do_challenge(self, rest: str) -> None:
        to, _, format = rest.partition(",")
        seeker = self.seeker(format.partition(",")[0].strip(), self._team)
        if await self.services.lobby.challenge(to.strip(), seeker):
            format = seeker.format
            self._say("", f"|pm| {self._name}| {_line(to.strip())}|/challenge {format}|{format}|||")

    async def do_accept(self, rest: str) -> None:
        found = await self.services.lobby.challenge_of(rest, self.known)
        await self.services.lobby.accept(found, self.seeker(found.format, self._team))

    async def do_reject(self, rest: str) -> None:
        found = await self.services.lobby.challenge_of(rest, self.known)
        await self.services.lobby.withdraw(found.code, self.known)

    async def do_cancelchallenge(self, rest: str) -> None:
        await self.services.lobby.withdraw("", self.known)

    async def do_logout(self, rest: str) -> None:
        self._rooms.clear()
        self.exit()
        self._say("", f"|updateuser| Guest {secrets.randbelow(10**7)}|0|1|{{}}")

    async def do_join(self, rest: str) -> None:
        number = _number(rest)
        if number is None:
            self._say(_line(rest), f'|noinit|nonexistent|The room "{_line(rest)}" does not exist.')
            return
        await self.watch(number)

    async def do_leave(self, rest: str) -> None:
        name = rest or self._where
        number = _number(name)
        if number is not None:
            self.services.rooms.leave(number, self)
            self._rooms.pop(number, None)
            self._say(_line(name), "|deinit")

    # ---- battles ----

    async def do_choose(self, rest: str) -> None:
        room = self._here()
        text, _, rqid = rest.partition("|")
        if rqid and rqid != str(room.pair + 1):
            raise Refused("stale", "the request is not the last one")
        if room.seat is None:
            raise Refused("not yours", "You are not a player of this battle")
        try:
            choice = room.seat.choice_in(text)
        except ChoiceRefused as fault:
            raise Refused("choice", str(fault)) from None
        self._ask(partial(Row.submit, number=room.pair, choice=choice))

    async def do_undo(self, rest: str) -> None:
        self._ask(partial(Row.cancel, number=self._here().pair))

    async def do_forfeit(self, rest: str) -> None:
        self._ask(Row.forfeit)

    async def do_offertie(self, rest: str) -> None:
        self._ask(Row.offer_draw)

    async def do_timer(self, rest: str) -> None:
        room = self._here()
        left = max(0, room.due // 1000 - int(time()))
        self._say(room.id, f"|inactive|Battle timer is ON, always: {left} seconds left for this choice.")

    def _ask(self, row: Callable[[Side], Row]) -> None:
        room = self._here()
        self.ask(room.number, row, where=room.id)

    def _say(self, room: str, *lines: str) -> None:
        self.send("\n".join((f">{room}", *lines) if room else lines))


async def login(services: Services, form: Mapping[str, Any], address: str) -> str:
    """The answer of Showdown's login server to a name and its password. A name
    without one needs no assertion.
    """
    if form.get("act") == "getassertion":
        return ""
    name, challenge = str(form.get("name", "")), str(form.get("challstr", "")).replace("%7C", "|")
    try:
        account = await services.accounts.login(name, str(form.get("pass", "")))
    except Refused as fault:
        services.limits.failed(address)
        return "]" + json.dumps({"actionsuccess": False, "assertion": f";;{fault}"})
    user = {"loggedin": True, "username": account.name, "userid": folded(account.name)}
    assertion = services.accounts.assertion(account.name, challenge)
    return "]" + json.dumps({"actionsuccess": True, "assertion": assertion, "curuser": user})


def _number(room: str) -> int | None:
    """The number of a room such as `battle-gen1ou-7`; None for another name."""
    kind, _, number = room.rpartition("-")
    is_battle = kind.startswith("battle-") and number.isascii() and number.isdecimal() and len(number) < 16
    return int(number) if is_battle else None


def _line(text: str) -> str:
    """A text as one field of a line."""
    return " ".join(text.replace("|", " ").split())[:500]
