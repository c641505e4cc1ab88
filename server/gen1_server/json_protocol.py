"""Protocol 1: JSON messages over a websocket (messages.schema.json). Bytes are base64."""

import json
from base64 import b64encode
from functools import partial
from typing import Any

import gen1
from gen1 import Row, Side
from gen1_server.accounts import Account
from gen1_server.connections import REPLAY, Connection, Rest
from gen1_server.core import Refused, View
from gen1_server.formats import FORMATS, LIMIT
from gen1_server.rooms import now

PROTOCOL = 1
MOST = 1 << 53
ENCODE = json.JSONEncoder(separators=(",", ":")).encode


class JsonConnection(Connection):
    """A client of protocol 1."""

    protocol, follows = "json", True

    def greet(self) -> None:
        formats = {
            it.id: {"title": it.title, "team": it.checker is not None, "rules": it.rules} for it in FORMATS.values()
        }
        computer = self.services.lobby.computer
        more = {"limit": LIMIT, "computer": computer.name if computer else "", "now": now()}
        self._say("hello", protocol=PROTOCOL, build=gen1.library_build, formats=formats, **more)

    def asked(self, text: str) -> Rest:
        try:
            given = json.loads(text)
        except (ValueError, RecursionError):
            given = None
        if not isinstance(given, dict):
            raise Refused("json", "a message is a JSON object")
        kind = given.get("type")
        if kind not in TYPES:
            raise Refused("type", f"there is no such type; there are {', '.join(TYPES)}")
        if self.account is None and kind not in (*LOGINS, "join", "leave"):
            raise Refused("account", "log in first")
        if self.account is None or kind in LOGINS:
            self.may_login()
        rest: Rest = getattr(self, f"on_{kind}")(given)
        return rest

    def refused(self, fault: Refused) -> None:
        self._say("refused", code=fault.code, said=str(fault))

    def closing(self) -> None:
        self._say("closing")

    def joined(self, view: View) -> None:
        whole: dict[str, Any] = {
            "format": view.format,
            "rated": view.rated,
            "names": view.names,
            "sizes": view.sizes,
            "hp_form": view.hp_form.name.lower(),
            "side": view.side or 0,
            "history": [_text(it) for it in view.logs[:-1]],
        }
        if view.side:
            whole["team"] = json.loads(view.team)
        self._say("room", **whole, **_standing(view))

    def updated(self, view: View) -> None:
        self._say("update", **_standing(view))

    def draw_offered(self, room: int, side: Side) -> None:
        self._say("draw_offered", room=room, side=int(side))

    def moved(self, room: int, address: str) -> None:
        self._say("moved", room=room, address=address)

    def challenged(self, name: str, format: str, code: str) -> None:
        self._say("challenged", **{"from": name, "format": format, "code": code})

    def searches(self, formats: list[str]) -> None:
        self._say("searching", formats=formats)

    # ---- logins ----

    async def on_token(self, given: dict[str, Any]) -> None:
        self._welcome(await self.services.accounts.of_token(_field(given, "token", str)), None)

    async def on_login(self, given: dict[str, Any]) -> None:
        await self._enter(await self.services.accounts.login(*_password_of(given)))

    async def on_register(self, given: dict[str, Any]) -> None:
        await self._enter(await self.services.accounts.register(*_password_of(given)))

    async def on_guest(self, given: dict[str, Any]) -> None:
        await self._enter(await self.services.accounts.guest(_field(given, "name", str), self.address))

    async def on_logout(self, given: dict[str, Any]) -> None:
        token = given.get("token")
        await self.services.accounts.revoke(self.known, _field(given, "token", str) if token is not None else None)
        self.exit()
        self._say("goodbye")

    # ---- the lobby ----

    async def on_search(self, given: dict[str, Any]) -> None:
        await self.services.lobby.search(self.seeker(_field(given, "format", str), given.get("team")))

    def on_cancel_search(self, given: dict[str, Any]) -> None:
        self.services.lobby.cancel(self.known)

    async def on_challenge(self, given: dict[str, Any]) -> None:
        to = _field(given, "to", str) if "to" in given else ""
        seeker = self.seeker(_field(given, "format", str), given.get("team"))
        code = await self.services.lobby.challenge(to, seeker)
        self._say("challenging", code=code, to=to, format=seeker.format)

    async def on_accept(self, given: dict[str, Any]) -> None:
        found = await self.services.lobby.challenge_of(_field(given, "code", str), self.known)
        await self.services.lobby.accept(found, self.seeker(found.format, given.get("team")))

    async def on_withdraw(self, given: dict[str, Any]) -> None:
        await self.services.lobby.withdraw(_field(given, "code", str), self.known)

    async def on_rematch(self, given: dict[str, Any]) -> None:
        self.charge(REPLAY)
        start, team = await self.services.rooms.over(_field(given, "room", int), self.known.id)
        given_team = given["team"] if "team" in given else json.loads(team)
        await self.services.lobby.rematch(start, self.seeker(start.format, given_team))

    # ---- rooms ----

    async def on_join(self, given: dict[str, Any]) -> None:
        await self.watch(_field(given, "room", int))

    def on_leave(self, given: dict[str, Any]) -> None:
        self.services.rooms.leave(_field(given, "room", int), self)

    def on_choose(self, given: dict[str, Any]) -> None:
        room, number, choice = (_field(given, it, int) for it in ("room", "number", "choice"))
        taken = partial(self._say, "taken", room=room, number=number)
        self.ask(room, partial(Row.submit, number=number, choice=choice), taken)

    def on_cancel_choice(self, given: dict[str, Any]) -> None:
        room, number = (_field(given, it, int) for it in ("room", "number"))
        cancelled = partial(self._say, "cancelled", room=room, number=number)
        self.ask(room, partial(Row.cancel, number=number), cancelled)

    def on_offer_draw(self, given: dict[str, Any]) -> None:
        self.ask(_field(given, "room", int), Row.offer_draw)

    def on_forfeit(self, given: dict[str, Any]) -> None:
        self.ask(_field(given, "room", int), Row.forfeit)

    async def _enter(self, account: Account) -> None:
        self._welcome(account, await self.services.accounts.new_token(account))

    def _welcome(self, account: Account, token: str | None) -> None:
        self.enter(account)
        self._say("welcome", name=account.name, token=token, rooms=self.services.rooms.rooms_of(account.id))
        self.services.rooms.arrive(account.id, self)

    def _say(self, kind: str, **fields: Any) -> None:
        self.send(ENCODE({"type": kind} | fields))


LOGINS = ("token", "login", "register", "guest")
# The types of messages from clients: the methods whose names begin with on_.
TYPES = [name.removeprefix("on_") for name in vars(JsonConnection) if name.startswith("on_")]


def _field(given: dict[str, Any], name: str, kind: type) -> Any:
    found: Any = given.get(name)
    if not isinstance(found, kind) or isinstance(found, bool) or isinstance(found, int) and not 0 <= found < MOST:
        raise Refused("field", f"{name} must be {'a text' if kind is str else 'a number, 0 or more'}")
    return found


def _password_of(given: dict[str, Any]) -> tuple[str, str]:
    return _field(given, "name", str), _field(given, "password", str)


def _text(data: bytes) -> str:
    return b64encode(data).decode()


def _standing(view: View) -> dict[str, Any]:
    """The current position of a room, for a side or the audience."""
    found: dict[str, Any] = {"room": view.room, "number": view.number, "sent": _text(bytes(view.sent))}
    if view.side:
        assert isinstance(view.sent, gen1.Message)
        found |= {"choices": view.sent.choices, "awaited": view.awaited, "due": view.due}
    if view.ending:
        end = view.ending
        found["ending"] = {"outcome": end.outcome, "reason": end.reason, "ratings": end.ratings}
    return found
