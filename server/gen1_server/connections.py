"""A socket of a client: what it may send, and what waits for it to read.

aiohttp handles requests, and hands the connection of a websocket over: a
protocol with its request and its tasks would take 20 kB for each socket.
"""

import asyncio
import logging
from base64 import b64encode
from collections import deque
from collections.abc import Callable, Coroutine
from hashlib import sha1
from dataclasses import dataclass
from struct import Struct
from typing import Any, ClassVar, TypeAlias

from aiohttp import WSCloseCode, WSMessage, WSMsgType, web
from aiohttp.http import WS_KEY, WebSocketError, WebSocketReader
from gen1 import Row, Side
from gen1_server import metrics
from gen1_server.accounts import Account, Accounts
from gen1_server.config import Config
from gen1_server.core import Refused, Watcher
from gen1_server.formats import format_named, team_for, text_of
from gen1_server.limits import Bucket, Limits
from gen1_server.lobby import Lobby, Seeker
from gen1_server.rooms import Rooms
from gen1_server.store import Store

LOG = logging.getLogger("gen1_server")
# The rest of a reply that has to wait.
Rest: TypeAlias = Coroutine[Any, Any, None] | None
# A client that has been slowed down for this many seconds without a pause is closed.
PATIENCE = 10.0
# The cost of a message for which a finished battle is played again.
REPLAY = 20.0
# While this many messages wait for a reply, no more are read.
MOST_WAITING = 8
_MIDDLE, _LONG, _CODE = Struct(">BBH").pack, Struct(">BBQ").pack, Struct(">H").pack
# The codes of the end after messages of these kinds.
ENDS = {WSMsgType.CLOSE: WSCloseCode.OK, WSMsgType.BINARY: WSCloseCode.UNSUPPORTED_DATA}
# The first byte of a whole frame (RFC 6455): text, the end, a ping, and the reply to one.
TEXT, CLOSE, PING, PONG = 0x81, 0x88, 0x89, 0x8A
_SWITCHED = (
    "HTTP/1.1 101 Switching Protocols\r\nUpgrade: websocket\r\nConnection: Upgrade\r\nSec-WebSocket-Accept: {}\r\n\r\n"
)


def frame(kind: int, payload: bytes) -> bytes:
    """A frame of a server's websocket, without extensions."""
    size = len(payload)
    if size < 126:
        return bytes((kind, size)) + payload
    return (_MIDDLE(kind, 126, size) if size < 1 << 16 else _LONG(kind, 127, size)) + payload


def handshake(request: web.Request) -> bytes:
    """The response to the request for a websocket. Raises `HTTPBadRequest`."""
    headers = request.headers
    key = headers.get("Sec-WebSocket-Key", "")
    asks = headers.get("Upgrade", "").lower() == "websocket" and "upgrade" in headers.get("Connection", "").lower()
    if not asks or not key or headers.get("Sec-WebSocket-Version") != "13":
        raise web.HTTPBadRequest(text="a websocket of version 13 is expected\n")
    return _SWITCHED.format(b64encode(sha1(key.encode() + WS_KEY).digest()).decode()).encode()


@dataclass(frozen=True, slots=True)
class Services:
    """The parts of a process that its connections use, each made once at the start."""

    config: Config
    store: Store
    limits: Limits
    rooms: Rooms
    accounts: Accounts
    lobby: Lobby


class Connection(Watcher, asyncio.Protocol):
    """A protocol is a subclass that defines the first four methods here, and
    those of `Watcher`.
    """

    protocol: ClassVar[str]

    def __init__(
        self, services: Services, transport: asyncio.Transport, address: str, ended: Callable[["Connection"], None]
    ) -> None:
        self.services, self.address = services, address
        self.account: Account | None = None
        self._transport, self._closed, self._ended = transport, False, ended
        # Whether something came since the last check, and whether the client was asked to say something.
        self._heard, self._pinged = True, False
        config = services.config
        self._bucket = Bucket(config.messages_per_second, config.messages_at_once)
        self._reader = WebSocketReader(self, config.message_bytes, compress=False)  # type: ignore[arg-type]
        # The messages that wait, the task that handles them, and for how many seconds the client was slowed down without a pause.
        self._waiting: deque[WSMessage] | None = None
        self._task: asyncio.Task[None] | None = None
        self._late, self._is_lost = 0.0, False
        self._count = metrics.MESSAGES.labels(self.protocol)

    def greet(self) -> None:
        """Says what comes first."""

    def asked(self, text: str) -> Rest:
        """Handles a message. Returns the rest of the reply if it has to wait.
        Raises `Refused`.
        """

    def refused(self, fault: Refused) -> None:
        """Says that a request is refused."""

    def closing(self) -> None:
        """Says that the server is about to stop."""

    def send(self, text: str) -> None:
        """Sends a message. A client that does not read is closed; it may come
        back, and is shown its rooms.
        """
        if self._closed or self._transport.is_closing():
            return
        self._transport.write(frame(TEXT, text.encode()))
        if self._transport.get_write_buffer_size() > self.services.config.waiting_bytes:
            self.drop("slow")

    def drop(self, reason: str) -> None:
        """Closes the connection at once; what waits to be read is lost."""
        metrics.DROPPED.labels(reason).inc()
        self._closed = True
        # Not close(), which would wait until the client has read what waits.
        self._transport.abort()

    def check_alive(self) -> None:
        """Called at intervals: asks a client that was silent to say something, and
        closes it if it was silent again.
        """
        if self._heard or self._closed or self._transport.is_closing():
            self._heard = False
        elif self._pinged:
            self.drop("dead")
        else:
            self._pinged = True
            self._transport.write(frame(PING, b""))

    def enter(self, account: Account) -> None:
        """From now on the connection is an account's."""
        self.exit()
        self.account = account
        self._bucket = self.services.limits.of_account(account.id)
        self.services.rooms.online[account.id].add(self)

    def exit(self) -> None:
        """Logs the connection out."""
        self.services.lobby.depart(self)
        self.services.rooms.depart(self.account.id if self.account else 0, self)
        self.account = None

    @property
    def known(self) -> Account:
        """The account, after a login."""
        assert self.account is not None
        return self.account

    def seeker(self, format: str, team: Any) -> Seeker:
        """The account with a team for a format. Raises `Refused`."""
        text = text_of(team_for(format_named(format), team))
        return Seeker(self.known.id, self.known.name, format, text, self)

    def ask(self, room: int, row: Callable[[Side], Row], committed: Callable[[], Any] = bool, where: str = "") -> None:
        """Asks for a row of the account's side in a room. `committed` is called
        when it is stored. Raises `Refused` for what can't be asked.
        """

        def replied(fault: Refused | None) -> None:
            if fault is None:
                committed()
            else:
                self.failed(fault, where)

        self.services.rooms.ask(room, self.known.id, row, replied)

    async def watch(self, room: int) -> None:
        """Has a room shown, without an account as one of the audience. Raises
        `Refused`.
        """
        if not self.services.rooms.is_open(room):
            self.charge(REPLAY)
        await self.services.rooms.watch(room, self.account.id if self.account else 0, self)

    def may_login(self) -> None:
        """Counts a login of the address. Raises `Refused`."""
        if not self.services.limits.login(self.address):
            raise Refused("logins", "too many logins from this address; wait a minute")

    def charge(self, cost: float) -> None:
        """Counts a request that costs more than others. Raises `Refused`."""
        if not self._bucket.takes(cost):
            raise Refused("too fast", "wait a few seconds")

    def begin(self) -> None:
        """Begins after the handshake, and expects a login."""
        metrics.CONNECTIONS.labels(self.protocol).inc()
        self._login = asyncio.get_running_loop().call_later(self.services.config.login_seconds, self._expect_login)
        self.greet()

    def connection_lost(self, _: Exception | None) -> None:
        """Ends the connection, once its requests have been handled."""
        metrics.CONNECTIONS.labels(self.protocol).dec()
        self._login.cancel()
        self._is_lost = True
        if self._task is None:
            self._end()

    def _end(self) -> None:
        self._closed = True
        self.exit()
        self._ended(self)

    def _expect_login(self) -> None:
        if self.account is None and not self.services.rooms.watches(self):
            self.drop("no login")

    def data_received(self, data: bytes) -> None:
        """Reads bytes. The reader calls the two methods that follow."""
        self._reader.feed_data(data)

    def set_exception(self, fault: BaseException) -> None:
        """Takes in that the client breaks the protocol of websockets."""
        code = fault.code if isinstance(fault, WebSocketError) else WSCloseCode.INTERNAL_ERROR
        self.feed_data(WSMessage(WSMsgType.ERROR, code, None))

    def feed_data(self, message: WSMessage, _: int = 0) -> None:
        """Handles a message, after those before it."""
        self._heard, self._pinged = True, False
        if self._closed or message.type is WSMsgType.PONG:
            return
        if self._waiting is not None:
            self._waiting.append(message)
            if len(self._waiting) == MOST_WAITING:
                self._transport.pause_reading()
        elif rest := self._accept(message):
            # Few replies need a task.
            self._waiting = deque()
            self._task = asyncio.get_running_loop().create_task(self._finish(rest, self._waiting))

    def _accept(self, message: WSMessage) -> Rest:
        """Counts a message, and handles it unless the client is too fast. Returns
        the rest of the reply.
        """
        self._count.inc()
        wait = self._bucket.take()
        self._late = self._late + wait if wait else 0.0
        if self._late > PATIENCE:
            self.drop("flood")
            return None
        return self._answer_later(wait, message) if wait else self._answer(message)

    async def _answer_later(self, wait: float, message: WSMessage) -> None:
        """Handles a message of a client that is too fast."""
        # What is not read fills the client's buffers, and so slows it down.
        self._transport.pause_reading()
        await asyncio.sleep(wait)
        if rest := self._answer(message):
            await rest

    def _answer(self, message: WSMessage) -> Rest:
        """Handles a message. Returns the rest of the reply."""
        if message.type is WSMsgType.TEXT:
            try:
                return self.asked(message.data)
            except Exception as fault:
                self._report(fault)
        elif message.type is WSMsgType.PING:
            self._transport.write(frame(PONG, message.data))
        elif not self._closed:
            self._closed = True
            code = ENDS.get(message.type, message.data)
            self._transport.write(frame(CLOSE, _CODE(code)))
            self._transport.close()
        return None

    async def _finish(self, rest: Rest, waiting: deque[WSMessage]) -> None:
        """Finishes a request, then handles the messages that have come meanwhile."""
        while rest or waiting and not self._closed:
            try:
                rest = rest or self._accept(waiting.popleft())
                if rest:
                    await rest
            except Exception as fault:
                self._report(fault)
            rest = None
        self._task = self._waiting = None
        if self._is_lost:
            self._end()
        elif not self._transport.is_closing():
            self._transport.resume_reading()

    def _report(self, fault: Exception) -> None:
        """Says that a request is refused, or that the server failed."""
        if not isinstance(fault, Refused):
            LOG.error("a message failed", exc_info=fault)
            fault = Refused("internal", "the server failed")
        self.turn_down(fault)

    def turn_down(self, fault: Refused) -> None:
        """Counts a refusal, and sends it."""
        metrics.REFUSED.labels(fault.code).inc()
        if fault.code in ("login", "token"):
            self.services.limits.failed(self.address)
        self.refused(fault)

    def failed(self, fault: Refused, where: str = "") -> None:
        self.turn_down(fault)
