"""The web application of a process: its parts, its routes, its start and its stop."""

import asyncio
import gc
import logging
from collections.abc import Awaitable, Callable
from ctypes import CDLL
from functools import partial
from importlib.resources import files
from pathlib import Path
from typing import Any
from urllib.parse import urlsplit

from aiohttp import web
from gen1_server import metrics, people, schema
from gen1_server.accounts import Accounts, folded
from gen1_server.computer import Computer
from gen1_server.config import Config
from gen1_server.connections import Connection, Services, handshake
from gen1_server.formats import load
from gen1_server.json_protocol import JsonConnection
from gen1_server.limits import Limits
from gen1_server.lobby import Lobby
from gen1_server.rooms import Rooms
from gen1_server.showdown import ShowdownConnection, login
from gen1_server.store import Store
from prometheus_client import generate_latest

LOG = logging.getLogger("gen1_server")
# How many rows a table has.
MOST_ROWS = 100
HEADERS = {"X-Content-Type-Options": "nosniff", "Referrer-Policy": "no-referrer", "X-Frame-Options": "DENY"}


class Server:
    """A process of the server."""

    services: Services

    def __init__(self, config: Config) -> None:
        self.config = config
        self._connections: set[Connection] = set()
        self._tasks: list[asyncio.Task[None]] = []
        self._ready = False
        # The protocols of aiohttp, one for each connection, that have asked for nothing yet, with their timers.
        self._silent: dict[Any, asyncio.TimerHandle] = {}

    def application(self) -> web.Application:
        """The application, with its routes."""
        app = web.Application(client_max_size=self.config.message_bytes, middlewares=[self._headers])
        routes: dict[str, Any] = {
            **{"/": self._page, "/socket": partial(self._socket, JsonConnection), "/rooms": self._rooms},
            "/showdown/websocket": partial(self._socket, ShowdownConnection),
            **{"/ladder/{format}": self._ladder, "/player/{name}": self._player},
            **{"/metrics": self._metrics, "/health": self._health, "/ready": self._is_ready},
        }
        app.router.add_routes([web.get(path, it) for path, it in routes.items()])
        app.router.add_post("/action.php", self._login)
        app.on_startup.append(self._start)
        app.on_shutdown.append(self._stop)
        app.on_cleanup.append(self._clean)
        return app

    # ---- start and stop ----

    async def _start(self, _: web.Application) -> None:
        config = self.config
        load(config.formats)
        store = Store(config, asyncio.get_running_loop())
        await store.run(schema.expect_newest)
        rooms = Rooms(config, store)
        accounts = Accounts(store, rooms, config.secret, config.guests, config.bot)
        limits = Limits(config.messages_per_second, config.messages_at_once, config.logins_per_minute)
        lobby = Lobby(config, store, rooms, accounts)
        self.services = Services(config, store, limits, rooms, accounts, lobby)
        if config.bot:
            lobby.computer = computer = await accounts.known(config.bot)
            rooms.computer = computer.id
            rooms.online[computer.id].add(Computer(rooms, computer, config.bot_level))
        # A full collection of the garbage over a thousand rooms would stop everything for a tenth of a second.
        gc.set_threshold(10_000, 20, 1000)
        LOG.info("open rooms: %d", await rooms.own())
        gc.freeze()
        beat, lease = config.heartbeat_seconds / 2, config.lease_seconds / 3
        # Memory that is free goes back to the system, where the C library can do that.
        trim: Callable[[], int] = partial(getattr(CDLL(None), "malloc_trim", int), 0)
        trim()
        acts = (0.5, rooms.expire), (beat, trim), (1.0, lobby.pair_all), (beat, self._check_alive), (lease, rooms.renew)
        self._tasks = [asyncio.create_task(self._every(*it)) for it in acts]
        self._ready = True

    async def _stop(self, _: web.Application) -> None:
        """Tells the clients, and waits for what is being committed."""
        self._ready = False
        for task in self._tasks:
            task.cancel()
        for connection in list(self._connections):
            connection.closing()
        await self.services.rooms.stop()
        # Time for what waits to be read; a client that does not read it gets no more.
        await asyncio.sleep(0.2)
        for connection in list(self._connections):
            connection.drop("closing")

    async def _clean(self, _: web.Application) -> None:
        self.services.store.close()

    def _check_alive(self) -> None:
        for connection in list(self._connections):
            connection.check_alive()

    async def _every(self, seconds: float, act: Callable[[], Any]) -> None:
        while True:
            await asyncio.sleep(seconds)
            try:
                done = act()
                if isinstance(done, Awaitable):
                    await done
            except Exception:
                LOG.exception("a task failed")

    # ---- connections ----

    def protocol(self, server: web.Server) -> asyncio.Protocol:
        """A protocol of aiohttp for a new connection, which is closed if it asks
        for nothing: aiohttp has no limit for that.
        """
        made = server()
        self._silent[made] = asyncio.get_running_loop().call_later(self.config.first_seconds, self._expect, made)
        return made

    def _expect(self, made: Any) -> None:
        del self._silent[made]
        if made.transport is not None:
            metrics.DROPPED.labels("silent").inc()
            made.transport.abort()

    def _address(self, request: web.Request) -> str:
        """The address of a client; with a proxy, the one that the proxy names."""
        named = request.headers.get("X-Forwarded-For", "") if self.config.proxied else ""
        return named.rpartition(",")[2].strip() or request.remote or ""

    def _expect_origin(self, request: web.Request) -> None:
        """Refuses a browser's page of another site."""
        origin = request.headers.get("Origin")
        if origin is not None and origin not in self.config.origins and urlsplit(origin).netloc != request.host:
            metrics.REFUSED.labels("origin").inc()
            raise web.HTTPForbidden(text="this origin is not allowed")

    async def _socket(self, kind: type[Connection], request: web.Request) -> web.StreamResponse:
        self._expect_origin(request)
        config, address = self.config, self._address(request)
        limits = self.services.limits
        if not self._ready or len(self._connections) >= config.most_connections:
            raise web.HTTPServiceUnavailable
        answer = handshake(request)
        if not limits.connect(address, config.most_connections_of_address):
            raise web.HTTPTooManyRequests
        transport = request.transport
        assert transport is not None
        connection = kind(self.services, transport, address, self._ended)
        self._connections.add(connection)
        transport.write(answer)
        transport.set_protocol(connection)
        # For aiohttp the connection has ended, and so has the request.
        request.protocol.connection_lost(None)
        connection.begin()
        raise asyncio.CancelledError

    def _ended(self, connection: Connection) -> None:
        self._connections.discard(connection)
        self.services.limits.disconnect(connection.address)

    async def _login(self, request: web.Request) -> web.Response:
        """The login of Showdown's protocol."""
        self._expect_origin(request)
        if not self.services.limits.login(self._address(request)):
            raise web.HTTPTooManyRequests
        return web.Response(text=await login(self.services, await request.post(), self._address(request)))

    # ---- pages ----

    @web.middleware
    async def _headers(self, request: web.Request, handler: Any) -> web.StreamResponse:
        if request.protocol in self._silent:
            self._silent.pop(request.protocol).cancel()
        found: web.StreamResponse = await handler(request)
        if not found.prepared:
            found.headers.update(HEADERS)
        return found

    async def _page(self, _: web.Request) -> web.StreamResponse:
        path = page_of(self.config)
        if path is None:
            raise web.HTTPNotFound(text="There is no page: run web/build --online, or name one by the option page.\n")
        return web.FileResponse(path, headers=HEADERS)

    async def _rooms(self, _: web.Request) -> web.Response:
        """The open rooms of this process, the newest first."""
        starts = [it.start for it in list(self.services.rooms.open.values())[-MOST_ROWS:]]
        found = [{"room": it.id, "format": it.format, "rated": it.rated, "names": it.names} for it in starts]
        return web.json_response({"rooms": found[::-1]})

    async def _ladder(self, request: web.Request) -> web.Response:
        """The players of a format and a season, the best first."""
        format, season = request.match_info["format"], request.query.get("season", self.config.season)
        rows = await self._read(request, partial(people.ladder, format, season, MOST_ROWS))
        return web.json_response({"format": format, "season": season, "players": rows})

    async def _player(self, request: web.Request) -> web.Response:
        """The ratings of a player, and its last battles."""
        name = folded(request.match_info["name"])
        found = await self._read(request, partial(people.player, name, MOST_ROWS))
        if found is None:
            raise web.HTTPNotFound
        return web.json_response(found)

    async def _read(self, request: web.Request, statements: Callable[[Any], Any]) -> Any:
        """Reads the database for a stranger; counts as a login of the address."""
        if not self.services.limits.login(self._address(request)):
            raise web.HTTPTooManyRequests
        return await self.services.store.run(statements)

    async def _metrics(self, _: web.Request) -> web.Response:
        return web.Response(body=generate_latest(), content_type="text/plain")

    async def _health(self, _: web.Request) -> web.Response:
        rooms = len(self.services.rooms.open) if self._ready else 0
        return web.json_response({"name": self.config.name, "rooms": rooms, "connections": len(self._connections)})

    async def _is_ready(self, _: web.Request) -> web.Response:
        """Whether the process takes requests, and its database answers."""
        try:
            if self._ready:
                await asyncio.wait_for(self.services.store.run(schema.version_of), 5)
                return web.Response(text="ready\n")
        except Exception as fault:
            LOG.warning("not ready: %s", type(fault).__name__)
        raise web.HTTPServiceUnavailable(text="not ready\n")


def page_of(config: Config) -> Path | None:
    """The page that is served at /, if there is one."""
    beside = Path(__file__).resolve().parents[2] / "web" / "dist" / "online.html"
    found = [Path(config.page)] if config.page else [beside, Path(str(files("gen1") / "page.html"))]
    return next((it for it in found if it.is_file()), None)


async def serve(config: Config, stop: asyncio.Event) -> None:
    """Serves until the event is set."""
    server = Server(config)
    runner = web.AppRunner(server.application(), access_log=None)
    await runner.setup()
    assert runner.server is not None
    listening = await asyncio.get_running_loop().create_server(
        partial(server.protocol, runner.server), config.host, config.port, backlog=4096, reuse_address=True
    )
    LOG.info("listening at http://%s:%d", config.host, config.port)
    try:
        await stop.wait()
    finally:
        LOG.info("stopping")
        listening.close()
        await runner.shutdown()
        await runner.cleanup()
        LOG.info("stopped")
