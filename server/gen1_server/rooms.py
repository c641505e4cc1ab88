"""The open rooms of a process. Each row is checked by the host, committed, applied, and only then is anything sent."""

import asyncio
import logging
from collections import defaultdict
from collections.abc import Callable
from dataclasses import dataclass, field
from functools import cache, partial
from time import perf_counter, time
from typing import Any, TypeAlias

import gen1
from gen1 import HostRefused, Row, Side
from gen1_server import metrics, records
from gen1_server.config import Config
from gen1_server.core import CLOCK, PLAYER, After, Ending, Entry, Match, Refused, Start, View, Watcher, replayed
from gen1_server.records import StoredRoom
from gen1_server.store import Store, StoredRow, Work

LOG = logging.getLogger("gen1_server")
# How many requests may wait for a room, and how many finished rooms are kept for visitors.
WAITING, KEPT = 8, 200
# Called once with None when a request is committed, before anything is sent; or with what was refused.
Reply = Callable[[Refused | None], None]
# The ratings before and after a battle that ends.
Ratings: TypeAlias = tuple[float, ...] | None


def now() -> int:
    """Milliseconds since 1970."""
    return int(time() * 1000)


def ignored(fault: Refused | None) -> None:
    """The reply to a request that nobody waits for."""


@dataclass(slots=True)
class Request:
    """A row that somebody asks for."""

    row: Row
    cause: str
    reply: Reply
    since: float = field(default_factory=perf_counter)


class OpenRoom:
    """A match, its viewers, and the rows that wait. One row at a time is committed."""

    __slots__ = ("id", "start", "watchers", "waiting", "is_busy", "_match", "_stored", "_grace")

    def __init__(self, stored: StoredRoom, grace: int = 0) -> None:
        self.start, self.watchers = stored.start, dict[Watcher, Side | None]()
        self.id = stored.start.id
        self.waiting: list[Request] = []
        self.is_busy = False
        self.read(stored, grace)

    def read(self, stored: StoredRoom, grace: int) -> None:
        """Sets what the match is made of when it is first needed: a start opens a
        thousand rooms, and each takes a millisecond. No time runs out before
        `grace`.
        """
        self._match: Match | None = None
        self._stored, self._grace = stored, grace

    @property
    def match(self) -> Match:
        """The battle as it is now."""
        if self._match is None:
            self._match = replayed(self.start, self._stored.entries)
            self._match.clock.not_before(self._grace)
            self._stored.rows.clear()
        return self._match

    @property
    def due(self) -> int:
        """A time before which no side's time runs out."""
        return self._match.clock.first if self._match else self._grace


class Rooms:
    """All open rooms, and the requests to them."""

    def __init__(self, config: Config, store: Store) -> None:
        self._config, self._store = config, store
        self.open: dict[int, OpenRoom] = {}
        metrics.ROOMS.set_function(lambda: len(self.open))
        self.online: dict[int, set[Watcher]] = defaultdict(set)
        # This process in the database, from `own` on; and the account whose rooms are not counted.
        self.process, self.computer = 0, 0
        self._rooms_of: dict[int, set[int]] = defaultdict(set)
        self._watched: dict[Watcher, set[int]] = defaultdict(set)
        self._kept: dict[int, Match] = {}
        self._tasks: set[asyncio.Task[Any]] = set()
        self.stops = False

    # ---- the process ----

    async def own(self) -> int:
        """Enters this process in the database, and opens the rooms that it has.
        Returns how many.
        """
        config, until = self._config, now() + int(self._config.lease_seconds * 1000)
        self.process = await self._store.run(partial(records.begin_process, config.name, config.address, until))
        await self.renew()
        return len(self.open)

    async def renew(self) -> None:
        """Renews the lease. Closes rooms that another process has taken, and opens
        those of processes that are gone.
        """
        moment = now()
        until = moment + int(self._config.lease_seconds * 1000)
        mine = set(await self._store.run(partial(records.renew, self.process, moment, until)))
        for number in self.open.keys() - mine:
            # A row that is being committed is refused, and its room is read again.
            if not self.open[number].is_busy:
                await self._lose(self.open[number])
        await self._restore(sorted(mine - self.open.keys()))

    async def _restore(self, numbers: list[int]) -> None:
        """Opens rooms from their rows."""
        for at in range(0, len(numbers), 100):
            for found in await self._store.run(partial(records.stored, numbers[at : at + 100])):
                if found.start.id not in self.open and not found.ending and found.process == self.process:
                    self._seat(OpenRoom(found, self._grace()))
            # Lets requests of clients run in between.
            await asyncio.sleep(0)

    def _grace(self) -> int:
        """Until when no time runs out in a room that was not open for a while."""
        return now() + int(self._config.grace_seconds * 1000)

    async def stop(self) -> None:
        """Takes no more requests. Commits that have begun end before the lease is
        released, since the store keeps the order.
        """
        self.stops = True
        try:
            await self._store.run(partial(records.release, self.process))
        except Exception as fault:
            LOG.warning("the lease was not released: %s", type(fault).__name__)

    # ---- rooms begin and end ----

    def room_for(self, account: int) -> None:
        """Raises `Refused` if an account may have no further room."""
        if self.stops:
            raise Refused("closing", "the server is about to stop")
        if len(self.open) >= self._config.most_rooms:
            raise Refused("full", "the server has no room left")
        count = len(self._rooms_of.get(account, ()))
        if count >= self._config.most_rooms_of_account and account != self.computer:
            raise Refused("rooms", f"an account has at most {self._config.most_rooms_of_account} open rooms")

    def seat(self, start: Start) -> None:
        """Opens a room that this process has begun, and shows it."""
        if start.id not in self.open:
            self._seat(OpenRoom(StoredRoom(start, [], self.process, None)))

    def _seat(self, room: OpenRoom) -> None:
        """Opens a room, and shows it to the connections of its players."""
        self.open[room.id] = room
        for account in room.start.accounts:
            self._rooms_of[account].add(room.id)
            for watcher in list(self.online.get(account, ())):
                self._join(room, account, watcher)

    def _close(self, room: OpenRoom) -> None:
        """Forgets a room that is over, or that another process has."""
        self.open.pop(room.id, None)
        for account in room.start.accounts:
            self._rooms_of[account].discard(room.id)
            if not self._rooms_of[account]:
                del self._rooms_of[account]
        for watcher in room.watchers:
            if watcher in self._watched:
                self._watched[watcher].discard(room.id)
        for request in room.waiting:
            request.reply(Refused("over", "the battle is over, or is elsewhere"))
        room.waiting.clear()

    async def _lose(self, room: OpenRoom) -> None:
        """Closes a room that another process has; its clients are led there."""
        metrics.LOST.inc()
        self._close(room)
        found = await self._store.run(partial(records.address_of, room.id))
        for watcher in room.watchers:
            watcher.moved(room.id, found)

    # ---- requests ----

    def ask(self, number: int, account: int, row: Callable[[Side], Row], reply: Reply) -> None:
        """Asks for a row of the side that an account plays in a room. Raises
        `Refused` for what can't be asked; the host may refuse the rest.
        """
        room = self.open.get(number)
        if room is None:
            raise Refused("no room", "there is no such open room here; join it to learn where it is")
        side = room.start.side_of(account)
        if side is None:
            raise Refused("not yours", "you do not play in this room")
        if self.stops or len(room.waiting) >= WAITING:
            raise Refused("busy", "the room takes no further request now")
        try:
            made = row(side)
        except (gen1.BadArgument, gen1.BadType) as fault:
            raise Refused("field", str(fault)) from None
        room.waiting.append(Request(made, PLAYER, reply))
        self._next(room)

    async def expire(self) -> None:
        """Makes the rows of sides whose time has run out: their first choices, or
        after too many of these a forfeit.
        """
        moment = now()
        for room in [it for it in self.open.values() if it.due <= moment]:
            if self.open.get(room.id) is room:
                self._expire(room, moment)
            await asyncio.sleep(0)

    def _expire(self, room: OpenRoom, moment: int) -> None:
        try:
            match = room.match
        except gen1.Error:
            LOG.exception("room %d cannot be played again", room.id)
            self._close(room)
            return
        for side in Side:
            if match.clock.due(side) <= moment and not room.is_busy and match.host.awaits(side):
                forfeits = match.lapses[side - 1] >= room.start.options.lapses
                row = Row.forfeit(side) if forfeits else Row.expire(side, match.host.number)
                room.waiting.append(Request(row, CLOCK, ignored))
                self._next(room)

    def _next(self, room: OpenRoom) -> None:
        """Has the next row of a room committed."""
        while room.waiting and not room.is_busy:
            request, match = room.waiting.pop(0), room.match
            entry = Entry(request.row, now(), request.cause)
            try:
                after = match.after(entry)
            except HostRefused as fault:
                request.reply(Refused(fault.code.name.lower().replace("_", " "), str(fault)))
                continue
            room.is_busy = True
            row = StoredRow(room.id, match.count, bytes(entry.row), entry.at, entry.cause, self.process)
            end = after.end
            ends = partial(records.end_room, room.start, *end, self.process, entry.at) if end else None
            self._store.add(Work(row, ends, partial(self._committed, room, request, entry, after)))

    def _committed(
        self, room: OpenRoom, request: Request, entry: Entry, after: After, ratings: Ratings, fault: Exception | None
    ) -> None:
        """Applies a row that is committed, and sends what it changed."""
        if fault is not None:
            # The database may have the row or not; or another process has the room.
            LOG.warning("room %d: a row was not committed: %s", room.id, type(fault).__name__)
            metrics.FAILED.inc()
            request.reply(Refused("again", "the request may not have been stored; look at the room again"))
            self.later(self._reread(room))
            return
        room.is_busy = False
        metrics.ROWS_OF[entry.row.kind].inc()
        room.match.take(entry, after)
        request.reply(None)
        if after.end:
            room.match.ending = Ending(*after.end, ratings or ())
            metrics.ENDED.labels(after.end[1]).inc()
            self._close(room)
        if after.ended:
            self._show(room)
            metrics.PAIRS.inc()
            metrics.LATENCY.observe(perf_counter() - request.since)
        elif entry.row.kind is gen1.RowKind.OFFER_DRAW:
            for watcher, side in list(room.watchers.items()):
                if side is not None:
                    watcher.draw_offered(room.id, entry.row.side)
        self._next(room)

    async def _reread(self, room: OpenRoom) -> None:
        """Reads a room again whose last row may have been committed or not."""
        metrics.REREAD.inc()
        while True:
            try:
                (found,) = await self._store.run(partial(records.stored, [room.id]))
                break
            except Exception as fault:
                LOG.error("room %d cannot be read: %s", room.id, type(fault).__name__)
                await asyncio.sleep(1)
        if found.process != self.process:
            await self._lose(room)
            return
        room.read(found, self._grace())
        room.is_busy = False
        if found.ending:
            room.match.ending = found.ending
            self._close(room)
        for watcher, side in list(room.watchers.items()):
            watcher.joined(room.match.view(side))
        self._next(room)

    def later(self, work: Any) -> None:
        """Runs a coroutine on its own."""
        task = asyncio.get_running_loop().create_task(work)
        self._tasks.add(task)
        task.add_done_callback(self._tasks.discard)

    # ---- viewers ----

    def arrive(self, account: int, watcher: Watcher) -> None:
        """Shows a connection the open rooms of its account, and from now on those
        that begin.
        """
        self.online[account].add(watcher)
        rooms = [self.open[it] for it in self.rooms_of(account)]
        if rooms:
            metrics.RECONNECTS.inc()
        for room in rooms:
            self._join(room, account, watcher)

    def depart(self, account: int, watcher: Watcher) -> None:
        """Forgets a connection that is gone."""
        if account in self.online:
            self.online[account].discard(watcher)
            if not self.online[account]:
                del self.online[account]
        for number in self._watched.pop(watcher, ()):
            if number in self.open:
                self.open[number].watchers.pop(watcher, None)

    def rooms_of(self, account: int) -> list[int]:
        """The numbers of the open rooms that an account plays in here."""
        return sorted(self._rooms_of.get(account, ()))

    async def watch(self, number: int, account: int, watcher: Watcher) -> None:
        """Shows a room to a connection: as its player, or else as one of the
        audience. One that is over is read back. Raises `Refused`.
        """
        if number in self.open:
            self._join(self.open[number], account, watcher)
        else:
            match = await self._recalled(number)
            watcher.joined(match.view(match.start.side_of(account)))

    def watches(self, watcher: Watcher) -> bool:
        """Whether a connection is shown a room."""
        return bool(self._watched.get(watcher))

    def is_open(self, number: int) -> bool:
        """Whether a room is open here, so that showing it costs little."""
        return number in self.open or number in self._kept

    def leave(self, number: int, watcher: Watcher) -> None:
        """Shows a connection no more of a room."""
        self._watched[watcher].discard(number)
        if number in self.open:
            self.open[number].watchers.pop(watcher, None)

    async def over(self, number: int, account: int) -> tuple[Start, str]:
        """The start of a room that is over and that an account played in, and the
        account's team. Raises `Refused`.
        """
        if number in self.open:
            raise Refused("not over", "the battle is not over")
        start = (await self._recalled(number)).start
        if account not in start.accounts:
            raise Refused("not yours", "you did not play in this room")
        return start, start.teams[start.accounts.index(account)]

    async def _recalled(self, number: int) -> Match:
        """A match that is over, from its rows. The last ones are kept, since to
        play one again takes milliseconds.
        """
        if number in self._kept:
            return self._kept[number]
        found = await self._store.run(partial(records.stored, [number]))
        if not found:
            raise Refused("no room", "there is no such room")
        if not found[0].ending:
            raise Refused("elsewhere", await self._store.run(partial(records.address_of, number)))
        match = replayed(found[0].start, found[0].entries)
        match.ending = found[0].ending
        while match.catch_up():
            pass
        if len(self._kept) >= KEPT:
            self._kept.pop(next(iter(self._kept)))
        self._kept[number] = match
        return match

    def _join(self, room: OpenRoom, account: int, watcher: Watcher) -> None:
        """Shows a connection a room, and from now on what happens in it."""
        side = room.watchers[watcher] = room.start.side_of(account)
        self._watched[watcher].add(room.id)
        watcher.joined(room.match.view(side))

    def _show(self, room: OpenRoom) -> None:
        """Shows everybody the pair that has just ended."""
        view = cache(room.match.view)
        for watcher, side in list(room.watchers.items()):
            if side is not None or room.match.audience_moved:
                watcher.updated(view(side))
        audience = [watcher for watcher, side in room.watchers.items() if side is None]
        while room.match.ending and room.match.catch_up():
            for watcher in audience:
                watcher.updated(room.match.view(None))
