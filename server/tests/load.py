"""Loads servers, and measures them.

    python3 load.py --figures                          starts servers of its own and prints a table: six minutes, on four processors
    python3 load.py --url ws://127.0.0.1:8000/socket --pid PID --rooms 1000 --every 10 --seconds 60       a server that is running
    python3 load.py .. --rooms 50 --every 0 --seconds 20                                                   its full speed

It prints pairs a second, the server's share of a core, its memory, and the time from the last choice of a pair to its message (p50 and
p99). PYTHONPATH and GEN1_LIBRARY are as for the server.
"""

import argparse
import asyncio
import json
import multiprocessing
import os
import random
import resource
import secrets
import signal
import sys
import tempfile
import time
from contextlib import contextmanager
from dataclasses import dataclass
from functools import partial
from importlib import import_module
from importlib.util import find_spec
from pathlib import Path

import aiohttp
from client import Process, postgresql
from gen1 import Battle, Row, Side, random_team
from gen1_server import keeping, people, records, schema
from gen1_server.config import Config
from gen1_server.core import Entry, Match, Options, Start
from gen1_server.formats import LIMIT, format_named, text_of
from gen1_server.rooms import now
from sqlalchemy import insert

TICKS = os.sysconf("SC_CLK_TCK")
FORMAT = "gen1randombattle"
# One address has all the clients.
OPTIONS = {
    "logins_per_minute": 1e9,
    "messages_per_second": 1e6,
    "messages_at_once": 1000000,
    "most_connections_of_address": 20000,
}


def used(pid):
    """The seconds of processor time that a process has used, and its memory in MB."""
    fields = open(f"/proc/{pid}/stat").read().rpartition(")")[2].split()
    return (int(fields[11]) + int(fields[12])) / TICKS, int(fields[21]) * 4096 / 1e6


class Table:
    """A room of two bots, which make random choices at the same time."""

    def __init__(self, load, number):
        self.load, self.number, self.sockets = load, number, [None, None]
        self.sent, self.waiting, self.room, self.seen = 0.0, 0, None, 0

    async def run(self, session):
        names = [f"L{os.getpid()}x{self.number}{it}" for it in "ab"]
        self.sockets = [await session.ws_connect(self.load.url, max_msg_size=0) for _ in names]
        for socket, name in zip(self.sockets, names):
            await socket.receive()
            await say(socket, type="guest", name=name)
        await asyncio.gather(*(self.follow(at) for at in (0, 1)))

    async def follow(self, at):
        socket = self.sockets[at]
        async for message in socket:
            given = json.loads(message.data)
            kind = given["type"]
            if kind == "welcome" and at == 0:
                await asyncio.sleep(random.random() * self.load.every)
                await say(socket, type="challenge", format="gen1randombattle")
            elif kind == "challenging":
                await say(self.sockets[1], type="accept", code=given["code"])
            elif kind in ("room", "update"):
                await self.moved(at, given)
            elif kind == "refused":
                print(given)

    async def moved(self, at, given):
        self.load.begun.add(self.number)
        if given["type"] == "update":
            self.load.seen(time.perf_counter() - self.sent, self.seen == given["number"])
            self.seen = given["number"]
        if "ending" in given:
            if at == 0:
                await say(self.sockets[0], type="challenge", format="gen1randombattle")
        elif given["awaited"]:
            asyncio.create_task(self.choose(at, given))

    async def choose(self, at, given):
        if self.load.every:
            # Both at once, but for a little.
            await asyncio.sleep(self.load.every - 0.2 + random.random() / 5)
        self.sent = time.perf_counter()
        choice = random.choice(given["choices"])
        try:
            await say(self.sockets[at], type="choose", room=given["room"], number=given["number"], choice=choice)
        except ConnectionError:
            # The measurement is over.
            pass


class Load:
    def __init__(self, url, every):
        self.url, self.every, self.times, self.pairs, self.begun = url, every, [], 0, set()

    def seen(self, took, second):
        self.times.append(took)
        self.pairs += second


async def say(socket, **given):
    await socket.send_str(json.dumps(given))


async def play(url, rooms, asked, ready, results):
    load = Load(url, asked.every)
    async with aiohttp.ClientSession(connector=aiohttp.TCPConnector(limit=0)) as session:
        tables = []
        for number in range(rooms):
            tables.append(asyncio.create_task(Table(load, number).run(session)))
            if number % 20 == 19:
                await asyncio.sleep(0.1)
        while len(load.begun) < rooms:
            await asyncio.sleep(0.1)
        await asyncio.to_thread(ready.wait)
        await asyncio.sleep(asked.warm)
        load.times, load.pairs = [], 0
        await asyncio.sleep(asked.seconds)
        results.put((load.pairs, load.times))
        for it in tables:
            it.cancel()


async def idle(url, sockets, results):
    """Connects guests that do nothing, and puts a result when they are there."""
    async with aiohttp.ClientSession(connector=aiohttp.TCPConnector(limit=0)) as session:

        async def one(number):
            socket = await session.ws_connect(url)
            await socket.receive()
            await say(socket, type="guest", name=f"I{os.getpid()}x{number}")
            await socket.receive()
            return asyncio.create_task(socket.receive())

        waiting = []
        for at in range(0, sockets, 100):
            waiting += await asyncio.gather(*map(one, range(at, min(at + 100, sockets))))
        results.put(len(waiting))
        await asyncio.gather(*waiting)


def work(clients, *given):
    signal.signal(signal.SIGTERM, signal.SIG_DFL)
    loop = find_spec("uvloop") and import_module("uvloop").new_event_loop
    with asyncio.Runner(loop_factory=loop) as runner:
        runner.run(clients(*given))


@contextmanager
def clients(kind, of_each):
    """Runs processes of clients; gives the queue of their results."""
    results = multiprocessing.Queue()
    started = [multiprocessing.Process(target=work, args=(kind, *it, results)) for it in of_each]
    for it in started:
        it.start()
    try:
        yield results
    finally:
        for it in started:
            it.terminate()
            it.join()


@dataclass
class Asked:
    """How many rooms play, how many seconds a pair takes (0: full speed), for how many seconds they are measured, and how long after
    all have begun; and how many processes the clients are."""

    rooms: int
    every: float
    seconds: float
    warm: float = 8.0
    processes: int = 2


@dataclass
class Measured:
    pairs: float
    share: float
    memory: float
    p50: float
    p99: float

    def __str__(self):
        speed = f"{self.pairs:.0f} pairs/s, {self.share:.3f} of a core, {self.memory:.0f} MB"
        return f"{speed}, p50 {self.p50:.1f} ms, p99 {self.p99:.1f} ms"


def measured(servers, asked):
    """What servers, as (address, process), do with this many rooms among them."""
    count = asked.processes
    ready = multiprocessing.Barrier(count + 1)
    of_each = [(servers[it % len(servers)][0], asked.rooms // count, asked, ready) for it in range(count)]
    with clients(play, of_each) as results:
        # All rooms have begun.
        ready.wait(120)
        time.sleep(asked.warm + 1)
        before, moment = sum(used(pid)[0] for _, pid in servers), time.perf_counter()
        time.sleep(asked.seconds - 3)
        share = (sum(used(pid)[0] for _, pid in servers) - before) / (time.perf_counter() - moment)
        memory = sum(used(pid)[1] for _, pid in servers)
        found = [results.get() for _ in of_each]
    pairs, times = sum(it[0] for it in found), sorted(took for it in found for took in it[1])
    p50, p99 = (times[int(len(times) * it)] * 1000 for it in (0.5, 0.99))
    return Measured(pairs / asked.seconds, share, memory, p50, p99)


# ---- all figures ----


def played(accounts, pairs):
    """A match of a number of pairs of random choices."""
    while True:
        teams = [random_team(random.SystemRandom()) for _ in accounts]
        battle = Battle(*teams, secrets.token_bytes(10), format_named(FORMAT).rules, LIMIT)
        texts = tuple(map(text_of, teams))
        match = Match(Start(0, FORMAT, False, accounts, ("A", "B"), texts, battle.bytes, Options(), "1", now()))
        entries = []
        while match.host.number < pairs and not match.host.is_closed:
            for side in filter(match.host.awaits, Side):
                choice = random.choice(match.host.message(side).choices)
                entries.append(Entry(Row.submit(side, match.host.number, choice), now()))
                match.take(entries[-1])
        if not match.host.is_closed:
            return match.start, entries


def fill(config, rooms, pairs, connection):
    """Adds open rooms, each with a number of pairs."""
    owner = records.begin_process(config.name, "", 0, connection)
    for number in range(rooms):
        names = [f"F{number}{it}" for it in "ab"]
        accounts = tuple(people.add_account(it, it.lower(), b"", 0, connection) for it in names)
        start, entries = played(accounts, pairs)
        room = records.add_room(start, owner, connection).id
        rows = [
            {"room": room, "sequence": at, "bytes": bytes(it.row), "at": it.at, "cause": it.cause}
            for at, it in enumerate(entries)
        ]
        connection.execute(insert(schema.room_row), rows)


class Figures:
    """Measures servers with one kind of database. `database` makes an empty one."""

    def __init__(self, folder, kind, database):
        self.folder, self.kind, self.database = folder, kind, database
        self.cores = sorted(os.sched_getaffinity(0))

    @contextmanager
    def servers(self, count=1, **options):
        """Servers on one database, each on a separate core."""
        database, made = self.database(), []
        try:
            for name, core in zip(("one", "two")[:count], self.cores):
                made.append(Process(self.folder, name=name, database=database, **OPTIONS | options).start())
                for task in Path(f"/proc/{made[-1].child.pid}/task").iterdir():
                    os.sched_setaffinity(int(task.name), {core})
            yield made
        finally:
            for it in made:
                it.kill()

    def played(self, count, *asked):
        with self.servers(count) as made:
            return measured([(it.url, it.child.pid) for it in made], Asked(*asked))

    def started(self):
        """The seconds that a server with 1,000 rooms of 50 pairs takes to start: all, and of its processor. The median of three."""
        database = self.database()
        config, times = Config(database=database), []
        keeping.prepare(config)
        keeping.within(config, partial(fill, config, 1000, 50))
        for _ in range(3):
            it, began = Process(self.folder, database=database), time.perf_counter()
            it.start()
            times.append((time.perf_counter() - began, used(it.child.pid)[0]))
            assert json.loads(it.get("/health"))["rooms"] == 1000
            it.kill()
        return sorted(times)[1]

    def waited(self, sockets):
        """The memory of a server with a number of sockets, in MB."""
        with self.servers() as (it,), clients(idle, [(it.url, sockets // 2)] * 2) as results:
            there = results.get() + results.get()
            time.sleep(5)
            assert json.loads(it.get("/health"))["connections"] == there
            return used(it.child.pid)[1]


def used_before(database):
    """Gives a new PostgreSQL the segments of its log that one in use has, since to make one stops all commits for a while."""
    config = Config(database=database)
    for _ in range(5):
        keeping.within(config, lambda it: it.exec_driver_sql("SELECT txid_current(), pg_switch_wal()").fetchall())
    keeping.within(config, lambda it: it.exec_driver_sql("CHECKPOINT"))


def figures(seconds):
    """Prints all figures of docs/SERVER.md's server with their aims, as they come."""
    resource.setrlimit(resource.RLIMIT_NOFILE, (resource.getrlimit(resource.RLIMIT_NOFILE)[1],) * 2)
    # So that what is started here ends with it.
    signal.signal(signal.SIGTERM, lambda *_: sys.exit(1))
    began = time.monotonic()

    def say(kind, figure, found, aim, form=".1f"):
        print(f"{time.monotonic() - began:4.0f} s  {kind:10}  {figure:44} {found:9{form}}  aim {aim}", flush=True)

    print(f"load {os.getloadavg()[0]:.1f}, {os.cpu_count()} processors")
    with tempfile.TemporaryDirectory(prefix="gen1-load-") as name, postgresql() as databases:
        folder, files = Path(name), iter(range(100))
        kinds = [Figures(folder, "SQLite", lambda: str(folder / f"{next(files)}.db"))]
        if databases:
            used_before(databases())
            kinds.append(Figures(folder, "PostgreSQL", databases))
        # Servers have the first two cores, and clients and PostgreSQL's processes the others.
        os.sched_setaffinity(0, set(kinds[0].cores[2:] or kinds[0].cores))
        for it, share, p99, speed in zip(kinds, (0.12, 0.2), (25, 40), (1500, 900)):
            found = it.played(1, 1000, 10.0, seconds)
            say(it.kind, "1,000 rooms, a pair in 10 s: share of a core", found.share, f"{share}", ".3f")
            say(it.kind, "  pairs a second", found.pairs, "about 100")
            say(it.kind, "  p50, ms", found.p50, "-")
            say(it.kind, "  p99, ms", found.p99, f"{p99}")
            say(it.kind, "  memory with its 2,000 sockets, MB", found.memory, "80")
            one = it.played(1, 50, 0.0, 20.0, 3.0)
            say(it.kind, "full speed, 50 rooms: pairs a second", one.pairs, f"{speed}")
            started, processor = it.started()
            say(it.kind, "start with 1,000 rooms of 50 pairs, s", started, "1.5", ".2f")
            say(it.kind, "  of these of a processor, s", processor, "-", ".2f")
        # In turns, since the disk is not as fast at all times.
        for _ in range(3 if databases else 0):
            one, two = (it.played(count, 50 * count, 0.0, 10.0, 3.0).pairs for count in (1, 2))
            say(it.kind, f"two processes, {two:.0f} pairs/s: times those of one", two / one, "1.6", ".2f")
        say(kinds[0].kind, "memory with 10,000 idle sockets, MB", kinds[0].waited(10000), "600", ".0f")
    print(f"load {os.getloadavg()[0]:.1f}")


def main():
    parser = argparse.ArgumentParser(description=__doc__, formatter_class=argparse.RawDescriptionHelpFormatter)
    parser.add_argument("--figures", action="store_true")
    parser.add_argument("--url", default="ws://127.0.0.1:8000/socket")
    parser.add_argument("--pid", type=int)
    parser.add_argument("--rooms", type=int, default=1000)
    parser.add_argument("--every", type=float, default=10.0)
    parser.add_argument("--seconds", type=float, default=45.0)
    parser.add_argument("--warm", type=float, default=8.0, help="after all rooms have begun")
    parser.add_argument("--processes", type=int, default=2)
    given = parser.parse_args()
    if given.figures:
        figures(given.seconds)
    elif given.pid is None:
        sys.exit("load.py: needs --figures or --pid")
    else:
        asked = Asked(given.rooms, given.every, given.seconds, given.warm, given.processes)
        print(measured([(given.url, given.pid)], asked))


if __name__ == "__main__":
    main()
