"""The database: one thread that commits together all work that waits.

Work is statements in a function of a SQLAlchemy connection, and rows of
rooms. It may be done again if other work of its transaction fails, so it
does nothing but statements.
"""

import fcntl
import logging
from asyncio import AbstractEventLoop, Future
from collections.abc import Callable, Sequence
from dataclasses import dataclass
from pathlib import Path
from queue import SimpleQueue
from threading import Thread
from time import perf_counter
from typing import IO, Any, NamedTuple, TypeVar

from gen1_server import metrics
from gen1_server.config import Config
from sqlalchemy import create_engine, event
from sqlalchemy.exc import DBAPIError, IntegrityError

T = TypeVar("T")
Statements = Callable[[Any], T]
# How many works a transaction has at most; and for how many seconds works are gathered for it, unless there are enough.
MOST, GATHER, ENOUGH = 500, 0.011, 16
LOG = logging.getLogger("gen1_server")


class Conflict(Exception):
    """A row with this key exists, or another process has the room."""


class InUse(Exception):
    """Another process has this SQLite file."""


class StoredRow(NamedTuple):
    """A row of a room as the table `room_row` has it, and the process that is
    to have the room.
    """

    room: int
    sequence: int
    bytes: bytes
    at: int
    cause: str
    process: int


@dataclass(frozen=True, slots=True)
class Work:
    """A row, then statements, which are committed together. `done` gets the
    result of the statements and None, or None and the error.
    """

    row: StoredRow | None
    statements: Statements[Any] | None
    done: Callable[[Any, Exception | None], None]


def engine_of(url: str, durable: bool = True) -> Any:
    """The SQLAlchemy engine of a database."""
    if not url.startswith("sqlite"):
        # A process that is stopped inside a transaction must not hold what others wait for.
        options = {"options": "-c idle_in_transaction_session_timeout=5000"}
        return create_engine(url, executemany_mode="values_plus_batch", connect_args=options)
    engine = create_engine(url, connect_args={"check_same_thread": False, "timeout": 30})

    def connected(connection: Any, _: Any) -> None:
        # The driver would begin a transaction at its first writing statement; `begin` does it earlier.
        connection.isolation_level = None
        for line in ("journal_mode=WAL", f"synchronous={'FULL' if durable else 'NORMAL'}", "foreign_keys=ON"):
            connection.execute(f"PRAGMA {line}")

    def begin(connection: Any) -> None:
        connection.exec_driver_sql("BEGIN IMMEDIATE")

    event.listen(engine, "connect", connected)
    event.listen(engine, "begin", begin)
    return engine


def lock_of(url: str) -> IO[str] | None:
    """The lock of a SQLite file, which one process may have. Raises `InUse`.

    If two servers use one file, one that is stopped inside a transaction would
    stop the other.
    """
    if not url.startswith("sqlite"):
        return None
    path = Path(url.removeprefix("sqlite:///") + ".lock")
    held = path.open("w")
    try:
        fcntl.flock(held, fcntl.LOCK_EX | fcntl.LOCK_NB)
    except OSError:
        held.close()
        raise InUse(f"another process uses the database: {path} is locked. Several need PostgreSQL") from None
    return held


# A row is added only while its process has the room, in one statement: a process that slept through its lease would otherwise write
# a row that the new owner doesn't know. PostgreSQL holds the room until the end of the transaction; SQLite has one writer anyway.
_INTO = "INSERT INTO room_row (room, sequence, bytes, at, cause) SELECT"
_SQLITE = f"{_INTO} id, ?2, ?3, ?4, ?5 FROM room WHERE id = ?1 AND process = ?6 AND outcome = 0"
_POSTGRES = (
    f"{_INTO} v.room, v.sequence, v.bytes, v.at, v.cause FROM (VALUES %s) AS v (room, sequence, bytes, at, cause, process)"
    " JOIN room ON room.id = v.room AND room.process = v.process AND room.outcome = 0 FOR SHARE OF room RETURNING 1"
)


def add_rows(raw: Any, rows: Sequence[StoredRow]) -> None:
    """Adds rows of different rooms by a connection of the driver, which takes a
    tenth of the time of SQLAlchemy's. Raises `Conflict` if one is not added.
    """
    if _is_sqlite(raw):
        added = raw.executemany(_SQLITE, rows).rowcount
    else:
        from psycopg2.extras import execute_values

        form = "(%s::bigint, %s, %s::bytea, %s::bigint, %s, %s::bigint)"
        with raw.cursor() as cursor:
            added = len(execute_values(cursor, _POSTGRES, rows, template=form, page_size=MOST, fetch=True))
    if added != len(rows):
        raise Conflict("another process has the room")


class Store:
    """The thread with the connection, for an event loop."""

    def __init__(self, config: Config, loop: AbstractEventLoop) -> None:
        """Connects. Raises `InUse`."""
        self._lock, self._loop = lock_of(config.url), loop
        self.engine = engine_of(config.url, config.durable)
        self._connection: Any = self.engine.connect()
        self._next: list[Work] = []
        self._queue: SimpleQueue[list[Work] | None] = SimpleQueue()
        self._thread = Thread(target=self._serve, name="store", daemon=True)
        self._thread.start()

    def add(self, work: Work) -> None:
        """Has work done; `Work.done` is called in the event loop."""
        if not self._next:
            # A transaction and the turns of both threads cost more than most works do.
            self._loop.call_later(GATHER, self._hand_over)
        self._next.append(work)
        if len(self._next) == ENOUGH:
            self._hand_over()

    def run(self, statements: Statements[T]) -> "Future[T]":
        """Runs statements in a transaction. The result is there once it is
        committed.
        """
        answer: Future[T] = self._loop.create_future()

        def done(found: Any, fault: Exception | None) -> None:
            if answer.cancelled():
                return
            if fault is None:
                answer.set_result(found)
            else:
                answer.set_exception(fault)

        self.add(Work(None, statements, done))
        return answer

    def close(self) -> None:
        """Does what waits, and disconnects."""
        self._hand_over()
        self._queue.put(None)
        self._thread.join()
        self._disconnect()
        self.engine.dispose()
        if self._lock:
            self._lock.close()

    def _hand_over(self) -> None:
        if self._next:
            self._queue.put(self._next)
            self._next = []

    def _serve(self) -> None:
        while True:
            taken = [self._queue.get()]
            while len(taken) < MOST and not self._queue.empty():
                taken.append(self._queue.get())
            works = [work for it in taken if it for work in it]
            for at in range(0, len(works), MOST):
                part, before = works[at : at + MOST], perf_counter()
                found = self._done(part)
                self._loop.call_soon_threadsafe(self._deliver, part, found, perf_counter() - before)
            if None in taken:
                return

    def _done(self, works: list[Work]) -> list[Any]:
        """The result of each work, or its error: of one transaction, or if that
        fails of one for each.
        """
        raw: Any = None
        try:
            if self._connection is None:
                self._connection = self.engine.connect()
            raw = self._connection.connection.connection
            return self._committed(raw, works)
        except Exception as fault:
            if raw is None or getattr(raw, "closed", False) or getattr(fault, "connection_invalidated", False):
                LOG.error("the database is gone: %s", first_line(fault))
                self._disconnect()
                return [fault for _ in works]
            if len(works) == 1:
                return [Conflict(first_line(fault)) if isinstance(fault, IntegrityError) else fault]
        return [answer for work in works for answer in self._done([work])]

    def _committed(self, raw: Any, works: list[Work]) -> list[Any]:
        """The result of each work, after one transaction of them all."""
        rows = [work.row for work in works if work.row]
        if any(it.statements for it in works):
            with self._connection.begin():
                if rows:
                    add_rows(raw, rows)
                return [it.statements(self._connection) if it.statements else None for it in works]
        try:
            if _is_sqlite(raw):
                raw.execute("BEGIN IMMEDIATE")
            add_rows(raw, rows)
            raw.commit()
        except Exception:
            if not getattr(raw, "closed", False):
                raw.rollback()
            raise
        return [None] * len(works)

    def _disconnect(self) -> None:
        connection, self._connection = self._connection, None
        try:
            if connection is not None:
                connection.invalidate()
                connection.close()
        except DBAPIError:
            pass

    def _deliver(self, works: list[Work], found: list[Any], took: float) -> None:
        metrics.COMMITS.observe(took)
        metrics.BATCH.observe(len(works))
        for work, it in zip(works, found):
            try:
                if isinstance(it, Exception):
                    work.done(None, it)
                else:
                    work.done(it, None)
            except Exception:
                LOG.exception("what follows a commit failed")


def _is_sqlite(raw: Any) -> bool:
    """Whether a connection is one of SQLite's driver, which a process on PostgreSQL does not load."""
    return type(raw).__module__ == "sqlite3"


def first_line(fault: Exception) -> str:
    """An error without its statement and values, which may be secret."""
    of = getattr(fault, "orig", fault)
    return (str(of).splitlines() or [type(of).__name__])[0]
