"""What an operator does to a database: migrate, back up, restore, prune, verify."""

import subprocess
from contextlib import closing
from functools import partial
from multiprocessing import get_context
from pathlib import Path
from time import time
from typing import Any

from gen1_server import records, schema
from gen1_server.config import Config
from gen1_server.core import replayed
from gen1_server.store import engine_of, first_line, lock_of
from sqlalchemy.exc import DBAPIError

DAY = 24 * 3600 * 1000
# The mode of files with rows, which have both teams, seeds and the secrets of accounts.
PRIVATE = 0o600


class Failed(Exception):
    """A command that could not be done."""


def within(config: Config, statements: Any) -> Any:
    """Runs statements in a transaction of a separate connection."""
    engine = engine_of(config.url, config.durable)
    try:
        with engine.begin() as connection:
            return statements(connection)
    except DBAPIError as fault:
        raise Failed(f"the database: {first_line(fault)}") from None
    finally:
        engine.dispose()


def migrate(config: Config) -> str:
    """Brings the database to the newest version. No server may use it."""
    held = lock_of(config.url)
    try:
        before = within(config, schema.version_of)
        within(config, schema.migrate)
    finally:
        if held:
            held.close()
    return f"the database has version {schema.VERSION}; it had {before or 'none'}"


def prepare(config: Config) -> None:
    """Makes the tables of an empty database."""
    if not within(config, schema.version_of):
        # A separate process, since its end frees the 10 MB that Alembic takes.
        child = get_context("fork").Process(target=migrate, args=(config,))
        child.start()
        child.join()
        if child.exitcode:
            raise Failed("the tables could not be made")


def backup(config: Config, path: Path) -> str:
    """Writes a copy of the database to a new file, while servers use it."""
    if path.exists():
        raise Failed(f"{path} exists")
    if not config.url.startswith("sqlite"):
        path.touch(PRIVATE)
        _run("pg_dump", "--format=custom", f"--file={path}", _libpq(config))
        return f"{path} is an archive for pg_restore"
    _copy(Path(config.database), path)
    return f"{path} is a SQLite file"


def restore(config: Config, path: Path) -> str:
    """Makes a database of a backup, where there is none yet."""
    if not path.is_file():
        raise Failed(f"there is no file {path}")
    if not config.url.startswith("sqlite"):
        if within(config, schema.version_of):
            raise Failed("the database has tables; restore into an empty one")
        _run("pg_restore", "--exit-on-error", "--no-owner", f"--dbname={_libpq(config)}", str(path))
        return "restored"
    into = Path(config.database)
    if into.exists():
        raise Failed(f"{into} exists; move it away first")
    part = into.with_name(f"{into.name}.part")
    _copy(path, part)
    part.rename(into)
    return f"restored {into}"


def prune(config: Config) -> str:
    """Removes battles that ended more than `keep_days` ago."""
    if not config.keep_days:
        return "keep_days is 0: battles are kept for ever"
    before = int(time() * 1000) - config.keep_days * DAY
    return f"removed {within(config, partial(records.prune, before))} battles"


def verify(config: Config) -> str:
    """Plays each finished battle again from its rows, and compares its end."""
    last, count = 0, 0
    while rooms := within(config, partial(records.finished, last, 200)):
        for room in rooms:
            outcome = int(replayed(room.start, room.entries).host.result.outcome)
            if room.ending is None or outcome != room.ending.outcome:
                raise Failed(f"room {room.start.id} ends with outcome {outcome}, not as it was stored")
        last, count = rooms[-1].start.id, count + len(rooms)
    return f"{count} finished battles end as they were stored"


def _copy(path: Path, to: Path) -> None:
    """Copies a SQLite file that may be used."""
    import sqlite3

    to.touch(PRIVATE)
    try:
        with closing(sqlite3.connect(f"file:{path}?mode=ro", uri=True)) as source, closing(sqlite3.connect(to)) as made:
            source.backup(made)
            if made.execute("PRAGMA integrity_check").fetchone()[0] != "ok":
                raise Failed(f"{to} is damaged")
    except sqlite3.Error as fault:
        to.unlink()
        raise Failed(f"{path}: {fault}") from None


def _libpq(config: Config) -> str:
    """The database as PostgreSQL's programs name it."""
    return config.url.replace("postgresql+psycopg2://", "postgresql://", 1)


def _run(*words: str) -> None:
    try:
        done = subprocess.run(words, stdout=subprocess.DEVNULL, stderr=subprocess.PIPE, text=True)
    except FileNotFoundError:
        raise Failed(f"{words[0]} is not installed") from None
    if done.returncode:
        raise Failed(f"{words[0]}: {done.stderr.strip()[-500:]}")
