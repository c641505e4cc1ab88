"""The tables, as the statements name them, and the versions of the database.

The folder migrations defines the columns: a file for each version, which
Alembic applies.
"""

from pathlib import Path
from typing import Any

from sqlalchemy import column, insert, inspect, select, table

# The newest version, which this program needs.
VERSION = "0003"
MIGRATIONS = Path(__file__).parent / "migrations"


def _table(name: str, columns: str) -> Any:
    return table(name, *map(column, columns.split()))


account = _table("account", "id name folded secret created")
session = _table("session", "hash account until")
process = _table("process", "id name address until")
room = _table(
    "room",
    "id format rated account_one account_two name_one name_two team_one team_two battle options season build created"
    " process outcome reason ended",
)
room_row = _table("room_row", "room sequence bytes at cause")
rating = _table("rating", "account format season rating deviation volatility wins losses ties")
rating_change = _table("rating_change", "account room format season before after deviation score at")
search = _table("search", "process account name format team season rating since follows room code to ends")
_version = _table("alembic_version", "version_num")


def added(connection: Any, into: Any, values: dict[str, Any]) -> int:
    """Adds a row to a table with a column `id`; returns its number."""
    adding = insert(into).values(values)
    if connection.dialect.name == "sqlite":
        return int(connection.execute(adding).lastrowid)
    return int(connection.execute(adding.returning(into.c.id)).scalar_one())


def version_of(connection: Any) -> str:
    """The version of a database; empty if it has no tables."""
    if not inspect(connection).has_table("alembic_version"):
        return ""
    return str(connection.execute(select(_version.c.version_num)).scalar() or "")


def migrate(connection: Any) -> None:
    """Brings a database to the newest version."""
    from alembic import command
    from alembic.config import Config

    config = Config()
    config.set_main_option("script_location", str(MIGRATIONS))
    config.attributes["connection"] = connection
    command.upgrade(config, "head")


def expect_newest(connection: Any) -> None:
    """Raises `RuntimeError` for a database of another version."""
    found = version_of(connection)
    if found != VERSION:
        raise RuntimeError(
            f"the database has version {found}, this program needs {VERSION}: stop the servers, back it up, "
            "and run `python3 -m gen1_server migrate`"
        )
