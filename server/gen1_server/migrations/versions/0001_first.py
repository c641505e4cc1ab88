"""The first tables.

account         names, with the salted scrypt of a password or nothing
session         the SHA-256 of each token
process         the server processes, and until when each has its rooms
room            a battle's start and, once it is over, its end
room_row        the rows of each room, in order (gen1.Row, 18 bytes)
rating          what each account has in a format and a season
rating_change   what each battle changed
"""

from functools import partial

import sqlalchemy as sa
from alembic import op

revision = "0001"
down_revision = None

BIG = sa.BigInteger().with_variant(sa.Integer(), "sqlite")


def needed(kind: object, *names: str, **options: object) -> list[sa.Column]:
    return [sa.Column(it, kind, nullable=False, **options) for it in names]


text, small, big, blob = (partial(needed, it) for it in (sa.Text, sa.Integer, sa.BigInteger, sa.LargeBinary))


def key(*names: str, kind: object = BIG, **options: object) -> list[sa.Column]:
    return [sa.Column(it, kind, primary_key=True, **options) for it in names]


def of(table: str, name: str, **options: object) -> list[sa.Column]:
    return [sa.Column(name, BIG, sa.ForeignKey(f"{table}.id", ondelete=options.pop("ondelete", None)), **options)]


def made(name: str, *columns: list[sa.Column], **options: object) -> None:
    op.create_table(name, *sum(columns, []), **options)


def upgrade() -> None:
    open_ = sa.text("outcome = 0")
    owner = partial(of, "account", nullable=False)
    made("account", key("id"), text("name"), text("folded", unique=True), blob("secret"), big("created"))
    made("session", key("hash", kind=sa.LargeBinary), owner("account"), big("until"))
    op.create_index("session_account", "session", ["account"])
    made("process", key("id"), text("name", "address"), big("until"))
    begun = text("format", "name_one", "name_two", "team_one", "team_two", "options", "season", "build")
    start = [*begun, *owner("account_one"), *owner("account_two"), *blob("battle"), *small("rated"), *big("created")]
    end = [*small("outcome", server_default="0"), *text("reason", server_default=""), *big("ended", server_default="0")]
    made("room", key("id"), start, needed(BIG, "process"), end)
    op.create_index("room_open", "room", ["process"], sqlite_where=open_, postgresql_where=open_)
    op.create_index("room_ended", "room", ["ended"])
    sequence = key("sequence", kind=sa.Integer, autoincrement=False)
    room = of("room", "room", ondelete="CASCADE", primary_key=True)
    made("room_row", room, sequence, blob("bytes"), big("at"), text("cause"), sqlite_with_rowid=False)
    rated, real = key("format", "season", kind=sa.Text), partial(needed, sa.Float(53))
    rating = real("rating", "deviation", "volatility") + small("wins", "losses", "ties")
    made("rating", of("account", "account", primary_key=True), rated, rating)
    op.create_index("rating_table", "rating", ["format", "season", "rating"])
    change = text("format", "season") + real("before", "after", "deviation", "score") + big("at")
    made("rating_change", of("account", "account", primary_key=True), key("room"), change)
