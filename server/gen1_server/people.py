"""Statements about accounts, their tokens and what is shown of their ratings."""

from typing import Any

from gen1_server.schema import account, added, rating, rating_change, session
from sqlalchemy import delete, insert, select


def add_account(name: str, folded: str, secret: bytes, now: int, connection: Any) -> int:
    """Adds an account; `secret` is empty for one without a password."""
    values = {"name": name, "folded": folded, "secret": secret, "created": now}
    return added(connection, account, values)


def account_named(folded: str, connection: Any) -> tuple[int, str, bytes] | None:
    """The number, name and secret of an account."""
    of = select(account.c.id, account.c.name, account.c.secret).where(account.c.folded == folded)
    found = connection.execute(of).first()
    return (int(found[0]), str(found[1]), bytes(found[2])) if found else None


def add_session(digest: bytes, owner: int, until: int, now: int, connection: Any) -> None:
    """Adds a token, and removes those of the account that have expired."""
    connection.execute(delete(session).where(session.c.account == owner, session.c.until < now))
    connection.execute(insert(session).values({"hash": digest, "account": owner, "until": until}))


def account_of_session(digest: bytes, now: int, connection: Any) -> tuple[int, str] | None:
    """The number and name of the account with a token."""
    of = select(account.c.id, account.c.name).join_from(session, account, account.c.id == session.c.account)
    found = connection.execute(of.where(session.c.hash == digest, session.c.until > now)).first()
    return (int(found[0]), str(found[1])) if found else None


def revoke(owner: int, digest: bytes | None, connection: Any) -> None:
    """Removes a token of an account, or all of them."""
    of = delete(session).where(session.c.account == owner)
    connection.execute(of if digest is None else of.where(session.c.hash == digest))


RATED = [rating.c[it] for it in ("rating", "deviation", "volatility", "wins", "losses", "ties")]


def ladder(format: str, season: str, count: int, connection: Any) -> list[dict[str, Any]]:
    """The accounts with the highest ratings of a season."""
    of = select(account.c.name, *RATED).join_from(rating, account, account.c.id == rating.c.account)
    of = of.where(rating.c.format == format, rating.c.season == season).order_by(rating.c.rating.desc()).limit(count)
    return [dict(it) for it in connection.execute(of).mappings()]


def player(folded: str, count: int, connection: Any) -> dict[str, Any] | None:
    """The ratings of an account, and its last changes."""
    found = account_named(folded, connection)
    if found is None:
        return None
    ratings = select(rating.c.format, rating.c.season, *RATED).where(rating.c.account == found[0])
    names = "room", "format", "season", "before", "after", "deviation", "score", "at"
    changes = select(*[rating_change.c[it] for it in names]).where(rating_change.c.account == found[0])
    last = changes.order_by(rating_change.c.at.desc()).limit(count)
    rows, battles = ([dict(it) for it in connection.execute(of).mappings()] for of in (ratings, last))
    return {"name": found[1], "ratings": rows, "battles": battles}
