"""Statements about rooms and processes: functions of a connection, which the store commits."""

import json
from collections import defaultdict
from collections.abc import Callable, Set
from dataclasses import asdict, replace
from typing import Any, NamedTuple, TypeAlias

from gen1 import Row, library_build
from gen1_server import schema
from gen1_server.core import Ending, Entry, Options, Start
from gen1_server.ratings import Rating, rated
from gen1_server.schema import account, process, rating, rating_change, room, room_row, search
from sqlalchemy import and_, delete, func, insert, or_, select, tuple_, update

OPEN = room.c.outcome == 0
# The columns of a start, besides its number.
BEGUN = "format rated account_one account_two name_one name_two team_one team_two battle options season created".split()


# Ratings of foes may differ by this much at first, and by so much more for each second that one of them waits.
WINDOW, WIDENING = 100.0, 20.0
MOST_CHALLENGES = 10
# A search or an acceptance: its account, format and code.
Key: TypeAlias = tuple[int, str, str]


class Waiting(NamedTuple):
    """An account of a process that waits for a foe: by a search, or with a `code`
    by a challenge or its acceptance. Times are milliseconds.

    `follows` says whether the client can be led to another process, and `room`
    is the battle that another process has begun, or 0. `to` is the account
    that is challenged, or 0 for anyone with the code; None for others. `ends`
    is when an acceptance ends, or a challenge that wasn't shown to the account;
    0: never.
    """

    process: int
    account: int
    name: str
    format: str
    team: str
    season: str
    rating: float
    since: int
    follows: int
    room: int
    code: str
    to: int | None
    ends: int


WAITING = [search.c[it] for it in Waiting._fields]


class StoredRoom(NamedTuple):
    """A room as the database has it. Its rows are number, bytes, time and cause."""

    start: Start
    rows: list[tuple[Any, ...]]
    process: int
    ending: Ending | None

    @property
    def entries(self) -> list[Entry]:
        """The rows as a match takes them."""
        return [Entry(Row.from_bytes(row), at, cause) for _, row, at, cause in self.rows]


def add_room(start: Start, owner: int, connection: Any) -> Start:
    """Adds an open room of a process; returns the start with its number."""
    sides, options = (*start.accounts, *start.names, *start.teams), json.dumps(asdict(start.options))
    begun = start.format, int(start.rated), *sides, start.battle, options, start.season, start.created
    values = dict(zip(BEGUN, begun), build=library_build, process=owner)
    return replace(start, id=schema.added(connection, room, values))


def add_search(new: Waiting, connection: Any) -> bool:
    """Adds an account that waits, in place of an earlier search, with the rating.
    Returns whether it did: an account has at most `MOST_CHALLENGES`.
    """
    if new.to is not None:
        made = select(func.count()).where(search.c.account == new.account, search.c.to.is_not(None))
        if connection.execute(made).scalar_one() >= MOST_CHALLENGES:
            return False
    own = rating_of(new.account, new.format, new.season, connection).rating
    connection.execute(delete(search).where(_is(new)))
    connection.execute(insert(search).values(new._replace(rating=own)._asdict()))
    return True


def challenges(code: str, player: int, now: int, connection: Any) -> list[Waiting]:
    """The open challenges to an account, and the one with a code."""
    of = select(*WAITING).join_from(search, process, process.c.id == search.c.process)
    of = of.where(process.c.until >= now, search.c.room == 0, search.c.account != player)
    of = of.where(search.c.to.in_((0, player)), or_(search.c.code == code, search.c.to == player))
    return [Waiting(*it) for it in connection.execute(of)]


def withdraw(code: str, player: int, owner: int, connection: Any) -> None:
    """Removes a challenge that an account made or was sent; an empty code: all
    that it made at a process.
    """
    own = and_(search.c.account == player, search.c.to.is_not(None))
    with_code = and_(search.c.code == code, or_(own, search.c.to == player))
    of = with_code if code else and_(own, search.c.process == owner)
    connection.execute(delete(search).where(of, search.c.room == 0))


def forget(keys: list[Key], owner: int, connection: Any) -> None:
    """Removes searches and acceptances of a process."""
    of = tuple_(search.c.account, search.c.format, search.c.code).in_(keys)
    connection.execute(delete(search).where(search.c.process == owner, of))


Begin = Callable[[Waiting, Waiting | None], Start | None]
Begun: TypeAlias = list[tuple[Start, str]]
Led: TypeAlias = list[tuple[Waiting, str | None]]


def pair(
    owner: int, leads: bool, online: Set[int], now: int, begin: Begin, connection: Any
) -> tuple[Begun, Led, list[Waiting]]:
    """Begins the battles of a process's accounts that fit another one that
    waits. Returns them, with the codes of their challenges; the accounts that
    have a battle at another process, with its address, or whose challenge has
    ended, with None; and the challenges that accounts are to be notified of.

    `leads` says whether clients of other processes can be led here, and
    `online` which accounts are here. Accounts that another process is pairing
    are skipped, so that no process waits.
    """
    begun, led, told, waiting = Begun(), Led(), list[Waiting](), list[Waiting]()
    for it, until in _looked_at(now, connection):
        is_own = it.process == owner
        if until < now or is_own and (it.room or 0 < it.ends < now):
            connection.execute(delete(search).where(_is(it)))
            if is_own:
                led.append((it, address_of(it.room, connection) if it.room else None))
        elif not it.room:
            if it.ends and it.to in online:
                told.append(it)
                connection.execute(update(search).where(_is(it)).values(ends=0))
            if is_own or leads and it.follows:
                waiting.append(it)
    for own in [it for it in waiting if it.process == owner]:
        fitting = [it for it in waiting if own in waiting and _fit(own, it, now)]
        foe = min(fitting, key=lambda it: (abs(it.rating - own.rating), it.since), default=None)
        start = begin(own, foe) if own in waiting else None
        if start:
            begun.append((add_room(start, owner, connection), own.code))
            for it in (own, foe) if foe else (own,):
                waiting.remove(it)
                away = update(search).values(room=begun[-1][0].id, ends=now)
                connection.execute((away if it.process != owner else delete(search)).where(_is(it)))
    return begun, led, told


def _looked_at(now: int, connection: Any) -> list[tuple[Waiting, int]]:
    """Those who wait, without the challenges that nobody has answered, and until
    when their processes have a lease.
    """
    other = search.alias()
    asks = search.c.code.in_(select(other.c.code).where(other.c.to.is_(None)))
    of = select(*WAITING, process.c.until).join_from(search, process, process.c.id == search.c.process)
    of = of.where(or_(asks, search.c.ends > 0, process.c.until < now)).order_by(search.c.since)
    found = connection.execute(of.with_for_update(of=search, skip_locked=True)).fetchall()
    return [(Waiting(*it[:-1]), it[-1]) for it in found]


def _is(it: Waiting) -> Any:
    return and_(*[search.c[name] == getattr(it, name) for name in ("process", "account", "format", "code")])


def _fit(one: Waiting, two: Waiting, now: int) -> bool:
    if (one.format, one.season, one.code) != (two.format, two.season, two.code) or one.account == two.account:
        return False
    window = WINDOW + WIDENING * (now - min(one.since, two.since)) / 1000
    return (one.to is None) != (two.to is None) if one.code else abs(one.rating - two.rating) <= window


def end_room(start: Start, outcome: int, reason: str, owner: int, now: int, connection: Any) -> tuple[float, ...]:
    """Ends a room that the process has, with both ratings: those of side 1
    before and after, then those of side 2; none if it isn't rated.

    The transaction has the row that ended the battle, so it is done once.
    """
    ended = update(room).where(room.c.id == start.id, room.c.process == owner, OPEN)
    if connection.execute(ended.values(outcome=outcome, reason=reason, ended=now)).rowcount != 1:
        raise RuntimeError(f"room {start.id} was not open")
    if not start.rated:
        return ()
    score = {1: 1.0, 2: 0.0}.get(outcome, 0.5)
    # Keeps other processes from rating these accounts before the commit; SQLite has one writer anyway.
    players = select(account.c.id).where(account.c.id.in_(start.accounts)).order_by(account.c.id)
    connection.execute(players.with_for_update())
    before = [rating_of(it, start.format, start.season, connection) for it in start.accounts]
    after = rated(before[0], [(before[1], score)]), rated(before[1], [(before[0], 1 - score)])
    for player, was, new, points in zip(start.accounts, before, after, (score, 1 - score)):
        _rate(start, player, was, new, points, now, connection)
    return before[0].rating, after[0].rating, before[1].rating, after[1].rating


def rating_of(player: int, format: str, season: str, connection: Any) -> Rating:
    """The rating of an account; that of a new player if it has none."""
    columns = rating.c.rating, rating.c.deviation, rating.c.volatility
    of = select(*columns).where(rating.c.account == player, rating.c.format == format, rating.c.season == season)
    found = connection.execute(of).first()
    return Rating(*found) if found else Rating()


def _rate(start: Start, player: int, was: Rating, new: Rating, score: float, now: int, connection: Any) -> None:
    key = {"account": player, "format": start.format, "season": start.season}
    where = [rating.c[name] == value for name, value in key.items()]
    counted = {1.0: "wins", 0.0: "losses"}.get(score, "ties")
    values = {"rating": new.rating, "deviation": new.deviation, "volatility": new.volatility}
    changed = update(rating).where(*where).values({**values, counted: rating.c[counted] + 1})
    if connection.execute(changed).rowcount == 0:
        none = {"wins": 0, "losses": 0, "ties": 0, counted: 1}
        connection.execute(insert(rating).values({**key, **values, **none}))
    change = {"room": start.id, "before": was.rating, "after": new.rating, "deviation": new.deviation}
    connection.execute(insert(rating_change).values({**key, **change, "score": score, "at": now}))


def begin_process(name: str, address: str, until: int, connection: Any) -> int:
    """Adds a process, and gives it the rooms of earlier ones of its name. Their
    rows are refused from now on.
    """
    made = schema.added(connection, process, {"name": name, "address": address, "until": until})
    earlier = select(process.c.id).where(process.c.name == name, process.c.id != made).scalar_subquery()
    connection.execute(update(room).where(OPEN, room.c.process.in_(earlier)).values(process=made))
    connection.execute(update(process).where(process.c.name == name, process.c.id != made).values(until=0))
    return made


def renew(owner: int, now: int, until: int, connection: Any) -> list[int]:
    """Renews the lease of a process, and gives it the rooms of those whose lease
    has run out. Returns all open rooms that it has.
    """
    connection.execute(update(process).where(process.c.id == owner).values(until=until))
    gone = select(process.c.id).where(process.c.until < now, process.c.id != owner).scalar_subquery()
    connection.execute(update(room).where(OPEN, room.c.process.in_(gone)).values(process=owner))
    of = select(room.c.id).where(OPEN, room.c.process == owner).order_by(room.c.id)
    return [int(it[0]) for it in connection.execute(of)]


def release(owner: int, connection: Any) -> None:
    """Ends the lease of a process that stops."""
    connection.execute(update(process).where(process.c.id == owner).values(until=0))


def address_of(number: int, connection: Any) -> str:
    """The address of the process that has a room; empty if there is none."""
    of = select(process.c.address).join_from(room, process, process.c.id == room.c.process)
    return str(connection.execute(of.where(room.c.id == number)).scalar() or "")


def stored(numbers: list[int], connection: Any) -> list[StoredRoom]:
    """Rooms with their rows."""
    columns = [room.c[it] for it in ("id", *BEGUN, "process", "outcome", "reason")]
    found = connection.execute(select(*columns).where(room.c.id.in_(numbers)).order_by(room.c.id)).fetchall()
    of = select(room_row.c.room, room_row.c.bytes, room_row.c.at, room_row.c.cause)
    rows: dict[int, list[tuple[Any, ...]]] = defaultdict(list)
    ordered = of.where(room_row.c.room.in_(numbers)).order_by(room_row.c.room, room_row.c.sequence)
    # The driver's rows: SQLAlchemy's would double the time of this function.
    for row in connection.execute(ordered).cursor:
        rows[row[0]].append(row)
    changes = _changes([it[0] for it in found if it.outcome], connection)
    return [_stored(it, rows[it[0]], changes.get(it[0], ())) for it in found]


def _stored(found: Any, rows: list[tuple[Any, ...]], ratings: tuple[float, ...]) -> StoredRoom:
    number, format, is_rated, *sides, battle, options, season, created, owner, outcome, reason = found
    accounts, names, teams = zip(sides[::2], sides[1::2])
    known = Options(**json.loads(options))
    start = Start(number, format, bool(is_rated), accounts, names, teams, bytes(battle), known, season, created)
    return StoredRoom(start, rows, owner, Ending(outcome, reason, ratings) if outcome else None)


def _changes(numbers: list[int], connection: Any) -> dict[int, tuple[float, ...]]:
    """The ratings before and after of both sides, for rated rooms that are over."""
    columns = room.c.id, rating_change.c.before, rating_change.c.after
    of = select(*columns).join_from(room, rating_change, rating_change.c.room == room.c.id)
    of = of.where(room.c.id.in_(numbers)).order_by(room.c.id, rating_change.c.account != room.c.account_one)
    found: dict[int, tuple[float, ...]] = defaultdict(tuple)
    for number, before, after in connection.execute(of) if numbers else ():
        found[number] += before, after
    return found


def finished(after: int, count: int, connection: Any) -> list[StoredRoom]:
    """The finished rooms with numbers above `after`, in order, at most `count`."""
    of = select(room.c.id).where(room.c.id > after, room.c.outcome != 0).order_by(room.c.id).limit(count)
    return stored([it[0] for it in connection.execute(of)], connection)


def prune(before: int, connection: Any) -> int:
    """Removes rooms that ended before a time; their ratings stay. Returns how
    many there were.
    """
    old = room.c.ended < before, room.c.outcome != 0
    connection.execute(delete(room_row).where(room_row.c.room.in_(select(room.c.id).where(*old).scalar_subquery())))
    return int(connection.execute(delete(room).where(*old)).rowcount)
