"""Searches for a foe, challenges and rematches."""

import json
import secrets
from dataclasses import dataclass
from functools import partial

from gen1 import Battle, Team
from gen1_server import metrics, records
from gen1_server.accounts import Account, Accounts, folded
from gen1_server.config import Config
from gen1_server.core import Options, Refused, Start, Watcher
from gen1_server.formats import LIMIT, computers_team, format_named, text_of
from gen1_server.records import Waiting
from gen1_server.rooms import Rooms, now
from gen1_server.store import Store

# The milliseconds in which other processes can notify an account of a challenge, and take an acceptance.
PATIENCE = 3000
NOBODY, NONE = "there is no such player here now", "there is no such challenge"
# How the code of a rematch begins.
REMATCH = "rematch "


@dataclass(eq=False, slots=True)
class Seeker:
    """An account that wants a battle in a format with a team, which is JSON."""

    account: int
    name: str
    format: str
    team: str
    watcher: Watcher | None = None


class Lobby:
    """Those who wait. They are in the database, where processes find those of
    others; after a restart all ask again.
    """

    def __init__(self, config: Config, store: Store, rooms: Rooms, accounts: Accounts) -> None:
        self._config, self._store, self._rooms, self._accounts = config, store, rooms, accounts
        # The searches, and with the code of a challenge the acceptances; and the last connection of an account that made a challenge.
        self._searches: dict[records.Key, Seeker] = {}
        self._challengers: dict[int, Watcher] = {}
        metrics.SEARCHES.set_function(lambda: len(self._searches))
        # The computer accepts each challenge, with its own team.
        self.computer: Account | None = None

    async def search(self, seeker: Seeker, code: str = "", ends: int = 0) -> None:
        """Begins a rated battle with the closest foe in the window, or that of the
        challenge with a code, or waits for one. Raises `Refused`.
        """
        self._rooms.room_for(seeker.account)
        self._searches[seeker.account, seeker.format, code] = seeker
        self._told(seeker.account, code)
        added = self._store.run(partial(records.add_search, self._waiting(seeker, code, None, ends)))
        await self.pair_all()
        await added

    async def pair_all(self) -> None:
        """Begins battles of those who wait, here or at other processes, and leads
        clients to battles that others have begun.
        """
        leads, online = bool(self._config.address), set(self._rooms.online)
        work = partial(records.pair, self._rooms.process, leads, online, now(), self._start_of)
        begun, led, told = await self._store.run(work)
        for start, code in begun:
            for account in start.accounts:
                self._found(account, start.format, code)
            self._rooms.seat(start)
        for it, address in led:
            seeker = self._found(it.account, it.format, it.code)
            watcher = seeker.watcher if seeker else self._challengers.get(it.account)
            if watcher and address is not None:
                watcher.moved(it.room, address)
            elif watcher:
                watcher.failed(Refused("no player", NOBODY) if it.to else Refused("no challenge", NONE))
        for it in told:
            self._tell_challenged(it)

    def searching(self, account: int) -> list[str]:
        """The formats in which an account waits for a foe."""
        return [format for searcher, format, code in self._searches if searcher == account and not code]

    def cancel(self, account: Account) -> None:
        """Ends the searches of an account."""
        self._drop([(account.id, it, "") for it in self.searching(account.id)])
        self._told(account.id)

    async def challenge(self, to: str, seeker: Seeker) -> str:
        """Challenges an account, or with an empty name anyone with the code,
        which is returned. The computer accepts at once. Raises `Refused`.
        """
        self._rooms.room_for(seeker.account)
        if to and folded(to) == folded(seeker.name):
            raise Refused("no player", "you cannot challenge yourself")
        account = await self._accounts.named(to) if to else None
        if to and (account is None or account.id not in self._rooms.online and not self._config.address):
            raise Refused("no player", NOBODY)
        code = secrets.token_urlsafe(12)
        await self._challenge(seeker, code, account.id if account else 0)
        if account is None or account != self.computer:
            return code
        await self.search(self._computer_for(seeker.format), code, now() + PATIENCE)
        return ""

    async def challenge_of(self, code: str, account: Account) -> Waiting:
        """The open challenge with this code, or of the account with this name, to
        an account. Raises `Refused`.
        """
        text = code if code.isprintable() else ""
        found = await self._store.run(partial(records.challenges, text, account.id, now()))
        named = [it for it in found if it.to and folded(it.name) == folded(code)]
        for it in [it for it in found if it.code == code] + named:
            return it
        raise Refused("no challenge", NONE)

    async def accept(self, challenge: Waiting, seeker: Seeker) -> None:
        """Begins the battle of a challenge, or has the process of the other one
        begin it. Raises `Refused`.
        """
        self._rooms.room_for(challenge.account)
        follows = challenge.follows or seeker.watcher and seeker.watcher.follows
        if challenge.process != self._rooms.process and not follows:
            raise Refused("no challenge", "the player is at another process, and no client can be led there")
        await self.search(seeker, challenge.code, now() + PATIENCE)

    async def withdraw(self, code: str, account: Account) -> None:
        """Removes a challenge that an account made or was sent; an empty code:
        all that it made.
        """
        text = code if code.isprintable() else " "
        await self._store.run(partial(records.withdraw, text, account.id, self._rooms.process))

    async def rematch(self, start: Start, seeker: Seeker) -> None:
        """Begins a battle once both players of a room that is over ask for it: it
        is a challenge whose code isn't sent to the other one. Raises `Refused`.
        """
        self._rooms.room_for(seeker.account)
        code = f"{REMATCH}{start.id}"
        for it in await self._store.run(partial(records.challenges, code, seeker.account, now())):
            if it.code == code:
                return await self.accept(it, seeker)
        await self._challenge(seeker, code, start.accounts[seeker.account == start.accounts[0]])

    def depart(self, watcher: Watcher) -> None:
        """Forgets what a connection that is gone has asked for."""
        self._drop([key for key, it in self._searches.items() if it.watcher is watcher])
        for account in [account for account, it in self._challengers.items() if it is watcher]:
            del self._challengers[account]
            self._store.run(partial(records.withdraw, "", account, self._rooms.process))

    def _drop(self, keys: list[records.Key]) -> None:
        """Ends searches and acceptances."""
        for key in keys:
            del self._searches[key]
        if keys:
            self._store.run(partial(records.forget, keys, self._rooms.process))

    async def _challenge(self, seeker: Seeker, code: str, to: int) -> None:
        """Challenges an account, or with 0 anyone with the code. Raises `Refused`."""
        is_here = to in self._rooms.online
        # Where another process has the account, it says so by removing the end.
        ends = now() + PATIENCE if to and not is_here and self._config.address else 0
        if not await self._store.run(partial(records.add_search, self._waiting(seeker, code, to, ends))):
            raise Refused("challenges", f"an account has at most {records.MOST_CHALLENGES} open challenges")
        if seeker.watcher:
            self._challengers[seeker.account] = seeker.watcher
        if is_here:
            self._tell_challenged(self._waiting(seeker, code, to, 0))

    def _tell_challenged(self, it: Waiting) -> None:
        for watcher in list(self._rooms.online.get(it.to or 0, ())):
            watcher.challenged(it.name, it.format, "" if it.code.startswith(REMATCH) else it.code)

    def _waiting(self, seeker: Seeker, code: str, to: int | None, ends: int) -> Waiting:
        """An account that waits, as the database has it."""
        follows = int(seeker.watcher is not None and seeker.watcher.follows)
        columns = seeker.account, seeker.name, seeker.format, seeker.team, self._config.season, 0.0, now(), follows, 0
        return Waiting(self._rooms.process, *columns, code, to, ends)

    def _told(self, account: int, code: str = "") -> None:
        """Tells the connections of an account where it searches."""
        for watcher in () if code else list(self._rooms.online.get(account, ())):
            watcher.searches(self.searching(account))

    def _found(self, account: int, format: str, code: str) -> Seeker | None:
        """Ends a search or an acceptance whose battle has begun."""
        seeker = self._searches.pop((account, format, code), None)
        if seeker:
            self._told(account, code)
        return seeker

    def _computer_for(self, format: str) -> Seeker:
        assert self.computer is not None
        return Seeker(self.computer.id, self.computer.name, format, text_of(computers_team(format)))

    def _start_of(self, one: Waiting, two: Waiting | None) -> Start | None:
        """The battle of two accounts that wait, rated without a challenge. Without
        a second one, the foe of a search that is old enough is the computer.
        """
        seconds = self._config.bot_seconds if self.computer and not one.code else 0.0
        if two is None and (not seconds or now() - one.since < 1000 * seconds):
            return None
        sides: tuple[Waiting | Seeker, Waiting | Seeker] = (one, two or self._computer_for(one.format))
        # Chance decides who is side 1.
        first, second = sides[:: secrets.choice((1, -1))]
        config, rules = self._config, format_named(one.format).rules
        one_team, two_team = (Team.from_dicts(json.loads(it.team)) for it in (first, second))
        battle = Battle(one_team, two_team, secrets.token_bytes(10), rules, LIMIT)
        choice, total = (int(it * 1000) for it in (config.choice_seconds, config.total_seconds))
        options = Options(config.exact_hp, config.may_cancel, choice, total, config.lapses, config.audience_delay)
        who = (first.account, second.account), (first.name, second.name), (first.team, second.team)
        return Start(0, one.format, not one.code, *who, battle.bytes, options, config.season, now())
