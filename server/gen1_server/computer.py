"""The computer as an opponent: an account whose choices are those of `gen1.search`, from what its side may know."""

import asyncio
import json
import logging
import secrets
from contextlib import suppress
from functools import partial

from gen1 import Error, Message, Player, Row, Team
from gen1.search import think
from gen1_server.accounts import Account
from gen1_server.core import Refused, View, Watcher
from gen1_server.formats import FORMATS, LIMIT
from gen1_server.rooms import Rooms, ignored

LOG = logging.getLogger("gen1_server")
# How many searches run at once.
SEARCHES = 2


class Computer(Watcher):
    """A watcher of all rooms of its account. It plays on when it is offered a
    draw, and the lobby accepts challenges for it.
    """

    def __init__(self, rooms: Rooms, account: Account, level: int) -> None:
        self._rooms, self._account, self._level = rooms, account, level
        self._players: dict[int, Player] = {}
        self._turn = asyncio.Semaphore(SEARCHES)

    def joined(self, view: View) -> None:
        """Takes a room in, from its start or from its logs."""
        if view.ending or view.side is None:
            self._players.pop(view.room, None)
            return
        team, foes = Team.from_dicts(json.loads(view.team)), view.sizes[2 - view.side]
        rules = FORMATS[view.format].rules
        player = Player(view.side, team, foes, hp_form=view.hp_form, rules=rules, limit=LIMIT)
        for log in view.logs[:-1]:
            player.feed(log)
        self._players[view.room] = player
        self._take(view)

    def updated(self, view: View) -> None:
        """Takes a pair in that has ended."""
        if view.ending:
            self._players.pop(view.room, None)
        elif view.room in self._players:
            self._take(view)

    def moved(self, room: int, address: str) -> None:
        """Forgets a room."""
        self._players.pop(room, None)

    def _take(self, view: View) -> None:
        assert isinstance(view.sent, Message)
        player = self._players[view.room]
        player.receive(view.sent)
        if view.awaited:
            self._rooms.later(self._choose(view.room, view.number, player.copy()))

    async def _choose(self, room: int, number: int, player: Player) -> None:
        try:
            async with self._turn:
                work = partial(think, player, level=self._level)
                found = (await asyncio.to_thread(work, seed=secrets.randbits(63))).choices
            # As often as the search says, since a side that always makes its best choice can be foreseen.
            choice = secrets.SystemRandom().choices(found, [it.probability for it in found])[0].choice
        except Error:
            LOG.exception("room %d: the computer's search failed", room)
            choice = player.choices[0]
        # The room may be over by now.
        with suppress(Refused):
            self._rooms.ask(room, self._account.id, partial(Row.submit, number=number, choice=choice), ignored)
