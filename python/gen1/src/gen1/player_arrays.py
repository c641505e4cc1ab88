"""Many battles at once, with the players of both sides."""

from __future__ import annotations

from ctypes import c_size_t, c_void_p, sizeof
from dataclasses import dataclass
from functools import lru_cache
from typing import Any, TypeAlias

import numpy as np
from numpy.typing import ArrayLike, NDArray

from gen1 import _library
from gen1._check import place as a_place
from gen1._check import within
from gen1._structs import PlayerStruct, TellerStruct
from gen1._threads import in_parts
from gen1.arrays import UPDATE_BYTES, BattleArray, Bytes, Masks
from gen1.battle import Battle, TeamLike, sides_of
from gen1.choices import Choice, Side, a_side
from gen1.encodings import PLAYER, Encoding, Rows, filler
from gen1.errors import BadArgument
from gen1.names import HpForm
from gen1.players import Player, Teller

TELLER = np.dtype(TellerStruct)
PLAYER_BYTES, TELLER_BYTES = 2 * sizeof(PlayerStruct), 2 * sizeof(TellerStruct)
Pairs: TypeAlias = NDArray[Any]
USUAL = Encoding()


@dataclass(frozen=True)
class Start:
    """A battle after its first update, with its players and tellers, as pairs
    of `PLAYER` and `TELLER`.
    """

    battle: Battle
    players: Pairs
    tellers: Pairs


def start_of(
    one: TeamLike, two: TeamLike, rules: int, limit: int, pixels: bool = True, hp_form: HpForm | None = None
) -> Start:
    """The start of a battle of two teams. The first update draws nothing, so
    the battle can be reseeded.
    """
    teams = sides_of(one, two)
    battle = Battle(*teams, bytes(10), rules, limit)
    log = battle.update(Choice.PASS, Choice.PASS).log
    tellers = [Teller(side, pixels, hp_form=hp_form) for side in Side]
    players = [Player(it.side, teams[it.side - 1], len(teams[2 - it.side]), hp_form=it.hp_form) for it in tellers]
    for teller, player in zip(tellers, players):
        teller.report(battle, log, player)
    known = np.frombuffer(b"".join(bytes(it._held) for it in players), PLAYER)
    return Start(battle, known, np.frombuffer(b"".join(bytes(it._held) for it in tellers), TELLER))


@lru_cache(maxsize=2)
def player_of_play(short: bool = False) -> Any:
    """The call of batch.c that updates battles and their players; a short call
    keeps the interpreter's lock.
    """
    takes = c_void_p, c_void_p, c_void_p, c_void_p, c_size_t
    return _library.bind("gen1_py_play", None, *takes, of=_library.SHORT if short else _library.LONG)


class PlayerArray:
    """Battles of two teams in an array, each after its first update, with the
    players of both sides.

    `step` updates all battles in one call, and reports each update to both
    players. `masks`, `observe`, `known` and `player` compute their results
    from the players alone, so they contain only what the side may know
    (docs/MECHANICS.md, "Player's view"). Only `battles`, `results` and
    `codes` are for the referee.

    Battles are changed by `step`, `reset` and `begin`. An array must be
    used by one thread at a time.
    """

    def __init__(
        self,
        n: int,
        one: TeamLike,
        two: TeamLike,
        seeds: ArrayLike | None = None,
        *,
        rules: int = 0,
        limit: int = 1000,
        pixels: bool = True,
        threads: int = 1,
        hp_form: HpForm | None = None,
    ) -> None:
        """Begins `n` battles of two teams, which draw the numbers of `seeds`,
        (n, 10) bytes, or all zeros.

        `rules` and `limit` are those of `Battle`, `pixels` and `hp_form`
        those of `Teller`. `threads`, 1 to 256, is how many threads `step`
        and `observe` use. Raises `BadTeam`, `BadArgument`, `BadType`.
        """
        self._terms = rules, limit, pixels, hp_form
        start = start_of(one, two, *self._terms)
        self._battles = BattleArray(n, start.battle, seeds, threads=threads)
        self._first = np.tile(start.players, (n, 1)), np.tile(start.tellers, (n, 1))
        self._players, self._tellers = (it.copy() for it in self._first)

    def __len__(self) -> int:
        return len(self._battles)

    def __repr__(self) -> str:
        return f"<PlayerArray of {len(self):,}, {int(self.over.sum()):,} over>"

    def copy(self) -> "PlayerArray":
        """An independent array with the same battles and players, which draws
        the same numbers.
        """
        made = PlayerArray.__new__(PlayerArray)
        made._terms, made._battles, made._first = (
            self._terms,
            self._battles.copy(),
            (self._first[0].copy(), self._first[1].copy()),
        )
        made._players, made._tellers = self._players.copy(), self._tellers.copy()
        return made

    __copy__ = copy

    def __deepcopy__(self, _: object) -> "PlayerArray":
        return self.copy()

    @property
    def battles(self) -> BattleArray:
        """A copy of the battles. It includes information hidden from players."""
        return self._battles.copy()

    @property
    def results(self) -> Bytes:
        """The result bytes of the battles, (n), like those of a `BattleArray`."""
        return self._battles.results

    @property
    def codes(self) -> Bytes:
        """0 for each battle that the last step updated, else the number of its
        `Refusal`, (n).
        """
        return self._battles.codes

    @property
    def outcomes(self) -> Bytes:
        """The number of each battle's `Outcome`, (n), as a new array."""
        return self._battles.outcomes

    @property
    def over(self) -> NDArray[np.bool_]:
        """Which battles are over, (n) bools, as a new array."""
        return self._battles.over

    def masks(self, side: Side | int) -> Masks:
        """The offered choices of a side in each battle, (n), as a new array of
        masks like those of `BattleArray.masks`.
        """
        masks: Masks = self._players["offered"][:, a_side(side) - 1].copy()
        return masks

    def known(self, side: Side | int) -> Pairs:
        """The players of a side, (n), as a read-only view with the fields of
        `gen1_player` (include/gen1.h).

        `known(1)["own"]["stats"]` has shape (n, 4). It shows the current
        battles.
        """
        view = self._players[:, a_side(side) - 1]
        view.flags.writeable = False
        return view

    def player(self, at: int, side: Side | int) -> Player:
        """A copy of the player of a side in one battle. Raises `BadPlace`,
        which is an `IndexError` too.
        """
        made = Player.__new__(Player)
        made._held = PlayerStruct.from_buffer_copy(self._players[a_place(at, len(self)), a_side(side) - 1].tobytes())
        return made

    def observe(
        self,
        side: Side | int,
        encoding: Encoding = USUAL,
        out: Rows | None = None,
        which: NDArray[np.bool_] | None = None,
    ) -> Rows:
        """A side's knowledge of each battle, as rows, (n, `encoding.width`);
        `encoding.columns` describes the columns.

        The rows are a new array, or `out` if it is given, which must have
        that shape and `encoding.dtype`. With `which`, (n) bools, there are
        only the m rows of the battles where it is true.
        """
        at, pairs = a_side(side) - 1, self._players if which is None else _octets(self._players)[self._mask(which)]
        rows, form, fill = encoding.rows(len(pairs), out), encoding.form(at + 1), filler(encoding.dtype)
        players, into, size = pairs.ctypes.data, rows.ctypes.data, rows.strides[0]

        def part(first: int, past: int) -> None:
            fill(players + first * PLAYER_BYTES, at, past - first, form, into + first * size)

        in_parts(part, len(pairs), self._battles.threads)
        return rows

    def step(self, ones: ArrayLike, twos: ArrayLike) -> Bytes:
        """Updates each battle with a choice of each side, and reports the
        update to both players. Otherwise it is like `BattleArray.step`.
        """
        updates, (battles, players, tellers, into) = self._battles._updates, self._places()
        updates[:, 0], updates[:, 1] = self._battles._choices(ones, "ones"), self._battles._choices(twos, "twos")
        play = player_of_play()

        def part(first: int, past: int) -> None:
            at = first * _library.BATTLE_BYTES, first * PLAYER_BYTES, first * TELLER_BYTES, first * UPDATE_BYTES
            play(battles + at[0], players + at[1], tellers + at[2], into + at[3], past - first)

        in_parts(part, len(self), self._battles.threads)
        return self._battles.results.copy()

    def reset(self, which: ArrayLike | None = None, seeds: ArrayLike | None = None) -> None:
        """Restores battles and their players to their start: all, or those
        where `which`, (n) bools, is true.

        With `seeds`, (n, 10) bytes, the restored battles draw these
        numbers.
        """
        self._battles.reset(which, seeds)
        chosen: Any = slice(None) if which is None else self._mask(which)
        for held, first in zip((self._players, self._tellers), self._first):
            _octets(held)[chosen] = _octets(first)[chosen]

    def begin(self, at: int, one: TeamLike, two: TeamLike, seed: bytes = bytes(10)) -> None:
        """Begins a new battle of two teams at a place; `reset` then restores
        its start. Raises the errors of the constructor.
        """
        number, start = a_place(at, len(self)), start_of(one, two, *self._terms)
        start.battle.reseed(seed)
        self._put(number, start)

    def _mask(self, which: ArrayLike) -> NDArray[np.bool_]:
        mask = np.asarray(which)
        if mask.shape != (len(self),) or mask.dtype != bool:
            raise BadArgument(f"which must be ({len(self)},) bools, not {mask.shape} of {mask.dtype}")
        return mask

    def _put(self, at: int, start: Start) -> None:
        self._battles._first[at] = np.frombuffer(start.battle.bytes, np.uint8)
        self._battles[at] = start.battle
        for held, first, new in zip((self._players, self._tellers), self._first, (start.players, start.tellers)):
            held[at], first[at] = new, new

    def _places(self) -> tuple[int, int, int, int]:
        """The addresses of the battles, the players, the tellers and the updates."""
        of = self._battles
        held = of._bytes, self._players, self._tellers, of._updates
        return held[0].ctypes.data, held[1].ctypes.data, held[2].ctypes.data, held[3].ctypes.data


def _octets(pairs: Pairs) -> Bytes:
    """The bytes of pairs, one row for each. Numpy copies bytes far faster than fields."""
    octets: Bytes = pairs.view(np.uint8)
    return octets
