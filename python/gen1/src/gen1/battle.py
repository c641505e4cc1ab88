"""Battles, each of which is its 384 bytes (docs/LAYOUT.md), and their updates."""

from __future__ import annotations

from collections.abc import Iterable, Mapping
from ctypes import byref, c_char, c_size_t, c_uint8, c_uint16, create_string_buffer
from dataclasses import dataclass
from functools import cached_property
from random import Random
from typing import TYPE_CHECKING, Any, TypeAlias, TypeVar

from gen1 import _library
from gen1._check import byte as a_byte
from gen1._check import move as a_move
from gen1._check import cut, digits, nearest, octets, seed_bytes, shown, truth, whole, within
from gen1._events import Event, events, lines
from gen1._odds import (
    NO_CHANGE,
    ActionOdds,
    Chances,
    HpChange,
    Odds,
    ThreeChances,
    action_odds_of,
    chances_of,
    hp_change,
    no_damage,
    odds_of,
    three_chances_of,
)
from gen1._outcomes import Outcomes, options_of, outcomes_of
from gen1._pack import bad_state, packed
from gen1._structs import (
    DAMAGES,
    LOG_ROOM,
    ActionOddsStruct,
    BattleBytes,
    BetweenStruct,
    ChancesStruct,
    OddsStruct,
    PlayoutOptionsStruct,
    PlayoutsStruct,
    StateFaultStruct,
    ThreeChancesStruct,
)
from gen1.choices import Choice, Rules, Side, a_choice, a_side, choice_text, not_offered
from gen1.errors import BadArgument, BadBytes, BadTeam, BadType, Error, NoDamage, Refused
from gen1.names import DamageFault, LoadFault, Move, NewFault, Outcome, Refusal, Request, Stat, Status
from gen1.own_sides import OwnSide, own_side_of
from gen1.states import State, changed, state_of, struct_of_state
from gen1.teams import Member, Team, as_team

if TYPE_CHECKING:
    from ctypes import Array

    from _typeshed import ReadableBuffer

    from gen1.players import Player

B = TypeVar("B", bound="Battle")
TeamLike: TypeAlias = Team | Iterable[Member | Mapping[str, Any]]
# A choice, its number, or the words of `Battle.choice_from_words`.
ChoiceLike: TypeAlias = Choice | int | str
# Ten bytes, a number that determines ten, or None for ten of os.urandom.
SeedLike: TypeAlias = bytes | Iterable[int] | int | None
WeightsLike: TypeAlias = Mapping[Move | str | int, int]


@dataclass(frozen=True)
class Result:
    """The outcome of a battle so far, and the requests to side 1 and side 2
    for the next update.
    """

    outcome: Outcome
    requests: tuple[Request, Request]

    @property
    def is_over(self) -> bool:
        """Whether the battle is over."""
        return self.outcome is not Outcome.ONGOING


@dataclass(frozen=True)
class Update:
    """The result after an update, and its log bytes."""

    result: Result
    log: bytes

    @cached_property
    def events(self) -> tuple[Event, ...]:
        """The events of the log, which are decoded on first use."""
        return events(self.log)

    @property
    def lines(self) -> list[str]:
        """The lines of the log, without line feeds."""
        return lines(self.log)


@dataclass(frozen=True)
class Playouts:
    """How playouts of a battle ended: how many were won by side 1, won by side
    2, tied, and ended by a fault.
    """

    wins_one: int
    wins_two: int
    ties: int
    faults: int

    @property
    def rounds(self) -> int:
        """The number of playouts."""
        return self.wins_one + self.wins_two + self.ties + self.faults


class Battle:
    """A battle of two teams. `update` changes it in place; `copy` returns an
    independent copy.

    Two battles are equal if their bytes are equal. The hash is computed
    from the current bytes, so a battle that is in a set or is the key of a
    dict must not be updated. A battle must be used by one thread at a time;
    a `Room` accepts choices from several threads.
    """

    __slots__ = ("_held",)

    def __init__(self, one: TeamLike, two: TeamLike, seed: SeedLike = None, rules: int = 0, limit: int = 1000) -> None:
        """Creates a battle before its first update, in which both sides choose
        `PASS`.

        `seed` is ten bytes, or a whole number from 0 to 2 ** 64 - 1, which
        determines ten; None takes ten of `os.urandom`. `rules` are 0 to 3
        (`Rules`), and `limit` is the last turn, 1 to 9,999. Raises
        `BadTeam`, `BadArgument`, `BadType`.
        """
        asked_rules, asked_limit = whole(rules, "rules", Rules), whole(limit, "limit")
        terms = a_byte(asked_rules), min(max(asked_limit, 0), 65535)
        numbers, sides = seed_bytes(seed), sides_of(one, two)
        self._held = BattleBytes()
        teams = [byref(it._struct) for it in sides]
        answer = _library.new(byref(self._held), *teams, _library.SeedBytes(*numbers), *terms)
        if answer:
            code = NewFault(answer & 0xFF)
            raise BadArgument(f"{code.label}: {digits(asked_rules if code is NewFault.RULES else asked_limit)}")

    @classmethod
    def new(cls, one: TeamLike, two: TeamLike, seed: SeedLike = None, rules: int = 0, limit: int = 1000) -> Battle:
        """Creates a battle, like `Battle(..)`."""
        return cls(one, two, seed, rules, limit)

    @classmethod
    def load(cls: type[B], given: ReadableBuffer) -> B:
        """Loads a battle from a bytes-like object, in any of the three
        versions of the layout. Raises `BadBytes`, `BadType`.
        """
        whole_bytes = octets(given, "a battle")
        made = cls.__new__(cls)
        made._held = BattleBytes()
        test = _library.load(byref(made._held), whole_bytes, len(whole_bytes))
        if test:
            raise BadBytes(LoadFault(test), _load_text(LoadFault(test), whole_bytes))
        return made

    @classmethod
    def from_state(cls: type[B], state: State) -> B:
        """Creates a battle from a state, such as a `Battle.state` in which
        fields were changed. Its `state` is then the same.

        If the four current stats of an active member are all 0, they are
        computed from its own stats, its stages and its status. Raises
        `BadState`, with the first field that is wrong; `BadArgument` for a
        tuple of a wrong length, and `BadType`.
        """
        made, given, fault = cls.__new__(cls), packed(state), StateFaultStruct()
        made._held = BattleBytes()
        if _library.set_state(byref(made._held), byref(given), byref(fault)):
            raise bad_state(fault, state)
        return made

    @classmethod
    def from_player(cls: type[B], player: Player, team: TeamLike, seed: SeedLike) -> B:
        """A battle that fits a player's knowledge, with a guess of the rest:
        the base of a search that doesn't cheat.

        `team` is the guess of the foe's: first the members that appeared,
        in that order, then the others. `seed` has the numbers to draw. The
        player's own side is as it was shown, the foe's as the log made it
        public, with moves and stats of the guess. Hidden counts have middle
        values (docs/MECHANICS.md, "A battle that fits").

        Raises `BadArgument` for a guess that does not fit, and for a battle
        that has not begun or is over; `BadState`, `BadTeam`, `BadType`.
        """
        from gen1.guesses import forked

        made = cls.__new__(cls)
        made._held = forked(player, as_team(team), seed_bytes(seed))
        return made

    @property
    def bytes(self) -> bytes:
        """The 384 bytes of the battle, which are its whole state."""
        return bytes(self._held)

    def copy(self: B) -> B:
        """An independent copy, of the same class. It draws the same numbers
        unless it is reseeded.
        """
        made = type(self).__new__(type(self))
        made._held = BattleBytes.from_buffer_copy(self._held)
        return made

    __copy__ = copy

    def __deepcopy__(self: B, _: object) -> B:
        return self.copy()

    def __reduce__(self) -> tuple[Any, ...]:
        return type(self).load, (self.bytes,)

    def __eq__(self, other: object) -> bool:
        if not isinstance(other, Battle):
            return NotImplemented
        return self.bytes == other.bytes

    def __hash__(self) -> int:
        return hash(self.bytes)

    def __repr__(self) -> str:
        return f"<Battle, {self.result.outcome.label}, asked {self.result.requests[0]} and {self.result.requests[1]}>"

    @property
    def result(self) -> Result:
        """The outcome so far, and the request to each side."""
        return result_of(self._held)

    def place(self, side: Side | int) -> int:
        """A side's active member's place, 1 to 6; 0 before the first update."""
        return int(struct_of_state(self._held).sides[a_side(side) - 1].active.place)

    def choices(self, side: Side | int) -> tuple[Choice, ...]:
        """The choices that a side is offered, in rising order: at most nine,
        and none if the battle is over.
        """
        room = CHOICES()
        count = _library.choices(byref(self._held), a_side(side), room)
        return tuple([CHOICE[it] for it in room[:count]])

    def update(self, one: ChoiceLike, two: ChoiceLike) -> Update:
        """Updates the battle with a choice of each side, and returns the
        result and the log.

        Choices are `Choice`, their numbers from 0 to 255, or the words of
        `choice_from_words`, such as "Body Slam". Raises `Refused` for a
        choice that is not offered, or if the battle is over, and
        `BadArgument` for other numbers and words; then the battle is
        unchanged.
        """
        pair = self._byte(one, 1), self._byte(two, 2)
        log, length = create_string_buffer(LOG_ROOM), c_size_t(0)
        code = _library.update(byref(self._held), *pair, log, LOG_ROOM, byref(length))
        if code:
            raise self._refused(Refusal(code), pair)
        return Update(self.result, log.raw[: length.value])

    def update_silent(self, one: ChoiceLike, two: ChoiceLike) -> Result:
        """Like `update`, but without a log, which is faster. Returns the
        result.
        """
        pair = self._byte(one, 1), self._byte(two, 2)
        code = _library.update_silent(byref(self._held), *pair)
        if code:
            raise self._refused(Refusal(code), pair)
        return self.result

    @property
    def state(self) -> State:
        """The whole state of the battle, as dataclasses."""
        return state_of(self._held)

    def with_state(self: B, **changes: Any) -> B:
        """A copy of the battle with other fields of its state:
        `battle.with_state(turn=10, last_damage=50)`.

        For the fields of a member use `State.with_member` and
        `State.with_active`, and `from_state`. Raises as `from_state` does,
        and `BadType` for a field that a `State` does not have.
        """
        return self.from_state(changed(self.state, changes))

    def with_hp(self: B, side: Side | int, place: int, hp: int) -> B:
        """A copy of the battle with other HP of the member at a place, from 1.

        Raises `BadState` if the HP are above the maximum, or the battle
        would have ended; `BadArgument` for a place without a member.
        """
        return self.from_state(self.state.with_member(side, place, hp=hp))

    def with_status(self: B, side: Side | int, place: int, status: Status, turns: int = 0) -> B:
        """A copy of the battle with another status of the member at a place,
        from 1, without the Toxic counter.

        A new sleep lasts `turns`, 1 to 7; other statuses ignore `turns`. If
        the member is active, its current stats are recomputed from its
        stages and the new status. Raises `BadState` if the turns are not 1
        to 7, or the member has fainted; `BadArgument` for a place without a
        member.
        """
        number, sleep = within(status, "status", 0, 5, Status), whole(turns, "turns")
        state = self.state.with_member(
            side, place, status=Status(number), sleep=sleep if number == Status.SLEEP else 0, marked=False
        )
        active = state.side(side).active
        if active is not None and active.place == place:
            state = state.with_active(side, stats=(0, 0, 0, 0))
        return self.from_state(state)

    def with_stage(self: B, side: Side | int, stat: Stat | int, stage: int) -> B:
        """A copy of the battle with another stage, -6 to 6, of a stat of the
        active member.

        Its current stats are recomputed from its stages and its status.
        Raises `BadState` if the stage is not -6 to 6; `BadArgument` for a
        stat that is not 1 to 6, and before the first update.
        """
        at, state = within(stat, "stat", 1, 6, Stat), self.state.with_active(side, stats=(0, 0, 0, 0))
        before = state.side(side).active
        stages = before.stages if before else ()
        return self.from_state(state.with_active(side, stages=(*stages[: at - 1], stage, *stages[at:])))

    def own_side(self, side: Side | int) -> OwnSide:
        """A side as it is shown to its own player. Only `held`, whether the
        foe's trapping move holds the active member, depends on the foe.
        """
        return own_side_of(self._held, a_side(side))

    def words(self, side: Side | int, choice: Choice | int) -> str:
        """A choice of a side in words, such as "move 2 Body Slam" or "switch 3
        Gengar". It need not be offered.

        Raises `BadArgument` for a slot without a move, a place without a
        member, and a number that is not a choice.
        """
        known = a_side(side)
        number = a_choice(choice, known)
        text, length = _WORDS(), c_size_t(0)
        code = _library.choice_words(byref(self._held), known, number, text, _library.WORDS_ROOM, byref(length))
        if code == _library.WORDS_CHOICE:
            raise BadArgument(f"side {known}'s choice is {choice_text(number)}")
        if code:
            raise BadArgument(f"side {known} has no such move or member: {choice_text(number)}")
        return text.raw[: length.value].decode("ascii")

    def choice_from_words(self, side: Side | int, text: str) -> Choice:
        """The choice of a side that words say: "pass", "move 2", "switch 3",
        "Body Slam" or "switch Gengar", in any case.

        By its number a choice need not be offered. By a name it is the only
        offered choice that has the name. Raises `Refused` for a name that
        no offered choice has; `BadArgument` for one that two have, and for
        other words; `BadType`.
        """
        known, byte = a_side(side), c_uint8()
        if not isinstance(text, str):
            raise BadType(f"text must be a str, not {shown(text)}")
        given = text.encode()
        code = _library.choice_from_words(byref(self._held), known, given, len(given), byref(byte))
        if code:
            raise self._misread(code, Side(known), text)
        return CHOICE[byte.value]

    def _byte(self, choice: ChoiceLike, side: int) -> int:
        """The byte of a choice, whether offered or not."""
        return int(self.choice_from_words(side, choice)) if type(choice) is str else a_choice(choice, side)

    def _misread(self, code: int, side: Side, text: str) -> Error:
        """Why a side has no choice with these words."""
        said, choices = cut(repr(text)), self.choices(side)
        can = f"{side.label} can choose {', '.join(self.words(side, it) for it in choices) or 'nothing'}"
        if code == _library.WORDS_UNKNOWN:
            name = nearest(text, (it.label for it in Move))
            meant = f"; did you mean {name!r}?" if name else ""
            return BadArgument(
                f"{said} is neither a choice, such as 'move 1' or 'switch 2', nor the name of one{meant}; {can}"
            )
        if code == _library.WORDS_AMBIGUOUS:
            return BadArgument(f"{said} names two or more choices; {can}")
        refusal = Refusal.NOT_OFFERED_ONE if side is Side.ONE else Refusal.NOT_OFFERED_TWO
        return Refused(refusal, f"{said} is not offered; {can}", side, None, choices)

    def reseed(self, seed: SeedLike, index: int = 0) -> None:
        """Replaces the numbers to draw: ten bytes, and the index, 0 to 8, of
        the byte that is drawn next.

        Nothing else changes. A copy draws the same numbers as its battle,
        so a search reseeds each copy that it plays out.
        """
        numbers, place = seed_bytes(seed), whole(index, "index")
        if _library.reseed(byref(self._held), _library.SeedBytes(*numbers), a_byte(place)):
            raise BadArgument(f"index must be 0 to 8, not {digits(place)}")

    def playout(
        self, seed: int, rounds: int, *, depth: int | None = None, weights: WeightsLike | None = None
    ) -> Playouts:
        """Plays `rounds` copies of the battle with random choices, to their
        end or to a depth, and counts how they end. The battle is unchanged.

        Each copy gets ten random numbers to draw, and does not use those of
        the battle. Numbers and choices come from `seed`, 0 to 2**64 - 1:
        the same seed gives the same counts. `rounds` is 0 to 2**32 - 1. The
        first thousand are those of gen1_playout (include/gen1.h, "many
        battles"); for each further thousand
        `random.Random(seed).getrandbits(64)` gives the next seed.

        With a `depth`, 1 to 2**32 - 1, a copy is played for at most that
        many updates. If it is not over then, the side with the larger share
        of its HP left wins, and equal shares are a tie.

        Without `weights` all offered choices are equally likely. With them
        a choice of weight 6 is twice as likely as one of weight 3, and one
        of weight 0 is made only if the others have 0 too. The keys are
        moves, "switch" for each switch and "move" for all other moves; the
        weights are 0 to 255, and 1 for a key that is left out. Move 0, by
        which a member continues a move or uses Struggle, has the weight of
        Struggle.

        >>> from gen1 import Member
        >>> team = [Member("Gengar", ["Explosion", "Psychic"])]
        >>> battle = Battle(team, team, seed=range(10))
        >>> weights = {"move": 4, "switch": 1, "Explosion": 0}
        >>> battle.playout(7, 100, weights=weights).rounds
        100

        A second suffices for about ten thousand whole battles. Other
        threads run meanwhile, and `KeyboardInterrupt` ends the call after
        at most a thousand battles. Raises `BadArgument`, `BadType`.
        """
        number, left = within(seed, "seed", 0, (1 << 64) - 1), within(rounds, "rounds", 0, (1 << 32) - 1)
        updates = 0 if depth is None else within(depth, "depth", 1, (1 << 32) - 1)
        table = WEIGHTS() if weights is None else table_of(weights)
        counts, dice = [0, 0, 0, 0], Random(number)
        while True:
            of, slice_rounds = PlayoutsStruct(), min(left, PLAYOUT_SLICE)
            test = _library.playout(
                byref(self._held), byref(PlayoutOptionsStruct(number, slice_rounds, updates, table)), byref(of)
            )
            if test:
                raise BadBytes(LoadFault(test), _load_text(LoadFault(test), self.bytes))
            counts = [known + new for known, new in zip(counts, (of.wins_one, of.wins_two, of.ties, of.faults))]
            left -= slice_rounds
            if not left:
                return Playouts(*counts)
            number = dice.getrandbits(64)

    def outcomes(
        self, one: ChoiceLike, two: ChoiceLike, *, damage_classes: int = 0, least_probability: float = 0.0
    ) -> Outcomes:
        """All battles that an update by a choice of each side can lead to,
        each with its exact probability, for the draws that `Outcomes`
        describes.

        The battle is unchanged. Most updates have fewer than a hundred
        outcomes; the most seen so far are about fifty thousand.

        A search may want fewer outcomes. With `damage_classes`, 1 to 39, a
        damage roll has at most that many classes: the 39 factors from 217
        to 255 are divided into that many ranges, and the damages of one
        range are a class. One damage near the middle of each class is
        listed, with the weight of the whole class. All damages that reach
        the HP of the target are one more class. No class holds both damages
        that break a substitute and damages that don't. So the chance that
        the first hit of a move knocks out or breaks a substitute stays
        exact, and so does everything other than damage rolls. Only what
        depends on the amount of damage is that of the listed one: later
        hits of a move, recoil, residual damage.

        With `least_probability`, 0 to 1, a course of the update is left out
        as soon as its draws so far are less probable than that together. A
        weight is then that of the ways to its battle that are not left out,
        and `left_out` of the result is the exact weight of the rest. An
        update with draws may then have no outcome. The probability is
        rounded down to a multiple of 2^-32.

        Raises `Refused` and `BadArgument` as `update` does, and
        `BadArgument` or `BadType` for an option that is out of range or of
        another type. `BadArgument` is a `ValueError` too.
        """
        pair = self._byte(one, 1), self._byte(two, 2)
        code, found = outcomes_of(self._held, *pair, options_of(damage_classes, least_probability))
        if found is None:
            raise self._refused(Refusal(code), pair)
        return found

    def odds(self, side: Side | int, move: Move | str | int) -> Odds:
        """The odds of a side's move in the current state: its damage, and its
        chances of a hit and of a critical hit.

        The member need not know the move. If Rage, Thrash or Petal Dance
        continues, the hit test uses the kept accuracy. Raises `NoDamage` if
        no member is out, `BadTeam` for an unknown move.
        """
        of, known = OddsStruct(), a_move(move)
        code = _library.odds_now(byref(self._held), a_side(side), known, byref(of))
        if code:
            raise no_damage(DamageFault(code), known)
        return odds_of(of, known)

    def action_odds(self, side: Side | int, move: Move | str | int) -> ActionOdds:
        """The odds of the action by which a side uses a move in the turn that
        begins: that its member acts, and that the move then hits.

        Sleep, a freeze, the foe's trapping, recharging, a disabled move,
        confusion and paralysis count as they are now. What the foe does
        first does not count, such as a flinch. The member need not know the
        move; it does not act if it has to continue another one. Raises
        `NoDamage` if no member is out, `BadTeam` for an unknown move.
        """
        of, known = ActionOddsStruct(), a_move(move)
        code = _library.action_odds_now(byref(self._held), a_side(side), known, byref(of))
        if code:
            raise no_damage(DamageFault(code), known)
        return action_odds_of(of)

    def knock_out(self, side: Side | int, move: Move | str | int) -> Chances:
        """The exact chance that a side's move knocks out the foe's active
        member, with one use and with two in a row.

        Against a substitute it is the chance to break it. The member need
        not know the move, and the chance of a move that charges is that of
        its strike. Raises `NoDamage` if no member is out, `BadTeam` for an
        unknown move.
        """
        of, known = ChancesStruct(), a_move(move)
        code = _library.knock_out(byref(self._held), a_side(side), known, byref(of))
        if code:
            raise no_damage(DamageFault(code), known)
        return chances_of(of)

    def knock_out_in_three(
        self,
        side: Side | int,
        move: Move | str | int,
        after_first: HpChange = NO_CHANGE,
        after_second: HpChange = NO_CHANGE,
    ) -> ThreeChances:
        """The exact chance that a side's move knocks out the foe's active
        member, with one use and with two or three in a row.

        `after_first` and `after_second` are the changes of the foe's HP
        after the first use and after the second, for example by poison.
        Against a substitute it is the chance to break it, and the changes
        do not count. The member need not know the move, and the chance of a
        move that charges is that of its strike. Raises `NoDamage` if no
        member is out, `BadTeam` for an unknown move.
        """
        between = BetweenStruct(hp_change(after_first, "after_first"), hp_change(after_second, "after_second"))
        of, known = ThreeChancesStruct(), a_move(move)
        code = _library.knock_out_in_three(byref(self._held), a_side(side), known, byref(between), byref(of))
        if code:
            raise no_damage(DamageFault(code), known)
        return three_chances_of(of)

    def damage(self, side: Side | int, move: Move | str | int, critical: bool = False) -> tuple[int, ...]:
        """The damage of a side's move in the current state: 39 numbers in HP,
        in rising order.

        They are the damage at the factors from 217 to 255, which are
        equally likely. The member need not know the move. Raises `NoDamage`
        for a move without the usual damage, and if no member is out.
        """
        is_critical, numbers, known = truth(critical, "critical"), _DAMAGES(), a_move(move)
        code = _library.damage(byref(self._held), a_side(side), known, is_critical, numbers)
        if code:
            raise no_damage(DamageFault(code), known)
        return tuple(numbers)

    def _refused(self, code: Refusal, pair: tuple[int, int]) -> Refused:
        if code is Refusal.OVER:
            return Refused(code, f"the battle is over: {self.result.outcome.label}")
        side = 1 if code is Refusal.NOT_OFFERED_ONE else 2
        choice, offered = pair[side - 1], self.choices(side)
        return Refused(code, not_offered(side, choice, offered), side, choice, offered)


def battle_of(held: Any) -> Battle:
    """A battle with a copy of these 384 bytes, which must be those of a
    battle.
    """
    made = Battle.__new__(Battle)
    made._held = BattleBytes.from_buffer_copy(held)
    return made


def result_of(held: Any) -> Result:
    """The result of the battle with these 384 bytes."""
    return RESULTS[_library.result(byref(held))]


def sides_of(one: TeamLike, two: TeamLike) -> tuple[Team, Team]:
    """Both teams; an error names the side."""
    return _side(1, one), _side(2, two)


def _side(number: int, given: TeamLike) -> Team:
    try:
        return as_team(given)
    except BadTeam as fault:
        raise fault.of(number) from None
    except BadType as fault:
        raise BadType(f"side {number}{', ' if str(fault).startswith('member ') else ': '}{fault}") from None


def table_of(given: WeightsLike) -> "Array[c_uint8]":
    """The weights of gen1_playout_options: first that of a switch, then those of the moves by number."""
    if not isinstance(given, Mapping):
        raise BadType(f"weights must be a mapping of moves to numbers, not {shown(given)}")
    known = {key: within(weight, f"weights[{key!r}]", 0, 255) for key, weight in given.items()}
    table = WEIGHTS(known.pop("switch", 1), *[known.pop("move", 1)] * len(Move))
    for key, weight in known.items():
        table[a_move(key, f"weights[{key!r}]")] = weight
    return table


def _load_text(code: LoadFault, given: "bytes") -> str:
    """Why bytes are not a battle."""
    tests = {
        LoadFault.LENGTH: f"{len(given)} bytes, not {_library.BATTLE_BYTES}",
        LoadFault.VERSION: f"the version is {given[0] if given else 'missing'}, not 1, 2 or 3",
    }
    return f"not a battle: {tests.get(code, 'the test of the ' + code.label + ' fails')} (docs/LAYOUT.md, \"Loading\")"


# How many playouts run in one call of the library, which cannot be interrupted.
PLAYOUT_SLICE = 1000
CHOICES = c_uint8 * 9
WEIGHTS = c_uint8 * 166
CHOICE = {int(it): it for it in Choice}
_DAMAGES, _WORDS = c_uint16 * DAMAGES, c_char * _library.WORDS_ROOM
RESULTS = {
    outcome | one << 3 | two << 5: Result(outcome, (one, two))
    for outcome in Outcome
    for one in Request
    for two in Request
}

__all__ = ["Battle", "Member", "Playouts", "Result", "Rules", "Update"]
