"""The odds of a move: its damage, its chances to hit, to be critical and to
knock out (docs/MECHANICS.md, "Damage numbers").
"""

from __future__ import annotations

from ctypes import byref
from dataclasses import dataclass
from fractions import Fraction

from gen1 import _library
from gen1._check import move as a_move
from gen1._check import shown, truth, within
from gen1._structs import (
    ActionOddsStruct,
    ChancesStruct,
    DamagesStruct,
    HpChangeStruct,
    OddsStruct,
    ThreeChancesStruct,
    WideStruct,
)
from gen1.errors import BadArgument, BadType, NoDamage
from gen1.names import DamageFault, Move, NewFault, OddsReason
from gen1.teams import Member, struct_of


@dataclass(frozen=True)
class Damages:
    """The damage of a hit in HP: 39 numbers in rising order, at the factors
    from 217 to 255, which are equally likely.

    If there are none, `numbers` is empty, and `code` says why:
    `DamageFault.UNUSUAL` or `DamageFault.DIVISOR`.
    """

    numbers: tuple[int, ...]
    code: DamageFault | None


@dataclass(frozen=True)
class Odds:
    """The odds of one use of a move by a member that acts now. Conditions that
    keep a member from acting at all, such as sleep, are not counted.

    `usual` and `critical` are the damage of a usual and of a critical hit.
    `critical_chance`, 0 to 255/256, is the chance of a critical hit, 0
    without the usual damage. `hit_chance`, 0 to 1, is the chance that the
    use hits. It is 0 if the use cannot hit or would not work; `reason` then
    says why, and is otherwise None. It is 1 if the use hits without a test.
    If `takes_hit_test` is false, the move always fails or affects only its
    user.

    `fixed` is the least and the most damage of a use without the usual
    damage, such as Night Shade; the numbers from the least to the most are
    equally likely. Both are 0 for any other use. `hits` says in how many of
    8 cases a use that hits makes 0, 1, .. 5 hits, which all deal the same
    damage. If `charges_first` is true, the user would only charge now, and
    the odds are those of its strike.
    """

    usual: Damages
    critical: Damages
    critical_chance: Fraction
    hit_chance: Fraction
    takes_hit_test: bool
    reason: OddsReason | None
    fixed: tuple[int, int]
    hits: tuple[int, ...]
    charges_first: bool


@dataclass(frozen=True)
class ActionOdds:
    """The odds of the action by which a side uses a move in the turn that
    begins, with independent draws.

    `acts` is the exact chance that the member acts, and `hits` that it acts
    and its move hits, or works. `side_effect` is the chance that a hit has
    its side effect: 0 if the foe is guarded, 1 if the effect is sure.
    `holds` is the chance that a trapping move holds the foe, if the member
    acts; it is 0 for any other move.
    """

    acts: Fraction
    hits: Fraction
    side_effect: Fraction
    holds: Fraction


@dataclass(frozen=True)
class Chances:
    """The exact chance that one use of a move knocks out the foe (`once`), and
    two uses in a row (`twice`), with independent draws.

    If `breaks_substitute` is true, the foe has a substitute, and the
    chances are those of breaking it. A trapping move that hits continues:
    the second use deals the same damage again. Nothing else that happens
    between the two uses is counted: no residual damage, no change of a
    stat, no recharging, and no fainting of the user.
    """

    once: Fraction
    twice: Fraction
    breaks_substitute: bool


@dataclass(frozen=True)
class HpChange:
    """The change of the foe's HP between two uses of a move, if it has any
    left: it gains `gained`, up to its maximum, and then loses `lost`. Both
    are 0 to 65,535.
    """

    gained: int = 0
    lost: int = 0


NO_CHANGE = HpChange()


@dataclass(frozen=True)
class ThreeChances:
    """The exact chance that one use of a move knocks out the foe (`once`),
    two uses in a row (`twice`), and three (`thrice`), with independent
    draws and with the changes of the foe's HP between the uses.

    If `breaks_substitute` is true, the foe has a substitute, and the
    chances are those of breaking it. Nothing else that happens between the
    uses is counted: no change of a stat, no recharging, and no fainting of
    the user.
    """

    once: Fraction
    twice: Fraction
    thrice: Fraction
    breaks_substitute: bool


def odds(attacker: Member, defender: Member, move: Move | str | int) -> Odds:
    """The odds of a move between two members that have just been sent out. For
    members in a battle use `Battle.odds`.

    The attacker need not know the move. Raises `BadTeam` for an unknown
    move, and `BadType` for a value that is not a `Member`.
    """
    known, of = a_move(move), OddsStruct()
    pair = [
        byref(struct_of([_a_member(it, name)]).members[0])
        for it, name in ((attacker, "attacker"), (defender, "defender"))
    ]
    answer = _library.odds_between(*pair, known, byref(of))
    if answer:
        raise BadArgument(NewFault(answer & 0xFF).label)
    return odds_of(of, known)


def damage(attacker: Member, defender: Member, move: Move | str | int, critical: bool = False) -> tuple[int, ...]:
    """The damage of a move between two members that have just been sent out:
    39 numbers, as from `Battle.damage`.
    """
    is_critical, known = truth(critical, "critical"), a_move(move)
    found = odds(attacker, defender, known)
    damages = found.critical if is_critical else found.usual
    if damages.code is not None:
        raise no_damage(damages.code, known)
    return damages.numbers


def drained(move: Move | str | int, damage: int) -> int:
    """The HP that the user of a move gains by its damage (Absorb, Mega Drain,
    Leech Life, Dream Eater); 0 for any other move.

    `damage`, 0 to 65,535, is the HP that the foe lost, or that its
    substitute lost without breaking. The user's HP do not rise above its
    maximum. Raises `BadTeam` for an unknown move, `BadArgument`, `BadType`.
    """
    return int(_library.drained(a_move(move), within(damage, "damage", 0, 65_535)))


def recoil(move: Move | str | int, damage: int) -> int:
    """The HP that the user of a move loses by its damage (Take Down,
    Double-Edge, Submission, Struggle); 0 for any other move.

    `damage`, 0 to 65,535, is as in `drained`. Raises `BadTeam` for an
    unknown move, `BadArgument`, `BadType`.
    """
    return int(_library.recoil(a_move(move), within(damage, "damage", 0, 65_535)))


def odds_of(of: OddsStruct, move: Move) -> Odds:
    """The odds of a move that a struct holds."""
    return Odds(
        usual=_damages(of.usual),
        critical=_damages(of.critical),
        critical_chance=Fraction(of.critical_draws, 256),
        hit_chance=Fraction(of.hit_draws, 256),
        takes_hit_test=_library.takes_hit_test(move) == 1,
        reason=OddsReason(of.reason) if of.reason else None,
        fixed=(of.least, of.most),
        hits=tuple(of.hits),
        charges_first=of.charges_first == 1,
    )


def action_odds_of(of: ActionOddsStruct) -> ActionOdds:
    """The odds of an action that a struct holds."""
    return ActionOdds(
        acts=Fraction(of.acts, of.acts_of),
        hits=Fraction(of.hits, of.hits_of),
        side_effect=Fraction(of.side_effect, 256),
        holds=Fraction(of.holds, 256),
    )


def chances_of(of: ChancesStruct) -> Chances:
    """The chances to knock out that a struct holds."""
    return Chances(Fraction(of.once, of.once_of), Fraction(of.twice, of.twice_of), of.breaks_substitute == 1)


def three_chances_of(of: ThreeChancesStruct) -> ThreeChances:
    """The chances to knock out in up to three uses that a struct holds."""
    thrice = Fraction(_whole(of.thrice), _whole(of.thrice_of))
    return ThreeChances(
        Fraction(of.once, of.once_of), Fraction(of.twice, of.twice_of), thrice, of.breaks_substitute == 1
    )


def hp_change(value: object, name: str) -> HpChangeStruct:
    """The struct of an `HpChange` that a caller gave. Raises `BadArgument`, `BadType`."""
    if not isinstance(value, HpChange):
        raise BadType(f"{name} must be an HpChange, not {shown(value)}")
    return HpChangeStruct(*(within(getattr(value, part), f"{name}.{part}", 0, 65_535) for part in ("gained", "lost")))


def _whole(number: WideStruct) -> int:
    return int(number.high) << 64 | int(number.low)


def no_damage(code: DamageFault, move: Move) -> NoDamage:
    """The error for a move without damage."""
    return NoDamage(code, f"no damage of {move.label}: {code.label}")


def _damages(of: DamagesStruct) -> Damages:
    return Damages(tuple(of.numbers[: of.count]), DamageFault(of.code) if of.code else None)


def _a_member(value: object, name: str) -> Member:
    if not isinstance(value, Member):
        raise BadType(f"{name} must be a Member, not {shown(value)}")
    return value
