"""States as the struct gen1_state, and the library's reports about wrong ones as `BadState`."""

from enum import Enum
from typing import Any

from gen1._check import count_text, digits, listed, shown, truth, whole
from gen1._structs import ActiveStateStruct, MemberStateStruct, SideStateStruct, StateFaultStruct, StateStruct
from gen1.choices import Rules
from gen1.errors import BadArgument, BadState, BadType
from gen1.names import Conditions, Move, Outcome, Request, Species, StateField, Status, Type
from gen1.states import ActiveState, MemberState, SideState, State

BYTE, SHORT, LONG = 255, (1 << 16) - 1, (1 << 32) - 1
MEMBER = {"species": BYTE, "level": BYTE, "status": BYTE, "sleep": BYTE, "hp": SHORT, "max_hp": SHORT}
ACTIVE = {
    "conditions": LONG,
    "place": BYTE,
    "current_move": BYTE,
    "picked_move": BYTE,
    "substitute": BYTE,
    "confusion": BYTE,
    "disabled_slot": BYTE,
    "disabled_turns": BYTE,
    "bad_poison": BYTE,
    "turns": BYTE,
}
# The enums of fields; all other fields are plain numbers.
KINDS: dict[str, type[Enum]] = {
    "species": Species,
    "status": Status,
    "conditions": Conditions,
    "rules": Rules,
    "outcome": Outcome,
}
# The names of fields in the dataclasses where they differ from the library's.
NAMES = {
    StateField.MAX_HP: "max_hp",
    StateField.REQUEST: "requests",
    StateField.OWN_STAT: "stats",
    StateField.MOVE: "moves",
    StateField.TYPE: "types",
    StateField.STAGE: "stages",
    StateField.TIED_CONDITION: "conditions",
    StateField.CURRENT_STAT: "stats",
}


def packed(state: State) -> StateStruct:
    """The struct of a state. A number too large for its field becomes the field's greatest number, which the library refuses."""
    if not isinstance(state, State):
        raise BadType(f"state must be a State, not {shown(state)}")
    to = StateStruct()
    for number, side in enumerate((state.one, state.two), 1):
        _put_side(to.sides[number - 1], side, number)
    for name, most in {"turn": SHORT, "limit": SHORT, "rules": BYTE, "outcome": BYTE, "index": BYTE}.items():
        setattr(to, name, _number(getattr(state, name), name, most, KINDS.get(name)))
    to.last_damage = _exact(state.last_damage, "last_damage", SHORT)
    to.requests[:] = _row(state.requests, "requests", 2, BYTE, Request)
    to.numbers[:] = [_exact(it, f"numbers[{at}]", BYTE) for at, it in enumerate(_items(state.numbers, "numbers", 10))]
    return to


def bad_state(of: StateFaultStruct, state: State | None) -> BadState:
    """The error for the field of a state that the library found wrong; None for a state that only the library has seen."""
    code = StateField(of.field)
    index, field = _place(code, of)
    below = 6 if code is StateField.STAGE else 0
    # A `MemberState` has a species, and `moves` only moves.
    low = max(of.low, 1) if code in (StateField.SPECIES, StateField.MOVE) else of.low - below
    high = of.high - below
    value = _value(code, of, state, of.value - below)
    said = f"{field} is {_text(value)}, which does not fit the other fields"
    if code is StateField.UNNAMED:
        said = "the fields of the state do not fit together"
    elif code is StateField.TIED_CONDITION:
        said = f"{field} has {Conditions(1 << of.index).name}, which does not belong to the current move"
    elif not low <= value <= high:
        said = f"{field} must be {_range(value, low, high)}, not {_text(value)}"
    return BadState(
        said, code=code, field=field, side=of.side, place=of.place, index=index, value=value, low=low, high=high
    )


def _place(code: StateField, of: StateFaultStruct) -> tuple[int | None, str]:
    """The index of the field among several, from 0, and its name."""
    name = NAMES.get(code, code.name.lower())
    if code is StateField.UNNAMED:
        return None, ""
    if code is StateField.TIED_CONDITION:
        return of.index, f"active.{name}"
    if code is StateField.REQUEST:
        return of.side - 1, f"{name}[{of.side - 1}]"
    index = of.index - 1 if of.index else None
    name = name if index is None else f"{name}[{index}]"
    return index, f"active.{name}" if of.side and not of.place else name


def _value(code: StateField, of: StateFaultStruct, state: State | None, held: int) -> int:
    """The value of the field, which may be too large for the struct; `held` if the state has no such item."""
    if state is None or code in (StateField.UNNAMED, StateField.TIED_CONDITION):
        return held
    if code is StateField.REQUEST:
        return int(state.requests[of.side - 1])
    holder: Any = state.side(of.side) if of.side else state
    if of.side and of.place:
        holder = holder.members[of.place - 1] if of.place <= len(holder.members) else None
    elif of.side:
        holder = holder.active
    found = getattr(holder, NAMES.get(code, code.name.lower()), held)
    if of.index:
        items = list(found) if isinstance(found, (list, tuple)) else []
        found = items[of.index - 1] if of.index <= len(items) else held
    return found if isinstance(found, bool) else int(found)


def _range(value: int, low: int, high: int) -> str:
    if isinstance(value, bool):
        return str(bool(low))
    return f"{low:,}" if low == high else f"{low:,} to {high:,}"


def _text(value: int) -> str:
    return str(value) if isinstance(value, bool) else digits(value)


def _put_side(to: SideStateStruct, side: SideState, number: int) -> None:
    if not isinstance(side, SideState):
        raise BadType(f"side {number} must be a SideState, not {shown(side)}")
    where = f"side {number}: members"
    members = listed(side.members, where, 6)
    if len(members) > 6:
        raise BadArgument(f"{where} must be 0 to 6, not {count_text(side.members, members, 6)}")
    for place, member in enumerate(members, 1):
        _put_member(to.members[place - 1], member, f"side {number}, member {place}")
    if side.active is not None:
        _put_active(to.active, side.active, number)


def _put_member(to: MemberStateStruct, member: object, where: str) -> None:
    if not isinstance(member, MemberState):
        raise BadType(f"{where} must be a MemberState, not {shown(member)}")
    for name, most in MEMBER.items():
        setattr(to, name, _number(getattr(member, name), f"{where}: {name}", most, KINDS.get(name)))
    to.species = to.species or BYTE
    to.marked = truth(member.marked, f"{where}: marked")
    to.stats[:] = _row(member.stats, f"{where}: stats", 4, SHORT)
    moves = listed(member.moves, f"{where}: moves", 4)
    if len(moves) > 4:
        raise BadArgument(f"{where}: moves must be 1 to 4, not {count_text(member.moves, moves, 4)}")
    to.moves[: len(moves)] = [it or BYTE for it in _row(moves, f"{where}: moves", len(moves), BYTE, Move)]
    to.pp[: len(moves)] = _row(member.pp, f"{where}: pp", len(moves), BYTE)


def _put_active(to: ActiveStateStruct, active: object, side: int) -> None:
    where = f"side {side}: active"
    if not isinstance(active, ActiveState):
        raise BadType(f"{where} must be an ActiveState or None, not {shown(active)}")
    for name, most in ACTIVE.items():
        setattr(to, name, _number(getattr(active, name), f"{where}.{name}", most, KINDS.get(name)))
    to.place = to.place or BYTE
    to.energy = _exact(active.energy, f"{where}.energy", SHORT, StateField.ENERGY, side)
    to.kept_accuracy = _exact(active.kept_accuracy, f"{where}.kept_accuracy", BYTE, StateField.KEPT_ACCURACY, side)
    to.types[:] = _row(active.types, f"{where}.types", 2, BYTE, Type)
    to.stats[:] = _row(active.stats, f"{where}.stats", 4, SHORT)
    stages = _items(active.stages, f"{where}.stages", 6)
    to.stages[:] = [_number(whole(it, f"{where}.stages[{at}]") + 6, "a stage", BYTE) for at, it in enumerate(stages)]


def _number(value: object, what: str, most: int, kind: type[Enum] | None = None) -> int:
    """A whole number for a field that holds 0 to `most`; `most` if the field cannot hold it. `kind` is as in `whole`."""
    number = whole(value, what, kind)
    return number if 0 <= number <= most else most


def _exact(value: object, what: str, most: int, code: StateField | None = None, side: int = 0) -> int:
    """A whole number from 0 to `most`, for a field in which the library accepts every number."""
    number = whole(value, what)
    if 0 <= number <= most:
        return number
    said = f"must be 0 to {most:,}, not {digits(number)}"
    if code is None:
        raise BadArgument(f"{what} {said}")
    field = what.partition(": ")[2]
    raise BadState(f"{field} {said}", code=code, field=field, side=side, value=number, low=0, high=most)


def _items(values: object, what: str, count: int) -> list[object]:
    """The items of a tuple or list of this length."""
    given = listed(values, what, count)
    if len(given) != count:
        raise BadArgument(f"{what} must have {count} items, not {count_text(values, given, count)}")
    return given


def _row(values: object, what: str, count: int, most: int, kind: type[Enum] | None = None) -> list[int]:
    return [_number(it, f"{what}[{at}]", most, kind) for at, it in enumerate(_items(values, what, count))]
