"""Members from the export text of Pokemon Showdown's team builder or its packed line, and back to text (docs/TEAM_TEXT.md)."""

from ctypes import POINTER, Structure, byref, c_size_t, c_uint8, c_uint32, create_string_buffer
from typing import Any

from gen1 import _library
from gen1._check import cut, nearest, shown, with_genders
from gen1._check import move as a_move
from gen1.errors import BadArgument, BadTeam, BadText, BadType
from gen1.names import Move, NewFault, Species, TextFault


class FaultStruct(Structure):
    """gen1_text_fault."""

    _fields_ = [
        ("line", c_size_t),
        ("member", c_size_t),
        ("field", c_size_t),
        ("code", c_uint8),
        ("rule", c_uint8),
        ("reserved", c_uint8 * 6),
    ]


_TAKES = _library._BYTES, c_size_t, POINTER(_library.TeamStruct), POINTER(FaultStruct)
_from_text = _library.bind("gen1_team_from_text", c_uint8, *_TAKES)
_from_packed = _library.bind("gen1_team_from_packed", c_uint8, *_TAKES)
_WRITES = POINTER(_library.TeamStruct), _library._TEXT, c_size_t, POINTER(c_size_t)
_to_text = _library.bind("gen1_team_to_text", c_uint32, *_WRITES)
_to_packed = _library.bind("gen1_team_to_packed", c_uint32, *_WRITES)


def read_text(text: object) -> list[dict[str, Any]]:
    """The members in an export text, as dicts."""
    return _members(_from_text, text)


def read_packed(line: object) -> list[dict[str, Any]]:
    """The members in a packed line, as dicts."""
    return _members(_from_packed, line)


def text_of(team: _library.TeamStruct) -> str:
    """The export text of a team, whose moves must all have three PP ups."""
    return _written(_to_text, team, _library.TEAM_TEXT_ROOM)


def packed_of(team: _library.TeamStruct) -> str:
    """The packed line of a team, with a line feed."""
    return _written(_to_packed, team, _library.TEAM_PACKED_ROOM)


def _written(call: Any, team: _library.TeamStruct, room: int) -> str:
    text, length = create_string_buffer(room), c_size_t(0)
    if place := call(byref(team), text, room, byref(length)) >> 8:
        ups = [number for _, number in dict_of(team.members[place - 1])["moves"]]
        raise BadArgument(f"member {place}: in a text each move has three PP ups, but the moves have {ups}")
    return text.raw[: length.value].decode("ascii")


def _members(call: Any, text: object) -> list[dict[str, Any]]:
    if not isinstance(text, str):
        raise BadType(f"text must be a str, not {shown(text)}")
    given, made, fault = with_genders(text).encode("utf-8", "surrogatepass"), _library.TeamStruct(), FaultStruct()
    if call(given, len(given), byref(made), byref(fault)):
        raise _fault(fault, text)
    return [dict_of(made.members[at]) for at in range(made.count)]


def dict_of(of: _library.MemberStruct) -> dict[str, Any]:
    """A member that the library wrote, as a dict."""
    moves = [(of.moves[at], of.pp_ups[at]) for at in range(4) if of.moves[at]]
    return {"species": of.species, "level": of.level, "dvs": list(of.dvs), "exp": list(of.exp), "moves": moves}


def _fault(of: FaultStruct, text: str) -> BadText:
    code, rule = TextFault(of.code), NewFault(of.rule) if of.rule else None
    # The error itself names the member.
    places = (("line", of.line), ("field", of.field))
    where = ", ".join(f"{name} {number}" for name, number in places if number)
    expected = rule.label if rule else f"expected: {code.label}"
    said = f"{where}: {expected}" if where else expected
    found = _word(of, code, text) if code in _FORMS else ""
    near = nearest(found, _FORMS[code]) if found else None
    said += f", not {cut(repr(found))}" * bool(found) + f"; did you mean {near!r}?" * bool(near)
    return BadText(said, code, line=of.line, member=of.member, column=of.field, code=rule, found=found, near=near)


# The faults about one word or line, with the names that may be near it.
_FORMS: dict[TextFault, list[str]] = {
    TextFault.SPECIES: [it.label for it in Species],
    TextFault.MOVE: [it.label for it in Move],
    TextFault.LEVEL: [],
    TextFault.EVS: [],
    TextFault.IVS: [],
    TextFault.LINE: [],
}


def _word(of: FaultStruct, code: TextFault, text: str) -> str:
    """The text of the line or field that a fault is about; of a name only that, without a nickname and a gender."""
    found: str
    if of.line:
        found = text.split("\n")[of.line - 1].strip()
    elif of.field:
        fields = [it.strip() for it in text.split("]")[of.member - 1].split("|")]
        # Without a nickname the species may be in the first field.
        found = fields[of.field - 1] or fields[0]
    else:
        return ""
    if code is TextFault.MOVE:
        return next(filter(_is_no_move, found.removeprefix("-").split(",")), found).strip()
    if code is TextFault.SPECIES:
        found = found.removesuffix("(M)").removesuffix("(F)").strip()
        return found[found.rfind("(") + 1 : -1] if found.endswith(")") and "(" in found else found
    return found


def _is_no_move(name: str) -> bool:
    try:
        return not a_move(name.strip())
    except BadTeam:
        return True
