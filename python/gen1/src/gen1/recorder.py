"""Records battles while they are played, to replay them elsewhere."""

from __future__ import annotations

import base64
import json
from os import PathLike
from pathlib import Path
from struct import pack
from typing import Any

from gen1._check import digits, listed, seed_bytes, shown, ten_bytes, whole
from gen1._library import installed
from gen1.battle import Battle, SeedLike, TeamLike, Update, sides_of
from gen1.choices import Choice, Rules, Side
from gen1.errors import BadArgument, Refused
from gen1.teams import KEYS, Member

# The place for a battle in a page (web/README.md, "A file that holds its battle").
PLACE = '<script id="battle" type="application/json">null</script>'


class Recorder:
    """Records a battle: its teams, its seed, and each pair of choices.

    From these it can be replayed: by `gen1 run` (`json`), on the page at an
    address (`link`), and as a separate page (`write_replay`).
    """

    def __init__(self, one: TeamLike, two: TeamLike, seed: SeedLike, rules: int = 0, limit: int = 1000) -> None:
        """Creates a battle as `Battle(..)` does, before its first update."""
        self.teams, self._seed = sides_of(one, two), seed_bytes(seed)
        self._battle = Battle(*self.teams, self._seed, rules, limit)
        self._terms = whole(rules, "rules", Rules), whole(limit, "limit")
        self._pairs: list[tuple[int, int]] = []

    @property
    def battle(self) -> Battle:
        """A copy of the battle as it is now."""
        return self._battle.copy()

    @property
    def pairs(self) -> tuple[tuple[int, int], ...]:
        """The pairs of choices so far, as their numbers."""
        return tuple(self._pairs)

    def choices(self, side: Side | int) -> tuple[Choice, ...]:
        """The choices that a side is offered, as `Battle.choices` returns
        them.
        """
        return self._battle.choices(side)

    def update(self, one: Choice | int, two: Choice | int) -> Update:
        """Updates the battle as `Battle.update` does, and records the
        pair. A pair that is refused isn't recorded.
        """
        update = self._battle.update(one, two)
        self._pairs.append((int(one), int(two)))
        return update

    @property
    def input(self) -> dict[str, Any]:
        """The battle in the format of docs/PROGRAM.md, "Input"."""
        rules, limit = self._terms
        one, two = (it.to_dicts() for it in self.teams)
        pairs = [list(it) for it in self._pairs]
        return {"seed": list(self._seed), "one": one, "two": two, "rules": rules, "limit": limit, "choices": pairs}

    def json(self) -> str:
        """The input of `gen1 run`, as JSON on one line."""
        return json.dumps(self.input)

    @classmethod
    def from_json(cls, text: str | bytes) -> Recorder:
        """The recorder of an input of `gen1 run`, after all its pairs.

        Raises `BadArgument`, `BadTeam` or `BadType` for a text that is not
        such an input; for a refused pair the message has its number.
        """
        asked = _object(text, "seed", "one", "two", "choices")
        one, two = (_members(asked[side]) for side in ("one", "two"))
        made = cls(one, two, ten_bytes(asked["seed"]), asked.get("rules", 0), asked.get("limit", 1000))
        for at, pair in enumerate(listed(asked["choices"], "choices")):
            try:
                made.update(*_pair(pair, f"choices[{at}]"))
            except Refused as fault:
                raise BadArgument(f"choices[{at}]: {fault}") from None
        return made

    def link(self, page: str = "gen1.html") -> str:
        """The address at which the page shows this battle. `page` is the
        address or the path of the page.

        The battle is in the address after the `#`, which a browser does
        not send. Some programs cut addresses of many kilobytes; a battle
        of 200 updates takes about 1 kB.
        """
        rules, limit = self._terms
        parts = [self._seed, bytes([rules, limit & 255, limit >> 8])]
        parts += [bytes([len(team)]) + b"".join(map(_member_bytes, team)) for team in self.teams]
        parts += [bytes(it) for it in self._pairs]
        text = base64.urlsafe_b64encode(b"".join(parts)).decode("ascii").rstrip("=")
        return f"{page}#replay?b=i{text}"

    def write_replay(self, path: str | PathLike[str], page: str | PathLike[str] | None = None) -> None:
        """Writes one HTML file that replays the battle, in any browser
        and without a network.

        `page` is the page that web/build made; by default the one that a
        wheel installs. Raises `BadArgument` if the page is missing, and
        `OSError` if the file cannot be written.
        """
        held = self.json().replace("<", "\\u003c")
        text = _page(page).replace(PLACE, PLACE.replace("null", held))
        Path(path).write_text(text, encoding="utf-8")

    def __repr__(self) -> str:
        count = len(self._pairs)
        return f"<Recorder, {count} update{'s' * (count != 1)}, {self._battle.result.outcome.label}>"


def _member_bytes(of: Member) -> bytes:
    """The 24 bytes of a member in an address (web/README.md): species, level, DVs, moves, PP ups, and experience as two bytes each."""
    rest = [0] * (4 - len(of.moves))
    return pack("<14B5H", of.species, of.level, *of.dvs, *of.moves, *rest, *of.pp_ups, *rest, *of.exp)


def _page(page: str | PathLike[str] | None) -> str:
    """The text of a page, which must have one place for a battle."""
    found = installed("share/gen1/gen1.html") if page is None else Path(page)
    if found is None:
        raise BadArgument("no page is installed with this package; name one that web/build made")
    try:
        text = found.read_text(encoding="utf-8")
    except (OSError, UnicodeDecodeError) as fault:
        raise BadArgument(f"{found} cannot be read: {fault}") from None
    if text.count(PLACE) != 1:
        raise BadArgument(f"{found} is not a page of web/build: it has {text.count(PLACE)} places for a battle, not 1")
    return text


def _object(text: str | bytes, *keys: str) -> dict[str, Any]:
    """The JSON object in a text, which must have these keys."""
    try:
        found = json.loads(text)
    except (UnicodeDecodeError, json.JSONDecodeError) as fault:
        raise BadArgument(f"the input is not JSON: {fault}") from None
    except ValueError:  # json.loads raises it in Pythons that limit the digits of a number
        raise BadArgument("the input cannot be read as JSON: a number has too many digits") from None
    except RecursionError:
        raise BadArgument("the input cannot be read as JSON: it is nested too deeply") from None
    if not isinstance(found, dict):
        raise BadArgument(f"the input must be a JSON object, not {shown(found)}")
    for key in keys:
        if key not in found:
            raise BadArgument(f"the input has no {key!r}; it needs {', '.join(keys)}")
    return found


def _members(given: object) -> Any:
    """The members of a side without keys of others, which an input may have; a value that isn't a list is refused later."""
    if not isinstance(given, list):
        return given
    return [{key: it[key] for key in KEYS if key in it} if isinstance(it, dict) else it for it in given]


def _pair(given: object, what: str) -> tuple[int, int]:
    """A pair of choices, each a number from 0 to 255."""
    pair = listed(given, what)
    if len(pair) != 2:
        raise BadArgument(f"{what} must be two numbers, not {len(pair)}")
    one, two = (whole(byte, what) for byte in pair)
    if not (0 <= one <= 255 and 0 <= two <= 255):
        raise BadArgument(f"{what} must be 0 to 255, not {digits(one)} and {digits(two)}")
    return one, two
