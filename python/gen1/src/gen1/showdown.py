"""Pokemon Showdown's protocol: teams with nicknames, formats, the lines of a
battle, requests and choices, a simulator, and battle logs read back.

It is that of the crate gen1-showdown, on which the program gen1 is built.
docs/PROGRAM.md has the lines, the requests and the commands. They are from
memory of Showdown's public documents. Nothing of it is proved. It needs
libgen1_extras.so, as gen1.search does; without it each call raises
`LibraryMissing`.

A server holds a `Host`, a `Lines` and a `Seat` of each side. After each
pair `Lines.report` takes the host, and each seat its message:

>>> from gen1 import Battle, Host, Side
>>> from gen1.showdown import Lines, Members, Seat, Viewer
>>> teams = Members("Bob|Tauros|||bodyslam,rest|||||||"), Members("Starmie||||surf,recover|||||||")
>>> host = Host(Battle(teams[0].team, teams[1].team, seed=range(10)))
>>> lines = Lines(("Alice", "Eve"), teams)
>>> seat = Seat(Side.ONE, "Alice", teams[0], foes=1)
>>> lines.report(host)
>>> seat.receive(host.message(Side.ONE))
>>> lines.text(Viewer.ONE).splitlines()[-3:]
['|switch|p1a: Bob|Tauros|353/353', '|switch|p2a: Starmie|Starmie|48/48', '|turn|1']
>>> seat.choice_in("move bodyslam")
Choice.MOVE_1
"""

from __future__ import annotations

import json
import weakref
from collections.abc import Iterable, Mapping, Sequence
from ctypes import byref, c_size_t, string_at
from dataclasses import dataclass
from enum import Enum
from typing import TYPE_CHECKING, Any

from gen1._check import listed, octets, seed_bytes, shown, truth, whole, within
from gen1._extras import extras
from gen1.battle import Battle, SeedLike
from gen1.choices import Choice, Rules, Side, a_side
from gen1.errors import BadArgument, BadTeam, BadType, Error
from gen1._events import Event, events
from gen1.hosts import Host
from gen1.messages import Message, Notice, a_message
from gen1.names import HpForm, Species
from gen1.players import Player
from gen1.teams import Member, Team, as_team

if TYPE_CHECKING:
    from _typeshed import ReadableBuffer

# A time in seconds, or the number of a request.
MOST = (1 << 32) - 1


class ProtocolFault(Error):
    """A command or a line of a log is not one, or can't be part of the battle.

    `line` is its number, from 1; 0 if the error is about no line.
    """

    def __init__(self, said: str, line: int = 0) -> None:
        super().__init__(f"line {line}: {said}" if line else said)
        self.said, self.line = said, line


class ChoiceRefused(Error):
    """A text isn't a choice that can be made now. The message is what Showdown
    sends after `|error|[Invalid choice]` and a space.
    """


class Hp(Enum):
    """The form in which a member's HP is shown to all but its owner: as it is
    reported, in 48ths, or in hundredths.
    """

    EXACT = "exact"
    PIXELS = "pixels"
    PERCENT = "percent"


class Viewer(Enum):
    """Who reads lines: the player of a side, a spectator, someone who sees
    what both players see, or a simulator's stream with `|split|` lines.
    """

    ONE = "p1"
    TWO = "p2"
    SPECTATOR = "spectator"
    OMNISCIENT = "omniscient"
    STREAM = "stream"


class Members:
    """The members of a team, with their nicknames.

    `team` is the `Team`, `nicknames` has each nickname or None, and `names`
    the name of each member in lines: its nickname, or its species.
    """

    __slots__ = ("_listed", "team", "nicknames", "names")
    team: Team
    nicknames: tuple[str | None, ...]
    names: tuple[str, ...]

    def __init__(
        self,
        team: str | Team | Iterable[Member | Mapping[str, Any]],
        nicknames: Iterable[str | None] | None = None,
    ) -> None:
        """Reads a text, which is an export text, a packed line or a JSON list
        of members (docs/TEAM_TEXT.md), or takes a team.

        `nicknames` are those of all members, in place of those of a text.
        Raises `BadTeam`, `BadType`.
        """
        given = team if isinstance(team, str) else as_team(team).to_dicts()
        named = None if nicknames is None else listed(nicknames, "nicknames", 6)
        for at, it in enumerate(named or ()):
            if it is not None:
                _text(it, f"nicknames[{at}]")
        found = _call("read_members", team=given, nicknames=named)
        self._listed: list[dict[str, Any]] = found["members"]
        dicts = [{key: value for key, value in it.items() if key != "nickname"} for it in self._listed]
        self.team, self.names = Team(dicts), tuple(found["names"])
        self.nicknames = tuple([it["nickname"] for it in self._listed])

    def packed(self) -> str:
        """The team as a packed line. Raises `BadTeam` for a move that has
        other than three PP ups, which a text can't say.
        """
        return self._written("packed").rstrip("\n")

    def export(self) -> str:
        """The team as an export text. Raises `BadTeam` for a move that has
        other than three PP ups, which a text can't say.
        """
        return self._written("export")

    def _written(self, form: str) -> str:
        return str(_call("write_members", members=self._listed, form=form)["text"])

    def __len__(self) -> int:
        return len(self.team)

    def __eq__(self, other: object) -> bool:
        return isinstance(other, Members) and self._listed == other._listed

    def __hash__(self) -> int:
        return hash((self.team, self.nicknames))

    def __reduce__(self) -> tuple[Any, ...]:
        return Members, (self.team, self.nicknames)

    def __repr__(self) -> str:
        return f"<Members: {', '.join(self.names)}>"


@dataclass(frozen=True)
class Complaint:
    """A rule of a format that a team breaks.

    `member` is the place, from 1, and `species` that of the member; 0 and
    None if it is about the whole team. `value` is what breaks the rule.
    """

    member: int
    species: Species | None
    rule: str
    value: str
    text: str

    def __str__(self) -> str:
        return self.text


class Formats:
    """Named rule sets, which check teams.

    `ids` are their names, `source` and `date` say where the rules are from.
    """

    __slots__ = ("_text", "_listed", "ids", "source", "date")
    ids: tuple[str, ...]
    source: str
    date: str

    def __init__(self, text: str | None = None) -> None:
        """Reads a file of formats, in the form of
        rust/gen1-showdown/formats.json; without a text, that file itself.
        Raises `BadArgument`, `BadType`.
        """
        self._text = None if text is None else _text(text, "text")
        found = _call("formats", text=self._text)
        self._listed: dict[str, dict[str, Any]] = {it["id"]: it for it in found["formats"]}
        self.ids, self.source, self.date = tuple(self._listed), found["source"], found["date"]

    def tier(self, id: str) -> str:
        """The name of a format in lines. Raises `BadArgument`."""
        return str(self._of(id)["tier"])

    def rules(self, id: str) -> Rules:
        """The rules of a battle of a format. Raises `BadArgument`."""
        return Rules(self._of(id)["rules"])

    def clauses(self, id: str) -> tuple[str, ...]:
        """The clauses of a format, for `Lines`. Raises `BadArgument`."""
        return tuple(self._of(id)["lines"])

    def complaints(self, members: Members, id: str) -> tuple[Complaint, ...]:
        """The rules of a format that a team breaks: by members, then of the
        whole team. Raises `BadArgument` for an unknown format, `BadType`.
        """
        self._of(id)
        found = _call("complaints", text=self._text, format=id, members=_members(members)._listed)["complaints"]
        return tuple(
            Complaint(
                it["member"], Species(it["species"]) if it["species"] else None, it["rule"], it["value"], it["text"]
            )
            for it in found
        )

    def _of(self, id: str) -> dict[str, Any]:
        if id not in self._listed:
            raise BadArgument(f"a format must be one of {', '.join(self.ids)}, not {shown(id)}")
        return self._listed[id]


class _Kept:
    """An object of the library. Several threads may use one."""

    __slots__ = ("_number", "__weakref__")

    def __init__(self, call: str, **asked: Any) -> None:
        self._number = int(_call(call, **asked)["number"])
        weakref.finalize(self, _call, "free", of=self._number).atexit = False

    def _ask(self, call: str, **asked: Any) -> dict[str, Any]:
        return _call(call, of=self._number, **asked)


class Lines(_Kept):
    """Writes the lines of a battle, for each viewer.

    The lines of a side and of spectators have only what they may know. Only
    `Viewer.OMNISCIENT` and `Viewer.STREAM` have more, and must not be sent.
    """

    __slots__ = ("_pair", "_side")
    # The pair of the last report; None before the first.
    _pair: int | None
    # The side whose members are known, if they are those of one side.
    _side: int | None

    def __init__(
        self,
        players: Sequence[str],
        members: Sequence[Members | int],
        *,
        tier: str = "[Gen 1] Link battle",
        rules: Iterable[str] = (),
        hp: Hp = Hp.EXACT,
    ) -> None:
        """Begins with the lines of the heading: the names of both players, the
        sizes of their teams, the format's name and its clauses
        (`Formats.tier`, `Formats.clauses`).

        `members` are those of both sides; or of a side that is not known
        their number, for the lines of one viewer (`receive`). Then its
        members have the names of their species.

        `hp` is the form of a foe's HP, made from the reported HP: with
        `Hp.EXACT` the lines of a host that tells 48ths have 48ths. Raises
        `BadArgument`, `BadType`.
        """
        names = [_text(it, f"players[{at}]") for at, it in enumerate(_both(players, "players"))]
        teams = [_names(it) for it in _both(members, "members")]
        known = [side for side in (1, 2) if any(teams[side - 1])]
        self._side = known[0] if len(known) == 1 else None
        clauses = [_text(it, "rules") for it in listed(rules, "rules")]
        self._pair = None
        super().__init__("new_lines", players=names, names=teams, tier=_text(tier, "tier"), rules=clauses, hp=_hp(hp))

    def update(self, before: Battle, log: ReadableBuffer, after: Battle, time: int | None = None) -> None:
        """Adds the lines of an update of a battle that you run: a copy of the
        battle before it, its log, and the battle after it.

        With `time`, in seconds since 1970, they begin with it. Raises
        `BadArgument`, `BadType`.
        """
        was, now = _battle(before, "before"), _battle(after, "after")
        self._ask("update", before=was, log=octets(log, "log").hex(), after=now, time=_time(time))

    def report(self, host: Host, time: int | None = None) -> None:
        """Adds the lines of the last pair of a host, at the beginning those of
        its start: once after each pair. A forfeit and an agreed draw end the
        battle.

        The lines of a side are made from the messages to it, and those of
        spectators from the notices, except for the names of the foe's
        members that came out, and for `[from]` at a trapping move that
        continues, which both sides are shown. Raises `BadArgument` for a pair
        that does not follow the last one, `BadType`.
        """
        if not isinstance(host, Host):
            raise BadType(f"host must be a Host, not {shown(host)}")
        number = _next(self._pair, host.number)
        messages = [bytes(host.message(side)).hex() for side in Side]
        self._ask("report", messages=messages, notice=bytes(host.notice()).hex(), time=_time(time))
        self._pair = number

    def receive(self, sent: object, time: int | None = None) -> None:
        """Adds the lines of a pair for one viewer, who was sent a message or a
        notice: the player of the side whose members are known, or a
        spectator. Each is taken in once, in order.

        `text` of this viewer has them. A spectator sees no `[from]` at a
        trapping move that continues, as nothing that it is sent says so.
        Raises `BadArgument`, `BadType`.
        """
        if not isinstance(sent, (Message, Notice)):
            raise BadType(f"sent must be a Message or a Notice, not {shown(sent)}")
        if isinstance(sent, Message) != (self._side is not None):
            raise BadArgument(
                "a message is for the player of the one side whose members are known, a notice for others"
            )
        number = _next(self._pair, sent.number)
        message = bytes(sent).hex() if isinstance(sent, Message) else None
        self._ask("hear", log=sent.log.hex(), side=self._side, message=message, time=_time(time))
        self._pair = number

    def hear(self, log: ReadableBuffer) -> None:
        """Adds the lines of an earlier pair for one viewer, of which only the
        log that was sent to it was kept. Its own Disable lacks the move, and a
        trapping move that continues has no `[from]`. Raises `BadArgument`,
        `BadType`.
        """
        self._ask("hear", log=octets(log, "log").hex(), side=None, message=None, time=None)

    def end(self, winner: Side | int | None) -> None:
        """Ends the battle by a win of a side, or by a tie. Raises
        `BadArgument`, `BadType`.
        """
        self._ask("end", winner=None if winner is None else a_side(winner), by_forfeit=False)

    def forfeit(self, side: Side | int) -> None:
        """Ends the battle by a forfeit of a side. Raises `BadArgument`,
        `BadType`.
        """
        self._ask("end", winner=3 - a_side(side), by_forfeit=True)

    def line(self, text: str) -> None:
        """Adds a line that everyone sees, without its first bar. Raises
        `BadArgument` for a text of several lines, `BadType`.
        """
        self._ask("line", text=_text(text, "text"))

    def text(self, viewer: Viewer) -> str:
        """The lines so far as a viewer sees them, each with a line feed.
        Raises `BadType`.
        """
        if not isinstance(viewer, Viewer):
            raise BadType(f"viewer must be a Viewer, not {shown(viewer)}")
        return str(self._ask("text", viewer=viewer.value)["text"])

    def clear(self) -> None:
        """Forgets the lines so far."""
        self._ask("clear")


class Seat(_Kept):
    """A player of a battle, as Showdown sees one: its requests, and its choices
    read. It is given nothing that the player may not know.
    """

    __slots__ = ("_pair",)
    # The pair of the last message; None before the first.
    _pair: int | None

    def __init__(
        self, side: Side | int, name: str, members: Members, *, foes: int | None = None, hp: Hp = Hp.EXACT
    ) -> None:
        """Creates the player of a side before the first update. `foes` is how
        many members the foe has, None if that is not known. Raises
        `BadArgument`, `BadType`.
        """
        count = 0 if foes is None else within(foes, "foes", 1, 6)
        listed, self._pair = _members(members)._listed, None
        super().__init__(
            "new_seat", side=a_side(side), name=_text(name, "name"), members=listed, foes=count, hp=_hp(hp)
        )

    def receive(self, message: object) -> None:
        """Takes in a `Message` of the player's host: each once, in order.
        Raises `BadArgument` for one that does not follow the last one,
        `BadType`.
        """
        given = a_message(message)
        number = _next(self._pair, given.number)
        self._ask("receive", message=bytes(given).hex())
        self._pair = number

    def hear(self, log: ReadableBuffer) -> None:
        """Takes in the log of an earlier pair that was sent to the player, for
        a player that comes back; `receive` then takes in the last message.
        Raises `BadArgument`, `BadType`.
        """
        self._ask("hear", log=octets(log, "log").hex(), side=None, message=None, time=None)

    def tell(self, battle: Battle, log: ReadableBuffer) -> None:
        """Takes in an update of a battle that you run: the battle after it, and
        its log. Raises `BadArgument`, `BadType`.
        """
        self._ask("tell", battle=_battle(battle, "battle"), log=octets(log, "log").hex())

    def request(self, rqid: int) -> str:
        """The request to the player, as JSON, with its number from 1. Raises
        `BadArgument`, `BadType`.
        """
        return str(self._ask("request", rqid=within(rqid, "rqid", 0, MOST))["text"])

    @property
    def waits(self) -> bool:
        """Whether the player has nothing to choose. Then its choice is a pass."""
        return bool(self._ask("request", rqid=0)["waits"])

    def choice_in(self, text: str) -> Choice:
        """The choice in a text: `move` or `switch` with a name or a number of
        the request, `default` or `auto`. Raises `ChoiceRefused`, `BadType`.
        """
        if not isinstance(text, str):
            raise BadType(f"text must be a str, not {shown(text)}")
        return Choice(self._ask("choice_in", text=text)["choice"])


class EndingClauses(_Kept):
    """The sleep and the freeze clause as a cartridge's organiser has them: a
    side loses that puts a second living member of the foe to sleep by a
    move, or freezes a second one. Rest does not count.

    The rules of a `Battle` make such a move fail, so that battle has none.
    """

    __slots__ = ()

    def __init__(self, *, sleep: bool = True, freeze: bool = True) -> None:
        """Creates the clauses of a battle before its first update. Raises
        `BadType`.
        """
        super().__init__("new_clauses", sleep=truth(sleep, "sleep"), freeze=truth(freeze, "freeze"))

    def hear(self, log: ReadableBuffer) -> Side | None:
        """Takes in the log of a pair, such as that of a host's `Notice`: each
        once, in order. Returns the first side that broke a clause so far,
        for `Row.forfeit`. Raises `BadArgument` for bytes that are not a
        log, `BadType`.
        """
        loser = self._ask("hear", log=octets(log, "log").hex(), side=None, message=None, time=None)["loser"]
        return None if loser is None else Side(loser)


class BrokenCommitment(BadArgument):
    """A secret is not the one that `player`, 1 or 2, committed to."""

    def __init__(self, said: str, player: int) -> None:
        super().__init__(said)
        self.player = player


@dataclass(frozen=True)
class Agreement:
    """What two secrets decide: the seed of a battle, and the side of each
    player, by lot.
    """

    seed: bytes
    sides: tuple[Side, Side]


def commit(battle: str, player: int, secret: ReadableBuffer) -> bytes:
    """The commitment, 32 bytes, of player 1 or 2 to its secret, 32 bytes of
    `secrets.token_bytes(32)`: a SHA-256 of it, the player and the battle's
    name.

    A host shows both commitments to both players, and only then asks for
    the secrets. What can be tried:

    - To choose a secret late, or to guess the other's: no second secret has
      the commitment, and it says nothing of 32 bytes by chance.
    - To repeat a commitment, of the other player or of an earlier battle:
      it has the player and the name, so each battle needs a different
      name.
    - To refuse the secret: a player that has both first knows the result.
      So a refusal must be a loss (`Row.forfeit`), never a new draw; and
      where secrets go to the host alone, a player has nothing to refuse by.
    - To know draws in advance: both secrets give all draws of a battle
      that continues with its seed. Players without a host agree again for
      each pair, and submit the seed as `numbers`. A host that shows a
      player the secrets can't be detected.

    Raises `BadArgument`, `BadType`.
    """
    at, name, given = within(player, "player", 1, 2) - 1, _text(battle, "battle"), _hash(secret, "secret")
    return bytes.fromhex(_call("agree", battle=name, commitments=[], secrets=[given] * 2)["commitments"][at])


def agree(battle: str, commitments: Sequence[ReadableBuffer], secrets: Sequence[ReadableBuffer]) -> Agreement:
    """What the secrets of player 1 and 2 decide. After the battle its host
    shows both, with which anybody can do the same.

    Raises `BrokenCommitment` for a secret without its commitment,
    `BadArgument`, `BadType`.
    """
    given = {"commitments": commitments, "secrets": secrets}
    asked = {
        what: [_hash(it, f"{what}[{at}]") for at, it in enumerate(_both(both, what))] for what, both in given.items()
    }
    found = _call("agree", battle=_text(battle, "battle"), **asked)
    return Agreement(bytes.fromhex(found["seed"]), (Side(found["first"]), Side(3 - found["first"])))


@dataclass(frozen=True)
class Reply:
    """What a simulator returns for a line: messages, each with an empty line
    at its end, and why the command was ignored, or None.
    """

    text: str
    note: str | None


class Simulator(_Kept):
    """Plays battles by the commands of Showdown's simulator, one battle after
    the other (docs/PROGRAM.md, "showdown").
    """

    __slots__ = ()

    def __init__(self, *, hp: Hp | None = None, clock: bool = False, formats: Formats | None = None) -> None:
        """Creates a simulator that waits for `>start`.

        `hp` is how a player sees the HP of the foe's members; without it
        in 48ths in gen1customgame, and in hundredths in other formats. With
        `clock` each update begins with the time. Raises `BadType`.
        """
        if formats is not None and not isinstance(formats, Formats):
            raise BadType(f"formats must be Formats, not {shown(formats)}")
        text = formats._text if formats else None
        shown_as = None if hp is None else _hp(hp)
        super().__init__("new_simulator", hp=shown_as, clock=truth(clock, "clock"), formats=text)

    def take(self, line: str) -> Reply:
        """Handles a line. One that does not begin with `>` is ignored, and
        so is an unknown command, with a note.

        Raises `ProtocolFault` for a known command that is incomplete or
        comes too early, `BadTeam`, `BadType`; the simulator is unchanged.
        """
        found = self._ask("take", line=_text(line.rstrip("\r\n") if isinstance(line, str) else line, "line"))
        return Reply(found["text"], found["note"])


@dataclass(frozen=True)
class Note:
    """A word or a name of a log that is not known, and the first line that has
    it, from 1.
    """

    line: int
    why: str


class Follower:
    """A battle log of one battle from its beginning, as the player of a side
    reads it (docs/PROGRAM.md, "follow").

    Its lines may come in pieces. All properties speak of the lines so far,
    and raise `ProtocolFault` for the first line that can't be part of the
    battle, and until both sides have sent out a member.
    """

    def __init__(self, side: Side | int, members: Members | None = None) -> None:
        """With the player's team its members have their places; without it they
        are numbered as they came out. Raises `BadArgument`, `BadType`.
        """
        self._side = a_side(side)
        self._members = None if members is None else _members(members)
        self._text: list[str] = []
        self._found: dict[str, Any] | None = None

    def read(self, text: str) -> None:
        """Adds whole lines of a log, or a whole replay page. Raises `BadType`."""
        if not isinstance(text, str):
            raise BadType(f"text must be a str, not {shown(text)}")
        self._text.append(text if text.endswith("\n") else text + "\n")
        self._found = None

    @property
    def player(self) -> Player:
        """What the player knows after the log. Without its team it has a team of
        the members that came out, of which only what the log has is known.
        """
        seen = [Member(species, ["Tackle"], level=level) for species, level in self._read["seen"]]
        own = self._members.team if self._members else Team(seen)
        form, terms = HpForm(self._read["hp_form"]), {name: self._read[name] for name in ("rules", "limit")}
        made = Player(self._side, own, self.count(3 - self._side), hp_form=form, **terms)
        made.feed(self.log)
        return made

    @property
    def notes(self) -> tuple[Note, ...]:
        """What is unknown in the log, each once; the first twenty."""
        return tuple([Note(it["line"], it["why"]) for it in self._read["notes"]])

    @property
    def log(self) -> bytes:
        """The events of the log as log bytes."""
        return bytes.fromhex(self._read["log"])

    @property
    def events(self) -> tuple[Event, ...]:
        """The events of the log."""
        return events(self.log)

    @property
    def choices(self) -> tuple[tuple[str | None, str | None], ...]:
        """What both sides chose for each update after the first, such as
        `move Body Slam` and `switch Bob`. None where the log doesn't say:
        for a side that had nothing to choose, or whose member did not act.
        An update whose end isn't in the log is left out.
        """
        return tuple([(one, two) for one, two in self._read["choices"]])

    def name(self, side: Side | int) -> str:
        """The name of a side's player; empty if the log has none. Raises
        `BadArgument`, `BadType`, `ProtocolFault`.
        """
        return str(self._of(side)["player"])

    def count(self, side: Side | int) -> int | None:
        """The number of a side's members; None if the log does not have it.
        Raises `BadArgument`, `BadType`, `ProtocolFault`.
        """
        found: int | None = self._of(side)["count"]
        return found

    def names(self, side: Side | int) -> tuple[str, ...]:
        """The names of a side's members, in the order of `Player.public`.
        Raises `BadArgument`, `BadType`, `ProtocolFault`.
        """
        return tuple(self._of(side)["names"])

    def battle(self, guess: Members, seed: SeedLike) -> Battle:
        """A battle that fits what the player knows, its last request, and a
        guess of the foe's team in any order. It draws the numbers of the
        seed.

        The log must have the requests of the side. Raises `BadArgument`
        without the player's team or a request, or if the guess does not fit;
        `ProtocolFault`, `BadType`.
        """
        found = self._follow(guess=_members(guess)._listed, seed=list(seed_bytes(seed)))
        return Battle.load(bytes.fromhex(found["battle"]))

    @property
    def _read(self) -> dict[str, Any]:
        if self._found is None:
            self._found = self._follow()
        return self._found

    def _follow(self, **more: Any) -> dict[str, Any]:
        listed = self._members._listed if self._members else None
        return _call("follow", side=self._side, members=listed, log="".join(self._text), **more)

    def _of(self, side: Side | int) -> dict[str, Any]:
        found: dict[str, Any] = self._read["sides"][a_side(side) - 1]
        return found


def _call(call: str, **asked: Any) -> dict[str, Any]:
    """The object that the library returns for a call."""
    text, written = json.dumps({"call": call, **asked}).encode(), c_size_t()
    library = extras()
    answer = library.gen1_showdown_call(text, len(text), byref(written))
    try:
        found: dict[str, Any] = json.loads(string_at(answer, written.value))
    finally:
        library.gen1_showdown_free(answer, written)
    if "error" in found:
        raise _fault(found["error"])
    return found


def _fault(of: dict[str, Any]) -> Error:
    """The error that an answer of the library has."""
    kind, why = of["kind"], of["why"]
    if kind == "line":
        return ProtocolFault(why, of["line"])
    if kind == "choice":
        return ChoiceRefused(why)
    if kind == "commitment":
        return BrokenCommitment(why, of["player"])
    if kind in ("team", "text"):
        return BadTeam(why, side=of.get("side", 0))
    return BadArgument(why)


def _text(value: object, what: str) -> str:
    """A text of one line."""
    if not isinstance(value, str):
        raise BadType(f"{what} must be a str, not {shown(value)}")
    if len(value.splitlines()) > 1 or "\n" in value:
        raise BadArgument(f"{what} must be a text of one line, not {shown(value)}")
    return value


def _hash(value: object, what: str) -> str:
    """The 32 bytes of a secret or a commitment."""
    found = bytes(octets(value, what))
    if len(found) != 32:
        raise BadArgument(f"{what} must have 32 bytes, not {len(found)}")
    return found.hex()


def _both(value: object, what: str) -> list[Any]:
    """Two items, one of each side."""
    found = listed(value, what, 2)
    if len(found) != 2:
        raise BadArgument(f"{what} must be two, of side 1 and side 2, not {len(found)}")
    return found


def _members(value: object) -> Members:
    if not isinstance(value, Members):
        raise BadType(f"members must be Members, not {shown(value)}")
    return value


def _names(value: object) -> list[str]:
    """The names of a side's members; empty ones if only their number is known."""
    if isinstance(value, Members):
        return list(value.names)
    return [""] * within(value, "the number of members", 1, 6)


def _hp(value: object) -> str:
    if not isinstance(value, Hp):
        raise BadType(f"hp must be an Hp, not {shown(value)}")
    return str(value.value)


def _battle(value: object, what: str) -> str:
    if not isinstance(value, Battle):
        raise BadType(f"{what} must be a Battle, not {shown(value)}")
    return value.bytes.hex()


def _next(last: int | None, number: int) -> int:
    """The number of a pair, which follows that of the last one."""
    if last is not None and number != last + 1:
        raise BadArgument(f"pair {last} came last, so the next one must be {last + 1}, not {number}")
    return number


def _time(value: object) -> int | None:
    return None if value is None else within(whole(value, "time"), "time", 0, MOST)
