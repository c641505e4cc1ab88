"""First-generation Pokemon link battles, through the C library of a proved
engine.

>>> from gen1 import Battle, Choice, Member
>>> tauros = Member("Tauros", ["Body Slam"])
>>> battle = Battle([tauros], [tauros], seed=range(10))
>>> print(battle.update(Choice.PASS, Choice.PASS).lines[0])
|switch|p1a: Tauros|Tauros|353/353

Use help(gen1.Battle) for one class. The main names:

    Member, Team                 teams, from names, dicts and text
    sample_teams, random_team    teams to try things with
    Battle, Choice, Side         a battle, and what a side can choose
    Update, Result, Event        what an update returns
    State                        the whole state of a battle
    odds, damage, Odds           damage and chances of a move
    base, move_data, Type        rows of the tables
    Recorder                     a battle to play again, as JSON or a page
    Room                         two players who choose independently
    Host, Row, Message, Notice   two players and an audience, and what each
                                 of them is sent
    Player, Teller               a player's view of a battle
    Spectator                    a spectator's view of a battle
    Narrator                     the events of a battle in sentences
    Error                        the base class of all errors
    BattleArray                  many battles at once (needs numpy)
    BattleEnv, TwoPlayerEnv      environments for learning (need numpy)
    gen1.search                  think and solve: searches that play well
    gen1.showdown                Showdown's protocol: lines, requests, teams

The rules are in docs/MECHANICS.md of the repository. The library implements
all of them. One is implemented in Python too: gen1.draws, which lists the
draws of an update, steps the generator of link numbers.
"""

import sys
from importlib import import_module
from importlib.metadata import PackageNotFoundError, version
from importlib.util import find_spec
from typing import TYPE_CHECKING

from gen1 import _events
from gen1._events import (
    ActivateEvent,
    BoostEvent,
    CantEvent,
    ClearAllEvent,
    CritEvent,
    CureEvent,
    DamageEvent,
    EndEvent,
    Event,
    FailEvent,
    FaintEvent,
    FaultEvent,
    HealEvent,
    Health,
    HitCountEvent,
    ImmuneEvent,
    MissEvent,
    MoveEvent,
    MustRechargeEvent,
    OfOne,
    OneHitEvent,
    PrepareEvent,
    ResistedEvent,
    StartEvent,
    StatusEvent,
    SuperEffectiveEvent,
    SwitchEvent,
    TieEvent,
    TurnEvent,
    UnboostEvent,
    Who,
    WinEvent,
    events,
    lines,
    log_bytes,
)
from gen1._library import LIBRARY_BUILD as library_build
from gen1._library import LIBRARY_VERSION as library_version
from gen1._odds import ActionOdds, Chances, Damages, HpChange, Odds, ThreeChances, damage, drained, odds, recoil
from gen1._outcomes import Outcomes
from gen1.battle import Battle, Playouts, Result, Update
from gen1.choices import Choice, Rules, Side
from gen1.errors import (
    BadArgument,
    BadBytes,
    BadHost,
    BadLog,
    BadPlace,
    BadState,
    BadTeam,
    BadText,
    BadType,
    Error,
    HostRefused,
    LibraryMissing,
    NoDamage,
    NumpyMissing,
    Refused,
    ResetNeeded,
    RoomRefused,
)
from gen1.hosts import Host, Row
from gen1.messages import Message, Notice
from gen1.names import (
    AsleepBy,
    Conditions,
    DamageFault,
    Effect,
    EventKind,
    HostFault,
    HostRefusal,
    HpForm,
    LoadFault,
    LogFault,
    Move,
    NewFault,
    OddsReason,
    Outcome,
    Reason,
    Refusal,
    Request,
    RoomRefusal,
    RowKind,
    Source,
    Species,
    Stat,
    StateField,
    Status,
    TextFault,
    Type,
    Volatile,
)
from gen1.own_sides import OwnMember, OwnSide
from gen1.players import Announced, Player, PublicSide, Seen, SeenMove, Teller
from gen1.recorder import Recorder
from gen1.rooms import Room
from gen1.samples import random_team, sample_sets, sample_teams
from gen1.sentences import Narrator
from gen1.spectators import ShownMember, ShownSide, ShownState, Spectator
from gen1.states import ActiveState, MemberState, SideState, State
from gen1.tables import Base, MoveData, base, effectiveness, move_data
from gen1.teams import Member, Team

# Pickles of 1.0.0 name the classes of events by this module, which `gen1.events`, a function, hid.
sys.modules["gen1.events"] = _events
try:
    __version__ = version("gen1")
except PackageNotFoundError:
    __version__ = "0+not.installed"
# Modules that need numpy are imported on first use.
_WITH_NUMPY = {
    "BattleArray": "gen1.arrays",
    "BattleEnv": "gen1.environments",
    "Encoding": "gen1.encodings",
    "OutcomeArray": "gen1.outcome_arrays",
    "PlayerArray": "gen1.player_arrays",
    "TwoPlayerEnv": "gen1.environments",
    "TwoPlayerVectorEnv": "gen1.vectors",
    "VectorEnv": "gen1.vectors",
}

if TYPE_CHECKING:
    from gen1.arrays import BattleArray
    from gen1.encodings import Encoding
    from gen1.environments import BattleEnv, TwoPlayerEnv
    from gen1.outcome_arrays import OutcomeArray
    from gen1.player_arrays import PlayerArray
    from gen1.vectors import TwoPlayerVectorEnv, VectorEnv
else:

    def __getattr__(name: str) -> object:
        if name not in _WITH_NUMPY:
            raise AttributeError(f"module 'gen1' has no {name!r}")
        if find_spec("numpy") is None:
            from gen1._missing import missing

            return missing(name)
        return getattr(import_module(_WITH_NUMPY[name]), name)


def __dir__() -> list[str]:
    return sorted({*globals(), *__all__})


__all__ = [
    "ActionOdds",
    "ActivateEvent",
    "ActiveState",
    "Announced",
    "AsleepBy",
    "BadArgument",
    "BadBytes",
    "BadHost",
    "BadLog",
    "BadPlace",
    "BadState",
    "BadTeam",
    "BadText",
    "BadType",
    "Base",
    "Battle",
    "BattleArray",
    "BattleEnv",
    "BoostEvent",
    "CantEvent",
    "Chances",
    "Choice",
    "ClearAllEvent",
    "Conditions",
    "CritEvent",
    "CureEvent",
    "DamageEvent",
    "DamageFault",
    "Damages",
    "Effect",
    "Encoding",
    "EndEvent",
    "Error",
    "Event",
    "EventKind",
    "FailEvent",
    "FaintEvent",
    "FaultEvent",
    "HealEvent",
    "Health",
    "HitCountEvent",
    "Host",
    "HostFault",
    "HostRefusal",
    "HostRefused",
    "HpChange",
    "HpForm",
    "ImmuneEvent",
    "LibraryMissing",
    "LoadFault",
    "LogFault",
    "Member",
    "MemberState",
    "Message",
    "MissEvent",
    "Move",
    "MoveData",
    "MoveEvent",
    "MustRechargeEvent",
    "Narrator",
    "NewFault",
    "NoDamage",
    "Notice",
    "NumpyMissing",
    "Odds",
    "OddsReason",
    "OfOne",
    "OneHitEvent",
    "Outcome",
    "OutcomeArray",
    "Outcomes",
    "OwnMember",
    "OwnSide",
    "Player",
    "PlayerArray",
    "Playouts",
    "PrepareEvent",
    "PublicSide",
    "Reason",
    "Recorder",
    "Refusal",
    "Refused",
    "Request",
    "ResetNeeded",
    "ResistedEvent",
    "Result",
    "Room",
    "RoomRefusal",
    "RoomRefused",
    "Row",
    "RowKind",
    "Rules",
    "Seen",
    "SeenMove",
    "ShownMember",
    "ShownSide",
    "ShownState",
    "Side",
    "SideState",
    "Source",
    "Species",
    "Spectator",
    "StartEvent",
    "Stat",
    "State",
    "StateField",
    "Status",
    "StatusEvent",
    "SuperEffectiveEvent",
    "SwitchEvent",
    "Team",
    "Teller",
    "TextFault",
    "ThreeChances",
    "TieEvent",
    "TurnEvent",
    "TwoPlayerEnv",
    "TwoPlayerVectorEnv",
    "Type",
    "UnboostEvent",
    "Update",
    "VectorEnv",
    "Volatile",
    "Who",
    "WinEvent",
    "base",
    "damage",
    "drained",
    "effectiveness",
    "events",
    "library_build",
    "library_version",
    "lines",
    "log_bytes",
    "move_data",
    "odds",
    "random_team",
    "recoil",
    "sample_sets",
    "sample_teams",
]
