"""Options: the fields of `Config`, from a TOML file and the environment."""

import os
import tomllib
from collections.abc import Mapping
from dataclasses import dataclass, fields
from pathlib import Path
from typing import Any

PREFIX = "GEN1_SERVER_"


class BadConfig(Exception):
    """An option that is unknown, of a wrong type or out of its range."""


@dataclass(frozen=True)
class Config:
    """All options. A comment gives the unit and the effect."""

    host: str = "127.0.0.1"
    port: int = 8000
    # A file for SQLite, or a URL that begins with postgresql://.
    database: str = "gen1-server.db"
    # The name of this process among those on one database.
    name: str = "one"
    # The address at which clients reach this process, such as wss://a.example. Others name it to a client that they send here.
    address: str = ""
    # The page that is served at /. Empty: that of web/build --online in a clone, or the package gen1's, which cannot play online.
    page: str = ""
    # The formats and what they ban, in the form of rust/gen1-showdown/formats.json. Empty: those of that file.
    formats: str = ""
    # SQLite waits for the disk at each commit. Otherwise a power failure may lose the last commits; a killed process loses none.
    durable: bool = True
    # After this many seconds without a sign of life, other processes take the rooms of this one.
    lease_seconds: float = 15.0
    # The seconds that a side has for a choice, and for all its choices together.
    choice_seconds: float = 90.0
    total_seconds: float = 1200.0
    # How often a side's first choice is made for it when its time has run out. The next time it forfeits.
    lapses: int = 2
    # The least time that a side has for its choice after a restart.
    grace_seconds: float = 30.0
    exact_hp: bool = False
    may_cancel: bool = False
    # The audience gets a pair when this many more have ended.
    audience_delay: int = 0
    # Ratings and their history are kept apart for each season.
    season: str = "1"
    # Days after which a finished battle is removed by `prune`; 0: never.
    keep_days: int = 0
    # Whether a name without a password may be used.
    guests: bool = True
    # The account of the computer, which accepts each challenge. Empty: none.
    bot: str = "bot"
    bot_level: int = 1
    # After this many seconds of a search the computer is the foe, in a rated battle; 0: never.
    bot_seconds: float = 30.0
    # Origins that a browser's page may have, besides the server's own.
    origins: tuple[str, ...] = ()
    # Whether the last address of X-Forwarded-For is the client's. Set it only if a proxy sets that header.
    proxied: bool = False
    # Signs the login of Showdown's protocol. Empty: a new one at each start.
    secret: str = ""
    most_connections: int = 12000
    most_connections_of_address: int = 5000
    most_rooms: int = 5000
    most_rooms_of_account: int = 20
    message_bytes: int = 16384
    messages_per_second: float = 40.0
    messages_at_once: int = 120
    # Logins of an address in a minute; a wrong password or token counts as fifty.
    logins_per_minute: float = 1000.0
    # A connection is closed when more than this waits to be read by its client.
    waiting_bytes: int = 262144
    # Seconds in which a connection has to ask something, and a socket to log in.
    first_seconds: float = 10.0
    login_seconds: float = 60.0
    heartbeat_seconds: float = 25.0

    @property
    def url(self) -> str:
        """The database as SQLAlchemy names it."""
        if "://" not in self.database:
            return f"sqlite:///{self.database}"
        scheme, _, rest = self.database.partition("://")
        return f"{'postgresql+psycopg2' if scheme in ('postgres', 'postgresql') else scheme}://{rest}"


# The numbers that may be 0, and the lowest values that are not above 0.
MAY_BE_ZERO = {"lapses", "audience_delay", "keep_days", "grace_seconds", "bot_seconds"}
# How a text is read as a value of a type.
TRUTHS = {"true": True, "false": False}
READ: dict[type, Any] = {bool: TRUTHS.__getitem__, tuple: str.split, int: int, float: float, str: str}
LEAST = {"lease_seconds": 1, "message_bytes": 1024, "waiting_bytes": 16384, "heartbeat_seconds": 1}


def configured(file: Path | None, environment: Mapping[str, str] | None = None) -> Config:
    """The options of a file, which those of the environment override.

    A variable is named GEN1_SERVER_ and the option in upper case. Raises
    `BadConfig`.
    """
    given: dict[str, Any] = {}
    if file is not None:
        try:
            given = tomllib.loads(file.read_text())
        except (OSError, UnicodeDecodeError, tomllib.TOMLDecodeError) as fault:
            raise BadConfig(f"{file}: {fault}") from None
    for name, text in (os.environ if environment is None else environment).items():
        if name.startswith(PREFIX):
            given[name.removeprefix(PREFIX).lower()] = text
    kinds = {it.name: type(it.default) for it in fields(Config)}
    for name in given:
        if name not in kinds:
            raise BadConfig(f"there is no option {name}")
    made = Config(**{name: _value(name, kinds[name], it) for name, it in given.items()})
    _check(made)
    return made


def _value(name: str, kind: type, given: Any) -> Any:
    """A value of the file or of the environment as one of an option's type."""
    try:
        made = READ[kind](given) if isinstance(given, str) else given
        if kind is float and type(made) is int or kind is tuple and all(isinstance(it, str) for it in made):
            made = kind(made)
        if type(made) is kind:
            return made
    except (KeyError, TypeError, ValueError):
        pass
    raise BadConfig(f"{name} must be a {'list of texts' if kind is tuple else kind.__name__}, not {given!r}")


def _check(config: Config) -> None:
    """Raises `BadConfig` for the first option that is out of its range."""
    for it in fields(Config):
        value = getattr(config, it.name)
        if isinstance(value, (int, float)) and not isinstance(value, bool):
            least = LEAST.get(it.name, 0)
            if not least <= value < float("inf") or value == 0 and it.name not in MAY_BE_ZERO:
                raise BadConfig(f"{it.name} must be {'at least' if least else 'above'} {least}, not {value}")
    for name, most in (("port", 65535), ("bot_level", 5)):
        if getattr(config, name) > most:
            raise BadConfig(f"{name} must be 1 to {most}, not {getattr(config, name)}")
    if not config.url.startswith(("sqlite:", "postgresql+")):
        raise BadConfig("database must be a file, or a URL that begins with postgresql://")
    if not config.name or not config.season:
        raise BadConfig("name and season must not be empty")
    for name in ("page", "formats"):
        file = getattr(config, name)
        if file and not Path(file).is_file():
            raise BadConfig(f"{name}: there is no file {file}")
