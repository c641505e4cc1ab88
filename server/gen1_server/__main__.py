"""The command, python3 -m gen1_server --help, and its log: a JSON object a line, none of which has what a client sent."""

import argparse
import asyncio
import faulthandler
import json
import logging
import signal
import sys
from datetime import datetime, timezone
from importlib import import_module
from importlib.util import find_spec
from pathlib import Path
from typing import Any

from gen1_server import keeping, schema
from gen1_server.config import BadConfig, Config, configured
from gen1_server.store import InUse
from gen1_server.web import page_of, serve

COMMANDS = {
    "serve": "serves (the default)",
    "check": "says what is wrong with the options, and with the database",
    "migrate": "brings the database to the newest version",
    "backup": "copies the database to FILE, while it is used",
    "restore": "makes the database of a backup FILE",
    "prune": "removes battles that ended more than keep_days ago",
    "verify": "plays each finished battle again, and compares its end",
}


class JsonLines(logging.Formatter):
    """Writes a record as a line of JSON."""

    def format(self, record: logging.LogRecord) -> str:
        moment = datetime.fromtimestamp(record.created, timezone.utc).isoformat(timespec="milliseconds")
        line = {"time": moment, "level": record.levelname.lower(), "from": record.name, "said": record.getMessage()}
        if record.exc_info:
            line["fault"] = self.formatException(record.exc_info)
        return json.dumps(line)


def _log() -> None:
    """Has everything logged on the standard error."""
    # A fault of native code would otherwise end the process without a word.
    faulthandler.enable()
    handler = logging.StreamHandler()
    handler.setFormatter(JsonLines())
    logging.basicConfig(level=logging.INFO, handlers=[handler])
    logging.getLogger("alembic").setLevel(logging.WARNING)
    # It logs the address of each request that it cannot read.
    logging.getLogger("aiohttp.server").setLevel(logging.CRITICAL)


async def _serve(config: Config) -> None:
    stop, loop = asyncio.Event(), asyncio.get_running_loop()
    for it in (signal.SIGINT, signal.SIGTERM):
        loop.add_signal_handler(it, stop.set)
    await serve(config, stop)


def _check(config: Config) -> str:
    exists = not config.url.startswith("sqlite") or Path(config.database).exists()
    version = keeping.within(config, schema.version_of) if exists else ""
    if version not in ("", schema.VERSION):
        raise keeping.Failed(f"the database has version {version}; run migrate")
    page = page_of(config) or "none; web/build --online builds one"
    return f"the options are right; database: {config.database}, version {version or 'none yet'}; page: {page}"


def _run(command: str, config: Config, file: Path | None) -> str:
    """Runs a command; returns what is printed at its end."""
    if command == "serve":
        _log()
        keeping.prepare(config)
        loop: Any = find_spec("uvloop") and import_module("uvloop").new_event_loop
        with asyncio.Runner(loop_factory=loop) as runner:
            runner.run(_serve(config))
        return ""
    if command in ("backup", "restore"):
        if file is None:
            raise BadConfig(f"{command} needs FILE")
        return keeping.backup(config, file) if command == "backup" else keeping.restore(config, file)
    commands = {"check": _check, "migrate": keeping.migrate, "prune": keeping.prune, "verify": keeping.verify}
    return commands[command](config)


def main() -> int:
    """Runs a command. Status: 0 done, 1 failed, 2 wrong options."""
    listed = "\n".join(f"  {name:8} {it}" for name, it in COMMANDS.items())
    parser = argparse.ArgumentParser(
        prog="python3 -m gen1_server",
        description="A ladder server for first-generation battles.",
        epilog=f"commands:\n{listed}",
        formatter_class=argparse.RawDescriptionHelpFormatter,
    )
    parser.add_argument("command", nargs="?", default="serve", choices=COMMANDS, metavar="COMMAND")
    parser.add_argument("file", nargs="?", type=Path, metavar="FILE")
    parser.add_argument("--config", type=Path, metavar="TOML", help="options; GEN1_SERVER_PORT=.. stands over port")
    parser.add_argument("--check", action="store_true", help="as the command check")
    asked = parser.parse_args()
    try:
        said = _run("check" if asked.check else asked.command, configured(asked.config), asked.file)
    except (BadConfig, keeping.Failed, InUse, RuntimeError, OSError) as fault:
        print(f"gen1_server: {fault}", file=sys.stderr)
        return 2 if isinstance(fault, BadConfig) else 1
    if said:
        print(said)
    return 0


if __name__ == "__main__":
    sys.exit(main())
