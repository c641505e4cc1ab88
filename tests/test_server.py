"""The ladder server, server/: its own tests, its types, its options and its protocol.

Its own tests are in server/tests. They need aiohttp and what else tools/setup server installs. Those that need PostgreSQL or nginx are
skipped where these are missing.
"""

import json
import re
import subprocess

import pytest
from repository import ROOT
from test_python import environment, good, python, run, shared  # noqa: F401: fixtures

SERVER = ROOT / "server"
MODULES = ("pytest", "aiohttp", "alembic", "prometheus_client", "sqlalchemy")


@pytest.fixture(scope="module")
def work(room):
    """The folder of the shared library."""
    made = room / "server"
    made.mkdir()
    return made


@pytest.fixture(scope="module")
def served(environment):  # noqa: F811
    """The environment of a Python that uses the sources of both packages."""
    return {**environment, "PYTHONPATH": f"{SERVER}:{environment['PYTHONPATH']}"}


def test_own_tests(served, compared, left_out):
    """The tests of the server."""
    words = ["-m", "pytest", "-rs", "-p", "no:cacheprovider", "tests"]
    said = good(python(*MODULES), *words, env=served, cwd=SERVER)
    for number, reason in re.findall(r"(?m)^SKIPPED \[(\d+)\] (.*)", said):
        for _ in range(int(number)):
            left_out(reason)
    compared(int(re.search(r"(\d+) passed", said.splitlines()[-1])[1]))


def test_types(served, work, needs):
    """mypy --strict accepts the package."""
    needs("mypy")
    words = ["--cache-dir", work / "mypy", "--python-executable", python(*MODULES)]
    good("mypy", *words, env={**served, "MYPYPATH": served["PYTHONPATH"]}, cwd=SERVER)


def test_options_of_the_page(served, work):
    """The options that docs/SERVER.md shows are right, by the command that the unit for systemd calls."""
    text = (ROOT / "docs" / "SERVER.md").read_text()
    options = work / "options.toml"
    options.write_text(re.search(r"(?s)```toml\n(.*?)```", text)[1].replace("/var/lib/gen1-server", str(work)))
    said = good(python(*MODULES), "-m", "gen1_server", "--config", options, "check", env=served, cwd=work)
    assert said.startswith("the options are right"), said


def test_unit(needs):
    """systemd accepts the unit."""
    needs("systemd-analyze")
    words = ["systemd-analyze", "verify", SERVER / "gen1-server.service"]
    done = subprocess.run(words, capture_output=True, text=True)
    assert "gen1-server.service" not in done.stderr, done.stderr


def test_types_of_messages(served):
    """The schema has exactly the types of messages that the server takes."""
    schema = json.loads((SERVER / "gen1_server" / "messages.schema.json").read_text())["definitions"]["client"]["oneOf"]
    asked = "from gen1_server.json_protocol import TYPES; print(*sorted(TYPES))"
    said = good(python(*MODULES), "-c", asked, env=served)
    assert said.split() == sorted(it["properties"]["type"]["const"] for it in schema)
