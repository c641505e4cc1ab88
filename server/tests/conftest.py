"""Fixtures that the tests of the server share: a server process, and a PostgreSQL for them."""

import sys
from pathlib import Path

import pytest

sys.path.insert(0, str(Path(__file__).parent))
sys.path.insert(0, str(Path(__file__).parents[1]))

from client import Process, postgresql  # noqa: E402


@pytest.fixture
def server(tmp_path):
    """Starts servers that are killed after the test: `server(name="two", ..)`."""
    made = []

    def start(**options):
        made.append(Process(tmp_path, **options))
        return made[-1].start()

    yield start
    for it in made:
        it.kill()


@pytest.fixture(scope="session")
def postgres():
    """A function that makes databases of a PostgreSQL."""
    with postgresql("-c fsync=off") as made:
        if made is None:
            pytest.skip("there is no PostgreSQL; tools/setup server installs it")
        yield made


@pytest.fixture(params=["sqlite", "postgresql"])
def database(request, tmp_path):
    """Each kind of database, empty."""
    if request.param == "sqlite":
        return str(tmp_path / "server.db")
    return request.getfixturevalue("postgres")()
