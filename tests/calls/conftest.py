"""Fixtures that the tests of this folder share: the C library in this process, the examples that call it, and the recorded updates."""

import subprocess
import sys

import pytest
from artifacts import archive_of
from c_library import plain_archive
from c_profile import profiled_archive, profiler
from repository import ROOT

sys.path.insert(0, str(ROOT / "examples" / "python"))

import gen1  # noqa: E402
from structs import declare, declare_views, steps_of  # noqa: E402


@pytest.fixture(scope="session")
def archive(pytestconfig, room):
    """The plain library is built with a profile of battles, where one can be made."""
    subprocess.run([ROOT / "tools" / "setup", "profile"], stdout=subprocess.DEVNULL)
    return archive_of(pytestconfig, room / "library_of_calls", profiled_archive if profiler() else plain_archive)


@pytest.fixture(scope="session")
def shared(archive, room):
    """The shared library of all calls."""
    made = room / "libgen1.so"
    words = ["cc", "-shared", "-o", made, "-Wl,--whole-archive", archive, "-Wl,--no-whole-archive"]
    subprocess.run(words, cwd=ROOT, check=True)
    return made


@pytest.fixture(scope="session")
def library(shared):
    """The shared library by examples/python/gen1.py."""
    made = gen1.Library(str(shared))
    declare(made.calls)
    declare_views(made.calls)
    return made


@pytest.fixture(scope="session")
def steps(library, battles):
    """The bytes before each recorded update, and the update."""
    return list(steps_of(library, battles))
