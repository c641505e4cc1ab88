"""What all tests of this folder share: options, tools that a test needs, and the closing line.

    pytest tests                         every test
    pytest tests/test_c.py -k header     the tests of a file whose names contain a word

A test counts as one check, or as many as it passes to `compared` or makes by `checks`. A test that lacks a program is skipped
by name. The last line is 'N passed, M failed, K skipped'. pytest is Debian's `pytest-3`, or `python3 -m pytest`.
"""

import lzma
import os
import shutil
import sys
import tempfile
from pathlib import Path

import pytest

ROOT = Path(__file__).resolve().parent.parent
# How many faults of a test are shown.
SHOWN = 40
sys.dont_write_bytecode = True
sys.path.insert(0, str(ROOT / "tools"))
# What cargo builds in its profiles dev and test. No test needs debug information, or what is kept for a next build. Where the profile dev
# unwinds, as tests must, what a program and its tests have in common is built once. A release is built as users build it.
os.environ |= {
    "CARGO_INCREMENTAL": "0",
    "CARGO_PROFILE_DEV_DEBUG": "0",
    "CARGO_PROFILE_DEV_LTO": "off",
    "CARGO_PROFILE_DEV_PANIC": "unwind",
}

from artifacts import archive_of  # noqa: E402


def pytest_addoption(parser):
    group = parser.getgroup("gen1")
    group.addoption(
        "--library", type=Path, metavar="FILE", help="libgen1_c.a (default: the proved one, else the plain one)"
    )
    group.addoption("--module", type=Path, metavar="FILE", help="gen1_c.wasm, the proved module")
    group.addoption("--program", type=Path, metavar="FILE", help="battle_tool, or a program with its command line")
    group.addoption(
        "--battles", type=Path, metavar="FOLDER", default=ROOT / "tests" / "battles", help="the recorded battles"
    )
    group.addoption(
        "--mutants", default="tenth", metavar="PART", help="of the definitions: tenth, all, K/N, or those of a NAME"
    )
    group.addoption("--plain", action="store_true", help="test only what needs no kit")
    group.addoption("--fuzz", type=int, metavar="SECONDS", default=60, help="how long the fuzzer runs (default: 60)")
    group.addoption("--whole", action="store_true", help="self-play of the Python package plays all its battles")


@pytest.fixture(scope="session")
def battles(pytestconfig):
    """The folder of the recorded battles."""
    return pytestconfig.getoption("battles")


@pytest.fixture(scope="session")
def room():
    """A folder that is removed after the last test."""
    with tempfile.TemporaryDirectory(prefix="gen1-tests-") as folder:
        yield Path(folder)


@pytest.fixture(scope="session")
def archive(pytestconfig, room):
    """libgen1_c.a with gen1_build: the library of --library, else the proved one, else the one of the plain sources."""
    return archive_of(pytestconfig, room / "library")


@pytest.fixture(scope="session")
def unpacked(battles, room):
    """A folder with the recorded battles unpacked."""
    packed = sorted(battles.glob("*.xz"))
    if not packed:
        return battles.resolve()
    folder = room / "battles"
    folder.mkdir()
    for path in packed:
        (folder / path.stem).write_bytes(lzma.decompress(path.read_bytes()))
    return folder


class Checks:
    """Counts checks, and keeps what is wrong until the end of the test."""

    def __init__(self):
        self.number, self.faults = 0, []

    def same(self, name, got, want):
        """Compares two values."""
        self.right(name, None if got == want else f"{str(got)[:300]}, not {str(want)[:300]}")

    def right(self, name, fault):
        """Counts a check with its fault, if it has one."""
        self.number += 1
        if fault:
            self.faults.append(f"{name}: {str(fault).strip()[:2000]}")


@pytest.fixture
def checks():
    """Many checks of one test: `checks.same(name, got, want)`. The test fails at its end if one of them has failed."""
    return Checks()


@pytest.hookimpl(trylast=True)
def pytest_runtest_call(item):
    """Counts the checks of a test that has `checks`. It fails if one has failed, and if there was none."""
    made = getattr(item, "funcargs", {}).get("checks")
    if not made:
        return
    bad = len(made.faults)
    item.user_properties += [("compared", made.number - bad), ("faults", bad)]
    if bad or not made.number:
        more = [f"(and {bad - SHOWN} more)"] * (bad > SHOWN)
        pytest.fail("\n".join(made.faults[:SHOWN] + more) or "nothing was checked", pytrace=False)


@pytest.fixture
def compared(request):
    """Counts comparisons: `compared(n)` says that the test compares n values.

    `compared(n, faults)` says which of them failed, a line each. Where there is one, the test fails with these lines.
    """

    def count(number, faults=()):
        faults = list(faults)
        request.node.user_properties += [("compared", max(number - len(faults), 0)), ("faults", len(faults))]
        if faults:
            more = [f"(and {len(faults) - SHOWN} more)"] if len(faults) > SHOWN else []
            pytest.fail("\n".join(faults[:SHOWN] + more), pytrace=False)

    return count


@pytest.fixture
def needs():
    """Skips a test that lacks a program: `needs("clang", "cmake")`."""

    def check(*programs):
        for program in programs:
            if not shutil.which(program):
                pytest.skip(f"there is no {program}; `make setup` installs it")

    return check


@pytest.fixture
def left_out(request):
    """Counts a part of a test as skipped: `left_out("Chromium is missing")`."""

    def count(reason):
        request.node.user_properties.append(("left out", reason))

    return count


def skips(reporter):
    """Each test that was skipped or left out a part, with the reason."""
    for report in reporter.stats.get("skipped", ()):
        reason = report.longrepr[2] if isinstance(report.longrepr, tuple) else report.longrepr
        yield report.nodeid, str(reason).removeprefix("Skipped: ")
    for report in (*reporter.stats.get("passed", ()), *reporter.stats.get("failed", ())):
        yield from ((report.nodeid, reason) for key, reason in report.user_properties if key == "left out")


def pytest_terminal_summary(terminalreporter, exitstatus, config):
    """Names what was skipped; tests of one function with one reason are one line."""
    named = {}
    for name, reason in skips(terminalreporter):
        named.setdefault((name.partition("[")[0], reason), []).append(name)
    for (function, reason), names in named.items():
        terminalreporter.write_line(
            f"skipped: {names[0] if len(names) == 1 else f'{len(names)} of {function}'}: {reason}"
        )


def pytest_unconfigure(config):
    """Prints the closing line."""
    reporter = config.pluginmanager.get_plugin("terminalreporter")
    if not reporter or hasattr(config, "workerinput") or config.getoption("collectonly"):
        return
    stats = reporter.stats
    passed = sum(max(1, counted(it, "compared")) for it in stats.get("passed", ()))
    passed += sum(counted(it, "compared") for it in stats.get("failed", ()))
    failed = sum(max(1, counted(it, "faults")) for it in (*stats.get("failed", ()), *stats.get("error", ())))
    print(f"{passed} passed, {failed} failed, {len(list(skips(reporter)))} skipped")


def counted(report, key):
    """The sum of what a test counted."""
    # A report of a file that could not be collected has no properties.
    return sum(number for name, number in getattr(report, "user_properties", ()) if name == key)
