"""The program gen1 as users have it: its release build on recorded cases, its installation, and the crate as it would be published."""

import shutil
import sys

import pytest
from artifacts import fault_of
from cargo import built, play_cases, want_cargo
from processes import ran
from program_files import NAMES, PROGRAM
from release_archive import packed_crate
from repository import ROOT


@pytest.fixture(scope="module", autouse=True)
def workspace():
    want_cargo()


def test_recorded_cases_by_a_release_build(battles, checks):
    play_cases(built("gen1-cli", release=True) / "gen1", battles, checks)


def test_battles_of_differences():
    """The battles of docs/DIFFERENCES.md come out as it says."""
    program = built("gen1-cli", release=True) / "gen1"
    ran(sys.executable, "-m", "pytest", "tests/test_differences.py", "--program", program)


def test_installation(room, checks):
    """tools/install --program: its files, that the program plays, and that --uninstall leaves nothing."""
    stage = room / "stage"
    words = ["tools/install", f"DESTDIR={stage}", "PREFIX=/usr"]
    ran(*words, "--program")
    found = {str(path.relative_to(stage / "usr")) for path in stage.rglob("*") if path.is_file()}
    checks.same("files", found, set(NAMES))
    played = ran(stage / "usr" / PROGRAM, "run", ROOT / "examples" / "tauros.json")
    checks.same("its end", played.splitlines()[-1], "|win|p1")
    ran(*words, "--uninstall")
    checks.same("left", [path for path in stage.rglob("*") if path.is_file()], [])


def test_published_crate(room):
    """The crate gen1 as it would be published, used by a new project."""
    folder = room / "published"
    folder.mkdir()
    fault = fault_of(packed_crate(folder / "target"), folder)
    shutil.rmtree(folder)
    assert not fault, fault
