"""Programs of the workspace that cargo builds, and recorded cases that they play."""

import shutil
from concurrent.futures import ThreadPoolExecutor

import pytest
from battles import CASES, cases, recorded
from processes import has, ran
from repository import ROOT
from test_recorded import fault_of_run

TARGET = ROOT / "target"


def want_cargo():
    """Skips a test where cargo or a published crate is missing."""
    if not has("plain") or not shutil.which("cargo"):
        pytest.skip("cargo or a published crate is missing; `make setup` installs it")


def built(*packages, release):
    """Builds programs of the workspace, and returns the folder that they are in. Without `release` they share what `cargo test` builds."""
    named = [word for package in packages for word in ("-p", package)]
    ran("cargo", "build", "-q", "--profile", "release" if release else "test", *named)
    return TARGET / ("release" if release else "debug")


def play_cases(program, battles, checks):
    """Plays every recorded case by a program with the arguments of battle_tool."""
    found = [case for name in CASES for case in cases(recorded(f"{name}.jsonl", battles))]
    with ThreadPoolExecutor() as pool:
        for case, fault in zip(found, pool.map(lambda case: fault_of_run(program, case), found)):
            checks.right(case["name"], fault)
