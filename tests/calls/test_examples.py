"""The programs of examples/ in C, Rust and Python play each recorded battle and print the recorded text to the byte."""

import json
import subprocess
import sys

import pytest
from battle_input import as_numbers
from battles import in_codes
from repository import ROOT
from structs import cases_of

PLAYED = ("battles", "rules", "limit", "first_path")
STRICT = ("-std=c11", "-O2", "-Wall", "-Wextra", "-Werror", "-I", "include")


def in_c(name, archive, room):
    """Builds a program of examples/c, and returns its path."""
    program = room / f"{name}_in_c"
    subprocess.run(["cc", *STRICT, f"examples/c/{name}.c", archive, "-o", program], cwd=ROOT, check=True)
    return program


def in_rust(name, archive, room):
    """Builds a program of examples/rust, and returns its path."""
    program = room / f"{name}_in_rust"
    words = ["rustc", "--edition", "2024", "-O", "-L", archive.parent, f"examples/rust/{name}.rs", "-o", program]
    subprocess.run(words, cwd=ROOT, check=True)
    return program


@pytest.fixture(params=["c", "rust", "python"])
def command(request, needs, archive, shared, room):
    """The command of a program that plays a battle."""
    if request.param == "c":
        needs("cc")
        return [in_c("play", archive, room)]
    if request.param == "rust":
        needs("rustc")
        return [in_rust("play", archive, room)]
    return [sys.executable, ROOT / "examples" / "python" / "play.py", shared]


def test_battles(command, battles, checks):
    """Each recorded battle, with its errors and its status."""
    for name in PLAYED:
        for case in cases_of(battles, name):
            asked = as_numbers(json.loads(case["input"]))
            want = (case["stdout"], in_codes(case.get("stderr", "")), case.get("status", 0))
            ran = subprocess.run(command, input=asked, capture_output=True, text=True, timeout=60)
            checks.same(f"{name}, {case['name']}", (ran.stdout, ran.stderr, ran.returncode), want)


def test_rooms_in_rust(needs, archive, room, battles, checks):
    """Each recorded room by examples/rust/submit.rs."""
    needs("rustc")
    program = in_rust("submit", archive, room)
    for case in cases_of(battles, "room"):
        asked = as_numbers(json.loads(case["input"]))
        ran = subprocess.run([program], input=asked, capture_output=True, text=True, timeout=60)
        checks.same(f"room, {case['name']}", (ran.stdout, ran.stderr, ran.returncode), (case["stdout"], "", 0))


@pytest.mark.parametrize("name", ["look", "text", "many"])
def test_programs_that_compare_by_themselves(name, needs, archive, room):
    needs("cc")
    assert subprocess.run([in_c(name, archive, room)], capture_output=True).returncode == 0
