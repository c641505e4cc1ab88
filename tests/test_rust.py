"""The sources as plain Rust, in the workspace that cargo builds: its own tests, its program, its documentation and its public items."""

import subprocess

import pytest
from cargo import TARGET, built, play_cases, want_cargo
from processes import add_counts, has, ran
from repository import ROOT

SERDE = ("--features", "gen1/serde")


@pytest.fixture(scope="module", autouse=True)
def workspace():
    want_cargo()


def test_own_tests(checks):
    """The tests of the sources' own crates and the doctests, with overflow and index checks."""
    add_counts(ran("make", "test"), checks)


def test_recorded_cases_by_a_debug_build(battles, checks):
    play_cases(built("gen1-cli", release=False) / "gen1", battles, checks)


@pytest.fixture(scope="module")
def documentation():
    """The documentation, in which a warning is an error; the folder of the crate gen1, with all its features."""
    ran("cargo", "doc", "-q", "--no-deps", "--workspace", *SERDE, env={"RUSTDOCFLAGS": "-D warnings"})
    return TARGET / "doc" / "gen1"


def test_documentation(documentation):
    """The documentation gives no warning."""
    assert (documentation / "index.html").is_file()


def test_lints():
    """clippy gives no warning."""
    if not has("lints"):
        pytest.skip("there is no clippy; `make setup` installs it")
    ran("cargo", "clippy", "-q", "--workspace", *SERDE, "--", "-D", "warnings")


def test_public_items(documentation):
    """rust/gen1/API.txt lists the public items of the crate gen1."""
    ran("tools/api", "--check")


def test_fuzzer(pytestconfig, checks):
    """Strings of a fuzzer, for loading, the log reader and teams as text (fuzz/README.md)."""
    words = [ROOT / "fuzz" / "run", "--seconds", str(pytestconfig.getoption("fuzz"))]
    done = subprocess.run(words, capture_output=True, text=True, cwd=ROOT)
    if done.returncode == 77:
        pytest.skip(done.stderr.strip() or "there is no clang")
    assert done.returncode == 0, (done.stdout + done.stderr)[-3000:]
    add_counts(done.stdout, checks)
