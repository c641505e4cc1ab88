"""What the proofs leave, beside what is built of the plain sources: the library (--library), and the module of WebAssembly (--module).

Both are skipped where they are not named.
"""

import shutil
from concurrent.futures import ThreadPoolExecutor

import pytest
from c_library import plain_build
from cargo import want_cargo
from chromium import played
from processes import add_counts, has, ran
from repository import ROOT

# Random battles and byte strings, and in how many processes they are compared.
BATTLES, STRINGS, PROCESSES = 20_000, 50_000, 4


def test_plain_library_against_the_proved_one(pytestconfig, room, compared):
    """Random battles and byte strings by both libraries."""
    library = pytestconfig.getoption("library")
    if not library:
        pytest.skip("no --library names the proved library")
    want_cargo()
    plain, proved, compare = plain_build("release") / "libgen1_c.so", room / "proved.so", room / "compare"
    ran("cc", "-shared", "-o", proved, "-Wl,--whole-archive", library, "-Wl,--no-whole-archive")
    ran("cc", "-O2", "-I", "include", "tests/c/compare.c", "-ldl", "-o", compare)
    words = [compare, proved, plain, BATTLES // PROCESSES, STRINGS // PROCESSES]
    with ThreadPoolExecutor(PROCESSES) as pool:
        texts = list(pool.map(lambda seed: ran(*words, seed, allowed=(0, 1)), range(1, PROCESSES + 1)))
    wrong = [text for text in texts if not text.strip().endswith(" 0 differences")]
    assert not wrong, wrong[0][-2000:]
    compared(BATTLES + STRINGS)


@pytest.fixture(scope="module")
def package(pytestconfig, room):
    """The JavaScript package with the proved module alone."""
    module = pytestconfig.getoption("module")
    if not module:
        pytest.skip("no --module names the proved module")
    if not has("browser"):
        pytest.skip("there is no Node or no Chromium; `make setup` installs them")
    folder = room / "js_proved"
    shutil.copytree(ROOT / "js", folder, ignore=shutil.ignore_patterns("dist"))
    ran("tools/plain_wasm", "--tables", folder)
    shutil.copy(module, folder / "gen1_proved.wasm")
    return folder


def test_proved_module_under_node(package, unpacked, checks):
    words = ["--experimental-wasm-memory64", "test/test.mjs", unpacked]
    add_counts(ran("node", *words, package / "gen1_proved.wasm", cwd=package, allowed=(0, 1)), checks)


def test_proved_module_in_chromium(package, unpacked, compared):
    """Recorded battles in headless Chromium, which prefers the proved module to the plain one."""
    end = played(package, unpacked)
    assert end["faults"] == []
    assert end["build"] == "proved"
    compared(end["passed"])
