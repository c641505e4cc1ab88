"""The C library as C programs use it: its header, its examples, and calls with wrong arguments, under sanitizers.

A compiler that is missing, or that lacks a library of sanitizers, is skipped.
"""

import os
import re
import shutil
import subprocess
from concurrent.futures import ThreadPoolExecutor

import pytest
from c_examples import EXAMPLES, Folders, fault_of_case
from c_library import PROFILED, calls
from repository import ROOT

# The languages of the header, with a compiler of each of two makers, and their standards.
STANDARDS = {
    ("gcc", "clang"): ("c", ("c99", "c11", "c17")),
    ("g++", "clang++"): ("c++", ("c++11", "c++17", "c++20")),
}
STRICT = ("-Wall", "-Wextra", "-pedantic", "-Werror")
SANITIZED = ("-g", "-O1", "-fsanitize=address,undefined", "-fno-sanitize-recover=all", "-fno-omit-frame-pointer")
# How often each function is called with arguments out of their ranges, by each compiler's program; together more than 20,000.
HOSTILE_CALLS = 3000
HOSTILE = tuple(sorted(map(str, (ROOT / "tests" / "c").glob("hostile*.c")))) + ("tests/c/lawful.c", "tests/c/guarded.c")
# A deliberately wrong library, which the calls must detect.
WRONG = "tests/c/wrong.c"
WRONG_TEXT = (ROOT / WRONG).read_text()
COMPILERS = pytest.mark.parametrize("compiler", ["gcc", "clang"])


def fault_of(words, given=None, cwd=ROOT):
    """What a command printed, where its status is not 0; else None."""
    done = subprocess.run(
        [str(word) for word in words],
        cwd=cwd,
        input=given,
        stdin=None if given else subprocess.DEVNULL,
        stdout=subprocess.PIPE,
        stderr=subprocess.STDOUT,
        text=True,
        errors="replace",
    )
    return f"status {done.returncode}: {done.stdout or 'it printed nothing'}" if done.returncode else None


@pytest.fixture(scope="session")
def work(room):
    """The folder of what the tests of this file build."""
    made = room / "c"
    made.mkdir()
    subprocess.run([ROOT / "tools" / "setup", "c"], stdout=subprocess.DEVNULL)
    return made


@pytest.fixture(scope="session")
def build(archive, work):
    """A function that builds a program by a compiler of C with sanitizers. It skips a test where the compiler cannot."""
    tried = {}

    def built(compiler, name, *sources):
        """The program, and what is wrong, or None."""
        words = [compiler, "-std=c11", *STRICT, *SANITIZED, "-I", "include", "-I", "tests/c"]
        if not shutil.which(compiler):
            pytest.skip(f"there is no {compiler}; `make setup` installs it")
        if compiler not in tried:
            empty = [compiler, *SANITIZED, "-x", "c", "-", "-o", work / f"empty_{compiler}"]
            tried[compiler] = fault_of(empty, "int main(void){return 0;}")
        if tried[compiler]:
            pytest.skip(f"there is no library of {compiler}'s sanitizers")
        program = work / f"{name}_{compiler}"
        return program, fault_of([*words, *sources, archive, "-o", program])

    return built


def run_cases(runs, checks):
    """Runs programs on cases side by side, the longest first; each run is a name, a program and a case."""
    runs.sort(key=lambda run: run[2].is_long, reverse=True)
    with ThreadPoolExecutor(os.cpu_count()) as pool:
        for (name, *_), fault in zip(runs, pool.map(lambda run: fault_of_case(*run[1:]), runs)):
            checks.right(name, fault)


@pytest.mark.parametrize(
    "compiler, language, standard",
    [
        pytest.param(compiler, language, standard, id=f"{compiler}-{standard}")
        for compilers, (language, standards) in STANDARDS.items()
        for compiler in compilers
        for standard in standards
    ],
)
def test_header(compiler, language, standard, needs, checks):
    """include/gen1.h alone and twice, by each compiler and standard, without a warning."""
    needs(compiler)
    words = [compiler, f"-std={standard}", *STRICT, "-Wundef", "-fsyntax-only", "-I", "include", "-x", language, "-"]
    for name, times in (("once", 1), ("twice", 2)):
        checks.right(name, fault_of(words, '#include "gen1.h"\n' * times))


@COMPILERS
def test_hostile_calls(compiler, build, checks):
    """Calls of each function with arguments out of their ranges, between pages that may not be touched."""
    program, fault = build(compiler, "hostile", *HOSTILE)
    assert not fault, fault
    checks.right("built", None)
    seed = {"gcc": 1, "clang": 2}[compiler]
    words = [program, str(HOSTILE_CALLS), str(seed)]
    ran = subprocess.run(words, stdout=subprocess.PIPE, stderr=subprocess.STDOUT, text=True)
    said = ran.stdout.strip()
    for name in calls():
        is_tried = re.search(rf"(?m)^{name}: [1-9]\d* calls$", said)
        checks.right(name, None if is_tried else "it is never tried")
    counts = re.search(r"(\d+) passed, (\d+) failed\S*$", said)
    ended = ran.returncode == 0 and counts and counts[2] == "0"
    checks.number += int(counts[1]) - 1 if ended else 0
    checks.right("the calls", None if ended else f"status {ran.returncode}: {said[-1500:]}")


@pytest.fixture(scope="session")
def hostile_objects(work):
    """The calls without sanitizers, compiled once for all wrong libraries."""
    if not shutil.which("cc"):
        pytest.skip("there is no cc; `make setup` installs it")
    folder = work / "objects"
    folder.mkdir()
    sources = [ROOT / name for name in HOSTILE]
    fault = fault_of(["cc", "-std=c11", f"-I{ROOT}/include", f"-I{ROOT}/tests/c", "-c", *sources], cwd=folder)
    assert not fault, fault
    return sorted(folder.glob("*.o"))


@pytest.mark.parametrize("number", range(0, 1 + max(map(int, re.findall(r"WRONG == (\d+)", WRONG_TEXT)))))
def test_wrong_library(number, hostile_objects, archive, work):
    """The calls detect each deliberately wrong library, and find nothing in number 0, which is right."""
    program = work / f"wrong_{number}"
    wrapped = [f"-Wl,--wrap={name}" for name in re.findall(r"__wrap_(\w+)\(", WRONG_TEXT)]
    words = ["cc", f"-DWRONG={number}", "-std=c11", "-I", "include", "-I", "tests/c", WRONG, *hostile_objects, archive]
    fault = fault_of([*words, *wrapped, "-o", program])
    assert not fault, fault
    is_found = fault_of([program, "1000", "1"]) is not None
    assert is_found == (number != 0), f"it is {'' if is_found else 'not '}detected"


@COMPILERS
@pytest.mark.parametrize("example", EXAMPLES, ids=lambda it: it.name)
def test_example(example, compiler, build, battles, checks):
    """The examples of examples/c: their output on recorded cases."""
    program, fault = build(compiler, example.name, *example.sources)
    assert not fault, fault
    checks.right("built", None)
    cases = example.cases(Folders(battles, program.parent))
    run_cases([(case.name, program, case) for case in cases], checks)


def test_library_with_a_profile(needs, work, battles, checks):
    """The proved library with a profile (tools/library --profile): every recorded battle (examples/c/play.c)."""
    if not PROFILED.is_file():
        pytest.skip(
            f"{PROFILED.name} is not built; `tools/library --profile` builds it where there is an llvm-profdata"
        )
    needs("cc")
    play, program = next(it for it in EXAMPLES if it.name == "play"), work / "play_profiled"
    checks.right(
        "built", fault_of(["cc", "-std=c11", "-O2", *STRICT, "-I", "include", *play.sources, PROFILED, "-o", program])
    )
    if not checks.faults:
        run_cases([(case.name, program, case) for case in play.cases(Folders(battles, work))], checks)
