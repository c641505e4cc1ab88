"""Compares battle_tool with its recorded runs, to the byte (tests/battles/README.md).

    pytest tests/test_recorded.py                            the proved program, where it is built
    pytest tests/test_recorded.py --program FILE             another program that takes the same arguments (docs/PROGRAM.md)
    pytest tests/test_recorded.py -k calc --program FILE     the runs whose name, or whose file's name, has a word

Compared are standard output, the status and, where it is recorded, standard error. The first difference of each run is printed.
"""

import re
import subprocess
from concurrent.futures import ThreadPoolExecutor
from itertools import zip_longest

import pytest
from battles import CASES, cases, recorded
from repository import ROOT, processors, program

SECONDS = 120
# A line with its end, if it has one.
LINE = re.compile(r"[^\n]*\n|[^\n]+")


def tool(config, name):
    """The program that is asked for, else the proved one; skips the test where there is none."""
    asked, proved = config.getoption("program"), ROOT / "crates" / name / "out" / name
    if not asked and not proved.is_file():
        pytest.skip(f"crates/{name}/out/{name} is not built, and no --program was named")
    return program(asked or proved)


def recorded_runs(config):
    """Each run of the recorded files, by its name."""
    folder = config.getoption("battles")
    for name in CASES:
        for case in cases(recorded(f"{name}.jsonl", folder)):
            yield f"{name}, {case['name']}", case


def pytest_generate_tests(metafunc):
    if "run" in metafunc.fixturenames:
        found = list(recorded_runs(metafunc.config))
        metafunc.parametrize("run", [case for _, case in found], ids=[name for name, _ in found])


@pytest.fixture(scope="session")
def faults(request):
    """The fault of each run that is asked for, computed side by side."""
    battle_tool = tool(request.config, "battle_tool")
    runs = [item.callspec.params["run"] for item in request.session.items if "faults" in item.fixturenames]
    with ThreadPoolExecutor(processors()) as pool:
        yield {id(run): pool.submit(fault_of_run, battle_tool, run) for run in runs}


def fault_of_run(battle_tool, case):
    """Why a run fails; empty where it passes."""
    given = bytes.fromhex(case["hex"]) if "hex" in case else case.get("input", "").encode()
    try:
        ran = subprocess.run([battle_tool, *case["args"]], input=given, capture_output=True, timeout=SECONDS)
    except subprocess.TimeoutExpired:
        return f"it did not end in {SECONDS} s"
    said = f"; standard error: {shown(ran.stderr.decode(errors='replace'))}" if ran.stderr else ""
    if ran.stdout != case["stdout"].encode():
        return f"standard output, {first_difference(ran.stdout, case['stdout'])}{said}"
    if ran.returncode != case.get("status", 0):
        return f"status {ran.returncode}, not {case.get('status', 0)}{said}"
    if "stderr" in case and ran.stderr != case["stderr"].encode():
        return f"standard error, {first_difference(ran.stderr, case['stderr'])}"
    return ""


def first_difference(got, want):
    """The first line in which bytes differ from the expected text."""
    both = zip_longest(LINE.findall(got.decode(errors="replace")), LINE.findall(want))
    for number, (one, other) in enumerate(both, 1):
        if one != other:
            return f"line {number}: {shown(one)}, not {shown(other)}"
    return "bytes that are not UTF-8"


def shown(line):
    return "nothing" if line is None else repr(line if len(line) <= 160 else f"{line[:160]} ..")


def test_runs(run, faults):
    if fault := faults[id(run)].result():
        pytest.fail(fault, pytrace=False)
