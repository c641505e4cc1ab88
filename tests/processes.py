"""Commands that tests run, and the counts that they print."""

import os
import re
import subprocess

import pytest
from repository import ROOT


def ran(*words, cwd=ROOT, env=None, allowed=(0,)):
    """What a command printed. The test fails where its status is not an allowed one."""
    done = subprocess.run(
        [str(word) for word in words],
        cwd=cwd,
        env={**os.environ, **(env or {})},
        stdin=subprocess.DEVNULL,
        stdout=subprocess.PIPE,
        stderr=subprocess.STDOUT,
        text=True,
        errors="replace",
    )
    if done.returncode not in allowed:
        tail = "\n".join(done.stdout.strip().splitlines()[-30:])
        pytest.fail(f"{' '.join(map(str, words))}: status {done.returncode}\n{tail}", pytrace=False)
    return done.stdout


def add_counts(text, checks):
    """Adds the counts of all lines 'N passed, M failed' or '.. N passed; M failed' of a text to the checks of a test."""
    pairs = re.findall(r"(\d+) passed[,;] (\d+) failed", text)
    checks.number += sum(int(passed) for passed, _ in pairs)
    if not pairs or any(failed != "0" for _, failed in pairs):
        checks.right("its counts", text.strip()[-3000:] or "it printed nothing")


def has(part):
    """Whether tools/setup has, or can install, the programs of a part."""
    return subprocess.run([ROOT / "tools" / "setup", part], stdout=subprocess.DEVNULL).returncode == 0
