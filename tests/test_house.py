"""Measures the repository against its budgets: files, bytes to read, tools, homes of tests, and the format of the sources.

    pytest -s tests/test_house.py      prints each number beside its limit, and the subjects of commits that are too long
"""

import re
import subprocess

import pytest
from repository import ROOT

# The longest subject of a commit, which .githooks/commit-msg holds new ones to.
SUBJECT = 72
# A file of tests: in a folder of tests or of the page's checks. An example's own tests are part of the example.
OF_TESTS = re.compile(r"(?!examples/)(\w+)/(?:(?:.*/)?(?:tests?|checks)/|(?:.*/)?test_\w+\.py$)")
PACKAGES = ("js", "python", "rust", "server", "web")


def git(*words):
    return subprocess.run(["git", *words], cwd=ROOT, capture_output=True, text=True, check=True).stdout.splitlines()


def files():
    """The files in git, as they are in the working tree."""
    return [name for name in git("ls-files") if (ROOT / name).is_file()]


def kilobytes(names):
    return sum((ROOT / name).stat().st_size for name in names) / 1000


def homes():
    """The homes of tests: the crates, the packages, each with its own tests beside it, and tests/ for all others."""
    found = {"packages" if match[1] in PACKAGES else match[1] for name in files() if (match := OF_TESTS.match(name))}
    return sorted(found | {"crates"})


BUDGETS = {
    "files in git": (lambda: len(files()), 2500),
    "kB of docs/*.md": (lambda: kilobytes(name for name in files() if re.fullmatch(r"docs/\w+\.md", name)), 300),
    "kB of Markdown": (lambda: kilobytes(name for name in files() if name.endswith(".md")), 480),
    "files in tools/": (lambda: len([name for name in files() if name.startswith("tools/")]), 45),
    "homes of tests": (lambda: len(homes()), 3),
}


@pytest.mark.parametrize("name", BUDGETS)
def test_budget(name):
    measured, limit = BUDGETS[name][0](), BUDGETS[name][1]
    more = f": {', '.join(homes())}" if name == "homes of tests" else ""
    print(f"\n{measured:,.0f} {name}, at most {limit:,}{more}")
    assert measured <= limit


def test_subjects():
    """Prints the long subjects of this branch; what is committed can't be changed."""
    known = subprocess.run(["git", "rev-parse", "-q", "--verify", "origin/main"], cwd=ROOT, capture_output=True)
    subjects = git("log", "--format=%s", "origin/main..HEAD") if known.returncode == 0 else []
    long = [subject for subject in subjects if len(subject) > SUBJECT]
    print("\n".join(["", f"{len(long)} of {len(subjects)} subjects have more than {SUBJECT} characters", *long]))


def test_format(needs):
    needs("rustfmt", "black", "clang-format")
    done = subprocess.run([ROOT / "tools" / "fmt", "--check"], capture_output=True, text=True)
    assert done.returncode == 0, done.stdout + done.stderr
