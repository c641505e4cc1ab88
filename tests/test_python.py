"""The Python package, python/gen1, with the C library: its own tests, by each Python, and what is built of it.

Its own tests are in python/gen1/tests: the recorded battles, random battles, every bad argument.
"""

import os
import re
import shutil
import subprocess
import sys
from importlib.machinery import SourceFileLoader
from importlib.util import module_from_spec, spec_from_loader
from pathlib import Path

import pytest
from repository import ROOT

PACKAGE = ROOT / "python" / "gen1"
OLDEST = (3, 10)
# The modules of pytest 7 that aren't part of Python; and the tests that the other Pythons run.
PYTEST = ("pytest", "_pytest", "pluggy", "iniconfig", "packaging", "attr", "attrs", "exceptiongroup", "tomli", "py")
QUICK = [
    "tests/test_faults.py",
    "tests/test_first_contact.py",
    "tests/test_objects.py",
    "tests/test_views.py",
]
# Prints where a Python has each of some modules.
PLACES = """
import sys
from importlib.util import find_spec
for name in sys.argv[1:]:
    it = find_spec(name)
    print(name, (it.submodule_search_locations or [it.origin])[0] if it else '')
"""
# An installed package has the list of licenses among its files, and plays.
LISTED = "from importlib.metadata import files; assert any(it.name == 'LICENSES.txt' for it in files('gen1'))"
PLAYED = "from gen1 import Battle, Member; t = Member('Tauros', ['Strength']); Battle([t], [t], range(10)).update(0, 0)"
# The environment where the package is installed.
CLEAN = {key: value for key, value in os.environ.items() if key not in ("PYTHONPATH", "GEN1_LIBRARY")}
NOTEBOOKS = sorted((ROOT / "examples" / "python" / "notebooks").glob("*.py"))


def tool(name):
    """A command of tools/, as a module."""
    loader = SourceFileLoader(name, str(ROOT / "tools" / name))
    module = module_from_spec(spec_from_loader(name, loader))
    loader.exec_module(module)
    return module


wheels = tool("python_wheel")


def python(*modules):
    """A Python that has these modules."""
    found = wheels.interpreter(*modules)
    if not found:
        pytest.skip(f"no Python has {' and '.join(modules)}; `make setup` installs them")
    return found


def other_pythons():
    """Each installed Python from the oldest version on, on the path as python3.N or of pyenv; one of a version, and none of this one."""
    kept = Path(os.environ.get("PYENV_ROOT") or Path.home() / ".pyenv") / "versions"
    named = [shutil.which(f"python3.{minor}") for minor in range(OLDEST[1], 30)]
    found = {}
    for path in [*sorted(kept.glob("*/bin/python3")), *map(Path, filter(None, named))]:
        ran = subprocess.run([path, "-c", "import sys; print(*sys.version_info[:2])"], capture_output=True, text=True)
        numbers = tuple(map(int, ran.stdout.split())) if ran.returncode == 0 else ()
        if numbers >= OLDEST and numbers != sys.version_info[:2]:
            found.setdefault(numbers, path)
    return list(found.values())


@pytest.fixture(scope="module")
def work(room):
    made = room / "python"
    made.mkdir()
    return made


@pytest.fixture(scope="module")
def shared(archive, work):
    """The shared library of the package."""
    made = work / "libgen1.so"
    wheels.shared_library(archive, made)
    wheels.extras_library(work / "libgen1_extras.so")
    return made


@pytest.fixture(scope="module")
def environment(shared, pytestconfig):
    """The environment of a Python that uses the sources of the package."""
    return {
        **os.environ,
        "GEN1_LIBRARY": str(shared),
        "PYTHONPATH": str(PACKAGE / "src"),
        "PYTHONDONTWRITEBYTECODE": "1",
        "MPLBACKEND": "Agg",
        "GEN1_SELFPLAY_BATTLES": "200" if pytestconfig.getoption("whole") else "20",
    }


def run(*words, env, cwd=PACKAGE):
    """Runs a command; returns its status and what it printed."""
    ran = subprocess.run(
        [str(it) for it in words],
        cwd=cwd,
        env=env,
        stdout=subprocess.PIPE,
        stderr=subprocess.STDOUT,
        text=True,
        errors="replace",
        stdin=subprocess.DEVNULL,
    )
    return ran.returncode, ran.stdout


def good(*words, env, cwd=PACKAGE):
    """Runs a command, and returns what it printed. The test fails where its status is not 0."""
    status, said = run(*words, env=env, cwd=cwd)
    if status:
        pytest.fail(f"{' '.join(map(str, words))}: status {status}\n{said[-3000:]}", pytrace=False)
    return said


def test_own_tests(environment, compared, left_out):
    """The tests of the package."""
    said = good(python("pytest"), "-m", "pytest", "-q", "-rs", "tests", env=environment)
    for number, reason in re.findall(r"(?m)^SKIPPED \[(\d+)\] (.*)", said):
        for _ in range(int(number)):
            left_out(reason)
    compared(int(re.search(r"(\d+) passed", said.splitlines()[-1])[1]))


@pytest.fixture(scope="module")
def borrowed(environment, work):
    """A folder with the pytest of the Python that has it, for the others."""
    folder = work / "borrowed"
    folder.mkdir()
    for line in good(python("pytest"), "-c", PLACES, *PYTEST, env=environment).splitlines():
        name, _, path = line.partition(" ")
        if path:
            (folder / (name + Path(path).suffix)).symlink_to(path)
    return folder


@pytest.mark.parametrize("path", other_pythons(), ids=lambda it: it.name if "pyenv" not in str(it) else it.parts[-3])
def test_another_python(path, environment, borrowed):
    """The quick tests that need no numpy, by each other Python that is installed."""
    changed = {**environment, "PYTHONPATH": f"{PACKAGE / 'src'}:{borrowed}"}
    if run(path, "-c", "import pytest", env=changed)[0]:
        pytest.skip(f"{path} cannot run the pytest of {sys.executable}")
    words = ["-q", "-W", "ignore", "--assert=plain", "-k", "not recorded and not random and not draws"]
    good(path, "-m", "pytest", *words, *QUICK, env=changed)


def test_types(environment, work, needs):
    """mypy --strict accepts the package."""
    needs("mypy")
    good("mypy", "--strict", "--cache-dir", work / "mypy", "src/gen1", env=environment)


def test_examples_of_the_readme(environment, compared):
    """The README's examples, by doctest."""
    good(python("numpy"), "-m", "doctest", "README.md", env=environment)
    compared((PACKAGE / "README.md").read_text().count(">>> "))


@pytest.mark.parametrize("path", NOTEBOOKS, ids=lambda it: it.stem)
def test_notebook(path, environment, work):
    """Each of examples/python/notebooks runs from its beginning to its end."""
    good(python("numpy", "matplotlib"), path, cwd=work, env=environment)


@pytest.fixture(scope="module")
def page(work):
    """The page that `gen1 replay` fills; None where a tool for it is missing."""
    return wheels.made_page(work)


@pytest.fixture(scope="module")
def built(archive, work, page):
    """The wheel and the source archive, built without a network."""
    python("build", "wheel", "setuptools", "venv", "ensurepip")
    return dict(zip(("wheel", "source archive"), wheels.build(archive, work / "dist", page)))


KINDS = pytest.mark.parametrize("kind", ["wheel", "source archive"])


@pytest.fixture(scope="module")
def home(built, work):
    """A function that installs the package into a fresh environment without a network, and returns its programs."""
    made = {}

    def installed(kind):
        if kind not in made:
            made[kind] = work / f"environment_{len(made)}"
            system = python("venv", "ensurepip", "setuptools", "wheel")
            good(system, "-m", "venv", "--system-site-packages", made[kind], cwd=work, env=CLEAN)
            words = ("install", "-q", "--no-index", "--no-deps", "--no-build-isolation", built[kind])
            good(made[kind] / "bin" / "pip", *words, cwd=work, env=CLEAN)
        return made[kind] / "bin"

    return installed


@KINDS
def test_installed(kind, home, work):
    """Each plays the README's battle where it is installed, and has its licenses and its command."""
    good(home(kind) / "python", "-c", PLAYED, cwd=work, env=CLEAN)
    good(home(kind) / "python", "-c", LISTED, cwd=work, env=CLEAN)
    good(home(kind) / "gen1", "--version", cwd=work, env=CLEAN)


@KINDS
def test_replay(kind, home, page, tmp_path):
    """`gen1 replay` of the installed package writes the page with a battle in its place."""
    if not page:
        pytest.skip("a tool that builds the page is missing; `make setup` installs it")
    replay, battle = tmp_path / "replay.html", ROOT / "examples" / "full_teams.json"
    good(home(kind) / "python", "-m", "gen1", "replay", battle, "--out", replay, cwd=tmp_path, env=CLEAN)
    before, after = page.read_text().split('type="application/json">null</script>')
    text = replay.read_text()
    assert text.startswith(before) and text.endswith(after) and '"choices"' in text[len(before) : -len(after)]


def test_tag_of_the_wheel(built, tmp_path, needs):
    """The wheel's tag names the newest version of glibc that objdump finds among the symbols of its libraries."""
    needs("objdump")
    shutil.unpack_archive(built["wheel"], tmp_path, "zip")
    said = "".join(good("objdump", "-T", it, env=os.environ) for it in (tmp_path / "gen1").glob("*.so"))
    needed = max((int(it) for it in re.findall(r"GLIBC_2\.(\d+)", said)), default=0)
    assert built["wheel"].name.endswith(f"-py3-none-manylinux_2_{needed}_{os.uname().machine}.whl")


def test_library_of_another_machine(built, tmp_path):
    """A source archive whose library cannot be loaded reports that, and builds nothing."""
    shutil.unpack_archive(built["source archive"], tmp_path)
    [folder] = tmp_path.iterdir()
    (folder / "src" / "gen1" / "libgen1.so").write_bytes(b"\x7fELF of another machine")
    status, said = run(python("setuptools", "wheel"), "setup.py", "--name", cwd=folder, env=os.environ)
    assert status == 1 and "cannot be loaded" in said and "Traceback" not in said, said
