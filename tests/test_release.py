"""tools/release: two runs give the same bytes, and each part works where it is unpacked. A part that was left out is skipped."""

import ctypes
import hashlib
import re
import shlex
import shutil
import subprocess
import sys
import tarfile
import zipfile
from pathlib import Path

import pytest
from artifacts import LINES, fault_of, plays
from c_library import build_of, calls
from c_library import ran as run
from documents import lost_links
from processes import ran
from repository import ROOT, version

STORED = ROOT / "crates" / "battle_tool" / "stdin"
# The place of a battle in a page that has none.
PLACEHOLDER = '<script id="battle" type="application/json">null</script>'


class Release:
    """Two releases of the same sources, and the parts that were left out, each with the reason."""

    def __init__(self, config, room):
        self.first, self.out, self.room = room / "a", room / "another", room
        library = config.getoption("library")
        words = ["--plain"] if config.getoption("plain") else ["--library", library] if library else []
        for out in (self.first, self.out):
            said = ran("tools/release", "--out", out, *words)
        self.left_out = dict(re.findall(r"(?m)^(\w+): left out: (.*)", said))

    def want(self, part):
        """Skips a test of a part that was left out."""
        if part in self.left_out:
            pytest.skip(f"{part} was left out: {self.left_out[part]}")

    def found(self, pattern):
        """The one file of a pattern."""
        [path] = self.out.glob(pattern)
        return path

    def unpacked(self, path):
        """Unpacks an archive into an empty folder; returns the one folder in it."""
        into = self.room / f"unpacked_{path.name}"
        shutil.rmtree(into, ignore_errors=True)
        into.mkdir()
        with tarfile.open(path) as archive:
            archive.extractall(into, filter="tar") if hasattr(tarfile, "tar_filter") else archive.extractall(into)
        [folder] = into.iterdir()
        return folder

    def c(self):
        """The unpacked archive of the C library."""
        self.want("c")
        return self.unpacked(self.found("gen1-*-c-*.tar.gz"))


@pytest.fixture(scope="module")
def release(pytestconfig, room):
    made = room / "release"
    made.mkdir()
    return Release(pytestconfig, made)


@pytest.fixture(scope="module")
def program():
    """The program gen1, built by cargo."""
    ran("cargo", "build", "-q", "--release", "-p", "gen1-cli")
    return ROOT / "target" / "release" / "gen1"


def files(folder):
    """The files of a release, without the mark of tools/release."""
    return {path.name: path.read_bytes() for path in sorted(folder.iterdir()) if path.name[0] != "."}


def test_same_bytes_twice(release, checks):
    """Each file comes out the same the second time."""
    first, second = files(release.first), files(release.out)
    checks.same("names", list(first), list(second))
    for name, given in second.items():
        checks.right(name, None if first.get(name) == given else "it came out otherwise the second time")


def test_sums(release):
    """SHA256SUMS has exactly the files of the release, with their sums."""
    found = files(release.out)
    lines = found.pop("SHA256SUMS").decode()
    assert lines == "".join(f"{hashlib.sha256(given).hexdigest()}  {name}\n" for name, given in found.items())


def test_crate(release):
    """The crate, used by a new project."""
    release.want("rust")
    folder = release.room / "published"
    folder.mkdir()
    fault = fault_of(release.out / f"gen1-{version()}.crate", folder)
    assert not fault, fault


@pytest.mark.parametrize("kind", ["shared", "static"])
def test_c_by_pkg_config(kind, release, needs):
    """A program by pkg-config, from the unpacked folder, and the version."""
    needs("cc", "pkg-config")
    folder = release.c()
    env = {"PKG_CONFIG_PATH": str(folder / "lib" / "pkgconfig")}
    assert ran("pkg-config", "--modversion", "gen1", env=env) == f"{version()}\n"
    numbers = bytes(int(number) for number in version().split("."))
    assert ctypes.CDLL(str(folder / "lib" / "libgen1.so")).gen1_version().to_bytes(3, "big") == numbers
    extra = ["--static"] if kind == "static" else []
    flags = shlex.split(ran("pkg-config", *extra, "--cflags", "--libs", "gen1", env=env))
    source = ROOT / "examples" / "c" / "play.c"
    ran("cc", *(["-static"] if kind == "static" else []), source, *flags, "-o", folder / kind)
    assert plays(folder / kind, folder / "lib") is None


def test_c_by_cmake(release, needs):
    needs("cc", "cmake")
    folder = release.c()
    sources = ROOT / "tests" / "c" / "find_package"
    ran("cmake", "-S", sources, "-B", folder / "build", f"-DCMAKE_PREFIX_PATH={folder}")
    ran("cmake", "--build", folder / "build")
    for kind in ("shared", "static"):
        assert plays(folder / "build" / kind) is None, kind


def python_with(*modules):
    """A Python that has these modules: this one, or the system's."""
    for python in (sys.executable, "/usr/bin/python3"):
        words = [python, "-c", f"import {', '.join(modules)}"]
        if Path(python).exists() and not subprocess.run(words, capture_output=True).returncode:
            return python
    pytest.skip(f"there is no Python with {', '.join(modules)}; `make setup` installs them")


@pytest.mark.parametrize("kind", ["wheel", "source archive"])
def test_python(kind, release):
    """A wheel or source archive, installed by pip without a network, plays the stored run."""
    release.want("python")
    archive = release.found("gen1-*.whl" if kind == "wheel" else f"gen1-{version()}.tar.gz")
    place = release.room / kind.replace(" ", "_")
    found = python_with("ensurepip", "venv", "setuptools", "wheel")
    run(found, "-m", "venv", "--system-site-packages", place, cwd=release.room)
    words = ["--no-index", "--no-deps", "--no-build-isolation", "--no-cache-dir", "--disable-pip-version-check"]
    python = place / "bin" / "python"
    run(python, "-m", "pip", "install", "-q", *words, archive, cwd=place)
    assert run(python, "-c", "import gen1; print(gen1.__version__)", cwd=place) == f"{version()}\n"
    assert run(python, "-m", "gen1", "run", STORED, cwd=place) == LINES.read_text()


def test_server(release, monkeypatch):
    """The server of both wheels makes its database, and finds its page."""
    release.want("python")
    release.want("server")
    folder = release.room / "server"
    for wheel in release.out.glob("*.whl"):
        with zipfile.ZipFile(wheel) as archive:
            archive.extractall(folder)
    python = python_with("aiohttp", "alembic", "prometheus_client", "sqlalchemy")
    page = release.out / f"gen1-{version()}-online.html"
    assert page.stat().st_size < 600_000
    monkeypatch.setenv("GEN1_SERVER_DATABASE", str(folder / "new.db"))
    monkeypatch.setenv("GEN1_SERVER_PAGE", str(page))
    monkeypatch.setenv("PYTHONPATH", str(folder))
    run(python, "-m", "gen1_server", "migrate", cwd=folder)
    said = run(python, "-m", "gen1_server", "check", cwd=folder)
    assert said.startswith("the options are right") and said.endswith(f"page: {page}\n"), said


def test_npm(release):
    """The package, installed by npm without a network, plays the stored run."""
    release.want("npm")
    place = release.room / "npm"
    place.mkdir()
    words = ["--silent", "--offline", "--no-audit", "--no-fund", release.out / f"gen1-{version()}.tgz"]
    run("npm", "install", *words, cwd=place)
    shutil.copy(ROOT / "examples" / "javascript" / "two_tauros.mjs", place)
    assert run("node", "two_tauros.mjs", cwd=place) == LINES.read_text()


def test_page(release, program):
    """The page has no battle, and `gen1 replay` of the built program puts one into it."""
    release.want("page")
    page = release.out / f"gen1-{version()}.html"
    assert page.read_text().count(PLACEHOLDER) == 1
    assert page.stat().st_size < 600_000
    text = run(program, "replay", "--page", page, STORED, cwd=release.room)
    assert PLACEHOLDER not in text and '"Tauros"' in text


def test_site(release):
    """The site begins with its own page, and has the pages of every tool."""
    release.want("site")
    folder = release.unpacked(release.out / f"gen1-{version()}-site.tar.gz")
    pages = ("index", "START", "python/battles", "c/gen1_8h", "rust/gen1/index", "types")
    assert not [name for name in pages if not (folder / f"{name}.html").is_file()]


def test_links(release):
    """Each link of the documents has a target."""
    assert not list(lost_links(release.out.resolve()))


def test_proved(release):
    """PROVED.txt names this version and commit, the library of the C archive, and the text of its gen1_build."""
    text = (release.out / "PROVED.txt").read_text()
    wanted = [f"gen1 {version()}", "commit     ", "toolchain  "]
    if "c" not in release.left_out:
        library = release.c() / "lib" / "libgen1_c.a"
        wanted += [hashlib.sha256(library.read_bytes()).hexdigest(), build_of(library, release.room / "build_of")]
    assert not [words for words in wanted if words not in text]


def test_licenses(release):
    """LICENSES.txt lists what the C archive's own LICENSES.txt does."""
    own = (release.c() / "share" / "doc" / "gen1" / "LICENSES.txt").read_text()
    rows = [row for row in own.partition("\n---")[0].splitlines() if row.startswith("    ")]
    text = (release.out / "LICENSES.txt").read_text()
    assert rows
    assert not [row for row in rows if f"{row}\n" not in text]


def test_security(release):
    """SECURITY.md names each call of the header."""
    text = (release.out / "SECURITY.md").read_text()
    assert not [name for name in calls() if f"`{name}`" not in text]
