"""tools/install: its files, programs built with them, manual pages, and removing it."""

import os
import re
import shlex
import shutil
import subprocess
import sys

import pytest
from artifacts import plays
from c_library import (
    PROFILED,
    PROVED,
    Unbuilt,
    build_of,
    calls,
    kit_logic,
    needed,
    origin,
    ran,
    shown,
    version,
    with_build,
    write_record,
)
from licenses import licenses, not_permitted, of_library, permitted
from repository import ROOT

# The functions that the library may need of the C library; abort only where it is the plain one.
OF_THE_C_LIBRARY = {"memcpy", "memmove", "memset", "memcmp", "bcmp", "abort"}
STRICT = ["-O2", "-Wall", "-Wextra", "-pedantic", "-Werror"]
INSTALL = ROOT / "tools" / "install"


def installed(*words, library=None, **variables):
    """Runs tools/install with variables."""
    given = [f"{name}={value}" for name, value in variables.items()]
    return ran(INSTALL, *words, *(["--library", library] if library else []), *given)


class Installation:
    """An installation to test: its library, its folder, and a folder to work in."""

    def __init__(self, library, work):
        self.library, self.work, self.prefix = library, work, work / "prefix"
        self.lib = self.prefix / "lib"
        self.environment = {**os.environ, "PKG_CONFIG_PATH": str(self.lib / "pkgconfig")}

    def flags(self, *words):
        """What pkg-config prints of the library."""
        return shlex.split(ran("pkg-config", *words, "gen1", env=self.environment))

    def build(self, compiler, name, *words):
        """Builds a program by a compiler, plays the battle with it, and returns its path."""
        program = self.work / name
        ran(compiler, *STRICT, *words, "-o", program)
        assert plays(program, self.lib) is None
        return program


@pytest.fixture(scope="session")
def it(archive, room):
    """The library, installed twice in the same folder."""
    if not shutil.which("cc"):
        pytest.skip("there is no cc; `make setup` installs it")
    work = room / "install"
    work.mkdir()
    made = Installation(archive, work)
    for _ in range(2):
        installed(library=archive, PREFIX=made.prefix)
    return made


def test_files(it):
    """Exactly the expected files are installed."""
    found = sorted(str(path.relative_to(it.prefix)) for path in it.prefix.rglob("*") if not path.is_dir())
    want = [
        "include/gen1.h",
        "lib/libgen1.a",
        "lib/libgen1.so",
        "lib/libgen1.so.1",
        f"lib/libgen1.so.{'.'.join(version())}",
        "lib/libgen1_c.a",
        "lib/pkgconfig/gen1.pc",
        "lib/cmake/gen1/gen1Config.cmake",
        "lib/cmake/gen1/gen1ConfigVersion.cmake",
        "share/doc/gen1/LICENSE",
        "share/doc/gen1/LICENSES.txt",
        *(f"share/man/man3/{name}.3" for name in ["gen1", *calls()]),
    ]
    assert found == sorted(want)


def test_exported_names(it, needs):
    """The shared library exports exactly the documented names, and needs only the functions that are allowed."""
    needs("nm")
    assert shown(it.lib / "libgen1.so") == set(calls())
    assert needed(it.lib / "libgen1.so") <= OF_THE_C_LIBRARY


def test_soname(it, needs):
    needs("readelf")
    dynamic = ran("readelf", "-d", it.lib / "libgen1.so")
    assert re.search(r"\(SONAME\).*\[(.*)\]", dynamic)[1] == "libgen1.so.1"
    assert "(TEXTREL)" not in dynamic


def test_static_library(it):
    """It is the library that was given, which has gen1_build, to the byte."""
    assert (it.lib / "libgen1_c.a").read_bytes() == it.library.read_bytes()


def test_build_text(it, needs):
    """gen1_build returns one text in both libraries. It is added to a library that lacks it, and returns "unknown" there."""
    needs("objcopy")
    static = build_of(it.lib / "libgen1_c.a", it.work / "build_of")
    code = "import ctypes, sys; it = ctypes.CDLL(sys.argv[1]).gen1_build; it.restype = ctypes.c_char_p; print(it().decode())"
    assert static == ran(sys.executable, "-c", code, it.lib / "libgen1.so").strip()
    assert static.partition(",")[0] in ("proved", "plain", "unknown")
    ran("objcopy", "--strip-symbol", "gen1_build", it.library, it.work / "without.a")
    assert build_of(with_build(it.work / "without.a", it.work / "added"), it.work / "build_of") == "unknown"


@pytest.mark.parametrize(
    "name, how", [(PROVED.name, "proved"), (PROFILED.name, "proved, with a profile")], ids=["proved", "profiled"]
)
def test_origin(name, how, tmp_path):
    """A library is proved only if it is, byte for byte, one of tools/library, whose record says what it was built from."""
    given, proved = tmp_path / "given.a", tmp_path / "proved" / name
    proved.parent.mkdir()
    given.write_bytes(b"a library")
    found = [origin(given, proved.parent)]
    shutil.copyfile(given, proved)
    found.append(origin(given, proved.parent))
    write_record("1234", proved)
    found.append(origin(given, proved.parent))
    given.write_bytes(b"another")
    found.append(origin(given, proved.parent))
    shutil.copyfile(given, proved)
    found.append(origin(given, proved.parent))
    unrecorded = f"{how}, logic unknown, sources sha256 unknown"
    assert found == [
        "unknown",
        unrecorded,
        f"{how}, logic {kit_logic()}, sources sha256 1234",
        "unknown",
        unrecorded,
    ]


def test_licenses(it, needs):
    """LICENSES.txt is that of the library, and each crate that an artifact links has a license that is permitted."""
    needs("cargo")
    of_this = licenses(of_library(build_of(it.lib / "libgen1_c.a", it.work / "build_of")))
    assert not list(not_permitted())
    assert (it.prefix / "share" / "doc" / "gen1" / "LICENSES.txt").read_text() == of_this


def test_license_expressions():
    """License expressions: those that leave a permitted choice, and others."""
    good = (
        "MIT",
        "Unlicense/MIT",
        "GPL-3.0 OR MIT",
        "(MIT OR Apache-2.0) AND Unicode-DFS-2016",
        "Apache-2.0 WITH LLVM-exception OR MIT",
    )
    bad = ("GPL-3.0", "MIT AND GPL-3.0", "(MIT OR Apache-2.0) AND MPL-2.0", "none", "")
    assert [name for name in (*good, *bad) if permitted(name)] == [*good]


def test_prefix_with_a_blank(it, needs):
    """pkg-config quotes a PREFIX with a blank."""
    needs("pkg-config")
    prefix = it.work / "with blank"
    installed(library=it.library, PREFIX=prefix)
    environment = {**os.environ, "PKG_CONFIG_PATH": f"{prefix}/lib/pkgconfig", "PROGRAM": str(prefix / "play")}
    build = r'eval "cc examples/c/play.c $(pkg-config --cflags --libs gen1) -o \"\$PROGRAM\""'
    ran("sh", "-c", build, env=environment)
    assert plays(prefix / "play", prefix / "lib") is None


def test_shared_by_pkg_config(it, needs):
    needs("pkg-config")
    program = it.build("cc", "by_pkg_config", "examples/c/play.c", *it.flags("--cflags", "--libs"))
    assert "[libgen1.so.1]" in ran("readelf", "-d", program)


def test_static_by_pkg_config(it, needs):
    needs("pkg-config")
    words = ["-static", "examples/c/play.c", *it.flags("--static", "--cflags", "--libs")]
    assert plays(it.build("cc", "by_pkg_config_static", *words)) is None


@pytest.mark.parametrize("compiler", ["g++", "clang++"])
def test_cpp17(compiler, it, needs):
    needs("pkg-config", compiler)
    it.build(compiler, f"lines_{compiler}", "-std=c++17", "tests/c/lines.cpp", *it.flags("--cflags", "--libs"))


def test_examples_as_their_readmes_say(it, needs):
    """Each example is built by its line of examples/README.md, in its folder, with the installed library."""
    needs("pkg-config")
    folder = it.work / "examples_c"
    shutil.copytree(ROOT / "examples" / "c", folder)
    built = 0
    of_c = (ROOT / "examples" / "README.md").read_text().partition("\n## C\n")[2].partition("\n## ")[0]
    for section in re.split(r"(?m)^### ", of_c)[1:]:
        for line in re.findall(r"(?m)^    (cc .*)$", section):
            ran("sh", "-c", line, cwd=folder / section.split(":")[0], env=it.environment)
            built += 1
    assert built >= 5


def test_version_by_pkg_config(it, needs):
    """pkg-config prints the version of the header."""
    needs("pkg-config")
    assert it.flags("--modversion") == [".".join(version())]


def test_cmake(it, needs):
    """Programs with both targets, and one in C++17."""
    needs("cmake", "c++")
    build = it.work / "cmake"
    ran("cmake", "-S", "tests/c/find_package", "-B", build, f"-DCMAKE_PREFIX_PATH={it.prefix}")
    ran("cmake", "--build", build)
    for name in ("shared", "static", "lines"):
        assert plays(build / name) is None, name


def test_cmake_refuses_another_version(it, needs):
    """A project that wants another major version is refused with a message."""
    needs("cmake", "c++")
    words = ["cmake", "-S", "tests/c/find_package", "-B", it.work / "cmake_other", f"-DCMAKE_PREFIX_PATH={it.prefix}"]
    with pytest.raises(Unbuilt) as fault:
        ran(*words, "-DWANTED=2.0")
    assert f"gen1Config.cmake, version: {'.'.join(version())}" in str(fault.value)


def test_manual(it, needs):
    """The manual pages give no warning, and name every call."""
    needs("man")
    man = it.prefix / "share" / "man"
    done = subprocess.run(
        ["man", "--warnings", "-E", "ascii", "-l", man / "man3" / "gen1.3"],
        capture_output=True,
        text=True,
        env={**os.environ, "MANWIDTH": "100", "MANPAGER": "cat"},
    )
    assert not done.stderr
    assert not [name for name in calls() if f"{name}(" not in done.stdout]
    assert ran("man", "-M", man, "-w", "3", calls()[0]).strip().endswith(".3")


def test_doxygen(needs):
    """Doxygen makes pages of the header without a warning."""
    needs("doxygen")
    ran("doxygen", "packaging/Doxyfile")
    assert (ROOT / "out" / "doxygen" / "index.html").is_file()


def test_destdir(it):
    """Files below DESTDIR name PREFIX and not DESTDIR; other folders work too."""
    to = it.work / "staged"
    given = {"PREFIX": "/opt/gen1", "LIBDIR": "/opt/gen1/lib/x86_64-linux-gnu", "DESTDIR": to}
    installed(library=it.library, **given)
    files = [path for path in to.rglob("*") if path.is_file() and not path.is_symlink()]
    assert not [path for path in files if str(to).encode() in path.read_bytes()]
    config = (to / "opt/gen1/lib/x86_64-linux-gnu/pkgconfig/gen1.pc").read_text()
    assert "libdir=/opt/gen1/lib/x86_64-linux-gnu\n" in config
    installed("--uninstall", **given)
    assert not [path for path in to.rglob("*") if not path.is_dir()]


def test_relative_file(it):
    """A relative FILE is relative to the current folder, and arguments come in any order."""
    to = it.work / "anywhere"
    words = ["PREFIX=/opt/gen1", "--library", it.library.name, f"DESTDIR={to}"]
    ran(INSTALL, *words, cwd=it.library.parent)
    assert (to / "opt/gen1/lib/libgen1.so").is_file()


def test_older_libraries_are_removed(tmp_path):
    """Shared libraries of other versions with the same major number are removed too, and no other file."""
    folder, major = tmp_path / "lib", version()[0]
    folder.mkdir()
    others = {
        f"libgen1.so.{int(major) + 1}.0.0",
        f"libgen1.so.{major}.0.0.kept",
        f"libgen1.so.{major}x0x0",
        f"libgen10.so.{major}.0.0",
    }
    for name in (f"libgen1.so.{major}.0.250", f"libgen1.so.{major}.250.0", *others):
        (folder / name).touch()
    installed("--uninstall", PREFIX=tmp_path)
    assert {path.name for path in folder.iterdir()} == others


@pytest.mark.parametrize(
    "words, status, said",
    [([], 1, "tools/install --plain"), (["--wasm64"], 1, "tools/install --plain"), (["--other"], 2, "--other")],
    ids=["library", "module", "wrong option"],
)
def test_library_without_the_kit(words, status, said, tmp_path):
    """Without the kit tools/library prints one line that names a command that needs none."""
    command = [sys.executable, ROOT / "tools" / "library", *words]
    done = subprocess.run(command, capture_output=True, text=True, env={"PATH": str(tmp_path)})
    assert (done.returncode, len(done.stderr.splitlines()), done.stdout) == (status, 1, ""), done.stderr
    assert said in done.stderr


def test_help_of_library():
    assert "tools/library --wasm64" in ran(sys.executable, ROOT / "tools" / "library", "--help")


@pytest.mark.parametrize(
    "words",
    [["PREFIX=here"], ["PREFX=/tmp"], ["--library", "/nowhere.a", "PREFIX={}/not"], ["--uninstall", "--plain"]],
    ids=["relative prefix", "unknown variable", "no library", "uninstall and plain"],
)
def test_wrong_arguments(words, tmp_path):
    """Wrong arguments are refused, and nothing is installed."""
    done = subprocess.run([INSTALL, *(word.format(tmp_path) for word in words)], capture_output=True, text=True)
    assert done.returncode != 0
    assert "tools/install" in done.stderr or "install: error" in done.stderr
    assert not (tmp_path / "not").exists()


def test_removal(archive, tmp_path):
    """--uninstall removes everything that was installed twice."""
    for words in ((), (), ("--uninstall",)):
        installed(*words, library=None if words else archive, PREFIX=tmp_path)
    assert not [path for path in tmp_path.rglob("*") if not path.is_dir()]
    assert not (tmp_path / "lib" / "cmake" / "gen1").exists()
    assert not (tmp_path / "share" / "doc" / "gen1").exists()
