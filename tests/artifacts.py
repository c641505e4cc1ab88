"""Artifacts: the C library that tests use, a program by the battle of two Tauros, and the crate gen1 as it would be published."""

import os
import re
import shutil
import subprocess

import pytest
from c_library import PROVED, Missing, plain_archive, plain_library, ran, with_build
from repository import ROOT, version

INPUT = ROOT / "examples" / "tauros.txt"
LINES = ROOT / "crates" / "battle_tool" / "stdout"
# The first example of the crate's page.
EXAMPLE = re.compile(r"(?ms)^//! ```\n(.*?)^//! ```$")


def archive_of(config, folder, build=plain_archive):
    """libgen1_c.a with gen1_build: of --library, else the proved one, else the plain one, which `build` builds with rustc's core."""
    given = config.getoption("library") or (PROVED if PROVED.is_file() and not config.getoption("plain") else None)
    try:
        return with_build((given or plain_library(folder / "plain", build)).resolve(strict=True), folder / "with_build")
    except Missing as why:
        pytest.skip(str(why))


def plays(program, folder="/nowhere"):
    """What is wrong with the output of a program for this battle, or None; the shared library is in a folder."""
    environment = {**os.environ, "LD_LIBRARY_PATH": str(folder)}
    with open(INPUT) as given:
        done = subprocess.run([program], stdin=given, capture_output=True, text=True, env=environment)
    if done.returncode or done.stderr:
        return f"status {done.returncode}: {done.stderr}"
    return None if done.stdout == LINES.read_text() else f"it printed {done.stdout[:400]}"


def fault_of(crate, room):
    """What is wrong with a packed crate, or None: a new project that depends on it plays the battle of its page."""
    ran("tar", "-xf", crate.resolve(), cwd=room)
    project = room / "project"
    ran("cargo", "init", "-q", "--vcs", "none", "--name", "first", project)
    if (ROOT / ".cargo").is_dir():
        shutil.copytree(ROOT / ".cargo", project / ".cargo", dirs_exist_ok=True)
    ran("cargo", "add", "-q", "--offline", "--path", room / f"gen1-{version()}", cwd=project)
    program = re.sub(
        r"(?m)^//! ?(?:# )?", "", EXAMPLE.search((ROOT / "rust" / "gen1" / "src" / "lib.rs").read_text())[1]
    )
    (project / "src" / "main.rs").write_text(program if "fn main" in program else f"fn main() {{\n{program}}}\n")
    told = ran("cargo", "run", "-q", "--offline", cwd=project)
    return None if "|turn|1" in told and ("|win|" in told or "|tie" in told) else f"it printed {told[-300:]!r}"
