"""docs/COOKBOOK.md: each block of code is run, and prints the text that follows it.

The blocks before the first question are beginnings: each block of a question runs after that of its language.
"""

import os
import re
import shutil
import subprocess
from importlib.machinery import SourceFileLoader
from importlib.util import module_from_spec, spec_from_loader
from typing import NamedTuple

import pytest
from cargo import built
from conftest import ROOT

from c_library import PROVED, Missing, plain_library, ran

PAGE = ROOT / "docs" / "COOKBOOK.md"
FENCE = re.compile(r"(?ms)^```(\w+)\n(.*?)^```$")
TARGET = ROOT / "target" / "cookbook"
LANGUAGES = ("rust", "c", "python", "js", "sh")
RUST = """#![allow(unused)]
type Done = Result<(), Box<dyn std::error::Error>>;
{functions}
fn main() -> Done {{
    [{names}][std::env::args().nth(1).unwrap().parse::<usize>().unwrap()]()
}}
"""
MANIFEST = """[package]
name = "cookbook"
edition = "2024"
[dependencies]
gen1 = {{ path = "{path}" }}
[workspace]
"""
C = "#include <gen1.h>\n#include <stdio.h>\n#include <string.h>\nint main(void)\n{{\n{code}\n}}\n"


class Block(NamedTuple):
    """A block of a question: the code with its beginning, and the text that it prints."""

    question: str
    code: str
    due: str


def blocks(language):
    """The blocks of a language, in the order of the page."""
    top, *questions = re.split(r"(?m)^## ", PAGE.read_text())
    begin, found = dict(FENCE.findall(top))[language], []
    for question in questions:
        parts = FENCE.findall(question)
        for at, (kind, code) in enumerate(parts):
            if kind == language:
                due = next(text for it, text in parts[at:] if it == "text")
                found.append(Block(question.partition("\n")[0], begin + code, due))
    return found


def printed(words, **more):
    """What a program prints."""
    done = subprocess.run(
        [str(it) for it in words], stdout=subprocess.PIPE, stderr=subprocess.STDOUT, text=True, **more
    )
    return done.stdout


def compare(language, run, compared):
    """Runs each block of a language by its place and its code, and compares its output. `...` is any text."""
    found, faults = blocks(language), []
    for at, block in enumerate(found):
        said, due = run(at, block.code), ".*".join(map(re.escape, block.due.rstrip("\n").split("...")))
        if not re.fullmatch(f"{due}\n", said, re.S):
            faults.append(f"{block.question}\n{block.code}\nprints\n{said}\ninstead of\n{block.due}")
    assert not faults, "\n\n".join(faults)
    compared(len(found))


@pytest.fixture(scope="module")
def archive(pytestconfig):
    """The C library: the given one, the proved one, or else the plain one."""
    if given := pytestconfig.getoption("library"):
        return given
    if PROVED.is_file() and not pytestconfig.getoption("plain"):
        return PROVED
    return plain_library(TARGET / "library")


def test_every_question_has_each_language_or_says_why_not():
    named = {"rust": "Rust", "c": "C", "python": "Python", "js": "JavaScript", "sh": "command line"}
    for question in re.split(r"(?m)^## ", PAGE.read_text())[1:]:
        for language, name in named.items():
            words = FENCE.sub("", question)
            has_block = f"```{language}\n" in question
            assert has_block or re.search(rf"\b{name}\b|any language", words), f"{question.splitlines()[0]}: {name}"


def test_rust(tmp_path, needs, compared):
    needs("cargo")
    found = blocks("rust")
    functions = [f"fn recipe_{at}() -> Done {{\n{block.code}\nOk(())\n}}\n" for at, block in enumerate(found)]
    names = ", ".join(["recipe_0 as fn() -> Done", *(f"recipe_{at}" for at in range(1, len(found)))])
    (tmp_path / "src").mkdir()
    (tmp_path / "src" / "main.rs").write_text(RUST.format(functions="".join(functions), names=names))
    (tmp_path / "Cargo.toml").write_text(MANIFEST.format(path=ROOT / "rust" / "gen1"))
    if (ROOT / ".cargo").is_dir():
        shutil.copytree(ROOT / ".cargo", tmp_path / ".cargo")
    ran("cargo", "build", "-q", "--target-dir", TARGET / "rust", cwd=tmp_path)
    compare("rust", lambda at, code: printed([TARGET / "rust" / "debug" / "cookbook", at]), compared)


def test_c(tmp_path, needs, archive, compared):
    needs("cc")

    def run(at, code):
        (tmp_path / "recipe.c").write_text(C.format(code=code))
        words = ("-std=c99", "-Wall", "-Werror", "-Wno-unused", f"-I{ROOT / 'include'}", "-o", tmp_path / "recipe")
        ran("cc", *words, tmp_path / "recipe.c", archive)
        return printed([tmp_path / "recipe"])

    compare("c", run, compared)


@pytest.fixture(scope="module")
def program():
    """The environment in which `gen1` is on the path."""
    if not shutil.which("cargo"):
        pytest.skip("there is no cargo; `make setup` installs it")
    return {**os.environ, "PATH": f"{built('gen1-cli', release=False)}:{os.environ['PATH']}"}


def test_python(tmp_path, needs, archive, program, compared):
    needs("cc")
    loader = SourceFileLoader("python_wheel", str(ROOT / "tools" / "python_wheel"))
    wheels = module_from_spec(spec_from_loader("python_wheel", loader))
    loader.exec_module(wheels)
    if not (python := wheels.interpreter("numpy")):
        pytest.skip("no Python has numpy; `make setup` installs it")
    wheels.shared_library(archive, tmp_path / "libgen1.so")
    package = ROOT / "python" / "gen1" / "src"
    environment = {**program, "GEN1_LIBRARY": str(tmp_path / "libgen1.so"), "PYTHONPATH": str(package)}
    compare("python", lambda at, code: printed([python, "-B", "-c", code], env=environment), compared)


def test_javascript(tmp_path, needs, compared):
    needs("node", "cargo")
    try:
        ran(ROOT / "tools" / "plain_wasm", TARGET / "js")
    except Missing as why:
        pytest.skip(str(why))
    (tmp_path / "node_modules").mkdir()
    (tmp_path / "node_modules" / "gen1").symlink_to(TARGET / "js")

    def run(at, code):
        (tmp_path / f"{at}.mjs").write_text(code)
        return printed(["node", tmp_path / f"{at}.mjs"])

    compare("js", run, compared)


def test_command_line(tmp_path, program, compared):
    compare("sh", lambda at, code: printed(["sh", "-c", code], cwd=tmp_path, env=program), compared)
