"""The crates of the repository, what they depend on, and their edits; and helpers that several tools use."""

import os
import re
import subprocess
import sys
import tempfile
from argparse import ArgumentTypeError
from pathlib import Path
from typing import NamedTuple

ROOT = Path(__file__).resolve().parent.parent


def version():
    """The version of the repository, from the file VERSION."""
    return (ROOT / "VERSION").read_text().strip()


def crates():
    """Each crate of crates.txt with the crates of the repository that it depends on, lowest first."""
    lines = [line.partition("#")[0].strip() for line in (ROOT / "crates.txt").read_text().splitlines()]
    named = {name.split()[0]: used.split() for name, _, used in (line.partition(":") for line in lines if line)}
    used = {name: [it for it in them if it in named] for name, them in named.items()}
    ordered = {}

    def place(name):
        if name not in ordered:
            for below in used[name]:
                place(below)
            ordered[name] = used[name]

    for name in used:
        place(name)
    return ordered


def below(names, all_crates):
    """These crates and those that they depend on, lowest first."""
    wanted = set(names)
    for name in reversed(all_crates):
        if name in wanted:
            wanted.update(all_crates[name])
    return [name for name in all_crates if name in wanted]


def above(names, all_crates):
    """These crates and those that depend on them, lowest first."""
    wanted = set(names)
    for name, used in all_crates.items():
        if wanted.intersection(used):
            wanted.add(name)
    return [name for name in all_crates if name in wanted]


def is_program(name, root=ROOT):
    return (root / "crates" / name / "src" / "main.rt").is_file()


def has_tests(name):
    files = (ROOT / "crates" / name / "src").rglob("*.rt")
    return any(re.search(r"#\[test\]", file.read_text()) for file in files)


class Edit(NamedTuple):
    """A change of a crate that the check must refuse: its name, the file that has it, and its lines file, old and new."""

    name: str
    place: Path
    text: str

    def __str__(self):
        return f"{self.place.relative_to(ROOT)}: {self.name}"


def edits(name, folder="must-fail"):
    """The edits of a crate by name: those that every gate tries, or with `planted` those of its planted.edits."""
    if folder == "must-fail":
        files = sorted((ROOT / "crates" / name / "must-fail").glob("*.edit"))
        return [Edit(file.stem, file, file.read_text()) for file in files]
    file = ROOT / "crates" / name / "planted.edits"
    if not file.is_file():
        return []
    before, *parts = re.split(r"(?m)^\[([\w-]+)\]\n", file.read_text())
    names, texts = parts[::2], parts[1::2]
    if before or len(set(names)) < len(names):
        sys.exit(f"{file.relative_to(ROOT)}: its first line is not a [name], or a name is there twice")
    return [Edit(name, file, text.rstrip("\n") + "\n") for name, text in zip(names, texts)]


def processors():
    return len(os.sched_getaffinity(0))


def program(path):
    """The whole path of a program that a command line names, for argparse."""
    if not (os.path.isfile(path) and os.access(path, os.X_OK)):
        raise ArgumentTypeError(f"{path} is not a program")
    return Path(path).resolve()


def existing_file(path):
    """The whole path of a file that a command line names, for argparse."""
    if not os.path.isfile(path):
        raise ArgumentTypeError(f"{path} is not a file")
    return Path(path).resolve()


def existing_archive(path):
    """The whole path of a static library that a command line names, for argparse."""
    whole = existing_file(path)
    with open(whole, "rb") as file:
        if file.read(8) != b"!<arch>\n":
            raise ArgumentTypeError(f"{path} is not a static library")
    return whole


def existing_folder(path):
    """The whole path of a folder that a command line names, for argparse."""
    if not os.path.isdir(path):
        raise ArgumentTypeError(f"{path} is not a folder")
    return Path(path).resolve()


def work_folder(path):
    """The whole path of a folder to work in that a command line names, for argparse; it may not exist yet."""
    if os.path.exists(path) and not os.path.isdir(path):
        raise ArgumentTypeError(f"{path} is not a folder")
    return Path(path).resolve()


def run(words, folder):
    """Runs a command in a folder; returns its status and what it printed."""
    with tempfile.TemporaryFile("w+", errors="replace") as said:
        status = subprocess.run(
            words, cwd=folder, stdin=subprocess.DEVNULL, stdout=said, stderr=subprocess.STDOUT
        ).returncode
        said.seek(0)
        return status, said.read()


def edited(crate, edit):
    """The texts of the files that an edit changes in a crate's folder, before and after it; None where it cannot be applied."""
    before, after, file, old = {}, {}, None, ""
    for line in edit.text.split("\n"):
        key, _, text = line.partition(":")
        text = text.removeprefix(" ")
        if key == "file":
            file = crate / text.strip()
            if not file.is_file():
                return None
            before.setdefault(file, file.read_text())
            after.setdefault(file, before[file])
        elif key == "old":
            old = text
        elif key == "new":
            if not old or file is None or after[file].count(old) != 1:
                return None
            after[file] = after[file].replace(old, text)
    return (before, after) if before != after else None


def indented(file):
    """The entries of a text: a line at the edge, and the words of the lines indented below it. Lines with # are comments."""
    found, name = {}, None
    for line in file.read_text(encoding="utf-8").splitlines():
        if not line.strip() or line.startswith("#"):
            continue
        if line[0] != " ":
            name = line.strip()
            found[name] = ""
        else:
            found[name] = f"{found[name]} {line.strip()}".strip()
    return found


def clock(seconds):
    """Seconds as minutes and seconds."""
    return f"{int(seconds) // 60}:{int(seconds) % 60:02d}"


def named_bodies():
    """The edits, as CRATE/NAME, of each named wrong body (tests/named_bodies.txt)."""
    return {body: places.split() for body, places in indented(ROOT / "tests" / "named_bodies.txt").items()}
