"""Follows the doors of docs/START.md as they are written, and runs the commands that other documents leave to it.

    pytest tests/test_start.py -k rust               one door
    pytest tests/test_start.py --basetemp FOLDER     keeps what was built, in a new folder

A door is a section of docs/START.md with a block of commands. Its blocks are taken in order, in an empty folder. A block under a comment
`file: NAME` is written to that file. Each line of a block in `sh` is run by bash, in the folder where the last one ended. REPOSITORY is a
fresh repository with the files of this one. The commands under `prints the battle` must print the block under `prints` at the start of the
document, to the byte. Under `shows: FILE, after a press of WORDS` are lines that Chromium must show on a page. Before that a door has at most
ten lines, commands and files together.

The door `documents` is the blocks of the other documents that say `run: start`. They are run in a clone. A block under `prints` further
down must be what the last of them printed, and one under `prints in the end` its end.

Doors with the same first block share a folder, where that block is run once; others run side by side. What cargo compiles for a folder of
a clone's target/ is kept in that folder of target/ here. The files of a clone get the times of those that it was made of, so cargo compiles
only what was not compiled of the same sources before. tools/setup installs what a door lacks. Commands, comparisons and counts of lines are
counted.
"""

import os
import re
import shutil
import subprocess
import sys
import time
from concurrent.futures import ThreadPoolExecutor
from functools import cache
from pathlib import Path
from typing import NamedTuple

import pytest
from documents import Block, blocks, documents
from repository import ROOT

sys.path.insert(0, str(ROOT / "web"))
START = ROOT / "docs" / "START.md"
# The parts of tools/setup that a door needs.
NEEDS = {
    "command_line": ["plain"],
    "rust": ["plain"],
    "c": ["plain"],
    "python": ["plain", "wheel"],
    "browser": ["page_file", "wasm"],
    "documents": ["plain"],
}
MOST_LINES = 10
# The cargo of the doors, which keeps what it compiles for target/, or a folder of it, in TARGET.
KEEPING = """#!/bin/sh
folder= before=
for word; do
    [ "$before" != --target-dir ] || folder=${word##*/target}
    before=$word
done
CARGO_BUILD_BUILD_DIR='TARGET'$folder exec 'CARGO' "$@"
"""
# In the gate a door gets the processors that the proofs leave.
SECONDS = 5400
PRINTS = ("prints", "prints in the end")
SHOWS = re.compile(r"shows: (\S+), after a press of (.+)")


class Failed(Exception):
    """A document is wrong, in this."""


class Door(NamedTuple):
    """A door, or the commands of other documents."""

    name: str
    blocks: list[Block]
    folder: str  # of the room, where each block begins; empty where a block goes on where the last one ended

    @property
    def first(self):
        """Doors with the same text share a room."""
        return self.blocks[0].text if not self.folder else ""


def doors():
    """The doors of docs/START.md by their names, and that of the other documents; and what `the battle` prints."""
    of_start = blocks(START)
    battle = next(block.text for block in of_start if block.said == "prints")
    found = {}
    for block in of_start:
        if block.said != "prints":
            name = block.heading.lower().replace(" ", "_")
            found.setdefault(name, Door(name, [], "")).blocks.append(block)
    return {**found, "documents": Door("documents", of_documents(), "gen1")}, battle


def of_documents():
    """The blocks that say `run: start`, each with the later one that says what it prints."""
    found = []
    for document in documents():
        runs = False
        for block in blocks(document) if document != START else ():
            if block.said == "run: start" or runs and block.said in PRINTS:
                found.append(block._replace(heading=str(document.relative_to(ROOT))))
            runs = runs or block.said == "run: start"
    return found


DOORS, BATTLE = doors()


class Visit:
    """One door being followed: the folder of the next command, what the last ones printed, and how many checks have passed."""

    def __init__(self, door, room, begun):
        self.door, self.room, self.begun = door, room, begun
        self.at, self.printed = room, None
        self.passed, self.left_out = 0, []

    def fault(self):
        """Why the door cannot be followed; empty where it can."""
        try:
            self.go()
        except Failed as why:
            return str(why)
        except Exception as why:  # The other doors are still followed.
            return f"{type(why).__name__}: {why}"
        return ""

    def tell(self, text):
        """Counts a check, and prints it."""
        self.passed += 1
        print(f"{self.door.name:12} {text}", flush=True)

    def go(self):
        if not self.door.folder:
            self.count_lines()
        for block in self.door.blocks:
            if self.door.folder:
                self.at = self.clone()
            self.take(block)

    def clone(self):
        """The clone for the commands of the documents, made where no door of this room has made it."""
        folder = self.room / self.door.folder
        if not folder.exists():
            self.command("git clone REPOSITORY gen1")
        return folder

    def count_lines(self):
        """A door has ten lines at most, commands and files, up to the first battle."""
        count = 0
        for block in self.door.blocks:
            count += (
                len([line for line in block.text.splitlines() if line.strip()])
                if not SHOWS.fullmatch(block.said)
                else 0
            )
            if block.said.startswith(("prints", "shows")):
                break
        if count > MOST_LINES:
            raise Failed(f"it has {count} lines, more than {MOST_LINES}")
        self.tell(f"{count} lines to a battle")

    def take(self, block):
        if block.is_commands:
            self.commands(block)
        elif block.said.startswith("file: "):
            path = self.room / block.said.removeprefix("file: ")
            path.parent.mkdir(parents=True, exist_ok=True)
            path.write_text(block.text)
        elif block.said in PRINTS:
            self.compare(block, block.text, is_end=block.said == "prints in the end")
        elif found := SHOWS.fullmatch(block.said):
            self.look(found[1], found[2], block.text.splitlines())
        else:
            raise Failed(f"line {block.line}: no comment says what the block is")

    def commands(self, block):
        """Runs the lines of a block, unless a door of this room has run the same first block."""
        is_first = block is self.door.blocks[0] and not self.door.folder
        if is_first and block.text in self.begun:
            return
        self.printed = "".join(self.command(line) for line in block.text.splitlines() if line.strip())
        self.begun.update([block.text] if is_first else [])
        if block.said == "prints the battle":
            self.compare(block, BATTLE)

    def command(self, line):
        """What a line prints; it may change the folder of the next one."""
        left = self.room / ".folder"
        words = (
            f'{line.replace("REPOSITORY", str(self.room.parent / "repository"))}\nstatus=$?; pwd > {left}; exit $status'
        )
        since = time.monotonic()
        try:
            done = subprocess.run(
                ["bash", "-o", "pipefail", "-c", words],
                cwd=self.at,
                env=environment() | {"PATH": f"{self.room.parent / 'bin'}:{os.environ['PATH']}"},
                capture_output=True,
                text=True,
                errors="replace",
                stdin=subprocess.DEVNULL,
                timeout=SECONDS,
            )
        except subprocess.TimeoutExpired:
            raise Failed(f"{line}: it did not end within {SECONDS} s") from None
        if done.returncode:
            tail = "\n".join((done.stdout + done.stderr).strip().splitlines()[-20:])
            raise Failed(f"{line}: status {done.returncode}\n{tail}")
        self.at = Path(left.read_text().strip())
        if line.startswith("git clone"):
            give_times(self.room.parent / "repository", self.room / "gen1")
        self.tell(f"{line.partition('  #')[0].strip()} ({time.monotonic() - since:.1f} s)")
        return done.stdout

    def compare(self, block, wanted, is_end=False):
        if not (self.printed == wanted or is_end and self.printed.endswith("\n" + wanted)):
            raise Failed(f"{block.heading}, line {block.line}: printed was\n{self.printed}and not\n{wanted}")
        self.tell(f"{len(wanted.splitlines())} lines printed as they are written")

    def look(self, page, button, lines):
        """Opens a page in Chromium, presses a button by its words, and looks for lines."""
        set_up("page")
        try:
            from checks.browser import Browser
        except ImportError:
            return self.left_out.append("the look at the page: there is no Selenium")
        if not (shutil.which("chromium") and shutil.which("chromedriver")):
            return self.left_out.append("the look at the page: there is no Chromium")
        browser = Browser(self.room / page, self.room)
        try:
            browser.open()
            browser.driver.find_element("xpath", f'//button[normalize-space()="{button}"]').click()
            try:
                browser.wait(f"return document.body.innerText.includes({lines[-1]!r})")
            except AssertionError as fault:
                raise Failed(str(fault)) from fault
            shown = browser.run("return document.body.innerText").splitlines()
        finally:
            browser.close()
        if not contains(shown, lines):
            raise Failed("the page shows\n" + "\n".join(shown))
        return self.tell(f"{len(lines)} lines shown as they are written")


def contains(shown, lines):
    """Whether lines are consecutive among those that are shown."""
    return any(shown[at : at + len(lines)] == lines for at in range(len(shown)))


def environment():
    """The environment, without variables that would change what commands build or print."""
    taken = ("GEN1_LIBRARY", "PYTHONPATH", "CARGO_TARGET_DIR", "VIRTUAL_ENV", "GIT_DIR", "GIT_WORK_TREE")
    of_make = ("MAKEFLAGS", "MAKELEVEL", "MFLAGS")
    return {key: value for key, value in os.environ.items() if key not in taken + of_make}


def write_cargo(to):
    """Writes the cargo of the doors, where there is one."""
    to.mkdir()
    if cargo := shutil.which("cargo"):
        (to / "cargo").write_text(KEEPING.replace("TARGET", str(ROOT / "target")).replace("CARGO'", f"{cargo}'"))
        (to / "cargo").chmod(0o755)


def give_times(of, to):
    """Gives the files of a clone the times of the files that it was made of."""
    for path in of.rglob("*"):
        if path.is_file() and (copy := to / path.relative_to(of)).is_file():
            shutil.copystat(path, copy)


@cache
def set_up(part):
    """What is still missing for a part after tools/setup; empty where nothing is."""
    done = subprocess.run([ROOT / "tools" / "setup", part], capture_output=True, text=True)
    last = (done.stdout.strip().splitlines() or [""])[-1]
    return last.partition("still missing: ")[2] or f"what tools/setup {part} brings" if done.returncode else ""


def lacks(door):
    """What a door needs and is missing."""
    found = next(filter(None, map(set_up, NEEDS[door.name])), "")
    return found or next((tool for tool in ("git", "bash", "make") if not shutil.which(tool)), "")


def copy_to(to):
    """Makes a fresh repository with the files of this one, to be cloned; without git, only the files."""
    words = ["git", "ls-files", "--cached", "--others", "--exclude-standard", "-z"]
    listed = subprocess.run(words, cwd=ROOT, capture_output=True, text=True)
    names = (
        listed.stdout.split("\0")[:-1]
        if listed.returncode == 0
        else [
            str(path.relative_to(ROOT))
            for path in ROOT.rglob("*")
            if not {"out", ".git", "__pycache__"} & set(path.relative_to(ROOT).parts)
        ]
    )
    shutil.rmtree(to, ignore_errors=True)
    for name in names:
        if (ROOT / name).is_file():
            (to / name).parent.mkdir(parents=True, exist_ok=True)
            shutil.copy2(ROOT / name, to / name)
    who = ["-c", "user.name=start", "-c", "user.email=start@localhost", "-c", "commit.gpgsign=false"]
    for words in (["init", "-q"], ["add", "-A", "-f"], [*who, "commit", "-q", "-m", "As it stands"]):
        subprocess.run(
            ["git", *words], cwd=to, check=True, env=environment(), stdout=subprocess.DEVNULL, stderr=subprocess.DEVNULL
        )


def groups(chosen):
    """The doors that share a room; the documents join the first of them, whose first block is a clone with the plain sources."""
    found = {}
    for door in chosen:
        key = door.first or next(iter(found), "")
        found.setdefault(key, []).append(door)
    return list(found.values())


def follow(room, group):
    """Follows doors that share a room, one after the other; each with its visit and its fault."""
    room.mkdir()
    visits, begun = {}, set()
    for door in group:
        visit = Visit(door, room, begun)
        visits[door.name] = visit, visit.fault()
    return visits


@pytest.fixture(scope="session")
def visits(request, tmp_path_factory):
    """The visits of the doors that are asked for, by name, while they are being followed side by side."""
    asked = [item.callspec.params["name"] for item in request.session.items if "visits" in item.fixturenames]
    room = tmp_path_factory.mktemp("start", numbered=False)
    copy_to(room / "repository")
    write_cargo(room / "bin")
    with ThreadPoolExecutor() as pool:
        found = {}
        for number, group in enumerate(groups([DOORS[name] for name in asked if not lacks(DOORS[name])])):
            found |= dict.fromkeys([door.name for door in group], pool.submit(follow, room / str(number), group))
        yield found


@pytest.mark.parametrize("name", DOORS)
def test_door(name, visits, compared, left_out):
    if why := lacks(DOORS[name]):
        pytest.skip(f"it lacks {why}")
    visit, fault = visits[name].result()[name]
    for reason in visit.left_out:
        left_out(reason)
    compared(visit.passed + bool(fault), [fault] if fault else [])
