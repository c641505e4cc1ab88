"""Checks the links, names and commands of the documents, and the headings that comments of code cite.

A link has to lead to a file or folder of this repository, and one with `#anchor` to a heading of that document. A reference
such as [LAYOUT.md](LAYOUT.md), "Loading", or LAYOUT, "Loading", has to name a heading. So has one in a comment of code, such as
docs/LAYOUT.md, "Loading". Blocks of code in documents and links to the web are skipped.

Names are those between backquotes. A path from the top, or from the document's folder, such as `tools/rules` or
`crates/*/specs`, has to exist, and so have the options of a tool. A file of code that is named without its folder, such as
`Words.antt`, has to be a file of the repository. A name that begins with gen1_ has to be a crate, or a word of include/gen1.h,
of rust/, of a package of Python or of a file's name. Names that represent any name (CRATE, NAME), what is built (out/), and files that the document
tells its reader to write (a comment `file: NAME`) are skipped.

A name in the table of docs/DOORS.md has to be public in its language, and a dash has to lead to its reason.

The line right above a block of commands is one of

    <!-- run: start -->              tests/test_start.py runs it as it is
    <!-- run: PART. HOW -->          another part of .ci/run runs it, and how, where it doesn't run it as it is
    <!-- not run: WHY -->

In docs/START.md the blocks of a door need none: tests/test_start.py runs them all. Commands in any other fence are an error.
"""

import os
import re
from functools import cache

from documents import blocks, code, documents, headings, links, text
from repository import ROOT

START = ROOT / "docs" / "START.md"
DOORS = ROOT / "docs" / "DOORS.md"
# The files whose comments may cite a document.
SOURCES = (
    "crates/*/src/**/*.rt",
    "crates/*/specs/*.antt",
    "crates/*/proofs/**/*.antt",
    "tools/*",
    "include/*.h",
    "bench/*",
    "examples/**/*",
    "tests/*.py",
    "tests/c/**/*",
    "packaging/*",
    "rust/gen1/src/*",
    "rust/gen1/src/*/*",
    "rust/gen1-cli/**/*",
    "rust/gen1-showdown/**/*",
    "js/*",
    "rust/gen1-ffi/src/*",
    "fuzz/src/*",
    "fuzz/run",
    ".ci/run",
)
# The end of a line within a comment of any language, and a document with headings of it in quotes.
BREAK = re.compile(r"\n\s*(?:\*|//[/!]?|--|#)? ?")
CITED = re.compile(r'(?<![\w/-])((?:[\w-]+/)*[A-Z_]+\.md)((?:,(?: and| to)? "[^"{]+"(?: (?:and|to) "[^"{]+")*)+)')
# A document, by a link, its path or its name in capitals, and then headings of it in quotes.
QUOTED = re.compile(
    r'(?:\[[^\]\n]*\]\(([^)\s#]+\.md)\)|\b(docs/\w+\.md|\w+\.md|[A-Z]{4,}))((?:,(?: and)? "[^"\n]+"(?: (?:and|to) "[^"\n]+")*)+)'
)
# A path from the top of the repository, a file of code by its name alone, and a name of the engine.
PATH = re.compile(r"(?<![\w/.*-])\.?[\w-]+(?:/[\w.*-]+)+/?")
FILE = re.compile(r"(?<![\w/.*-])\w[\w.-]*\.(?:rt|antt|py|rs|c|h|edit)(?![\w/.(*-])")
NAME = re.compile(r"(?<![\w/.-])(?:gen1|GEN1)_\w+(?![\w/*.])")
WRITTEN = re.compile(r"<!-- file: (?:\S*/)?(\S+?) -->")
# Names that represent any name, and what a build leaves.
OPEN = re.compile(r"(?:^|/)[A-Z]{4,}(?:[./]|$)|/out(?:/|$)|^(?:web|js)/dist")
# Names that a document invents, to show how one is added.
MADE_UP = ("gen1_turn_number",)
# Folders of builds and of git.
LEFT = ("out", ".git", "__pycache__", "target")

RUN = re.compile(r"run: (\w+)(?:\. (.+))?")
NOT_RUN = re.compile(r"not run: (.+)")
PART = re.compile(r"(?m)^    (?:proved_)?part (\w+) ")
# How a line of commands begins, in a fence of another language.
COMMAND = re.compile(
    r"(?m)^\$ |^(?:sudo |\()?(?:cargo|rt|cc|git|pytest-3|pip3?|python3?|cmake|make|npm|node|apt-get|cd|"
    r"(?:\w+/)?(?:tools|web|bench|fuzz|\.ci)/\w+)(?: |$)"
)
OF_COMMANDS = ("", "text", "bash", "console", "shell")


def of(document, faults):
    """Faults as lines with the document and their place in it; None where a reference is right."""
    for line, fault in faults:
        yield fault and f"{document.relative_to(ROOT)}:{line}: {fault}"


def counted(compared, found):
    """Counts references, each of which is a fault or None."""
    found = list(found)
    compared(len(found), filter(None, found))


def document_named(document, linked, name):
    """The document that a reference names, by a link, a path from the top, or its name alone; None where there is none."""
    places = [document.parent / linked] if linked else [ROOT / name, ROOT / "docs" / name, ROOT / "docs" / f"{name}.md"]
    return next((place.resolve() for place in places if place.is_file()), None)


def quoted(document):
    """The line and the fault of each heading in quotes after a document's name."""
    for line, written in text(document):
        for found in QUOTED.finditer(written):
            file = document_named(document, found[1], found[2])
            for heading in re.findall(r'"([^"]+)"', found[3]) if file else ():
                yield line, None if heading in headings(file) else f'{file.name} has no heading "{heading}"'


def cited(source):
    """The fault of each heading that the comments of a source cite. The line is lost, since the lines are joined."""
    for path, headings_in in CITED.findall(BREAK.sub(" ", source.read_text(errors="replace"))):
        file = ROOT / path
        for heading in re.findall(r'"([^"]+)"', headings_in):
            there = file.is_file() and heading in headings(file)
            yield None if there else f'{source.relative_to(ROOT)}: {path} has no heading "{heading}"'


@cache
def names_of_files():
    """The names of all files of the repository, without those that a build leaves."""
    found = set()
    for _, folders, files in os.walk(ROOT):
        folders[:] = [name for name in folders if name not in LEFT]
        found.update(files)
    return found


@cache
def names_of_the_engine():
    """Crates, words of the header, of rust/ and of the packages of Python, and names of files without their extensions."""
    python = [*ROOT.glob("python/gen1/src/gen1/*.py"), *ROOT.glob("server/gen1_server/*.py")]
    sources = [*ROOT.glob("rust/*/Cargo.toml"), *python, ROOT / "include" / "gen1.h"]
    words = {word for file in sources for word in NAME.findall(file.read_text())}
    crates = {path.name for path in (ROOT / "crates").iterdir()}
    return words | crates | {name.partition(".")[0] for name in names_of_files()}


def is_there(path, beside):
    """Whether a path from the top, or from a folder, exists; true where its first part is not a folder of the repository."""
    first = path.split("/")[0]
    if OPEN.search(path) or first in LEFT or not (ROOT / first).is_dir():
        return True
    return any(ROOT.glob(path.rstrip("/"))) or any(beside.glob(path.rstrip("/")))


def options(words):
    """The options of a command that begins with a tool, each with whether the tool's text names it."""
    tool = ROOT / words.split(" ")[0]
    for option in re.findall(r"(?<= )--[a-z][\w-]*", words) if tool.is_file() else ():
        yield option, option == "--help" or bool(re.search(rf"{option}(?![\w-])", tool.read_text(errors="replace")))


def named(document):
    """The line and the fault of each name in a document's code."""
    written = WRITTEN.findall(document.read_text())
    for line, span in code(document):
        for found in PATH.finditer(span):
            yield line, None if is_there(found[0], document.parent) else f"there is no {found[0]}"
        for option, there in options(span):
            yield line, None if there else f"`{span}` has no option {option}"
        for found in FILE.finditer(span):
            there = found[0] in names_of_files() or found[0] in written or OPEN.search(found[0])
            yield line, None if there else f"there is no file {found[0]}"
        for found in NAME.finditer(span):
            there = found[0] in names_of_the_engine() or found[0] in MADE_UP
            yield line, None if there else f"nothing is named {found[0]}"


@cache
def parts():
    """The parts of the gate."""
    return set(PART.findall((ROOT / ".ci" / "run").read_text()))


def fault_of_commands(document, block):
    """What is wrong with a block of commands, or None."""
    if not block.is_commands:
        return f"commands in a fence of `{block.language}`: write ```sh"
    if document == START:
        return None if block.heading else "it is in no door"
    if NOT_RUN.fullmatch(block.said):
        return None
    found = RUN.fullmatch(block.said)
    if not found:
        return "no comment above it says `run: PART` or `not run: WHY` (tests/test_documents.py)"
    if found[1] not in parts():
        return f".ci/run has no part {found[1]}"
    return None if found[2] or found[1] == "start" else f"it does not say how the part {found[1]} runs it"


def commands(document):
    """The line and the fault of each block of commands."""
    for block in blocks(document):
        if block.is_commands or block.language in OF_COMMANDS and COMMAND.search(block.text):
            yield block.line, fault_of_commands(document, block)


def sources_of_doors():
    """For each column of docs/DOORS.md: its text of public names, and how a name is found there."""
    python = "\n".join(file.read_text() for file in sorted((ROOT / "python/gen1/src/gen1").glob("*.py")))
    types = "\n".join(file.read_text() for file in sorted((ROOT / "js").glob("*.d.mts")))
    public = (ROOT / "rust" / "gen1" / "API.txt").read_text()
    return [
        ((ROOT / "include" / "gen1.h").read_text(), lambda name: rf"\b{name}\b"),
        (public, lambda name: rf"(?m)^{name}: |^{'.*fn '.join(name.split('::'))}[(<]"),
        (python, lambda name: rf"\b(?:def|class) {name}\b|\b{name}:"),
        (types, lambda name: rf"\b{name}\b"),
    ]


def doors():
    """The line and the fault of each name and each dash of docs/DOORS.md."""
    lines, sources = DOORS.read_text().splitlines(), sources_of_doors()
    reasons = [found[1] for found in (re.match(r"(\d+)\. ", line) for line in lines) if found]
    rows = [(at, line.split("|")[2:6]) for at, line in enumerate(lines, 1) if line.count("|") == 6]
    for at, cells in rows[2:]:
        for cell, (public, pattern) in zip(cells, sources):
            names = [it for it in re.findall("`([^`]+)`", cell) if not it.startswith("gen1.")]
            yield from ((at, None if re.search(pattern(it), public) else f"`{it}` is not public") for it in names)
            for number in re.findall(r"\((\d+)\)", cell):
                yield at, None if number in reasons else f"({number}) has no reason"
            yield at, None if cell.strip() else "a cell is empty"


def test_links(compared):
    counted(compared, (it for document in documents() for it in of(document, links(document))))


def test_headings_in_quotes(compared):
    counted(compared, (it for document in documents() for it in of(document, quoted(document))))


def test_headings_that_sources_cite(compared):
    sources = (file for where in SOURCES for file in sorted(ROOT.glob(where)) if file.is_file())
    counted(compared, (it for source in sources for it in cited(source)))


def test_names(compared):
    counted(compared, (it for document in documents() for it in of(document, named(document))))


def test_commands(compared):
    counted(compared, (it for document in documents() for it in of(document, commands(document))))


def test_doors(compared):
    counted(compared, of(DOORS, doors()))
