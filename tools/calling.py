"""Examples and laws from crates/ in the documents that show them, so that each is said once.

The documents are README.md, docs/PROVED.md and crates/*/CALLING.md. A document shows one of two things after a line with its mark:

    <!-- calling: NAME -->      an example: a part of crates/uses/src, of crates/gen1_c/src/the_theorem.rt or of the
                                tests of crates/uses (rust/gen1-tests/tests/uses.rs), as a fenced block;
                                after `NAME:` may be the names of the functions and types that are shown of it
    <!-- laws: CRATE .. -->     the laws of crates, each with the first paragraph of its `///` comment, up to a line `<!-- end -->`

An example is between two lines of the source, which don't belong to it:

    // calling: gen1_hits
    // end

The word is its name. The text of a name is that of all its parts, in the order of the files' names and of their lines, with an empty
line between two. Each part loses its imports and the indentation of its first line. Each example must be shown by a document, and one
with the name of a crate by the CALLING.md of that crate.
"""

import os
import re
import sys
from pathlib import Path
from typing import NamedTuple

from repository import ROOT

BEGIN = re.compile(r"\s*// calling: (\w+)")
END = re.compile(r"\s*// end")
IMPORT = re.compile(r"(?:ghost )?use [^;]*;\n+")
SHOWN = re.compile(r"(?m)^<!-- calling: (\w+)(?:: ([\w ]+))? -->\n```rust\n(?:.*\n)*?```$")
ITEM = re.compile(r"\n\n(?=[/#\w])")
LISTED = re.compile(r"(?m)^<!-- laws: ([\w ]+) -->\n(?:.*\n)*?<!-- end -->$")

FUNCTION = re.compile(r'\s*(pub )?(?:const )?(?:extern "C" )?fn (\w+)')
DOC = re.compile(r"\s*///\s?(.*)")
ATTRIBUTE = re.compile(r"\s*#\[")
# A place in a document, such as (docs/LAYOUT.md, "Loading"), which may contain parentheses within its quotes.
PLACE = re.compile(r' ?\((?:docs|include)/[^"()]*(?:"[^"]*"[^"()]*)*\)')
LINK = re.compile(r"\[(`[^`]*`)\](?:\([^)]*\))?")


class Law(NamedTuple):
    """A public function without a body: its file, its name and its comment."""

    file: Path
    name: str
    doc: list


def dedented(lines):
    """The lines without the indentation of the first."""
    depth = len(lines[0]) - len(lines[0].lstrip()) if lines else 0
    return [line[depth:] if line[:depth].isspace() else line for line in lines]


def without_imports(text):
    """The text without the imports that it begins with."""
    while found := IMPORT.match(text):
        text = text[found.end() :]
    return text


def parts_of(file):
    """The parts of a file, each with its name."""
    name, lines = None, []
    for number, line in enumerate(file.read_text().splitlines(), 1):
        begins = BEGIN.fullmatch(line)
        if begins:
            if name:
                sys.exit(f"{file}:{number}: a part begins within the part {name}")
            name, lines = begins[1], []
        elif END.fullmatch(line):
            if not name:
                sys.exit(f"{file}:{number}: an end without a part")
            yield name, without_imports("\n".join(dedented(lines)).strip("\n"))
            name = None
        elif name:
            lines.append(line)
    if name:
        sys.exit(f"{file}: the part {name} has no end")


def parts():
    """The text of each part by its name."""
    found = {}
    files = [
        *sorted((ROOT / "crates" / "uses" / "src").rglob("*.rt")),
        ROOT / "crates" / "gen1_c" / "src" / "the_theorem.rt",
        ROOT / "rust" / "gen1-tests" / "tests" / "uses.rs",
    ]
    for file in files:
        for name, text in parts_of(file):
            found.setdefault(name, []).append(text)
    return {name: "\n\n".join(texts) for name, texts in found.items()}


def items(text, names):
    """The functions and types of a text that have one of these names."""
    named = re.compile(rf"(?m)^(?:pub )?(?:fn|struct|enum) (?:{'|'.join(names.split())})\b")
    return "\n\n".join(item for item in ITEM.split(text) if named.search(item))


def paragraph(doc):
    """The first paragraph of a comment, without the places in documents that it names."""
    text = " ".join(doc[: doc.index("")] if "" in doc else doc)
    return LINK.sub(r"\1", PLACE.sub("", text)).strip()


def link(file, folder):
    return os.path.relpath(file, folder)


def laws(file):
    """The laws of a file, in order."""
    lines, doc = file.read_text().splitlines(), []
    for at, line in enumerate(lines):
        if found := DOC.match(line):
            doc.append(found[1])
            continue
        found = FUNCTION.match(line)
        if found and found[1] and body(lines[at:]) == "{}":
            yield Law(file, found[2], doc)
        if not ATTRIBUTE.match(line):
            doc = []


def body(lines):
    """The line that the body of a function begins with."""
    return next((it.strip() for it in lines if it.strip() in ("{", "{}") or it.endswith((" {", ";"))), "")


def listing(crates, folder):
    """The laws of these crates as lines of Markdown."""
    for crate in crates:
        found = [law for file in sorted((ROOT / "crates" / crate / "src").rglob("*.rt")) for law in laws(file)]
        files = ", ".join(f"[{file.name}]({link(file, folder)})" for file in dict.fromkeys(law.file for law in found))
        yield f"\n**{crate}** ({files}):\n\n"
        for law in found:
            yield f"- `{law.name}`: {paragraph(law.doc)}\n"


def documents():
    return [ROOT / "README.md", ROOT / "docs" / "PROVED.md", *sorted((ROOT / "crates").glob("*/CALLING.md"))]


def written(document, texts):
    """The text of a document with its examples and lists, and the names of these examples."""
    names = []

    def block(found):
        name = found[1]
        names.append(name)
        if name not in texts:
            sys.exit(f"{document.relative_to(ROOT)} shows {name}, and no file has a part of this name")
        some, text = found[2], texts[name]
        mark = f"{name}: {some}" if some else name
        return f"<!-- calling: {mark} -->\n```rust\n{items(text, some) if some else text}\n```"

    def listed(found):
        return f"<!-- laws: {found[1]} -->\n{''.join(listing(found[1].split(), document.parent))}<!-- end -->"

    return LISTED.sub(listed, SHOWN.sub(block, document.read_text())), names


def unshown(shown, texts):
    """The parts that are not shown, or not where they belong."""
    for name in texts:
        own = ROOT / "crates" / name / "CALLING.md"
        if own.parent.is_dir() and name not in shown.get(own, []):
            yield f"{own.relative_to(ROOT)} does not show the part {name}"
        elif not any(name in names for names in shown.values()):
            yield f"no document shows the part {name}"


def generated():
    """Each document with its parts."""
    texts, shown, files = parts(), {}, {}
    for document in documents():
        files[document], shown[document] = written(document, texts)
    if faults := [*unshown(shown, texts)]:
        sys.exit("\n".join(faults))
    return files
